"""Judges sources by the library: each as a contract that is deployed after those that it calls."""
import json
import pathlib
import re
from typing import NamedTuple

import library  # noqa: F401  (it finds the binding)
from calls import ADDRESS
from commands import UNIT_COSTS
from lumpitseha import Break
from places import BROKEN

BOUND = re.compile(r"  bound (?P<name>\S+) (?P<five>[0-9]+(?: [0-9]+){4}) (?P<type>.+)")
# How many nodes are kept, each with the contracts that a source calls.
MOST_NODES = 8


class Source(NamedTuple):
    """A source as a contract: its name, its version and its bytes."""

    name: str
    version: int
    bytes: bytes


class Base:
    """A node with contracts that others may call: the break of each that is refused, by its name, and the names of those whose deployment
    is undone."""

    def __init__(self, node):
        self.node, self.refused, self.undone = node, {}, []


class Judge:
    """Judges under the unit table."""

    def __init__(self, engine):
        self.engine, self.costs, self.kept = engine, pathlib.Path(UNIT_COSTS).read_bytes(), {}

    def judged(self, source, before):
        """The break of a source after others, or nothing, and the breaks of those of them that are refused, by their names."""
        base, found = self.base(tuple(before)), None
        if base.undone:
            # What is deployed is evaluated, what is checked alone isn't.
            found = self.printed(source, self.accepted(before, base))
        if found is None:
            found = self.check(base.node, source)
        return found if isinstance(found, Break) else None, base.refused

    def bounds(self, source, before):
        """Of an accepted source the bound of each function, five numbers, and the type that it returns, or nothing where that can't be said."""
        base = self.base(tuple(before))
        lines = self.printed(source, self.accepted(before, base))
        if isinstance(lines, list):
            return {found["name"]: (tuple(map(int, found["five"].split())), found["type"]) for found in map(BOUND.match, lines) if found}
        found = self.check(base.node, source)
        return {} if isinstance(found, Break) else {name: (five, None) for name, five in found.functions.items()}

    def accepted(self, before, base):
        return [one for one in before if one.name not in base.refused]

    def check(self, node, source):
        return node.check(self.engine.wire(f"'{ADDRESS}.{source.name}"), source.bytes, source.version)

    def base(self, before):
        """The node for sources, which is kept for a while."""
        base = self.kept.pop(before, None) or self.deployed(before)
        self.kept[before] = base
        while len(self.kept) > MOST_NODES:
            self.kept.pop(next(iter(self.kept)))
        return base

    def deployed(self, sources):
        base = Base(self.engine.node(self.costs))
        for source in sources:
            found = self.check(base.node, source)
            if isinstance(found, Break):
                base.refused[source.name] = found
                continue
            members = {"sender": ADDRESS, "name": source.name, "source": source.bytes.decode()}
            members.update({"clarity": 2} if source.version == 2 else {})
            entry = {"version": 1, "genesis": [], "entries": [{"deploy": members}]}
            if not base.node.run(json.dumps(entry).encode()).partition(b"\n")[0].endswith(b" done"):
                base.undone.append(source.name)
        return base

    def printed(self, source, before):
        """The break of a source, or its lines, as the command `check` has them: all sources are of its version there. Nothing where one before
        it is refused so."""
        files = {f"{one.name}.clar": one.bytes for one in [*before, source]}
        flags = ["--clarity2"] if source.version == 2 else []
        _, text = self.engine.answer(["check", *flags, "costs", ADDRESS, *files], {"costs": self.costs, **files})
        first, *lines = text.decode().rpartition("contract '")[2].splitlines() or [""]
        contract, *more = first.split(" ")
        if contract != f"{ADDRESS}.{source.name}":
            return None
        if not more:
            return lines
        found = BROKEN.match(f"contract '{first}")
        return Break(f"{found['rule']} {found['name']}", *more[4:], span=slice(int(found["start"]), int(found["end"])))
