"""A session of the console: a node in memory, the entries that it did, and the contract that is being written.

An expression becomes a function that is called: of the contract being written where it names something of it, else of a contract of its
own. When the contract being written changes, the entries are done anew from the beginning with it as it is now, so its state is kept; a
change with which an entry before would end otherwise isn't made. Sources are texts byte by byte, one character each.
"""
import itertools
import json

import lumpitseha
import traces
from items import items_of
from report_reader import run_report

NAMES = {
    "A": "SP000000000000000000002Q6VF78", "B": "SP2J6ZY48GV1EZ5V2V5RB9MP66SW86PYKKNRV9EJ7",
    "C": "SP1G60R30C1G60R30C1G60R30C1G60R30ENX4GX2", "D": "SP2081040G2081040G2081040G2081040JQWQ3V0",
}  # fmt: skip
# The address of the console's own contracts, so that `.name` is a contract of it, whoever sends.
OWNER = NAMES["A"]
WRITTEN, INPUT = "console", "input"
# An entry whose bound is above this is stopped here, so that the console answers. A charge takes about a microsecond.
MOST_RUNTIME, UNLIMITED = 10_000_000, 2**64 - 1
# How an expression becomes a function: the first that is accepted.
WRAPPINGS = ("(define-read-only ({name}) {it})", "(define-public ({name}) {it})", "(define-public ({name}) (ok {it}))")
# How many entries are given to the node at once.
BATCH = 500


class Refused(Exception):
    """A source is refused: the rule, as a report has it; the source, and where the text that was given begins and ends in it."""

    def __init__(self, refusal, source, place, version):
        super().__init__(refusal["rule"])
        self.refusal, self.source, self.place, self.version = refusal, source, place, version


class Changed(Exception):
    """An entry before would end otherwise: the entry, how it did, and how it would."""


class Stopped(Exception):
    """The contract being written aborts when it is deployed: the plan, the entry, and what the report says of it."""


class Entry:
    """An entry: its kind and its members in a transaction file, and, once it is done, what the report says of it, and its lines there
    behind its number where they are known. `place` is where the text of an input begins and ends in the contract's source, and
    `is_wrapped` says that the value of its expression is within an ok."""

    def __init__(self, kind, members, place=None, is_wrapped=False):
        self.kind, self.members, self.place, self.is_wrapped, self.came, self.lines = kind, members, place, is_wrapped, None, None

    def json(self):
        return {self.kind: self.members}

    def contract(self):
        return f"{self.members['sender']}.{self.members['name']}" if self.kind == "deploy" else self.members.get("contract")


class Written:
    """The contract that is being written: its name and version, its texts, each with the name that it defines or, of the function of
    an input, with none, and the entry that deploys it."""

    def __init__(self, name, version, texts=(), entry=None):
        self.name, self.version, self.texts, self.entry = name, version, tuple(texts), entry

    def source(self):
        return "".join(text + "\n" for text, _ in self.texts)

    def definitions(self):
        return "".join(text + "\n" for text, name in self.texts if name)

    def names(self):
        return {name for _, name in self.texts if name}

    def and_(self, text, name, entry):
        return Written(self.name, self.version, (*self.texts, (text, name)), entry)


class Plan:
    """A change of a session: the holders, the contract being written and all entries with it. `is_longer` says that it has the entries
    before as they are."""

    def __init__(self, holders, written, entries, is_longer):
        self.holders, self.written, self.entries, self.is_longer = holders, written, entries, is_longer


def limited(members, bound):
    """The members of an entry, with a limit where its bound is above what the console waits for."""
    return members | ({"limit": [MOST_RUNTIME, *[UNLIMITED] * 4]} if bound and bound[0] > MOST_RUNTIME else {})


def atoms(items):
    """The atoms of items."""
    for item in items or []:
        yield from [item.text] if item.text is not None else atoms(item.items)


def file_of(holders, entries):
    return json.dumps({"version": 1, "genesis": holders, "entries": [entry.json() for entry in entries]}).encode()


class Session:
    """A session over the library, under the bytes of a cost file."""

    def __init__(self, engine, costs):
        self.engine, self.costs_file, self.costs = engine, costs, engine.costs(costs)
        self.names, self.sender, self.version = dict(NAMES), OWNER, 1
        self.holders, self.entries, self.functions = [], [], {}
        self.written, self.node, self.count = Written(WRITTEN, 1), self.opened([]), 0

    # What is asked.

    def state(self):
        return self.node.state().decode()

    def file(self):
        """The session as a transaction file."""
        return json.loads(file_of(self.holders, self.entries))

    def report(self):
        return self.answer("run", Plan(self.holders, self.written, self.entries, True))

    def answer(self, command, plan):
        """What a command of the program writes of all entries of a plan. Raises lumpitseha.Failed."""
        files = {"costs": self.costs_file, "session": file_of(plan.holders, plan.entries)}
        status, text = self.engine.answer([command, "costs", "session"], files)
        if status != lumpitseha.Status.DONE:
            raise lumpitseha.Failed(status, text)
        return text.decode()

    def check(self, contract, source, version):
        """What the node says of a source: its bounds, or the rule that it breaks, as a report has it."""
        found = self.node.check(self.engine.wire(f"'{contract}"), source.encode("latin-1"), version)
        if isinstance(found, lumpitseha.Bounds):
            return found
        rule, name = found.rule.split(" ")
        return {"rule": rule, "name": name, "start": found.span.start, "end": found.span.stop}

    def trace(self, plan, entry):
        """For each expression that an entry of a plan evaluates its contracts, of which it is certain where there is one, its span, and
        the text of its value."""
        number = plan.entries.index(entry)
        lines = [line.split(" ") for line in self.answer("trace", plan).splitlines() if line.startswith(f"{number} ")]
        claims = [(*map(int, span.split("..")), value) for _, span, value in lines]
        contracts = traces.Contracts([(entry.kind, entry.members) for entry in plan.entries])
        for (start, end, value), (may_be, _) in zip(claims, traces.placed(contracts, number, claims)):
            yield may_be, start, end, self.engine.text(bytes.fromhex(value))

    # What may be done, as plans.

    def appended(self, *entries):
        return Plan(self.holders, self.written, [*self.entries, *entries], True)

    def deploy(self, name, source, version=None):
        """Raises Refused."""
        version, contract = version or self.version, f"{self.sender}.{name}"
        found = self.check(contract, source, version)
        if isinstance(found, dict):
            raise Refused(found, source, (0, len(source)), version)
        return self.appended(self.deployment(self.sender, name, source, (version, found)))

    def replaced(self, name, source):
        """The plan in which the source of a deployed contract is another. Raises Refused."""
        new = self.deploy(name, source).entries[-1]
        entries = [new if it.kind == "deploy" and it.contract() == new.contract() else it for it in self.entries]
        return Plan(self.holders, self.written, entries, False)

    def deployment(self, sender, name, source, checked):
        """The entry that deploys a source of a version, with its bounds."""
        version, bounds = checked
        members = {"sender": sender, "name": name, "source": source.encode("latin-1").decode()}
        return Entry("deploy", limited(members, bounds.deploy) | ({"clarity": 2} if version == 2 else {}))

    def call(self, contract, function, args):
        bound = self.functions.get(contract, {}).get(function, {}).get("bound")
        return self.appended(Entry("call", limited(self.members(contract, function, args), bound)))

    def members(self, contract, function, args):
        return {"sender": self.sender, "contract": contract, "function": function, "args": args}

    def block(self, height):
        return self.appended(Entry("block", {"height": height}))

    def holding(self, principal, amount):
        holders = [holder for holder in self.holders if holder["principal"] != principal]
        return Plan([*holders, {"principal": principal, "stx": amount}], self.written, self.entries, False)

    def define(self, text, name):
        """Adds a definition to the contract being written. Raises Refused."""
        before = self.written.source()
        found = self.check(f"{OWNER}.{self.written.name}", before + text, self.written.version)
        if isinstance(found, dict):
            raise Refused(found, before + text, (len(before), len(before) + len(text)), self.written.version)
        return self.rewritten(text, name, found)

    def evaluate(self, text):
        """Raises Refused."""
        function = self.free_name(INPUT, self.count + 1)
        is_of_written = self.written.names() & set(atoms(items_of(text)))
        written = self.written if is_of_written else Written(function, self.version)
        source, bounds, place, is_wrapped = self.wrapped(written, function, text)
        members = limited(self.members(f"{OWNER}.{written.name}", function, []), bounds.functions[function])
        call = Entry("call", members, place, is_wrapped)
        if is_of_written:
            return self.rewritten(source[len(written.source()) :], None, bounds, call)
        return self.appended(self.deployment(OWNER, function, source, (self.version, bounds)), call)

    def wrapped(self, written, function, text):
        """The source of a contract with an expression as a function, its bounds, where the expression is in it, and whether its value
        is within an ok. Raises Refused."""
        before = written.source()
        for wrapping in WRAPPINGS:
            head, tail = wrapping.format(name=function, it="\n").split("\n")
            source, begin = before + head + text + tail, len(before) + len(head)
            found = self.check(f"{OWNER}.{written.name}", source, written.version)
            if not isinstance(found, dict):
                return source, found, (begin, begin + len(text)), "(ok " in head
            # What breaks within the expression does so in each function of it.
            if begin <= found["start"] and found["end"] <= begin + len(text):
                break
        raise Refused(found, source, (begin, begin + len(text)), written.version)

    def rewritten(self, text, name, bounds, call=None):
        """The plan in which the contract being written has a text more. It is deployed at the end until something uses it."""
        old = self.written.entry
        before = self.written.source()
        entry = self.deployment(OWNER, self.written.name, before + text + "\n", (self.written.version, bounds))
        entry.place = (len(before), len(before) + len(text))
        entries = list(self.entries)
        if old is not None and self.is_used(old):
            entries[entries.index(old)] = entry
        else:
            entries = [it for it in entries if it is not old] + [entry]
        return Plan(self.holders, self.written.and_(text, name, entry), entries + [call] * (call is not None), old is None)

    def is_used(self, deployment):
        """Whether an entry behind a deployment may use its contract."""
        later = self.entries[self.entries.index(deployment) + 1 :]
        called = "." + deployment.members["name"]
        return any(called in (it.members["source"] if it.kind == "deploy" else it.contract() or "") for it in later)

    def free_name(self, name, number):
        """A name, with this number behind it or the next with which no contract of the owner has it."""
        while f"{OWNER}.{name}-{number}" in self.functions:
            number += 1
        return f"{name}-{number}"

    # How it is done.

    def opened(self, holders):
        return self.engine.node(self.costs, file_of(holders, []) if holders else b"")

    def run(self, node, entries):
        """Does entries on a node, and gives of each what the report says and its lines. Raises lumpitseha.Failed."""
        found = []
        for is_known, part in itertools.groupby(entries, lambda entry: entry.lines is not None):
            part = list(part)
            for begin in range(0, len(part), BATCH if is_known else 1):
                found += self.run_batch(node, part[begin : begin + (BATCH if is_known else 1)])
        return found

    def run_batch(self, node, entries):
        """The same of one new entry, or of several that were done before: their report isn't read again where it is the same."""
        file = file_of([], entries)
        report = node.run(file)
        if entries[0].lines is not None and report == b"".join(b"%d" % number + entry.lines for number, entry in enumerate(entries)):
            return [(entry.came, entry.lines) for entry in entries]
        came = run_report(report, file)["entries"]
        for one in came:
            del one["entry"]
        return [(one, report[1:] if len(came) == 1 else None) for one in came]

    def ending(self, plan):
        """What the report says of the last entry of a plan, which isn't done."""
        return self.run(self.opened(plan.holders), plan.entries)[-1][0]

    def apply(self, plan, may_change=False):
        """Does what a plan adds, and gives the entries that changed, each with how it ended before and does now, and the new ones. What
        is refused is no part of the session. Raises Refused, Stopped, lumpitseha.Failed, and Changed unless entries may change; the
        session is then as it was."""
        first = len(self.entries) if plan.is_longer else 0
        node = self.node if plan.is_longer else self.opened(plan.holders)
        try:
            came = self.run(node, plan.entries[first:])
        except lumpitseha.Failed:
            if node is self.node:
                self.node = self.opened(self.holders)
                self.run(self.node, self.entries)
            raise
        done = [(entry, found) for entry, (found, _) in zip(plan.entries[first:], came)]
        changed = self.look_at(plan, done)
        if changed and not may_change:
            raise Changed(*changed[0])
        new = [entry for entry, _ in done if entry.came is None]
        self.functions = self.functions if plan.is_longer else {}
        for entry, found in done:
            if found.get("outcome") == "done":
                self.functions[entry.contract()] = {bound["function"]: bound for bound in found["bounds"]}
            entry.came = found
        for entry, (_, lines) in zip(plan.entries[first:], came):
            entry.lines = lines
        self.count += sum(entry.kind == "call" and entry.place is not None for entry in new)
        self.holders, self.written, self.node = plan.holders, plan.written, node
        self.entries = plan.entries[:first] + [entry for entry in plan.entries[first:] if entry.came.get("outcome") != "refused"]
        if not plan.is_longer and self.written.entry not in self.entries:
            # (It is refused with what is loaded now, so it is deployed with its next text.)
            self.written = Written(self.written.name, self.written.version, self.written.texts)
        if self.written.entry is None and f"{OWNER}.{self.written.name}" in self.functions:
            self.begin_anew()
        return changed, new

    def look_at(self, plan, done):
        """The entries before that end otherwise, with how they did and do. Raises what stops a plan whose entries ended so."""
        changed = [(entry, entry.came, found) for entry, found in done if entry.came not in (None, found)]
        for entry, found in done:
            if entry is plan.written.entry and entry.came is None and found["outcome"] != "done":
                if "broken" in found:
                    source = entry.members["source"].encode().decode("latin-1")
                    raise Refused(found["broken"], source, entry.place, plan.written.version)
                raise Stopped(plan, entry, found)
        return changed

    def begin_anew(self):
        """Begins another contract to be written."""
        self.written = Written(self.free_name(WRITTEN, 2), self.version)
