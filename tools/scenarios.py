"""Scenarios: readable descriptions of transaction files, with the outcome that is wanted beside each entry (docs/SCENARIOS.md)."""
import difflib
import json
import pathlib
import re

import values
from report_reader import DIMENSIONS, EVENTS, PRINCIPALS, STATES

CODES = ("eq", "gt", "ge", "lt", "le")
OUTCOMES = {"deploy": ("done", "aborted", "refused"), "call": ("ok", "err", "value", "aborted", "refused")}
# What the words of an entry and of a line below one are called.
SHAPES = {
    "include": "include PATH",
    "name": "name WORD ADDRESS",
    "stx": "stx PRINCIPAL AMOUNT",
    "epoch": "epoch HEIGHT PATH",
    "block": "block HEIGHT",
    "deploy": "deploy SENDER NAME PATH [=> OUTCOME]",
    "call": "call SENDER CONTRACT FUNCTION LITERAL.. [=> OUTCOME]",
    "state": "state LINE",
    "limit": "limit RUNTIME READ_COUNT READ_LENGTH WRITE_COUNT WRITE_LENGTH",
    "mode": "mode deny",
    "post": "post stx PRINCIPAL CODE AMOUNT, post ft PRINCIPAL CONTRACT TOKEN CODE AMOUNT or post nft PRINCIPAL CONTRACT TOKEN ID sent",
    "clarity": "clarity 2",
    "cost": "cost RUNTIME READ_COUNT READ_LENGTH WRITE_COUNT WRITE_LENGTH",
    "event": "event LINE",
    "rebound": "rebound CONTRACT NAME RUNTIME READ_COUNT READ_LENGTH WRITE_COUNT WRITE_LENGTH or rebound CONTRACT NAME over DIMENSION",
}
BELOW = ("limit", "mode", "post", "clarity", "cost", "event", "rebound")
QUOTED = re.compile(r"""u?"(?:[^"\\]|\\.)*"?|'([A-Za-z][A-Za-z0-9_-]*)""")


class NoScenario(ValueError):
    """A file isn't a scenario, or a line of it isn't of its form."""


class Entry:
    """An entry of a scenario: its kind and its members in the transaction file, its place, and what is wanted of it; of a deployment
    the path of the source."""

    def __init__(self, kind, members, place, outcome, path=None):
        self.kind, self.members, self.place, self.outcome, self.path = kind, members, place, outcome, path
        self.cost, self.events, self.rebounds = None, None, []

    def json(self):
        return {self.kind: self.members}


class Scenario:
    """A scenario: the holders of STX, the epochs, both with their places, the entries, lines that are wanted of the state, each with
    its place, and the faults of lines that aren't of their form, each with its place."""

    def __init__(self):
        self.names, self.entries, self.state, self.faults = {}, [], [], []
        self.genesis, self.genesis_places, self.epochs, self.epoch_places = [], [], [], []

    def json(self):
        epochs = {"epochs": self.epochs} if self.epochs else {}
        entries = [entry.json() for entry in self.entries]
        return {"version": 2 if epochs else 1, "genesis": self.genesis, **epochs, "entries": entries}

    def leave_out(self, member, number):
        """Leaves out a holder, an epoch or an entry, by the member of the transaction file that has it, and gives its place; nothing
        where there is none."""
        lists = {"genesis": (self.genesis, self.genesis_places), "epochs": (self.epochs, self.epoch_places)}.get(member, (self.entries,))
        if number >= len(lists[0]):
            return None
        left = [held.pop(number) for held in lists]
        return left[0].place if member == "entries" else left[1]


def words_of(line):
    """The words of a line, up to a comment. A word is a literal, or a row of characters without blanks."""
    words, word, depth, at = [], "", 0, 0
    while at < len(line):
        if line.startswith(";;", at):
            break
        string = re.compile(r'"(?:[^"\\]|\\.)*"?').match(line, at)
        part = string.group() if string else line[at]
        at += len(part)
        depth += (part in "({") - (part in ")}") if len(part) == 1 else 0
        if part in " \t" and depth <= 0:
            words, word = words + [word] * bool(word), ""
        else:
            word += part
    return words + [word] * bool(word)


class _Reader:
    """Reads the lines of a file into a scenario. `above` has the files that include this one, the last of them directly."""

    def __init__(self, path, made, above=()):
        self.path, self.folder, self.made, self.above = str(path), pathlib.Path(path).parent, made, above
        # The entry that indented lines belong to, and whether they are passed over, because the line above them is faulty.
        self.number, self.entry, self.passes = 0, None, False

    def place(self):
        return f"{self.path}:{self.number}"

    def fail(self, why):
        raise NoScenario(why)

    def read(self):
        try:
            text = pathlib.Path(self.path).read_bytes().decode("utf-8")
        except UnicodeDecodeError:
            self.fail("it isn't UTF-8")
        for line in text.split("\n"):
            self.number += 1
            try:
                self.add(line.rstrip("\r"))
            except NoScenario as fault:
                self.made.faults.append((self.place(), str(fault)))
                self.passes = self.passes or line[0] not in " \t"

    def add(self, line):
        words = words_of(line)
        is_below = line[:1] in (" ", "\t")
        if not words or is_below and self.passes:
            return
        kind, words = words[0], words[1:]
        if not is_below:
            self.entry, self.passes = None, False
        if kind not in SHAPES or is_below != (kind in BELOW):
            self.fail(f"`{kind}` begins no line {'below an entry: ' if is_below else 'of a scenario: '}"
                      + ", ".join(k for k in SHAPES if (k in BELOW) == is_below) + " do")  # fmt: skip
        if is_below and not (self.entry and (self.entry.kind in OUTCOMES) == (kind != "rebound")):
            self.fail(f"`{kind}` belongs below {'a block' if kind == 'rebound' else 'a deployment or a call'}")
        getattr(self, "add_" + kind)(words)

    def put(self, entry):
        self.made.entries.append(entry)
        self.entry = entry

    # Words.

    def need(self, is_right, kind):
        if not is_right:
            self.fail(f"a line of this kind is: {SHAPES[kind]}")

    def principal(self, word):
        """The principal of a word, which is an address or a name of the scenario, and perhaps a contract's name behind a dot."""
        first, dot, last = word.lstrip("'").partition(".")
        found = self.made.names.get(first, first) + dot + last
        if not values.is_principal(found):
            self.fail(self.no_principal(first, word))
        return found

    def no_principal(self, first, word):
        """Why a word is no principal."""
        if first in self.made.names or values.is_address(first):
            return f"`{word}` is no principal: behind the dot comes the name of a contract"
        near = difflib.get_close_matches(first, self.made.names, 1)
        return f"`{first}` is no name of this scenario, and no address" + (f": did you mean `{near[0]}`?" if near else "")

    def literal(self, text):
        """A literal with the names of the scenario behind `'` replaced."""

        def replaced(found):
            name = found.group(1)
            return "'" + self.made.names[name] if name in self.made.names else found.group()

        return QUOTED.sub(replaced, text)

    def value(self, text, called="a value"):
        """The literal of a word that has to be one."""
        literal = self.literal(text)
        try:
            values.only(literal)
        except values.NoLiteral as fault:
            unknown = [name for name in QUOTED.findall(text) if name and name not in self.made.names and not values.is_address(name)]
            if re.fullmatch(r"[-=~<>]+", text):
                self.fail(f"`{text}` is no literal: the outcome that is wanted comes after `=>`")
            if unknown:
                self.fail(self.no_principal(unknown[0], unknown[0]))
            self.fail(f"{called} is no literal: {fault.why}")
        return literal

    def amount(self, word):
        if not re.fullmatch(r"u[0-9]+", word):
            self.fail(f"`{word}` is no amount, such as u1000")
        return word

    def printed(self, text):
        """A literal as the program prints it; another word unchanged."""
        try:
            return values.printed(values.only(self.literal(text)))
        except values.NoLiteral:
            return text

    def outcome(self, kind, words):
        """The words and the outcome behind `=>`, as it is printed, or none."""
        if "=>" not in words:
            return words, None
        at = words.index("=>")
        words, wanted = words[:at], words[at + 1 :]
        if not wanted or wanted[0] not in OUTCOMES[kind]:
            self.fail(f"after `=>` comes one of {', '.join(OUTCOMES[kind])}")
        if wanted[0] in ("done", "ok", "err", "value"):
            self.need(len(wanted) <= (1 if wanted[0] == "done" else 2), kind)
            for literal in wanted[1:]:
                self.value(literal, "the value that is wanted")
        return words, " ".join([wanted[0], *map(self.printed, wanted[1:])])

    def numbers(self, kind, words):
        self.need(len(words) == 5 and all(re.fullmatch(r"[0-9]{1,39}", word) for word in words), kind)
        return [int(word) for word in words]

    def parts(self, kind, words, table, first):
        """The parts of a line of the report by their names."""
        self.need(bool(words) and words[0] in table, kind)
        names = (*first, *table[words[0]])
        self.need(len(words) == 1 + len(names), kind)
        read = {"amount": self.amount, **dict.fromkeys(("value", "key", "id"), self.value), **dict.fromkeys(PRINCIPALS, self.principal)}
        return {kind: words[0]} | {name: self.printed(read.get(name, str)(word)) for name, word in zip(names, words[1:])}

    def held(self, path):
        """The text of a file, looked for from the folder of the scenario."""
        try:
            return (self.folder / path).read_bytes().decode("utf-8")
        except UnicodeDecodeError:
            self.fail(f"{path} isn't UTF-8")
        except OSError as fault:
            self.fail(f"{path}: {fault.strerror}")

    # Lines of a scenario.

    def add_include(self, words):
        self.need(len(words) == 1, "include")
        path, files = self.folder / words[0], [*self.above, self.path]
        ring = [file for file in files if pathlib.Path(file).resolve() == path.resolve()]
        if ring:
            self.fail("the files include each other in a ring: " + ", ".join([*files[files.index(ring[0]) :], ring[0]]))
        try:
            _Reader(path, self.made, files).read()
        except NoScenario as fault:
            self.fail(f"{path}: {fault}")
        except OSError as fault:
            self.fail(f"{path}: {fault.strerror}")

    def add_name(self, words):
        self.need(len(words) == 2 and re.fullmatch(r"[A-Za-z][A-Za-z0-9_-]*", words[0]), "name")
        if not values.is_principal(words[1].lstrip("'")):
            self.fail(f"`{words[1]}` is no address: its last characters are a checksum, so copy it whole")
        self.made.names[words[0]] = words[1].lstrip("'")

    def add_stx(self, words):
        self.need(len(words) == 2, "stx")
        self.made.genesis.append({"principal": self.principal(words[0]), "stx": self.amount(words[1])})
        self.made.genesis_places.append(self.place())

    def add_epoch(self, words):
        self.need(len(words) == 2 and re.fullmatch(r"[0-9]{1,20}", words[0]), "epoch")
        text = self.held(words[1])
        try:
            costs = json.loads(text)
        except (ValueError, RecursionError):
            self.fail(f"{words[1]} isn't JSON")
        self.made.epochs.append({"height": int(words[0]), "costs": costs})
        self.made.epoch_places.append(self.place())

    def add_block(self, words):
        self.need(len(words) == 1 and re.fullmatch(r"[0-9]{1,20}", words[0]), "block")
        self.put(Entry("block", {"height": int(words[0])}, self.place(), None))

    def add_deploy(self, words):
        words, outcome = self.outcome("deploy", words)
        self.need(len(words) == 3, "deploy")
        members = {"sender": self.principal(words[0]), "name": words[1], "source": self.held(words[2])}
        self.put(Entry("deploy", members, self.place(), outcome, str(self.folder / words[2])))

    def add_call(self, words):
        words, outcome = self.outcome("call", words)
        self.need(len(words) >= 3, "call")
        members = {"sender": self.principal(words[0]), "contract": self.principal(words[1]), "function": words[2]}
        self.put(Entry("call", members | {"args": list(map(self.value, words[3:]))}, self.place(), outcome))

    def add_state(self, words):
        self.made.state.append((self.place(), self.parts("state", words, STATES, ())))

    # Lines below an entry.

    def add_limit(self, words):
        self.entry.members["limit"] = self.numbers("limit", words)

    def add_mode(self, words):
        self.need(words in (["deny"], ["allow"]), "mode")
        self.entry.members["mode"] = words[0]

    def add_clarity(self, words):
        self.need(words in (["1"], ["2"]) and self.entry.kind == "deploy", "clarity")
        self.entry.members["clarity"] = int(words[0])

    def add_post(self, words):
        count = {"stx": 4, "ft": 6, "nft": 6}.get(words[0] if words else None)
        self.need(len(words) == count, "post")
        found = {"principal": self.principal(words[1])}
        if words[0] != "stx":
            found |= {"contract": self.principal(words[2]), "token": words[3]}
        if words[0] == "nft":
            self.need(words[5] in ("sent", "kept"), "post")
            found |= {"id": self.value(words[4], "the ID"), "sent": words[5] == "sent"}
        else:
            self.need(words[-2] in CODES, "post")
            found |= {"code": words[-2], "amount": self.amount(words[-1])}
        self.entry.members.setdefault("post", []).append({words[0]: found})

    def add_cost(self, words):
        self.entry.cost = self.numbers("cost", words)

    def add_event(self, words):
        entry = self.entry
        entry.events = (entry.events or []) + [self.parts("event", words, EVENTS, ("contract",))]

    def add_rebound(self, words):
        is_over = len(words) == 4 and words[2] == "over" and words[3] in DIMENSIONS
        self.need(is_over or len(words) == 7, "rebound")
        reach = {"over": words[3]} if is_over else {"bound": self.numbers("rebound", words[2:])}
        self.entry.rebounds.append({"contract": self.principal(words[0]), "function": words[1]} | reach)


def read(path):
    """The scenario in the file under this path, with the faults of its lines. Raises NoScenario, and OSError where it can't be read."""
    made = Scenario()
    _Reader(path, made).read()
    return made


def whole(path):
    """The scenario in the file under this path. Raises NoScenario with a line for each fault, and OSError where it can't be read."""
    try:
        made = read(path)
    except NoScenario as fault:
        raise NoScenario(f"{path}: {fault}") from None
    if made.faults:
        raise NoScenario("\n".join(f"{place}: {why}" for place, why in made.faults))
    return made
