"""The reference reader of reports (docs/REPORT.md has their grammar).

A report has the name of a called function as the transaction file has it, line ends and all, so the lines of a report alone don't
say which entry they belong to. This reader takes the transaction file too: it knows what each entry's first line begins with, passes
exactly that, and reads the rest by the grammar. Every byte of a report is accounted for, or it raises Unreadable.

    run_report(report, transactions)    of `run`: {"entries": [..], "state": [..] or None}
    call_report(report, function)       of `call`: the same, of one or two entries
    check_report(report)                of `check`: {"contracts": [..]}

All take bytes, but for the name of the function. Values, types and amounts are given as the texts that were printed, and numbers
as numbers. A report that is cut off, as after status 4 or 9, is Unreadable.
"""
import re

import values
from transactions import contract_of, entries_of

DEPLOYER = "SP000000000000000000002Q6VF78"
DIMENSIONS = ("runtime", "read_count", "read_length", "write_count", "write_length")
ABORTS = {
    "A1": "Overflow", "A2": "Underflow", "A3": "DivideByZero", "A4": "NegativeArgument", "A5": "Panic",
    "A6": "SupplyOverflow", "A7": "EarlyTop", "A8": "CostLimit", "A9": "PostCondition",
}  # fmt: skip
REFUSALS = {
    "E1": "NoContract", "E2": "NoFunction", "E3": "NotPublic", "E4": "ArgumentCount", "E5": "Argument", "E6": "NameTaken",
    "E7": "ContractRefused", "E8": "NoBound",
}  # fmt: skip
# Why a deployment or a call is aborted or refused.
ENDINGS = {
    ("deploy", "aborted"): ABORTS,
    ("call", "aborted"): {rule: name for rule, name in ABORTS.items() if rule != "A7"},
    ("deploy", "refused"): {rule: name for rule, name in REFUSALS.items() if rule in ("E6", "E7")},
    ("call", "refused"): {rule: name for rule, name in REFUSALS.items() if rule not in ("E6", "E7")},
}
# The parts of each event after its contract.
EVENTS = {
    "print": ("value",),
    "ft-mint": ("token", "amount", "to"),
    "ft-burn": ("token", "amount", "from"),
    "ft-transfer": ("token", "amount", "from", "to"),
    "nft-mint": ("token", "id", "to"),
    "nft-burn": ("token", "id", "from"),
    "nft-transfer": ("token", "id", "from", "to"),
    "stx-transfer": ("amount", "from", "to"),
    "stx-burn": ("amount", "from"),
}
# The parts of events and of lines of the state that are principals.
PRINCIPALS = ("contract", "to", "from", "principal", "owner")
# The parts of each line of the state.
STATES = {
    "var": ("contract", "name", "value"),
    "map": ("contract", "name", "key", "value"),
    "ft": ("contract", "name", "principal", "amount"),
    "supply": ("contract", "name", "amount"),
    "nft": ("contract", "name", "id", "owner"),
    "stx": ("principal", "amount"),
}


def line_of(kind, parts, table, first=()):
    """The text of an event or of a line of the state."""
    names = (*first, *table[parts[kind]])
    return " ".join([parts[kind], *("'" * (name in PRINCIPALS) + parts[name] for name in names)])


class Unreadable(ValueError):
    """The bytes aren't a report of that file: at the place of a byte something else was expected."""

    def __init__(self, at, wanted):
        super().__init__(f"byte {at}: expected {wanted}")
        self.at, self.wanted = at, wanted


class _Reader:
    """Reads a report from its first byte on. Each byte is one character of the text."""

    def __init__(self, report):
        self.text, self.at = report.decode("latin-1"), 0

    def fail(self, wanted):
        raise Unreadable(self.at, wanted)

    def is_at_end(self):
        return self.at == len(self.text)

    def take(self, part):
        """Whether this text comes next; it is passed then."""
        if self.text.startswith(part, self.at):
            self.at += len(part)
            return True
        return False

    def need(self, part, called=None):
        if not self.take(part):
            self.fail(called or repr(part))

    def match(self, pattern, called):
        found = re.compile(pattern).match(self.text, self.at)
        if not found:
            self.fail(called)
        self.at = found.end()
        return found.group()

    # The parts of lines.

    def number(self):
        return int(self.match(r"0|[1-9][0-9]{0,38}", "a number"))

    def word(self, words, called):
        return next((word for word in words if self.take(word)), None) or self.fail(called)

    def name(self):
        found = self.match(r"[A-Za-z][A-Za-z0-9\-_!?+<>=/*]*|[-+=/*]|<=|>=|<|>", "a name")
        return found if values.is_name(found) else self.fail("a name")

    def value(self):
        begin = self.at
        try:
            value, end = values.read(self.text, begin)
        except values.NoLiteral:
            self.fail("a value")
        if self.text[begin:end] != values.printed(value):
            self.fail("a value as it is printed")
        self.at = end
        return self.text[begin:end]

    def amount(self):
        return self.value() if self.text.startswith("u", self.at) else self.fail("an amount")

    def principal(self):
        value = self.value() if self.text.startswith("'", self.at) else self.fail("a principal")
        return value[1:]

    def type(self, depth=1):
        if depth > values.DEEPEST + 1:
            self.fail("a type")
        for plain in ("int", "uint", "bool", "principal", "no-type"):
            if self.take(plain):
                return plain
        begin = self.at
        if self.take("{"):
            while True:
                self.name()
                self.need(": ")
                self.type(depth + 1)
                if not self.take(", "):
                    break
            self.need("}")
        else:
            self.need("(", "a type")
            kind = self.word(("buff ", "string-ascii ", "string-utf8 ", "list ", "optional ", "response "), "a kind of type")
            if kind not in ("optional ", "response "):
                self.number()
            if kind == "list ":
                self.need(" ")
            if kind in ("list ", "optional ", "response "):
                self.type(depth + 1)
            if kind == "response ":
                self.need(" ")
                self.type(depth + 1)
            self.need(")")
        return self.text[begin : self.at]

    def cost(self):
        five = [self.number()]
        while len(five) < 5:
            self.need(" ")
            five.append(self.number())
        return five

    def broken_rule(self):
        """A broken rule of a source, with its span."""
        rule = self.match(r"[TFOCB][0-9]{1,2}", "a rule")
        self.need(" ")
        refusal = {"rule": rule, "name": self.match(r"[A-Za-z0-9]+", "the name of a rule")}
        self.need(" ")
        refusal["start"] = self.number()
        self.need("..")
        refusal["end"] = self.number()
        if rule == "O1":
            refusal["names"] = []
            while self.take(" "):
                refusal["names"].append(self.name())
        if rule == "B1":
            self.need(" ")
            refusal["dimension"] = self.dimension()
        return refusal

    def dimension(self):
        return self.word(DIMENSIONS, "a dimension")

    def parts(self, kinds):
        """The parts of an event or of a line of the state, each behind a space."""
        read = {"token": self.name, "name": self.name, "amount": self.amount, "value": self.value, "key": self.value, "id": self.value}
        read |= dict.fromkeys(PRINCIPALS, self.principal)
        found = {}
        for kind in kinds:
            self.need(" ")
            found[kind] = read[kind]()
        return found

    # Lines.

    def outcome(self, kind):
        """How a deployment or a call ended, to the end of its line."""
        begin = self.at
        kinds = ("done", "aborted", "refused") if kind == "deploy" else ("ok", "err", "value", "aborted", "refused")
        found = {"outcome": self.word(kinds, "an outcome")}
        if found["outcome"] in ("ok", "err", "value"):
            found |= self.parts(("value",))
        elif found["outcome"] != "done":
            self.need(" ")
            found |= self.why(ENDINGS[kind, found["outcome"]])
        found["text"] = self.text[begin : self.at]
        self.need("\n", "the end of the line")
        return found

    def why(self, table):
        """Why an entry was aborted or refused."""
        rule = self.word(table, "why it ended so")
        self.need(" " + table[rule])
        found = {"rule": rule, "name": table[rule]}
        if rule == "A8":
            self.need(" ")
            found["dimension"] = self.dimension()
            for part in ("sum", "limit"):
                self.need(" ")
                found[part] = self.number()
        elif rule in ("A9", "E5"):
            self.need(" ")
            found["index"] = self.number()
        elif rule == "E7":
            self.need(" ")
            found["broken"] = self.broken_rule()
        elif rule == "E8":
            self.need(" ")
            found["dimension"] = self.dimension()
        return found

    def bounds(self):
        """The bounds of an accepted source."""
        self.need("  deploy-bound ", "the bound of the deployment")
        found = {"deploy_bound": self.cost(), "bounds": []}
        self.need("\n")
        while self.take("  bound "):
            function = self.name()
            self.need(" ")
            bound = self.cost()
            self.need(" ")
            found["bounds"].append({"function": function, "bound": bound, "type": self.type()})
            self.need("\n")
        return found

    def rebounds(self):
        """The bounds of deployed functions that change with a block."""
        found = []
        while self.take("  rebound"):
            one = self.parts(("contract", "name"))
            one["function"] = one.pop("name")
            if self.take(" over "):
                one["over"] = self.dimension()
            else:
                self.need(" ")
                one["bound"] = self.cost()
                self.need(" ")
                one["type"] = self.type()
            found.append(one)
            self.need("\n")
        return found

    def events(self):
        found = []
        while self.take("  event "):
            kind = self.word([kind + " " for kind in EVENTS], "an event")[:-1]
            self.at -= 1
            found.append({"event": kind, **self.parts(("contract", *EVENTS[kind]))})
            self.need("\n")
        return found

    def entry(self, number, kind, members):
        """The lines of an entry, whose first line begins with what its file says."""
        self.need(f"{number} {kind} ", f"entry {number}, a {kind}")
        found = {"entry": number, "kind": kind}
        if kind == "block":
            self.need(f"{members['height']}\n", "the height of the file")
            return found | {"height": members["height"], "rebounds": self.rebounds()}
        found["contract"] = contract_of(kind, members)
        self.need(f"'{found['contract']} ", "the contract of the file")
        if kind == "call":
            found["function"] = members["function"]
            self.need(members["function"].encode("utf-8", "surrogatepass").decode("latin-1") + " ", "the function of the file")
        found |= self.outcome(kind)
        if found["outcome"] != "refused":
            self.need("  cost ", "the cost")
            found["cost"] = self.cost()
            self.need("\n")
            if kind == "deploy":
                found |= self.bounds()
        found["events"] = self.events() if found["outcome"] in ("done", "ok", "value") else []
        return found

    def state(self):
        """The lines of the state, in rising order, to the end of the report."""
        found, before = [], ""
        while not self.is_at_end():
            begin = self.at
            kind = self.word([kind + " " for kind in STATES], "a line of the state")[:-1]
            self.at -= 1
            found.append({"state": kind, **self.parts(STATES[kind])})
            line = self.text[begin : self.at]
            self.need("\n", "the end of the line")
            if line <= before:
                self.at = begin
                self.fail("a line above the one before")
            before = line
        return found

    def refused_file(self):
        """The answer in place of a report, where a file or an argument is refused; none where it is a report. What it names may hold
        any bytes, so it isn't taken apart."""
        for word in ("bad file ", "refused "):
            if self.text.startswith(word) and self.text.endswith("\n"):
                return {word.strip().replace(" ", "_"): self.text[len(word) : -1].encode("latin-1").decode("utf-8", "replace")}
        return None


def run_report(report, transactions):
    """The report of `run` of this transaction file. Raises Unreadable, and NoTransactionFile."""
    reader = _Reader(report)
    refused = reader.refused_file()
    if refused:
        return refused
    entries = [reader.entry(number, *entry) for number, entry in enumerate(entries_of(transactions))]
    return {"entries": entries, "state": None if reader.is_at_end() else reader.state()}


def call_report(report, function):
    """The report of `call` of this function. Raises Unreadable."""
    reader = _Reader(report)
    refused = reader.refused_file()
    if refused:
        return refused
    entries = [reader.entry(0, "deploy", {"sender": DEPLOYER, "name": "main"})]
    if entries[0].get("rule") != "E7":
        entries.append(reader.entry(1, "call", {"contract": f"{DEPLOYER}.main", "function": function}))
    if not reader.is_at_end():
        reader.fail("the end of the report")
    return {"entries": entries}


def check_report(report):
    """The report of `check`. Raises Unreadable."""
    reader = _Reader(report)
    refused = reader.refused_file()
    if refused:
        return refused
    contracts = []
    while not reader.is_at_end() and not (contracts and "broken" in contracts[-1]):
        reader.need("contract ", "a contract")
        found = {"contract": reader.principal()}
        if reader.take(" refused "):
            found["broken"] = reader.broken_rule()
            reader.need("\n")
        else:
            reader.need("\n")
            found |= reader.bounds()
        contracts.append(found)
    if not reader.is_at_end():
        reader.fail("the end of the report")
    return {"contracts": contracts}
