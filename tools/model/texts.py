"""Reading a source: its items, or the first rule of texts (T1 to T10) that it breaks."""
import re

from addresses import is_contract_name, read_principal

LONGEST = 1048576
DEEPEST = 64
SEPARATORS = b" \t\n\r"
END_OF_RUN = SEPARATORS + b'(){},:";'
NAME = re.compile(r"[A-Za-z][A-Za-z0-9_!?+<>=/*-]{0,127}|[-+=/*<>]|<=|>=")
INT, UINT, BUFFER = re.compile(r"-?[0-9]+"), re.compile(r"u[0-9]+"), re.compile(r"0x(?:[0-9a-fA-F]{2})*")
ESCAPES = {'"': '"', "\\": "\\", "n": "\n", "r": "\r", "t": "\t", "0": "\0"}
POINT = re.compile(rb"\\u\{([0-9a-fA-F]{1,6})\}")
CLOSING = {"(": ")", "{": "}"}
RULES = {
    **{"T1": "BadByte", "T2": "BadToken", "T3": "NumberTooWide", "T4": "Unclosed", "T5": "StrayClose", "T6": "TooNested"},
    **{"T7": "BadEscape", "T8": "BadTuple", "T9": "BadAddress", "T10": "SourceTooLong"},
}


class Break(Exception):
    """The first rule that a source breaks: its name, its span, and what is printed behind the span."""

    def __init__(self, rule, start, end, more=""):
        super().__init__(rule, start, end)
        self.rule, self.start, self.end, self.more = rule, start, end, more

    def text(self):
        return f"{self.rule} {self.start}..{self.end}{self.more}"


def broken(rule, start, end):
    return Break(f"{rule} {RULES[rule]}", start, end)


class Item:
    """An item with its span. Kinds: atom, int, uint, buff, ascii, utf8, principal, local, list, tuple."""

    def __init__(self, kind, value, start, end):
        self.kind, self.value, self.start, self.end = kind, value, start, end

    def is_pair(self):
        """Whether this is a list of two with an atom first."""
        return self.kind == "list" and len(self.value) == 2 and self.value[0].kind == "atom"

    def head(self):
        """The atom that a list begins with, or None."""
        return self.value[0].value if self.kind == "list" and self.value and self.value[0].kind == "atom" else None


class NoToken(Exception):
    """A run that is no token, with the rule that it breaks."""


def token_of(run):
    """The kind and value of a run of allowed bytes."""
    if run.startswith("'"):
        principal = read_principal(run[1:])
        if principal is None:
            raise NoToken("T9")
        return "principal", principal
    if INT.fullmatch(run):
        return "int", in_range(int(run), -(1 << 127), 1 << 127)
    if UINT.fullmatch(run):
        return "uint", in_range(int(run[1:]), 0, 1 << 128)
    if BUFFER.fullmatch(run):
        return "buff", bytes.fromhex(run[2:])
    if run.startswith(".") and is_contract_name(run[1:]):
        return "local", run[1:]
    if NAME.fullmatch(run):
        return "atom", run
    raise NoToken("T2")


def in_range(number, least, above):
    if not least <= number < above:
        raise NoToken("T3")
    return number


def first_bad_byte(source, start, end, also=b""):
    for at in range(start, end):
        byte = source[at]
        if byte in also or not (32 <= byte <= 126 or byte in b"\t\n\r"):
            raise broken("T1", at, at + 1)


class Open:
    """A bracket that is open. In a tuple `place` is what comes next: key, colon, value, comma, or more (a key or the end)."""

    def __init__(self, bracket, at):
        self.bracket, self.at, self.items, self.place, self.key = bracket, at, [], "key", None

    def takes(self, kind):
        """Whether what comes next may be of this kind: atom, item, `:`, `,` or `}`."""
        if self.bracket == "(":
            return kind in ("atom", "item")
        return kind in {"key": ("atom",), "colon": (":",), "value": ("atom", "item"), "comma": (",", "}"), "more": ("atom", "}")}[
            self.place
        ]

    def add(self, item):
        if self.bracket == "(":
            self.items.append(item)
        elif self.place == "value":
            self.items.append((self.key, item))
            self.place = "comma"
        else:
            self.key, self.place = item.value, "colon"


class Reader:
    def __init__(self, source):
        self.source, self.at, self.items, self.open = source, 0, [], []

    def takes(self, kind):
        return self.open[-1].takes(kind) if self.open else kind in ("atom", "item")

    def add(self, item):
        self.open[-1].add(item) if self.open else self.items.append(item)

    def read(self):
        source = self.source
        while self.at < len(source):
            byte = source[self.at : self.at + 1]
            if byte in SEPARATORS:
                self.at += 1
            elif byte == b";":
                self.comment()
            elif byte in b"({":
                self.opening(byte.decode())
            elif byte in b")}":
                self.closing(byte.decode())
            elif byte in b":,":
                self.mark(byte.decode())
            elif byte == b'"' or source.startswith(b'u"', self.at):
                self.string()
            else:
                self.run()
        if self.open:
            raise broken("T4", self.open[-1].at, self.open[-1].at + 1)
        return self.items

    def comment(self):
        if not self.source.startswith(b";;", self.at):
            raise broken("T2", self.at, self.at + 1)
        end = self.source.find(b"\n", self.at)
        end = len(self.source) if end < 0 else end
        first_bad_byte(self.source, self.at, end)
        self.at = end

    def opening(self, bracket):
        if len(self.open) == DEEPEST:
            raise broken("T6", self.at, self.at + 1)
        if not self.takes("item"):
            raise broken("T8", self.at, self.at + 1)
        self.open.append(Open(bracket, self.at))
        self.at += 1

    def closing(self, bracket):
        if not self.open or CLOSING[self.open[-1].bracket] != bracket:
            raise broken("T5", self.at, self.at + 1)
        if bracket == "}" and not self.takes("}"):
            raise broken("T8", self.at, self.at + 1)
        closed = self.open.pop()
        self.at += 1
        self.add(Item("list" if bracket == ")" else "tuple", closed.items, closed.at, self.at))

    def mark(self, mark):
        if not self.takes(mark):
            raise broken("T8", self.at, self.at + 1)
        self.open[-1].place = {":": "value", ",": "more"}[mark]
        self.at += 1

    def run(self):
        start = end = self.at
        while end < len(self.source) and self.source[end] not in END_OF_RUN:
            end += 1
        first_bad_byte(self.source, start, end)
        rules = []
        try:
            kind, value = token_of(self.source[start:end].decode())
        except NoToken as error:
            kind, rules = "item", [error.args[0]]
        if not self.takes("atom" if kind == "atom" else "item"):
            rules.append("T8")
        if rules:
            raise broken(min(rules), start, end)
        self.add(Item(kind, value, start, end))
        self.at = end

    def string(self):
        start, wide = self.at, self.source.startswith(b"u", self.at)
        quote = start + 1 if wide else start
        content, bad_escape, end, is_closed = self.characters(quote + 1, wide)
        first_bad_byte(self.source, start, end, b"\t\n\r")
        if bad_escape is not None:
            raise broken("T7", bad_escape, min(bad_escape + 2, len(self.source)))
        if not self.takes("item"):
            raise broken("T8", start, end)
        if not is_closed:
            raise broken("T4", quote, quote + 1)
        self.add(Item("utf8" if wide else "ascii", content, start, end))
        self.at = end

    def characters(self, at, wide):
        """The characters up to the closing quote, the first bad escape, the end, and whether it is closed."""
        content, bad_escape = [], None
        while at < len(self.source):
            byte = chr(self.source[at])
            if byte == '"':
                return "".join(content), bad_escape, at + 1, True
            if byte != "\\":
                content.append(byte)
                at += 1
                continue
            point = POINT.match(self.source, at) if wide else None
            following = self.source[at + 1 : at + 2].decode("latin1")
            if point and is_scalar(int(point[1], 16)):
                content.append(chr(int(point[1], 16)))
                at = point.end()
            else:
                if following not in ESCAPES and bad_escape is None:
                    bad_escape = at
                content.append(ESCAPES.get(following, ""))
                at = min(at + 2, len(self.source))
        return "", bad_escape, len(self.source), False


def is_scalar(number):
    return number <= 0x10FFFF and not 0xD800 <= number <= 0xDFFF


def read(source):
    """The items of a source; raises Break with the first rule of texts that it breaks."""
    if len(source) > LONGEST:
        raise broken("T10", 0, 0)
    return Reader(source).read()
