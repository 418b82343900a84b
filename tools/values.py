"""Literals of the language: reads them, and prints values as the program does (docs/TEXT.md).

A value is a pair of its kind and what it holds: ("int", -1), ("uint", 7), ("buffer", b"..."), ("ascii", "..."), ("utf8", "..."),
("principal", "SP...", without the quote), ("bool", True), ("none", None), ("some", value), ("ok", value), ("err", value),
("list", [value, ..]), ("tuple", [(key, value), ..] in rising order of the keys).
"""
import hashlib
import re

ALPHABET = "0123456789ABCDEFGHJKMNPQRSTVWXYZ"
NAME = re.compile(r"(?:[A-Za-z][A-Za-z0-9\-_!?+<>=/*]*|[-+=/*]|<=|>=|<|>)\Z")
CONTRACT_NAME = re.compile(r"[A-Za-z][A-Za-z0-9\-_]{0,127}\Z")
BLANK = re.compile(r"(?:[ \t\r\n]|;;[^\n]*)*")
RUN = re.compile(r'[^ \t\r\n(){},:";]+')
STRING = re.compile(r'"(?:[^"\\]|\\.)*"', re.S)
ESCAPES = {'"': '"', "\\": "\\", "n": "\n", "r": "\r", "t": "\t", "0": "\0"}
DEEPEST = 32


class NoLiteral(ValueError):
    """The text isn't a literal at this place."""

    def __init__(self, at, why):
        super().__init__(f"{why} at {at}")
        self.at, self.why = at, why


def is_name(text):
    return len(text) <= 128 and NAME.match(text) is not None


def is_address(text):
    """Whether the text is an address in c32check."""
    if not 2 <= len(text) <= 48 or text[0] != "S" or any(c not in ALPHABET for c in text[1:]):
        return False
    digits = text[2:]
    number = 0
    for c in digits:
        number = number * 32 + ALPHABET.index(c)
    zeros = len(digits) - len(digits.lstrip("0"))
    if zeros + (number.bit_length() + 7) // 8 != 24:
        return False
    data = number.to_bytes(24, "big")
    first = hashlib.sha256(bytes([ALPHABET.index(text[1])]) + data[:20]).digest()
    return hashlib.sha256(first).digest()[:4] == data[20:]


def is_contract(text):
    address, dot, name = text.partition(".")
    return bool(dot) and is_address(address) and CONTRACT_NAME.match(name) is not None


def is_principal(text):
    return is_address(text) or is_contract(text)


class _Reader:
    """Reads one literal after another from a text."""

    def __init__(self, text, at):
        self.text, self.at = text, at

    def skip(self):
        self.at = BLANK.match(self.text, self.at).end()

    def take(self, byte):
        """Whether this byte comes next; it is passed then."""
        self.skip()
        if self.text.startswith(byte, self.at):
            self.at += len(byte)
            return True
        return False

    def fail(self, why):
        raise NoLiteral(self.at, why)

    def run(self):
        self.skip()
        found = RUN.match(self.text, self.at)
        if not found:
            self.fail("a word is missing")
        self.at = found.end()
        return found.group()

    def string(self, kind):
        found = STRING.match(self.text, self.at)
        if not found:
            self.fail("a string isn't closed")
        begin, held = self.at, found.group()[1:-1]
        self.at = found.end()

        def character(escape):
            if escape[1] in ESCAPES and len(escape[0]) == 2:
                return ESCAPES[escape[1]]
            code = int(escape[2], 16) if kind == "utf8" and escape[2] else 0x110000
            if code > 0x10FFFF or 0xD800 <= code < 0xE000:
                raise NoLiteral(begin, "a string has an escape that isn't one")
            return chr(code)

        if re.search(r"[^ -~]", held):
            raise NoLiteral(begin, "a string has a byte that isn't allowed")
        return kind, re.sub(r"\\(u\{([0-9A-Fa-f]{1,6})\}|.)", character, held)

    def value(self, depth=1):
        if depth > DEEPEST:
            self.fail("a value is deeper than 32")
        self.skip()
        begin = self.at
        if self.take("("):
            return self.form(depth)
        if self.take("{"):
            return self.pairs(depth, "}", begin)
        if self.text.startswith('"', self.at):
            return self.string("ascii")
        if self.text.startswith('u"', self.at):
            self.at += 1
            return self.string("utf8")
        return self.token(self.run(), begin)

    def token(self, run, begin):
        number = re.fullmatch(r"(u|-?)0*([0-9]{1,39})", run)
        if number:
            value = int(number[2]) * (-1 if number[1] == "-" else 1)
            if number[1] == "u" and value < 2**128:
                return "uint", value
            if number[1] != "u" and -(2**127) <= value < 2**127:
                return "int", value
        if re.fullmatch(r"0x(?:[0-9A-Fa-f]{2})*", run):
            return "buffer", bytes.fromhex(run[2:])
        if run in ("true", "false"):
            return "bool", run == "true"
        if run == "none":
            return "none", None
        if run.startswith("'") and is_principal(run[1:]):
            return "principal", run[1:]
        raise NoLiteral(begin, f"`{run[:60]}` is no literal")

    def form(self, depth):
        begin, head = self.at, self.run()
        if head in ("some", "ok", "err"):
            inner = self.value(depth + 1)
            if not self.take(")"):
                self.fail("a closing bracket is missing")
            return head, inner
        if head == "list":
            entries = []
            while not self.take(")"):
                entries.append(self.value(depth + 1))
            return "list", entries
        if head == "tuple":
            return self.pairs(depth, ")", begin)
        raise NoLiteral(begin, f"`{head[:60]}` begins no literal")

    def pairs(self, depth, close, begin):
        """The pairs of a tuple of either spelling, up to its closing bracket."""
        pairs = {}
        while not self.take(close):
            if close == ")" and not self.take("("):
                self.fail("a pair is missing")
            key = self.run()
            if not is_name(key) or key in pairs:
                self.fail(f"`{key[:60]}` is no key, or is there twice")
            if close == "}" and not self.take(":"):
                self.fail("a `:` is missing")
            pairs[key] = self.value(depth + 1)
            if close == ")" and not self.take(")"):
                self.fail("a closing bracket is missing")
            if close == "}" and not self.take(","):
                if not self.take(close):
                    self.fail("a `,` or `}` is missing")
                break
        if not pairs:
            raise NoLiteral(begin, "a tuple has no key")
        return "tuple", sorted(pairs.items())


def read(text, at=0):
    """The literal in the text from this place on, after blanks, and the place after it. Raises NoLiteral."""
    reader = _Reader(text, at)
    return reader.value(), reader.at


def only(text):
    """The value of a text that is one literal. Raises NoLiteral."""
    reader = _Reader(text, 0)
    value = reader.value()
    reader.skip()
    if reader.at != len(text):
        reader.fail("something follows the literal")
    return value


def _quoted(text):
    def character(c):
        for letter, byte in ESCAPES.items():
            if c == byte:
                return "\\" + letter
        return c if " " <= c <= "~" else f"\\u{{{ord(c):x}}}"

    return '"' + "".join(map(character, text)) + '"'


def printed(value):
    """The text of a value as the program prints it."""
    kind, held = value
    if kind == "int":
        return str(held)
    if kind == "uint":
        return f"u{held}"
    if kind == "buffer":
        return "0x" + held.hex()
    if kind in ("ascii", "utf8"):
        return ("u" if kind == "utf8" else "") + _quoted(held)
    if kind == "principal":
        return "'" + held
    if kind == "bool":
        return "true" if held else "false"
    if kind == "none":
        return "none"
    if kind in ("some", "ok", "err"):
        return f"({kind} {printed(held)})"
    if kind == "list":
        return "(" + " ".join(["list", *map(printed, held)]) + ")"
    return "{" + ", ".join(f"{key}: {printed(inner)}" for key, inner in held) + "}"
