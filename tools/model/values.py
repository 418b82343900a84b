"""Values: their wire form (SIP-005), their text, and the types that they inhabit.

A value is a pair of a kind and its content: ("int", n), ("uint", n), ("bool", b), ("buff", bytes), ("ascii", str), ("utf8", str),
("principal", principal), ("list", (value, ..)), ("tuple", ((key, value), ..)) in rising order of the keys, ("some", value),
("none", None), ("ok", value), ("err", value).
"""
import texts
from addresses import is_contract_name, write_principal
from texts import NAME, Break

GREATEST_SIZE = 1048576
GREATEST_DEPTH = 32
TRUE, FALSE, NONE = ("bool", True), ("bool", False), ("none", None)
WORDS = {"true": TRUE, "false": FALSE, "none": NONE}
AROUND = ("some", "ok", "err")


class Refused(Exception):
    """A text or bytes that are no value, with the fault as it is printed."""


def tuple_of(pairs):
    return ("tuple", tuple(sorted(pairs, key=lambda pair: pair[0].encode())))


def some(value):
    return ("some", value)


def parts_of(value):
    kind, content = value
    if kind == "list":
        return list(content)
    if kind == "tuple":
        return [part for _, part in content]
    return [content] if kind in AROUND else []


def depth(value):
    return 1 + max(map(depth, parts_of(value)), default=0)


# ---- the wire form

PREFIXES = {"int": 0, "uint": 1, "buff": 2, "ok": 7, "err": 8, "none": 9, "some": 10, "list": 11, "tuple": 12, "ascii": 13}
PREFIXES["utf8"] = 14
KINDS = {prefix: kind for kind, prefix in PREFIXES.items()}


def with_length(data, width):
    return len(data).to_bytes(width, "big") + data


def wire(value):
    kind, content = value
    if kind == "bool":
        return b"\3" if content else b"\4"
    if kind == "principal":
        version, digest, name = content
        address = bytes([version]) + digest
        return b"\6" + address + with_length(name.encode(), 1) if name else b"\5" + address
    return bytes([PREFIXES[kind]]) + wire_content(kind, content)


def wire_content(kind, content):
    if kind in ("int", "uint"):
        return (content % (1 << 128)).to_bytes(16, "big")
    if kind in ("buff", "ascii", "utf8"):
        return with_length(content if kind == "buff" else content.encode(), 4)
    if kind == "list":
        return len(content).to_bytes(4, "big") + b"".join(map(wire, content))
    if kind == "tuple":
        return len(content).to_bytes(4, "big") + b"".join(with_length(key.encode(), 1) + wire(part) for key, part in content)
    return b"" if kind == "none" else wire(content)


def size(value):
    return len(wire(value))


class Decoder:
    """Reads a value from the left, and raises Refused with the first fault."""

    def __init__(self, data):
        self.data, self.at = data, 0

    def take(self, count):
        if count > len(self.data) - self.at:
            raise Refused(f"Ended {len(self.data)}")
        self.at += count
        return self.data[self.at - count : self.at]

    def number(self, width):
        return int.from_bytes(self.take(width), "big")

    def name(self, is_name):
        at = self.at
        text = self.take(self.number(1)).decode("latin1")
        if not is_name(text):
            raise Refused(f"BadName {at}")
        return text

    def value(self, level=1):
        at = self.at
        prefix = self.number(1)
        if level > GREATEST_DEPTH:
            raise Refused(f"TooDeep {at}")
        if prefix in (3, 4):
            return TRUE if prefix == 3 else FALSE
        if prefix in (5, 6):
            return self.principal(prefix == 6)
        if prefix not in KINDS:
            raise Refused(f"BadPrefix {at}")
        return self.content(KINDS[prefix], level)

    def principal(self, is_contract):
        at = self.at
        version = self.number(1)
        if version > 31:
            raise Refused(f"BadPrefix {at}")
        digest = self.take(20)
        return ("principal", (version, digest, self.name(is_contract_name) if is_contract else None))

    def content(self, kind, level):
        if kind in ("int", "uint"):
            number = self.number(16)
            return (kind, number - (1 << 128) if kind == "int" and number >= 1 << 127 else number)
        if kind == "none":
            return NONE
        if kind in AROUND:
            return (kind, self.value(level + 1))
        at = self.at
        length = self.number(4)
        if kind == "list":
            return (kind, tuple([self.value(level + 1) for _ in range(length)]))
        if kind == "tuple":
            return self.fields(length, at, level)
        start = self.at
        data = self.take(length)
        return (kind, data if kind == "buff" else characters(kind, data, start))

    def fields(self, count, at, level):
        if count == 0:
            raise Refused(f"NoKeys {at}")
        fields, before = [], ""
        for _ in range(count):
            place = self.at
            key = self.name(lambda text: NAME.fullmatch(text) is not None)
            if key <= before:
                raise Refused(f"KeysOrder {place}")
            fields.append((key, self.value(level + 1)))
            before = key
        return ("tuple", tuple(fields))


def characters(kind, data, start):
    try:
        text = data.decode("ascii" if kind == "ascii" else "utf-8")
    except UnicodeDecodeError as error:
        text, data = None, data[: error.start]
    if kind == "ascii":
        for at, byte in enumerate(data):
            if not (32 <= byte <= 126 or byte in b"\0\t\n\r"):
                raise Refused(f"BadText {start + at}")
    if text is None:
        raise Refused(f"BadText {start + len(data)}")
    return text


def decode(data):
    """The value with this wire form; raises Refused with the first fault."""
    if len(data) > GREATEST_SIZE:
        raise Refused("TooLong")
    decoder = Decoder(data)
    value = decoder.value()
    if decoder.at < len(data):
        raise Refused(f"Extra {decoder.at}")
    return value


# ---- texts

ESCAPED = {character: "\\" + letter for letter, character in texts.ESCAPES.items()}


def write_string(text, wide):
    spell = lambda c: ESCAPED.get(c) or (c if not wide or " " <= c <= "~" else "\\u{%x}" % ord(c))
    return '"' + "".join(map(spell, text)) + '"'


def write_value(value):
    kind, content = value
    if kind in ("int", "uint"):
        return f"{'u' if kind == 'uint' else ''}{content}"
    if kind == "bool":
        return "true" if content else "false"
    if kind == "buff":
        return "0x" + content.hex()
    if kind == "ascii":
        return write_string(content, False)
    if kind == "utf8":
        return "u" + write_string(content, True)
    if kind == "principal":
        return "'" + write_principal(content)
    if kind == "list":
        return "(" + " ".join(["list", *map(write_value, content)]) + ")"
    if kind == "tuple":
        return "{" + ", ".join(f"{key}: {write_value(part)}" for key, part in content) + "}"
    return "none" if kind == "none" else f"({kind} {write_value(content)})"


class NoLiteral(Exception):
    """The item that is no literal while all around it are."""


def literal(item):
    if item.kind in ("int", "uint", "buff", "ascii", "utf8", "principal"):
        return (item.kind, item.value)
    if item.kind == "atom" and item.value in WORDS:
        return WORDS[item.value]
    if item.kind == "tuple":
        return fields(item, item.value)
    head, arguments = item.head(), item.value[1:] if item.kind == "list" else []
    if head in AROUND and len(arguments) == 1:
        return (head, literal(arguments[0]))
    if head == "list":
        return ("list", tuple([literal(argument) for argument in arguments]))
    if head == "tuple" and arguments and all(argument.is_pair() for argument in arguments):
        return fields(item, [(argument.value[0].value, argument.value[1]) for argument in arguments])
    raise NoLiteral(item)


def fields(item, pairs):
    if len({key for key, _ in pairs}) != len(pairs):
        raise NoLiteral(item)
    return tuple_of([(key, literal(part)) for key, part in pairs])


def parse(text):
    """The value with this text; raises Refused with the first fault."""
    try:
        items = texts.read(text)
    except Break as error:
        raise Refused(error.text()) from None
    if len(items) != 1:
        raise Refused(f"NotALiteral 0..{len(text)}")
    span = f"{items[0].start}..{items[0].end}"
    try:
        value = literal(items[0])
    except NoLiteral as error:
        raise Refused(f"NotALiteral {error.args[0].start}..{error.args[0].end}") from None
    if depth(value) > GREATEST_DEPTH:
        raise Refused(f"TooDeep {span}")
    if size(value) > GREATEST_SIZE:
        raise Refused(f"TooLarge {span}")
    return value


# ---- types

def inhabits(value, kind):
    name, content = value
    if kind[0] == "optional":
        return name == "none" or (name == "some" and inhabits(content, kind[1]))
    if kind[0] == "response":
        return (name == "ok" and inhabits(content, kind[1])) or (name == "err" and inhabits(content, kind[2]))
    if name != kind[0]:
        return False
    if name == "list":
        return len(content) <= kind[1] and all(inhabits(part, kind[2]) for part in content)
    if name == "tuple":
        keys = [key for key, _ in content] == [key for key, _ in kind[1]]
        return keys and all(inhabits(part, field) for (_, part), (_, field) in zip(content, kind[1]))
    return len(content) <= kind[1] if name in ("buff", "ascii", "utf8") else True
