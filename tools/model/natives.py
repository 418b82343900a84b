"""The natives of both versions of the language: their rows, and the types and values of those that work on values."""
import hashlib
import math
from dataclasses import dataclass

from kinds import (
    BOOL, INT, NO_TYPE, UINT, Broken, admits, entry_of, is_number, is_sequence, least_supertype, made, size, tuple_of
)
from values import NONE, some, wire
from values import tuple_of as tuple_value

KEYWORDS = "true false none tx-sender contract-caller block-height".split()
DEFINES = (
    "define-constant define-data-var define-map define-fungible-token define-non-fungible-token define-public "
    "define-read-only define-private"
).split()
LEFT_OUT = (
    "define-trait use-trait impl-trait contract-of at-block get-block-info? keccak256 hash160 secp256k1-recover? "
    "secp256k1-verify principal-of? stx-liquid-supply is-in-regtest"
).split()
WRITING = (
    "var-set map-set map-insert map-delete ft-mint? ft-burn? ft-transfer? nft-mint? nft-burn? nft-transfer? stx-transfer? "
    "stx-burn?"
).split()
ANY = math.inf


@dataclass(frozen=True)
class Row:
    """How many arguments a native takes, what it is charged as, whether it can be given by name, and its versions."""

    least: int
    most: float
    cost: str
    by_name: bool
    versions: tuple


ROWS = {}


def rows(names, least, most, cost, by_name=False, versions=(1, 2)):
    for name in names.split():
        ROWS[name] = Row(least, most, cost, by_name, versions)


rows("+ - * /", 1, ANY, "arith", True)
rows("mod pow xor", 2, 2, "arith", True)
rows("sqrti log2 to-int to-uint not", 1, 1, "arith", True)
rows("< <= > >=", 2, 2, "compare", True)
rows("is-eq", 1, ANY, "compare", True)
rows("sha256 sha512/256 sha512", 1, 1, "hash", True)
rows("some ok err is-some is-none is-ok is-err", 1, 1, "wrap", True)
rows("default-to", 2, 2, "wrap")
rows("unwrap-panic unwrap-err-panic", 1, 1, "wrap")
rows("list", 0, ANY, "make")
rows("tuple", 1, ANY, "make")
rows("merge append concat as-max-len?", 2, 2, "make")
rows("get", 2, 2, "take")
rows("len", 1, 1, "scan", True)
rows("element-at index-of", 2, 2, "scan")
rows("var-get", 1, 1, "read_var")
rows("var-set", 2, 2, "write_var")
rows("map-get?", 2, 2, "read_map")
rows("map-set map-insert", 3, 3, "write_map")
rows("map-delete", 2, 2, "write_map")
rows("ft-get-balance nft-get-owner?", 2, 2, "read_token")
rows("ft-get-supply stx-get-balance", 1, 1, "read_token")
rows("ft-mint? ft-burn? nft-mint? nft-burn? stx-transfer?", 3, 3, "write_token")
rows("ft-transfer? nft-transfer?", 4, 4, "write_token")
rows("stx-burn?", 2, 2, "write_token")
rows("print", 1, 1, "event")
rows("if", 3, 3, "control")
rows("let", 2, ANY, "control")
rows("begin", 1, ANY, "control")
rows("and or", 1, ANY, "control", True)
rows("asserts! unwrap! unwrap-err!", 2, 2, "control")
rows("try! as-contract", 1, 1, "control")
rows("match", 4, 5, "control")
rows("map", 2, ANY, "iterate")
rows("filter", 2, 2, "iterate")
rows("fold", 3, 3, "iterate")
rows("contract-call?", 2, ANY, "contract_call")
rows("bit-and bit-or bit-xor", 1, ANY, "arith", True, (2,))
rows("bit-not", 1, 1, "arith", True, (2,))
rows("bit-shift-left bit-shift-right", 2, 2, "arith", True, (2,))
rows("slice? replace-at?", 3, 3, "make", False, (2,))
rows("to-consensus-buff?", 1, 1, "make", True, (2,))
rows("element-at? index-of?", 2, 2, "scan", False, (2,))


def native(name, version):
    """The row of a native in a version, or None."""
    row = ROWS.get(name)
    return row if row is not None and version in row.versions else None


def is_reserved(name, version):
    return native(name, version) is not None or name in KEYWORDS or name in DEFINES or name in LEFT_OUT


def charged_at(name, kinds_or_values, measure):
    """The number at which a native with these arguments is charged, by the number of them or the sum of their sizes."""
    if ROWS[name].cost in ("arith", "control"):
        return len(kinds_or_values)
    return sum(map(measure, kinds_or_values))


# ---- types

def want(condition):
    if not condition:
        raise Broken(3)


def ok_part(kind):
    want(kind[0] in ("optional", "response"))
    return known(kind[1])


def err_part(kind):
    want(kind[0] == "response")
    return known(kind[2])


def known(kind):
    if kind == NO_TYPE:
        raise Broken(7)
    return kind


def one_kind(kinds, which=is_number):
    want(which(kinds[0]) and all(kind == kinds[0] for kind in kinds))
    return kinds[0]


def are_comparable(one, other, version):
    if is_number(one):
        return one == other
    return version == 2 and one[0] in ("buff", "ascii", "utf8") and one[0] == other[0]


def comparison_type(name, kinds, version):
    if name == "is-eq":
        least_supertype(*kinds)
    else:
        want(are_comparable(*kinds, version))
    return BOOL


def wrapped_type(name, kind):
    """The type of an optional or response around a value."""
    return made({"some": ("optional", kind), "ok": ("response", kind, NO_TYPE), "err": ("response", NO_TYPE, kind)}[name])


def list_type(name, kinds):
    if name == "list":
        return made(("list", len(kinds), least_supertype(*kinds))) if kinds else ("list", 0, NO_TYPE)
    want(kinds[0][0] == "list")
    return made(("list", kinds[0][1] + 1, least_supertype(kinds[0][2], kinds[1])))


def concat_type(one, other):
    want(is_sequence(one) and one[0] == other[0])
    length = one[1] + other[1]
    return made(("list", length, least_supertype(one[2], other[2])) if one[0] == "list" else (one[0], length))


def merged_type(one, other):
    want(one[0] == "tuple" and other[0] == "tuple")
    return made(tuple_of({**dict(one[1]), **dict(other[1])}.items()))


def place_type(name, kinds):
    """Natives that go by a place, an item or two places in a sequence."""
    sequence, *others = kinds
    want(is_sequence(sequence))
    if name == "slice?":
        want(others == [UINT, UINT])
        return made(("optional", sequence))
    if name == "replace-at?":
        want(others[0] == UINT and admits(entry_of(sequence), others[1]))
        return made(("optional", sequence))
    if name in ("index-of", "index-of?"):
        want(admits(entry_of(sequence), others[0]))
        return ("optional", UINT)
    want(others[0] == UINT)
    return made(("optional", entry_of(sequence)))


def type_of(name, kinds, version):
    """The type of a native on values at these types; raises Broken with the rules that they break."""
    first = kinds[0] if kinds else None
    if name in "+ - * / mod pow xor sqrti log2 bit-and bit-or bit-xor bit-not".split():
        return one_kind(kinds)
    if name in ("bit-shift-left", "bit-shift-right"):
        want(is_number(first) and kinds[1] == UINT)
        return first
    if name in ("to-int", "to-uint"):
        want(first == (UINT if name == "to-int" else INT))
        return INT if name == "to-int" else UINT
    if name in ("not", "and", "or"):
        return one_kind(kinds, lambda kind: kind == BOOL)
    if name in ("<", "<=", ">", ">=", "is-eq"):
        return comparison_type(name, kinds, version)
    if name in ("sha256", "sha512", "sha512/256"):
        want(first[0] == "buff" or is_number(first))
        return ("buff", 64 if name == "sha512" else 32)
    if name in ("some", "ok", "err"):
        return wrapped_type(name, first)
    if name in ("is-some", "is-none", "is-ok", "is-err"):
        want(first[0] == ("optional" if name in ("is-some", "is-none") else "response"))
        return BOOL
    if name == "default-to":
        want(kinds[1][0] == "optional")
        return least_supertype(first, kinds[1][1])
    if name in ("unwrap-panic", "unwrap-err-panic"):
        return ok_part(first) if name == "unwrap-panic" else err_part(first)
    if name in ("list", "append"):
        return list_type(name, kinds)
    if name == "concat":
        return concat_type(*kinds)
    if name == "merge":
        return merged_type(*kinds)
    if name == "len":
        want(is_sequence(first))
        return UINT
    if name == "to-consensus-buff?":
        return made(("optional", ("buff", size(first))))
    return place_type(name, kinds)


# ---- values

class Abort(Exception):
    """The transaction ends, with what is printed of it."""


OVERFLOW, UNDERFLOW = "A1 Overflow", "A2 Underflow"


def in_range(kind, number):
    least, above = (-(1 << 127), 1 << 127) if kind == "int" else (0, 1 << 128)
    if number >= above:
        raise Abort(OVERFLOW)
    if number < least:
        raise Abort(UNDERFLOW)
    return number


def divided(dividend, divisor):
    if divisor == 0:
        raise Abort("A3 DivideByZero")
    quotient = abs(dividend) // abs(divisor)
    return quotient if (dividend < 0) == (divisor < 0) else -quotient


def power(base, exponent):
    if exponent < 0:
        raise Abort("A4 NegativeArgument")
    if abs(base) > 1:
        return base ** (exponent if exponent < 130 else 130 + exponent % 2)  # from 2 ** 130 on it is out of range
    return base ** (exponent % 2 if base == -1 else min(exponent, 1))


def bits_of(number):
    return number % (1 << 128)


def of_bits(kind, bits):
    bits %= 1 << 128
    return bits - (1 << 128) if kind == "int" and bits >= 1 << 127 else bits


STEPS = {
    "+": lambda a, b: a + b,
    "-": lambda a, b: a - b,
    "*": lambda a, b: a * b,
    "/": divided,
    "mod": lambda a, b: a - b * divided(a, b),
    "pow": power,
}
BITWISE = {"xor": int.__xor__, "bit-xor": int.__xor__, "bit-and": int.__and__, "bit-or": int.__or__}


def number_of(name, kind, numbers):
    """The number that a native on numbers of one kind gives."""
    first = numbers[0]
    if name in BITWISE:
        bits = bits_of(first)
        for number in numbers[1:]:
            bits = BITWISE[name](bits, bits_of(number))
        return of_bits(kind, bits)
    if name == "bit-not":
        return of_bits(kind, ~first)
    if name == "bit-shift-left":
        return of_bits(kind, bits_of(first) << numbers[1] % 128)
    if name == "bit-shift-right":
        return first >> numbers[1] % 128
    if name == "sqrti":
        if first < 0:
            raise Abort("A4 NegativeArgument")
        return math.isqrt(first)
    if name == "log2":
        if first <= 0:
            raise Abort("A4 NegativeArgument")
        return first.bit_length() - 1
    if name == "-" and len(numbers) == 1:
        return in_range(kind, -first)
    for number in numbers[1:]:
        first = in_range(kind, STEPS[name](first, number))
    return first


def content_order(value):
    """What comparisons go by: a number, or bytes, of UTF-8 strings those in UTF-8."""
    return value[1].encode() if isinstance(value[1], str) else value[1]


def entries_of(sequence):
    kind, content = sequence
    if kind == "list":
        return list(content)
    return [(kind, content[at : at + 1]) for at in range(len(content))]


def joined(kind, entries):
    """The sequence of a kind that has these entries."""
    if kind == "list":
        return (kind, tuple(entries))
    return (kind, (b"" if kind == "buff" else "").join(content for _, content in entries))


def slice_of(sequence, left, right):
    kind, content = sequence
    return some((kind, content[left:right])) if left <= right <= len(content) else NONE


def replaced(sequence, place, item):
    kind, content = sequence
    if place >= len(content) or (kind != "list" and len(item[1]) != 1):
        return NONE
    middle = (item,) if kind == "list" else item[1]
    return some((kind, content[:place] + middle + content[place + 1 :]))


def digest_of(name, value):
    kind, content = value
    data = content if kind == "buff" else bits_of(content).to_bytes(16, "little")
    return ("buff", hashlib.new(name.replace("/", "_"), data).digest())


def unwrapped(value, kinds):
    if value[0] not in kinds:
        raise Abort("A5 Panic")
    return value[1]


COMPARISONS = {"<": lambda a, b: a < b, "<=": lambda a, b: a <= b, ">": lambda a, b: a > b, ">=": lambda a, b: a >= b}


def value_of(name, values):
    """The value of a native on values; raises Abort where it has none."""
    kind, content = values[0] if values else (None, None)
    if name in STEPS or name in BITWISE or name in ("sqrti", "log2", "bit-not", "bit-shift-left", "bit-shift-right"):
        return (kind, number_of(name, kind, [number for _, number in values]))
    if name in ("to-int", "to-uint"):
        return (name[3:], in_range(name[3:], content))
    if name == "not":
        return ("bool", not content)
    if name in ("and", "or"):
        return ("bool", (all if name == "and" else any)(truth for _, truth in values))
    if name in COMPARISONS:
        return ("bool", COMPARISONS[name](*map(content_order, values)))
    if name == "is-eq":
        return ("bool", all(value == values[0] for value in values))
    if name in ("sha256", "sha512", "sha512/256"):
        return digest_of(name, values[0])
    if name in ("some", "ok", "err"):
        return (name, values[0])
    if name in ("is-some", "is-none", "is-ok", "is-err"):
        return ("bool", kind == name[3:])
    if name == "default-to":
        return values[1][1] if values[1][0] == "some" else values[0]
    if name in ("unwrap-panic", "unwrap-err-panic"):
        return unwrapped(values[0], ("some", "ok") if name == "unwrap-panic" else ("err",))
    if name == "to-consensus-buff?":
        return some(("buff", wire(values[0])))
    return sequence_value(name, values)


def sequence_value(name, values):
    """The value of a native on lists, tuples and sequences."""
    if name == "list":
        return ("list", tuple(values))
    kind, content = values[0]
    if name == "merge":
        return tuple_value({**dict(content), **dict(values[1][1])}.items())
    if name == "append":
        return ("list", content + (values[1],))
    if name == "concat":
        return (kind, content + values[1][1])
    if name == "len":
        return ("uint", len(content))
    if name == "slice?":
        return slice_of(values[0], values[1][1], values[2][1])
    if name == "replace-at?":
        return replaced(values[0], values[1][1], values[2])
    entries = entries_of(values[0])
    if name in ("element-at", "element-at?"):
        return some(entries[values[1][1]]) if values[1][1] < len(entries) else NONE
    places = [place for place, entry in enumerate(entries) if entry == values[1]]
    return some(("uint", places[0])) if places else NONE
