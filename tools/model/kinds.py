"""Types: sizes, depths, admission, least supertypes, and their text.

A type is a tuple: ("int",), ("uint",), ("bool",), ("principal",), ("no-type",), ("buff", n), ("ascii", n), ("utf8", n),
("list", n, type), ("tuple", ((key, type), ..)) in rising order of the keys, ("optional", type), ("response", ok, err).
"""
GREATEST_SIZE = 1048576
GREATEST_DEPTH = 32
INT, UINT, BOOL, PRINCIPAL, NO_TYPE = ("int",), ("uint",), ("bool",), ("principal",), ("no-type",)
STRINGS = ("buff", "ascii", "utf8")
STRING_NAMES = {"buff": "buff", "string-ascii": "ascii", "string-utf8": "utf8"}


class Broken(Exception):
    """Rules for expressions that a type breaks, as their numbers behind the C."""

    def __init__(self, *rules):
        super().__init__(rules)
        self.rules = set(rules)


class BadType(Exception):
    """An item that is no type within the limits."""


def is_number(kind):
    return kind in (INT, UINT)


def is_sequence(kind):
    return kind[0] == "list" or kind[0] in STRINGS


def entry_of(kind):
    """The type of an entry of a sequence."""
    return kind[2] if kind[0] == "list" else (kind[0], 1)


def with_length(kind, length):
    return ("list", length, kind[2]) if kind[0] == "list" else (kind[0], length)


def parts_of(kind):
    if kind[0] == "list":
        return [kind[2]]
    if kind[0] == "tuple":
        return [part for _, part in kind[1]]
    return list(kind[1:]) if kind[0] in ("optional", "response") else []


def tuple_of(pairs):
    return ("tuple", tuple(sorted(pairs, key=lambda pair: pair[0].encode())))


def size(kind):
    name = kind[0]
    if name in ("int", "uint"):
        return 17
    if name in ("buff", "ascii"):
        return 5 + kind[1]
    if name == "utf8":
        return 5 + 4 * kind[1]
    if name == "list":
        return 5 + kind[1] * size(kind[2])
    if name == "tuple":
        return 5 + sum(1 + len(key) + size(part) for key, part in kind[1])
    if name in ("optional", "response"):
        return 1 + max(map(size, parts_of(kind)))
    return {"bool": 1, "principal": 151, "no-type": 0}[name]


def depth(kind):
    return 0 if kind == NO_TYPE else 1 + max(map(depth, parts_of(kind)), default=0)


def is_within_size(kind):
    length = kind[1] if is_sequence(kind) else 0
    return size(kind) <= GREATEST_SIZE and length <= GREATEST_SIZE and all(map(is_within_size, parts_of(kind)))


def made(kind):
    """The type, where it is within the limits."""
    rules = ({5} if not is_within_size(kind) else set()) | ({6} if depth(kind) > GREATEST_DEPTH else set())
    if rules:
        raise Broken(*rules)
    return kind


def admits(wider, narrower):
    if narrower == NO_TYPE:
        return True
    if wider[0] != narrower[0]:
        return False
    if is_sequence(wider) and wider[1] < narrower[1]:
        return False
    if wider[0] == "tuple" and [key for key, _ in wider[1]] != [key for key, _ in narrower[1]]:
        return False
    return all(map(admits, parts_of(wider), parts_of(narrower)))


def unlimited_supertype(one, other, differ):
    if NO_TYPE in (one, other):
        return other if one == NO_TYPE else one
    if one[0] != other[0]:
        raise Broken(differ)
    parts = lambda: [unlimited_supertype(a, b, differ) for a, b in zip(parts_of(one), parts_of(other))]
    if is_sequence(one):
        return (one[0], max(one[1], other[1]), *parts())
    if one[0] == "tuple":
        keys = [key for key, _ in one[1]]
        if keys != [key for key, _ in other[1]]:
            raise Broken(differ)
        return ("tuple", tuple(zip(keys, parts())))
    return (one[0], *parts())


def least_supertype(*kinds, differ=4):
    """The least supertype, taken from the left one by one; `differ` is the rule that is broken where there is none."""
    supertype = kinds[0]
    for kind in kinds[1:]:
        supertype = unlimited_supertype(supertype, kind, differ)
        if not is_within_size(supertype):
            raise Broken(5)
    return supertype


def write_type(kind):
    name = kind[0]
    if name in STRINGS:
        return f"({next(word for word, string in STRING_NAMES.items() if string == name)} {kind[1]})"
    if name == "list":
        return f"(list {kind[1]} {write_type(kind[2])})"
    if name == "tuple":
        return "{" + ", ".join(f"{key}: {write_type(part)}" for key, part in kind[1]) + "}"
    return f"({name} {' '.join(map(write_type, parts_of(kind)))})" if parts_of(kind) else name


def read_type(item):
    """The type that the item spells; raises BadType where it is none, or beyond the limits."""
    kind = read_unlimited(item)
    if not is_within_size(kind) or depth(kind) > GREATEST_DEPTH:
        raise BadType
    return kind


def read_unlimited(item):
    if item.kind == "atom" and item.value in ("int", "uint", "bool", "principal"):
        return (item.value,)
    if item.kind == "tuple":
        return read_fields(item.value)
    if item.kind != "list" or not item.value or item.value[0].kind != "atom":
        raise BadType
    head, *arguments = item.value
    if head.value in STRING_NAMES and len(arguments) == 1:
        return (STRING_NAMES[head.value], read_length(arguments[0]))
    if head.value == "list" and len(arguments) == 2:
        return ("list", read_length(arguments[0]), read_unlimited(arguments[1]))
    if head.value in ("optional", "response") and len(arguments) == {"optional": 1, "response": 2}[head.value]:
        return (head.value, *map(read_unlimited, arguments))
    if head.value == "tuple" and all(argument.is_pair() for argument in arguments):
        return read_fields([(argument.value[0].value, argument.value[1]) for argument in arguments])
    raise BadType


def read_length(item):
    if item.kind != "int" or not 0 <= item.value <= GREATEST_SIZE:
        raise BadType
    return item.value


def read_fields(pairs):
    keys = [key for key, _ in pairs]
    if not keys or len(set(keys)) != len(keys):
        raise BadType
    return tuple_of([(key, read_unlimited(part)) for key, part in pairs])
