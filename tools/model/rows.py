"""The rows of a state: their lines, their root, and the proof of one."""
import hashlib

from values import wire, with_length, write_value

KINDS = ("var", "map", "ft", "supply", "nft", "stx")


class Row:
    """A row: its kind, the contract and the name (of STX none), the key (where there is one), and the value."""

    def __init__(self, kind, place, key, value):
        self.kind, self.place, self.key, self.value = kind, place, key, value

    def line(self):
        contract = [write_value(("principal", self.place[0])), self.place[1]] if self.place else []
        return " ".join([self.kind, *contract, *([write_value(self.key)] if self.key else []), write_value(self.value)])

    def key_bytes(self):
        contract, name = self.place or (None, None)
        named = wire(("principal", contract)) + with_length(name.encode(), 1) if self.place else b""
        return bytes([KINDS.index(self.kind)]) + named + (wire(self.key) if self.key else b"")

    def leaf(self):
        """The key bytes and the value bytes."""
        return self.key_bytes(), wire(self.value)


def rows_of(state):
    """The rows of a state, in no order."""
    rows = [Row("var", place, None, value) for place, value in state.variables.items()]
    rows += [Row("map", place, key, value) for (place, key), value in state.entries.items()]
    rows += [Row("supply", place, None, ("uint", supply)) for place, supply in state.supplies.items()]
    for place, ledger in state.balances.items():
        rows += [Row("ft", place, ("principal", who), ("uint", amount)) for who, amount in ledger.items()]
    for place, owners in state.owners.items():
        rows += [Row("nft", place, asset, ("principal", owner)) for asset, owner in owners.items()]
    return rows + [Row("stx", None, ("principal", who), ("uint", amount)) for who, amount in state.stx.items()]


def state_lines(state):
    """The lines of the state, in rising bytewise order."""
    return sorted((row.line() for row in rows_of(state)), key=str.encode)


# ---- the root

def digest(*parts):
    return hashlib.sha256(b"".join(parts)).digest()


def leaf_digest(key, value):
    return digest(b"\0", with_length(key, 4), value)


def leaves_of(state):
    return sorted(row.leaf() for row in rows_of(state))


def left_count(count):
    """The greatest power of two below the count."""
    return 1 << (count - 1).bit_length() - 1


def root(leaves):
    if not leaves:
        return digest()
    if len(leaves) == 1:
        return leaf_digest(*leaves[0])
    cut = left_count(len(leaves))
    return digest(b"\1", root(leaves[:cut]), root(leaves[cut:]))


def path_of(leaves, place):
    """The sides of the leaf at the place, from the leaf up: a letter, L or R, and the root of the other part."""
    if len(leaves) == 1:
        return []
    cut = left_count(len(leaves))
    if place < cut:
        return path_of(leaves[:cut], place) + [("R", root(leaves[cut:]))]
    return path_of(leaves[cut:], place - cut) + [("L", root(leaves[:cut]))]


def led_to(key, value, sides):
    """The digest to which a key, a value and sides lead."""
    reached = leaf_digest(key, value)
    for letter, other in sides:
        reached = digest(b"\1", other, reached) if letter == "L" else digest(b"\1", reached, other)
    return reached
