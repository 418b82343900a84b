"""What the names of a source mean, also of one that is being written."""
import functools
import re
from typing import NamedTuple

import advice
from breaks import types_of
from calls import ADDRESS
from items import FUNCTIONS, Item, path_at, readable_items
from sources import Contract

# The natives whose first argument names a definition, and the words that define such.
DEFINED_FIRST = {
    "var-get": ("define-data-var",), "var-set": ("define-data-var",), "map-get?": ("define-map",), "map-set": ("define-map",),
    "map-insert": ("define-map",), "map-delete": ("define-map",), "ft-get-balance": ("define-fungible-token",),
    "ft-get-supply": ("define-fungible-token",), "ft-mint?": ("define-fungible-token",), "ft-burn?": ("define-fungible-token",),
    "ft-transfer?": ("define-fungible-token",), "nft-get-owner?": ("define-non-fungible-token",),
    "nft-mint?": ("define-non-fungible-token",), "nft-burn?": ("define-non-fungible-token",), "nft-transfer?": ("define-non-fungible-token",),
}  # fmt: skip
# Those whose first argument is a function.
GIVEN_FIRST = ("map", "filter", "fold")
LITERAL = re.compile(r"""-?[0-9]|u[0-9]|0x|u?"|['.]""")
OWN_CONTRACT = re.compile(rf"(?:'{ADDRESS})?\.([A-Za-z][A-Za-z0-9_-]*)(?:\.|\Z)")


class Meaning(NamedTuple):
    """What a name means: what kind of thing, the name, and the item that gives it the name, with the form or the binding that does. Of a
    function of another contract `contract` is that contract's name; of a native, and of a contract, there is no item."""

    kind: str
    name: str
    item: Item = None
    given: Item = None
    contract: str = None


@functools.lru_cache(maxsize=16)
def outline(text):
    return Outline(text)


class Outline:
    """The items of a text, and what its names mean."""

    def __init__(self, text):
        self.text, self.items = text, readable_items(text)
        self.contract = Contract(self.items)

    def piece(self, item):
        """The text of an item in one line, without its comments."""
        return re.sub(r"\s+", " ", re.sub(r'("(?:[^"\\]|\\.)*")|;;[^\n]*', lambda found: found[1] or "", self.text[item.start : item.end])).strip()

    def path(self, at):
        """The path to the name or literal at a place, or just before it."""
        path = path_at(self.items, at)
        return path if path and path[-1].text is not None else path_at(self.items, at - 1) if at else path

    def meaning(self, path):
        """What the name at the end of a path means, or nothing."""
        if not path or path[-1].text is None:
            return None
        name, parent = path[-1], path[-2] if len(path) > 1 else None
        place = parent.items.index(name) if parent else 0
        head = parent.head() if parent else None
        contract = OWN_CONTRACT.match(name.text)
        if contract:
            return Meaning("contract", contract[1])
        if head == "contract-call?" and place == 2:
            target = OWN_CONTRACT.match(parent.items[1].text or "")
            return Meaning("function", name.text, contract=target[1]) if target else None
        if LITERAL.match(name.text) or head == "get" and place == 1 or self.is_key(path) or self.is_type(path):
            return None
        return self.binder(path) or self.named(path)

    def is_key(self, path):
        """Whether a name is the key of a pair in `(tuple (key e) ..)`."""
        return len(path) > 2 and path[-3].head() == "tuple" and path[-2] is not path[-3].items[0] and path[-2].items[0] is path[-1]

    def is_type(self, path):
        """Whether a name is of a type that a definition states."""
        return any(item is one for one in types_of(path[0]) for item in path[1:])

    def binder(self, path):
        """What the name at the end of a path means where it is given there."""
        name, form = path[-1], path[0]
        if self.contract.name_of(form) is name:
            return Meaning(form.head(), name.text, name, form)
        for param, given in self.contract.params(form):
            if param is name:
                return Meaning("parameter", name.text, name, given)
        for item in path[:-1]:
            for one in self.contract.names_of(item):
                if one is name:
                    pair = next((pair for pair in path if pair.items and pair.items[0] is name and len(pair.items) == 2), None)
                    return Meaning(item.head(), name.text, name, pair.items[1] if pair and item.head() == "let" else None)
        return None

    def named(self, path):
        """What the name at the end of a path means where it is used."""
        name = path[-1].text
        for item, given, by in reversed(self.contract.binders_above(path)):
            if item.text == name:
                return Meaning(by, name, item, given)
        form = self.contract.definitions.get(name)
        if form is not None:
            return Meaning(form.head(), name, self.contract.name_of(form), form)
        return Meaning("native", name) if name in advice.natives() else None

    def uses(self, meaning):
        """The items of the source that have this meaning."""
        found, left = [], [[item] for item in reversed(self.items)]
        while left:
            path = left.pop()
            if path[-1].items:
                left += [[*path, item] for item in reversed(path[-1].items)]
            elif path[-1].text and self.is_same(path, meaning):
                found.append(path[-1])
        return found

    def is_same(self, path, meaning):
        if meaning.name not in path[-1].text:
            return False
        found = self.meaning(path)
        return found is not None and found.name == meaning.name and (found.item, found.contract) == (meaning.item, meaning.contract)

    def signature(self, form):
        """A definition's head in one line: of a function its name and parameters, else the definition."""
        return self.piece(form.items[1] if form.head() in FUNCTIONS else form)
