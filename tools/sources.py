"""What the text of a source alone says of an expression: where its part is that breaks a rule.

What is known here of types is their kind alone ("uint", "response"), or nothing.
"""
import re

from items import FUNCTIONS

NUMBERS = ("int", "uint")
SEQUENCES = ("list", "buff", "string-ascii", "string-utf8")
TEXTS = ("buff", "string-ascii", "string-utf8")
# How many expressions are looked at for one answer: a chain of functions can call each twice.
MOST_LOOKS = 20000
KEYWORDS = {
    "true": "bool", "false": "bool", "none": "optional", "tx-sender": "principal", "contract-caller": "principal", "block-height": "uint",
}  # fmt: skip
# A line for each native: the kinds that it takes at its arguments, and the kind that it gives where the text can say it. `any` takes
# every kind, `-` is a name or a number of the text, and `..` repeats the argument before it.
TABLE = """
sqrti number
log2 number
to-int uint -> int
to-uint int -> uint
not bool -> bool
and bool .. -> bool
or bool .. -> bool
is-eq any .. -> bool
< ordered ordered -> bool
<= ordered ordered -> bool
> ordered ordered -> bool
>= ordered ordered -> bool
sha256 digested -> buff
sha512/256 digested -> buff
sha512 digested -> buff
some any -> optional
ok any -> response
err any -> response
is-some optional -> bool
is-none optional -> bool
is-ok response -> bool
is-err response -> bool
default-to any optional
unwrap-panic carrier
unwrap-err-panic response
unwrap! carrier any
unwrap-err! response any
try! carrier
list any .. -> list
merge tuple tuple -> tuple
append list any -> list
concat sequence sequence
as-max-len? sequence - -> optional
get - record
len sequence -> uint
element-at sequence uint -> optional
element-at? sequence uint -> optional
index-of sequence any -> optional
index-of? sequence any -> optional
slice? sequence uint uint -> optional
replace-at? sequence uint any -> optional
to-consensus-buff? any -> optional
bit-not number
bit-shift-left number uint
bit-shift-right number uint
var-get -
var-set - any -> bool
map-get? - any -> optional
map-set - any any -> bool
map-insert - any any -> bool
map-delete - any -> bool
ft-get-balance - principal -> uint
ft-get-supply - -> uint
stx-get-balance principal -> uint
nft-get-owner? - any -> optional
ft-mint? - uint principal -> response
ft-burn? - uint principal -> response
ft-transfer? - uint principal principal -> response
nft-mint? - any principal -> response
nft-burn? - any principal -> response
nft-transfer? - any principal principal -> response
stx-transfer? uint principal principal -> response
stx-burn? uint principal -> response
if bool any any
asserts! bool any -> bool
"""
GROUPS = {
    "any": (), "-": (), "number": NUMBERS, "sequence": SEQUENCES, "carrier": ("optional", "response"), "record": ("tuple", "optional"),
    "ordered": NUMBERS + TEXTS, "digested": ("buff",) + NUMBERS,
}  # fmt: skip


def _natives():
    """For each native the kinds that it takes, a tuple for each argument, whether the last repeats, and the kind that it gives."""
    found = {}
    for line in TABLE.strip().splitlines():
        left, _, gives = line.partition(" -> ")
        name, *words = left.split(" ")
        repeats = words[-1] == ".."
        found[name] = [GROUPS.get(word, (word,)) for word in words[: len(words) - repeats]], repeats, gives or None
    return found


NATIVES = _natives()
ONE_NUMBER = ("+", "-", "*", "/", "mod", "pow", "xor", "bit-and", "bit-or", "bit-xor")
LITERALS = (
    ("0x", "buff"), (r"-?[0-9]", "int"), (r"u[0-9]+\Z", "uint"), ('"', "string-ascii"), ('u"', "string-utf8"), (r"['.]", "principal"),
)  # fmt: skip
# Natives whose value is that of their last expression, and those whose value is of the kind of one argument.
LAST = ("let", "begin", "as-contract", "print")


class Contract:
    """What the definitions of a source say by their text."""

    def __init__(self, items):
        self.items = items or []
        self.definitions, self.looks = {}, 0
        for item in self.items:
            name = self.name_of(item)
            if name is not None:
                self.definitions.setdefault(name.text, item)

    def name_of(self, item):
        """The name that an item defines, as an item."""
        if not (item.is_list() and str(item.head()).startswith("define-") and len(item.items) > 1):
            return None
        name = item.items[1]
        return name.items[0] if name.is_list() and name.items else name if name.text else None

    def params(self, item):
        """The parameters of a function, each its name and its type as items."""
        if item.head() not in FUNCTIONS or len(item.items) < 2 or not item.items[1].is_list():
            return []
        return [(p.items[0], p.items[1]) for p in item.items[1].items[1:] if p.is_list() and len(p.items) == 2]

    def kind(self, item, bound, depth=0):
        """The kind of the value of an expression, or nothing where the text alone doesn't say it."""
        self.looks += 1
        if depth > 40 or self.looks > MOST_LOOKS:
            return None
        if item.text is not None:
            return self.kind_of_token(item.text, bound, depth)
        if item.opening == "{":
            return "tuple"
        head = item.head()
        if head in ONE_NUMBER:
            return next((k for k in (self.kind(part, bound, depth + 1) for part in item.items[1:]) if k in NUMBERS), None)
        if head in LAST and len(item.items) > 1:
            return self.kind(item.items[-1], bound | self.bound_by(item, bound), depth + 1)
        if head in ("if", "match") and len(item.items) > 3:
            # Either branch says it: the last, or the one before it that is no name.
            return self.kind(item.items[-1], bound, depth + 1) or self.kind(item.items[2 if head == "if" else 3], bound, depth + 1)
        if head == "default-to" and len(item.items) == 3:
            return self.kind(item.items[1], bound, depth + 1)
        if head in ("concat", "filter") and len(item.items) == 3:
            return self.kind(item.items[1 if head == "concat" else 2], bound, depth + 1)
        if head == "fold" and len(item.items) == 4:
            return self.kind(item.items[3], bound, depth + 1)
        if head in ("map", "tuple"):
            return "list" if head == "map" else "tuple"
        if head in NATIVES:
            return self.kind_of_native(head, item, depth)
        called = self.definitions.get(head)
        if called is None or called.head() not in FUNCTIONS:
            return None
        if called.head() == "define-public":
            return "response"
        return self.kind(called.items[2], self.bound_by_params(called), depth + 1) if len(called.items) == 3 else None

    def kind_of_native(self, head, item, depth):
        variable = self.definitions.get(item.items[1].text) if head == "var-get" and len(item.items) == 2 else None
        if variable is not None and variable.head() == "define-data-var" and len(variable.items) == 4:
            return kind_of_type(variable.items[2])
        return NATIVES[head][2]

    def kind_of_token(self, text, bound, depth):
        if text in bound:
            return bound[text]
        if text in KEYWORDS:
            return KEYWORDS[text]
        for pattern, kind in LITERALS:
            if re.match(pattern, text):
                return kind
        constant = self.definitions.get(text)
        if constant is not None and constant.head() == "define-constant" and len(constant.items) == 3:
            return self.kind(constant.items[2], {}, depth + 1)
        return None

    def bound_by_params(self, item):
        return {name.text: kind_of_type(given) for name, given in self.params(item)}

    def bound_by(self, item, bound):
        """The names that a `let` binds, with the kinds of their values."""
        found = {}
        if item.head() == "let" and len(item.items) > 1 and item.items[1].is_list():
            for pair in item.items[1].items:
                if pair.is_list() and len(pair.items) == 2 and pair.items[0].text:
                    found[pair.items[0].text] = self.kind(pair.items[1], bound | found)
        return found

    def names_of(self, item):
        """The names that a `let` or a `match` binds, as items."""
        if item.head() == "let" and len(item.items) > 1 and item.items[1].is_list():
            return [pair.items[0] for pair in item.items[1].items if pair.is_list() and len(pair.items) == 2 and pair.items[0].text]
        if item.head() == "match":
            return [item.items[place] for place in ((2,) if len(item.items) == 5 else (2, 4)) if place < len(item.items)]
        return []

    def binders_above(self, path):
        """The names that are bound at the last item of a path, as items, each with its type, its expression or nothing, and by what it
        is bound: a parameter, a `let` or a `match`."""
        found = [(name, given, "parameter") for name, given in self.params(path[0])] if path else []
        for place, (item, below) in enumerate(zip(path, path[1:])):
            names = self.names_of(item)
            if item.head() == "let":
                pairs = [pair for pair in item.items[1].items if pair.items and pair.items[0] in names] if names else []
                if below is item.items[1]:
                    # In a binding those before it are bound.
                    pairs = [pair for pair in pairs if path[place + 2 :] and pair.end <= path[place + 2].start]
                found += [(pair.items[0], pair.items[1], "let") for pair in pairs]
            elif item.head() == "match":
                # A name is bound in the expression right after it.
                here = item.items.index(below)
                found += [(name, None, "match") for name in names if item.items.index(name) == here - 1]
        return found

    def bound_above(self, path):
        """The names that are bound at the last item of a path, with the kinds of their values."""
        bound = {}
        for name, given, by in self.binders_above(path):
            bound[name.text] = kind_of_type(given) if by == "parameter" else self.kind(given, bound) if by == "let" else None
        return bound


def kind_of_type(item):
    """The kind of a type as it is written."""
    return item.text if item.text is not None else "tuple" if item.opening == "{" else item.head()


# The part of an item that breaks a rule, as far as the text says it.


def wrong_argument(contract, path):
    """The argument that is of another kind than is wanted; of a definition its expression."""
    item = path[-1]
    head, bound = item.head(), contract.bound_above(path)
    if head in ("define-data-var", "define-fungible-token"):
        return item.items[-1]
    arguments = item.items[1:]
    kinds = [contract.kind(argument, bound) for argument in arguments]
    if head in ONE_NUMBER or head in ("<", "<=", ">", ">="):
        taken = NUMBERS if head in ONE_NUMBER else NUMBERS + TEXTS
        first = next((kind for kind in kinds if kind in taken), None)
        taken = taken if first is None else (first,)
        return next((argument for argument, kind in zip(arguments, kinds) if kind is not None and kind not in taken), None)
    wanted = taken_by(contract, head, len(arguments))
    wanted = [declared(contract, item).get(place, takes) for place, takes in enumerate(wanted)]
    typed = [(a, kind, takes) for a, kind, takes in zip(arguments, kinds, wanted) if takes]
    known = next((a for a, kind, takes in typed if kind is not None and kind not in takes), None)
    return known or (typed[0][0] if len(typed) == 1 else None)


def taken_by(contract, head, count):
    """The kinds that an operator takes at each of so many arguments; none at one that may be of any kind or is no value."""
    called = contract.definitions.get(head)
    if called is not None:
        return [(kind_of_type(given),) for _, given in contract.params(called)]
    if head not in NATIVES:
        return []
    takes, repeats, _ = NATIVES[head]
    return takes * count if repeats else takes


def declared(contract, item):
    """The kinds that are declared for the arguments of a native that names a variable, a map or an asset, by their places."""
    named = contract.definitions.get(item.items[1].text) if len(item.items) > 1 else None
    words = {"var-set": "define-data-var", "nft-mint?": "define-non-fungible-token", "nft-burn?": "define-non-fungible-token",
             "nft-transfer?": "define-non-fungible-token", "nft-get-owner?": "define-non-fungible-token"}  # fmt: skip
    word = "define-map" if str(item.head()).startswith("map-") else words.get(item.head())
    if named is None or word is None or named.head() != word:
        return {}
    types = named.items[2:3] if word != "define-map" else named.items[2:]
    return {place: (kind_of_type(given),) for place, given in enumerate(types, 1)}


def unused_response(contract, path):
    """The expression of `begin` or `let` other than the last that has a response type."""
    item = path[-1]
    middle = item.items[1 if item.head() == "begin" else 2 : -1]
    bound = contract.bound_above(path) | contract.bound_by(item, contract.bound_above(path))
    kinds = [contract.kind(part, bound) for part in middle]
    known = next((part for part, kind in zip(middle, kinds) if kind == "response"), None)
    unknown = [part for part, kind in zip(middle, kinds) if kind is None]
    return known or (unknown[0] if len(unknown) == 1 else None)


def used_name(contract, path):
    """The name of a definition, or the parameter, that another has already."""
    item = path[-1]
    name = contract.name_of(item)
    if name is None:
        return None
    if contract.definitions.get(name.text, item) is not item:
        return name
    before = set()
    for param, _ in contract.params(item):
        if param.text in before or param.text in contract.definitions:
            return param
        before.add(param.text)
    return None


def shadowed_name(contract, path, reserved):
    """The name that a `let` or a `match` binds, and that means something else already."""
    before = set(contract.bound_above(path)) | set(contract.definitions) | reserved
    names = contract.names_of(path[-1])
    # The two names of a match of a response are bound in a branch each, and must differ all the same.
    for name in names:
        if name.text in before:
            return name
        before.add(name.text)
    return names[0] if len(names) == 1 else None
