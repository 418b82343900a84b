"""The definitions of a source, with the rules F1 to F5, and their order of evaluation, with O1."""
from kinds import BadType, read_type
from natives import DEFINES, LEFT_OUT, is_reserved
from texts import Break


class BadShape(Exception):
    """An item that begins with a define word and hasn't its shape."""


class Form:
    """A definition or an expression. Kinds: constant, variable, map, ft, nft, function, expression."""

    def __init__(self, item):
        self.start, self.end = item.start, item.end
        self.name, self.kind, self.expression, self.types, self.parameters = None, "expression", item, [], []
        if item.head() in DEFINES:
            self.define(item.head()[len("define-") :], item.value[1:])

    def define(self, word, parts):
        counts = {"constant": (2,), "data-var": (3,), "map": (3,), "fungible-token": (1, 2), "non-fungible-token": (2,)}
        if len(parts) not in counts.get(word, (2,)):
            raise BadShape
        if word in ("public", "read-only", "private"):
            self.define_function(word, *parts)
            return
        if parts[0].kind != "atom":
            raise BadShape
        self.name, self.expression = parts[0].value, None
        self.kind = {"data-var": "variable", "fungible-token": "ft", "non-fungible-token": "nft"}.get(word, word)
        self.types = {"variable": parts[1:2], "map": parts[1:], "nft": parts[1:]}.get(self.kind, [])
        if self.kind in ("constant", "variable") or (self.kind == "ft" and len(parts) == 2):
            self.expression = parts[-1]

    def define_function(self, access, head, body):
        if head.head() is None or not all(pair.is_pair() for pair in head.value[1:]):
            raise BadShape
        self.kind, self.access, self.name, self.expression = "function", access, head.head(), body
        self.parameters = [pair.value[0].value for pair in head.value[1:]]
        self.types = [pair.value[1] for pair in head.value[1:]]

    def read_types(self):
        self.types = [read_type(item) for item in self.types]


def left_out_atoms(item):
    if item.kind == "atom":
        return [item] if item.value in LEFT_OUT else []
    if item.kind == "tuple":
        return [atom for _, part in item.value for atom in left_out_atoms(part)]
    return [atom for part in item.value for atom in left_out_atoms(part)] if item.kind == "list" else []


def form_of(item):
    try:
        return Form(item)
    except BadShape:
        return None


def is_name_used(form, earlier, names):
    later = set()
    for parameter in form.parameters:
        if parameter in names or parameter in later:
            return True
        later.add(parameter)
    return form.name is not None and form.name in earlier


def forms_of(items, version):
    """The forms; raises Break with the first of the rules F1 to F5 that is broken."""
    read = [form_of(item) for item in items]
    names = {form.name for form in read if form is not None and form.name is not None}
    earlier = set()
    for item, form in zip(items, read):
        for atom in left_out_atoms(item):
            raise Break("F4 NotInProfile", atom.start, atom.end)
        if form is None:
            raise Break("F1 BadDefinition", item.start, item.end)
        try:
            form.read_types()
        except BadType:
            raise Break("F2 BadType", item.start, item.end) from None
        if any(is_reserved(name, version) for name in [form.name, *form.parameters] if name is not None):
            raise Break("F3 BadName", item.start, item.end)
        if is_name_used(form, earlier, names):
            raise Break("F5 NameUsed", item.start, item.end)
        earlier.add(form.name)
    return read


# ---- the order

def names_in(item, found):
    """Adds the atoms of an expression that name a form of their name."""
    if item.kind == "atom":
        found.add(item.value)
    elif item.kind == "tuple":
        for _, part in item.value:
            names_in(part, found)
    elif item.kind == "list":
        head = item.head()
        unnamed = {"get": (1,), "contract-call?": (1, 2)}.get(head, ())
        for place, part in enumerate(item.value):
            if head == "tuple" and place and part.is_pair():
                names_in(part.value[1], found)
            elif part.kind != "atom" or place not in unnamed:
                names_in(part, found)


def order_of(forms):
    """The places of the forms in the order of evaluation; raises Break with the first ring that is met."""
    by_name = {form.name: place for place, form in enumerate(forms) if form.name is not None}
    named = []
    for form in forms:
        found = set()
        if form.expression is not None:
            names_in(form.expression, found)
        named.append(sorted(by_name[name] for name in found if name in by_name))
    done, order = set(), []
    for start in range(len(forms)):
        visit(start, forms, named, done, order)
    return order


def visit(start, forms, named, done, order):
    """Puts a form into the order behind all that it names, depth first."""
    path, places, ways = [], {}, []
    following = start
    while True:
        if following is not None and following not in done:
            if following in places:
                ring = path[places[following] :]
                raise Break("O1 Cycle", forms[ring[0]].start, forms[ring[0]].end, "".join(f" {forms[at].name}" for at in ring))
            places[following] = len(path)
            path.append(following)
            ways.append(iter(named[following]))
        if not path:
            return
        following = next(ways[-1], None)
        if following is None:
            ways.pop()
            finished = path.pop()
            del places[finished]
            done.add(finished)
            order.append(finished)
