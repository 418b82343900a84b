"""Finds the contract of each claim of a trace.

A claim is the span of an expression and its value; it doesn't name the contract. So the expressions that an entry evaluates are walked
in step with its claims: their values say which branch is taken, what returns early, and how often a function is applied. The walk is
exact for the whole trace of an entry. Of a part of one it says what is certain all the same.
"""
import collections
import sys

from items import FUNCTIONS, items_of, seconds

# Where the expression of a definition is in its list; beyond the end where it has none.
EXPRESSIONS = {
    "define-constant": 2, "define-data-var": 3, "define-fungible-token": 2, "define-map": 4, "define-non-fungible-token": 3,
    **dict.fromkeys(FUNCTIONS, 2),
}  # fmt: skip
# The first bytes of wire forms.
TRUE, FALSE, OK, ERR, NONE, SOME = "03", "04", "07", "08", "09", "0a"
ITERATING = ("map", "filter", "fold")
# With which values the natives that may return early go on.
GOING_ON = {"asserts!": (TRUE,), "unwrap!": (SOME, OK), "unwrap-err!": (ERR,), "try!": (SOME, OK)}
# The two branches of an expression, as they are called.
BRANCHES = {
    "if": ("then", "else"), "and": ("true", "false"), "or": ("true", "false"), "match": ("some or ok", "none or err"),
    **dict.fromkeys(GOING_ON, ("goes on", "returns early")),
}  # fmt: skip
# The natives that may abort where their arguments have values, and those that panic, with the values on which they do.
ABORTING = ("+", "-", "*", "/", "mod", "pow", "sqrti", "log2", "to-int", "to-uint", "ft-mint?")
PANICS = {"unwrap-panic": (NONE, ERR), "unwrap-err-panic": (OK,)}
# The greatest height of an expression is 256, with a few calls here for each level.
sys.setrecursionlimit(max(sys.getrecursionlimit(), 10000))


class Lost(Exception):
    """The claims aren't those of the expressions."""


class Ended(Exception):
    """No claim is left for this expression."""


class Early(Exception):
    """An expression returns early."""


class Contract:
    """A source that an entry deploys: its functions by their names, each its expression, and its other expressions in the order in
    which they are evaluated."""

    def __init__(self, entry, members):
        self.entry, self.principal = entry, f"{members['sender']}.{members['name']}"
        self.source = members["source"].encode("utf-8", "surrogatepass")
        self.forms = items_of(self.source.decode("latin-1"))
        self.functions, self.expressions = {}, []
        forms = self.forms or []
        for item in forms:
            if item.head() in FUNCTIONS and len(item.items) == 3 and item.items[1].head():
                self.functions[item.items[1].head()] = item.items[2]
        for place in in_order(forms):
            self.expressions += [] if forms[place].head() in FUNCTIONS else expression_of(forms[place])

    def parts(self, item):
        """The parts of an expression that may be evaluated, in order; a native given by name is one."""
        if item.text is not None or not item.items:
            return []
        head, arguments = item.head(), item.items[1:]
        if not item.is_list():
            return item.items
        if head in self.functions:
            return arguments
        if head == "tuple":
            return seconds(arguments)
        if head == "let":
            return seconds((arguments[0].items if arguments else None) or []) + arguments[1:]
        if head == "match":
            return arguments[:1] + arguments[2::2] + ([] if len(arguments) % 2 else arguments[3:])
        if head in ITERATING:
            return [name for name in arguments[:1] if name.text not in self.functions] + arguments[1:]
        if head == "contract-call?":
            return arguments[2:]
        if head == "as-max-len?":
            return arguments[:1]
        return arguments[1:] if head == "get" or str(head).startswith(("var-", "map-", "ft-", "nft-")) else arguments

    def all_of(self, item):
        """An expression and all its parts that may be evaluated."""
        yield item
        for part in self.parts(item):
            yield from self.all_of(part)

    def target(self, item):
        """The contract and the function that a `contract-call?` names."""
        called = item.items[1].text or ""
        return called[1:] if called.startswith("'") else self.principal.partition(".")[0] + called, item.items[2].text


def expression_of(item):
    """The expression of a definition, or the item itself, in a list; of a definition without one an empty list."""
    place = EXPRESSIONS.get(item.head())
    return [item] if place is None else item.items[place : place + 1]


def names_in(item):
    """The atoms of an expression that name a definition of their name."""
    if item.text is not None:
        return {item.text}
    head, parts = item.head(), item.items
    if head == "tuple":
        parts = seconds(parts[1:])
    unnamed = {"get": parts[1:2], "contract-call?": parts[1:3]}.get(head, ())
    return {name for part in parts if part.text is None or part not in unnamed for name in names_in(part)}


def in_order(forms):
    """The places of the forms of a source in the order of evaluation: in text order, each behind those that it names."""
    by_name = {}
    for place, item in enumerate(forms):
        if item.head() in EXPRESSIONS and len(item.items) > 1:
            by_name[item.items[1].text or item.items[1].head()] = place
    named = [sorted({by_name[name] for part in expression_of(item) for name in names_in(part) if name in by_name}) for item in forms]
    begun, found, left = set(), [], list(reversed(range(len(forms))))
    while left:
        place = left.pop()
        if place < 0:
            found.append(~place)
        elif place not in begun:
            begun.add(place)
            left += [~place, *reversed(named[place])]
    return found


class Contracts:
    """The contracts that the entries of a transaction file deploy. `ended` says of a deployment whether it was done, where this is
    known; a contract is deployed once."""

    def __init__(self, entries, ended=()):
        self.entries, self.ended, self.kept = entries, dict(ended), {}
        self.deployments = collections.defaultdict(list)
        for number, (kind, members) in enumerate(entries):
            if kind == "deploy" and all(isinstance(members.get(name), str) for name in ("sender", "name", "source")):
                contract = Contract(number, members)
                if contract.forms is not None:
                    self.deployments[contract.principal].append(contract)

    def called(self, principal, number):
        """What may be the contract of this principal at an entry: one, unless it isn't known which deployment was done."""
        found = {}
        for contract in self.deployments.get(principal, []):
            if contract.entry < number and self.ended.get(contract.entry) is not False:
                found.setdefault(contract.source, contract)
                if self.ended.get(contract.entry):
                    break
        return list(found.values())

    def deployed(self, number):
        """The contract that an entry deploys, or nothing."""
        members = self.entries[number][1]
        same = self.deployments.get(f"{members.get('sender')}.{members.get('name')}", [])
        return next((contract for contract in same if contract.entry == number), None)

    def kind(self, number):
        return self.entries[number][0] if number < len(self.entries) else None

    def begun(self, number):
        """What an entry may evaluate first: pairs of a contract and its expressions."""
        if self.kind(number) == "deploy":
            return [(contract, contract.expressions) for contract in [self.deployed(number)] if contract]
        if self.kind(number) != "call":
            return []
        members = self.entries[number][1]
        contracts, function = self.called(str(members.get("contract")), number), str(members.get("function"))
        return [(contract, [contract.functions[function]]) for contract in contracts if function in contract.functions]

    def reached(self, number):
        """The expressions that an entry may evaluate: by their spans, their contracts."""
        begun = self.begun(number)
        key = (*(item for _, expressions in begun for item in expressions), len(self.ended))
        if key not in self.kept:
            self.kept[key] = self.reached_from(begun)
        return self.kept[key]

    def reached_from(self, left):
        found, seen = collections.defaultdict(list), set()
        while left:
            contract, expressions = left.pop()
            for item in (part for expression in expressions for part in contract.all_of(expression)):
                contracts = found[item.start, item.end]
                if contract not in contracts:
                    contracts.append(contract)
                for target, name in self.applied(contract, item):
                    if name in target.functions and (target, name) not in seen:
                        seen.add((target, name))
                        left.append((target, [target.functions[name]]))
        return found

    def applied(self, contract, item):
        """The functions that an expression may apply itself."""
        if item.head() == "contract-call?" and len(item.items) > 2:
            principal, name = contract.target(item)
            return [(target, name) for target in self.called(principal, contract.entry)]
        place = 1 if item.head() in ITERATING else 0
        return [(contract, part.text) for part in (item.items or [])[place : place + 1] if part.text]

    def settle(self, number, walk):
        """Takes from the walk of a deployment what it says of it, and of those of its name before it."""
        contract = self.deployed(number)
        if contract is None or number in self.ended:
            return
        for before in self.deployments[contract.principal]:
            # A contract isn't deployed twice, and this deployment was begun.
            if before.entry < number:
                self.ended[before.entry] = False
        # A limit and a condition may undo a deployment whose expressions have all been evaluated.
        if walk.is_whole() and (walk.is_early or not {"limit", "post", "mode"} & set(self.entries[number][1])):
            self.ended[number] = not walk.is_early


class Walk:
    """A walk through the expressions of an entry. `places` has the contract and the expression of each claim so far, `hits` how often
    an expression of a contract, or a part of it, gave a value, and `taken` how often each of its two branches was taken."""

    def __init__(self, contracts, number, claims):
        self.contracts, self.claims = contracts, claims
        self.places, self.pending, self.last = [], [], ""
        self.hits, self.taken = collections.Counter(), collections.Counter()
        self.is_early = self.is_lost = self.is_ended = self.may_end = False
        try:
            self.begin(contracts.begun(number), contracts.kind(number) == "call")
        except Early:
            self.is_early = True
        except Ended as ended:
            self.is_ended, self.may_end = True, ended.args[0]
        except (Lost, RecursionError, IndexError, AttributeError, TypeError, ValueError):
            # A source that was refused may have any shape.
            self.is_lost = True
        self.is_lost = self.is_lost or len(self.places) < len(claims)

    def is_whole(self):
        """Whether the claims are those of an entry that came to its end, or returned early at the top."""
        return not (self.is_lost or self.is_ended)

    def begin(self, begun, is_call):
        if len(begun) != 1:
            raise Lost
        contract, expressions = begun[0]
        if is_call:
            self.apply_to(contract, expressions[0])
        else:
            self.each(contract, expressions)

    def each(self, contract, items):
        """Walks expressions in order, and gives the last value."""
        value = None
        for item in items:
            value = self.evaluate(contract, item)
        return value

    def evaluate(self, contract, item):
        """Walks an expression that gives a value, and gives this value."""
        self.pending.append((contract, item))
        head = item.head()
        if head in contract.functions:
            self.each(contract, item.items[1:])
            self.apply(contract, head)
        elif head in WALKS:
            WALKS[head](self, contract, item)
        else:
            self.each(contract, contract.parts(item))
        return self.give(contract, item)

    def give(self, contract, item):
        """Takes the claim of an expression."""
        if len(self.places) == len(self.claims):
            raise Ended(self.may_abort(contract, item))
        start, end, value = self.claims[len(self.places)]
        if (start, end) != (item.start, item.end):
            raise Lost
        self.places.append((contract, item))
        self.hits.update(self.pending)
        self.pending.clear()
        self.last = value
        return value

    def may_abort(self, contract, item):
        word = item.text or item.head()
        return word not in contract.functions and (word in ABORTING or self.last[:2] in PANICS.get(word, ()))

    def apply(self, contract, name):
        """Walks an application of a function."""
        if name not in contract.functions:
            raise Lost
        self.apply_to(contract, contract.functions[name])

    def apply_to(self, contract, expression):
        try:
            self.evaluate(contract, expression)
        except Early:
            pass

    def take(self, contract, item, is_first):
        """Counts a branch, and says whether it is the first of the two."""
        self.taken[contract, item, 0 if is_first else 1] += 1
        return is_first

    # Natives that don't evaluate all their parts once.

    def if_(self, contract, item):
        is_true = self.evaluate(contract, item.items[1]) == TRUE
        self.evaluate(contract, item.items[2 if self.take(contract, item, is_true) else 3])

    def junction(self, contract, item):
        deciding, value = FALSE if item.head() == "and" else TRUE, None
        for part in item.items[1:]:
            value = self.evaluate(contract, part)
            if value == deciding:
                break
        self.take(contract, item, value == TRUE)

    def may_return(self, contract, item):
        value = self.evaluate(contract, item.items[1])
        if not self.take(contract, item, value[:2] in GOING_ON[item.head()]):
            self.each(contract, item.items[2:])
            raise Early

    def match(self, contract, item):
        value = self.evaluate(contract, item.items[1])
        self.evaluate(contract, item.items[3 if self.take(contract, item, value[:2] in (SOME, OK)) else -1])

    def iterate(self, contract, item):
        name, values = item.items[1], [self.evaluate(contract, part) for part in item.items[2:]]
        for _ in range(min(map(length, values[:1] if item.head() == "fold" else values))):
            if name.text in contract.functions:
                self.apply(contract, name.text)
            else:
                self.pending.append((contract, name))
                self.give(contract, name)

    def contract_call(self, contract, item):
        self.each(contract, item.items[3:])
        principal, name = contract.target(item)
        targets = self.contracts.called(principal, contract.entry)
        if len(targets) != 1:
            raise Lost
        self.apply(targets[0], name)


WALKS = {
    "if": Walk.if_, "and": Walk.junction, "or": Walk.junction, "match": Walk.match, "contract-call?": Walk.contract_call,
    **dict.fromkeys(GOING_ON, Walk.may_return), **dict.fromkeys(ITERATING, Walk.iterate),
}  # fmt: skip


def length(value):
    """The number of entries of a sequence in its wire form."""
    if value[:2] == "0e":
        return len(bytes.fromhex(value[10:]).decode("utf-8", "replace"))
    if value[:2] not in ("02", "0b", "0d") or len(value) < 10:
        raise Lost
    return int(value[2:10], 16)


def placed(contracts, number, claims):
    """For each claim of an entry the contracts that its expression may be of, one where that is certain; and of several that which it is
    of if the claims are the whole trace of the entry."""
    walk = Walk(contracts, number, claims)
    if contracts.kind(number) == "deploy":
        contracts.settle(number, walk)
    if walk.is_whole():
        return [([contract], None) for contract, _ in walk.places]
    may_end = not walk.is_lost and (walk.may_end or "limit" in contracts.entries[number][1])
    walked = [contract for contract, _ in walk.places] if may_end else []
    reached = contracts.reached(number)
    found = [sorted(reached.get((start, end), []), key=lambda contract: contract.entry) for start, end, _ in claims]
    return [(all_, walked[at] if at < len(walked) and len(all_) > 1 else None) for at, all_ in enumerate(found)]
