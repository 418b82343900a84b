"""Evaluating an expression: its value, what it changes in the state, its events, its trace, and what it is charged."""
from checking import called_contract
from costs import DIMENSIONS, NOTHING, charge, plus
from natives import Abort, charged_at, entries_of, joined, native, value_of
from values import FALSE, NONE, TRUE, WORDS, size, some, tuple_of, write_value

GREATEST_AMOUNT = (1 << 128) - 1
# The natives that are charged so begin with a name that isn't evaluated; so do those of tokens.
NAMED = ("read_var", "write_var", "read_map", "write_map", "take")


class Throw(Exception):
    """An early return, with its value."""


class CostLimit(Abort):
    """The charges have passed the limit; `attempted` is the sum with the charge that passed it."""

    def __init__(self, dimension, attempted, limit):
        super().__init__(f"A8 CostLimit {dimension} {attempted[DIMENSIONS.index(dimension)]} {limit}")
        self.attempted = attempted


class State:
    """Variables, entries of maps, tokens and STX, with the events and moves of the entry that is evaluated."""

    def __init__(self):
        self.variables, self.entries, self.stx, self.events, self.moves = {}, {}, {}, [], []
        self.caps, self.supplies, self.balances, self.owners = {}, {}, {}, {}

    def copy(self):
        copied = State()
        for name, value in vars(self).items():
            setattr(copied, name, value.copy())
        for name in ("balances", "owners"):
            setattr(copied, name, {place: ledger.copy() for place, ledger in getattr(self, name).items()})
        return copied


class Meter:
    def __init__(self, table, limit):
        self.table, self.limit, self.spent = table, limit, NOTHING

    def charge(self, name, number):
        attempted = plus(self.spent, charge(self.table, name, number))
        for dimension, sum_, limit in zip(DIMENSIONS, attempted, self.limit):
            if sum_ > limit:
                raise CostLimit(dimension, attempted, limit)
        self.spent = attempted


class Frame:
    """Whose code is evaluated, who sent the transaction, and who called."""

    def __init__(self, contract, sender, caller):
        self.contract, self.principal, self.sender, self.caller = contract, contract.principal, sender, caller


class Evaluator:
    def __init__(self, deployed, state, meter, height):
        self.deployed, self.state, self.meter, self.height = deployed, state, meter, height
        # The span and the value of each expression that gave one, in the order in which they ended.
        self.trace = []

    # ---- expressions

    def found(self, name, value):
        """A value that is charged at its size once it is found."""
        self.meter.charge(name, size(value))
        return value

    def gave(self, item, value):
        self.trace.append((item.start, item.end, value))
        return value

    def evaluate(self, frame, item, bound):
        return self.gave(item, self.visit(frame, item, bound))

    def visit(self, frame, item, bound):
        if item.kind == "local":
            return self.found("literal", ("principal", called_contract(item, frame.principal)))
        if item.kind == "atom":
            return self.atom(frame, item.value, bound)
        if item.kind == "tuple":
            return self.tuple(frame, item.value, bound)
        if item.kind != "list":
            return self.found("literal", (item.kind, item.value))
        name, arguments = item.head(), item.value[1:]
        if native(name, frame.contract.version):
            return self.native(frame, name, arguments, bound)
        values = [self.evaluate(frame, argument, bound) for argument in arguments]
        return self.apply(frame, frame.contract.functions[name], values)

    def atom(self, frame, name, bound):
        if name in WORDS:
            return self.found("literal", WORDS[name])
        context = {"tx-sender": ("principal", frame.sender), "contract-caller": ("principal", frame.caller)}
        context["block-height"] = ("uint", self.height)
        if name in context:
            return self.found("context", context[name])
        return self.found("lookup", bound[name] if name in bound else frame.contract.constants[name])

    def tuple(self, frame, pairs, bound):
        fields = [(key, self.evaluate(frame, part, bound)) for key, part in pairs]
        self.meter.charge("make", sum(size(value) for _, value in fields))
        return tuple_of(fields)

    def apply(self, frame, function, values):
        """Applies a function of the frame's contract; the err of a public one undoes what it changed."""
        self.meter.charge("call", len(values))
        before = self.state.copy() if function.access == "public" else None
        for value in values:
            self.meter.charge("bind", size(value))
        bound = {name: value for (name, _), value in zip(function.parameters, values)}
        try:
            value = self.evaluate(frame, function.expression, bound)
        except Throw as thrown:
            value = thrown.args[0]
        if before is not None and value[0] == "err":
            self.state = before
        return value

    def apply_by_name(self, frame, item, values):
        name = item.value
        if not native(name, frame.contract.version):
            return self.apply(frame, frame.contract.functions[name], values)
        self.meter.charge(native(name, frame.contract.version).cost, charged_at(name, values, size))
        return self.gave(item, value_of(name, values))

    def native(self, frame, name, arguments, bound):
        row = native(name, frame.contract.version)
        if row.cost == "control":
            self.meter.charge("control", len(arguments))
            return self.control(frame, name, arguments, bound)
        if name == "tuple":
            return self.tuple(frame, [(pair.value[0].value, pair.value[1]) for pair in arguments], bound)
        if row.cost == "iterate":
            return self.iterate(frame, name, arguments, bound)
        if name == "contract-call?":
            return self.contract_call(frame, arguments, bound)
        named = row.cost in NAMED or name.startswith(("ft-", "nft-"))
        kept = 1 if name == "as-max-len?" else len(arguments)
        values = [self.evaluate(frame, argument, bound) for argument in arguments[1 if named else 0 : kept]]
        place = (frame.principal, arguments[0].value) if named else None
        if name in ("var-get", "map-get?"):
            return self.read(name, place, values)
        self.meter.charge(row.cost, len(values) if row.cost == "arith" else sum(map(size, values)))
        if name == "get":
            return field_of(arguments[0].value, values[0])
        if name == "as-max-len?":
            return some(values[0]) if len(values[0][1]) <= arguments[1].value else NONE
        if row.cost in ("write_var", "write_map"):
            return self.write(name, place, values)
        if row.cost in ("read_token", "write_token"):
            return self.token(frame, name, place, values)
        if name == "print":
            self.state.events.append((frame.principal, "print", write_value(values[0])))
            return values[0]
        return value_of(name, values)

    # ---- control

    def control(self, frame, name, arguments, bound):
        if name == "let":
            return self.let(frame, arguments, bound)
        if name == "as-contract":
            return self.evaluate(Frame(frame.contract, frame.principal, frame.principal), arguments[0], bound)
        first = self.evaluate(frame, arguments[0], bound)
        if name == "if":
            return self.evaluate(frame, arguments[1] if first[1] else arguments[2], bound)
        if name == "match":
            return self.match(frame, first, arguments, bound)
        if name in ("and", "or", "begin"):
            return self.following(frame, name, first, arguments[1:], bound)
        if name == "asserts!":
            gives = first[1]
        else:
            gives = first[0] in (("err",) if name == "unwrap-err!" else ("some", "ok"))
        if gives:
            return TRUE if name == "asserts!" else first[1]
        raise Throw(first if name == "try!" else self.evaluate(frame, arguments[1], bound))

    def following(self, frame, name, value, arguments, bound):
        """The last value of `begin`; of `and` and `or` that which decides."""
        for argument in arguments:
            if name != "begin" and value[1] == (name == "or"):
                break
            value = self.evaluate(frame, argument, bound)
        return value

    def let(self, frame, arguments, bound):
        inner = dict(bound)
        for binding in arguments[0].value:
            value = self.evaluate(frame, binding.value[1], inner)
            inner[binding.value[0].value] = self.found("bind", value)
        for argument in arguments[1:]:
            value = self.evaluate(frame, argument, inner)
        return value

    def match(self, frame, value, arguments, bound):
        if value[0] == "none":
            return self.evaluate(frame, arguments[3], bound)
        place = 3 if value[0] == "err" else 1
        self.found("bind", value[1])
        return self.evaluate(frame, arguments[place + 1], {**bound, arguments[place].value: value[1]})

    def iterate(self, frame, name, arguments, bound):
        use = arguments[0]
        values = [self.evaluate(frame, argument, bound) for argument in arguments[1:]]
        self.meter.charge("iterate", sum(map(size, values)))
        if name == "map":
            rows = zip(*map(entries_of, values))
            return ("list", tuple([self.apply_by_name(frame, use, list(row)) for row in rows]))
        if name == "filter":
            entries = entries_of(values[0])
            return joined(values[0][0], [entry for entry in entries if self.apply_by_name(frame, use, [entry])[1]])
        result = values[1]
        for entry in entries_of(values[0]):
            result = self.apply_by_name(frame, use, [entry, result])
        return result

    def contract_call(self, frame, arguments, bound):
        values = [self.evaluate(frame, argument, bound) for argument in arguments[2:]]
        target = self.deployed[called_contract(arguments[0], frame.principal)]
        self.meter.charge("contract_call", target.length)
        return self.apply(Frame(target, frame.sender, frame.principal), target.functions[arguments[1].value], values)

    # ---- variables and maps

    def read(self, name, place, values):
        if name == "var-get":
            return self.found("read_var", self.state.variables[place])
        entry = self.state.entries.get((place, values[0]))
        answer = NONE if entry is None else some(entry)
        self.meter.charge("read_map", size(values[0]) + size(answer))
        return answer

    def write(self, name, place, values):
        if name == "var-set":
            self.state.variables[place] = values[0]
            return TRUE
        entries, key = self.state.entries, (place, values[0])
        if name == "map-delete":
            return FALSE if entries.pop(key, None) is None else TRUE
        if name == "map-insert" and key in entries:
            return FALSE
        entries[key] = values[1]
        return TRUE

    # ---- tokens

    def token(self, frame, name, place, values):
        state = self.state
        if name == "ft-get-supply":
            return ("uint", state.supplies[place])
        if name in ("ft-get-balance", "stx-get-balance"):
            ledger = state.balances[place] if place else state.stx
            return ("uint", ledger.get(values[0][1], 0))
        if name == "nft-get-owner?":
            owner = state.owners[place].get(values[0])
            return NONE if owner is None else some(("principal", owner))
        act = name.rstrip("?")
        if act.startswith("nft-"):
            code, asset = self.asset_act(act, place, values), ("nft", *place, values[0])
        else:
            code, asset = self.amount_act(frame, act, place, values), ("ft", *place) if place else ("stx",)
        if code is not None:
            return ("err", ("uint", code))
        details = ([place[1]] if place else []) + [write_value(value) for value in values]
        state.events.append((frame.principal, act, " ".join(details)))
        if not act.endswith("-mint"):
            state.moves.append((values[1][1], asset, 1 if act.startswith("nft-") else values[0][1]))
        return ("ok", TRUE)

    def asset_act(self, act, place, values):
        """Acts on a single asset; gives the number of the err, or None where it is done."""
        owners, asset, who = self.state.owners[place], values[0], values[1][1]
        if act == "nft-mint":
            if asset in owners:
                return 1
            owners[asset] = who
            return None
        if act == "nft-transfer" and who == values[2][1]:
            return 2
        if asset not in owners:
            return 3
        if owners[asset] != who:
            return 1
        if act == "nft-burn":
            del owners[asset]
        else:
            owners[asset] = values[2][1]
        return None

    def amount_act(self, frame, act, place, values):
        """Acts on an amount; gives the number of the err, or None where it is done."""
        state, amount, who = self.state, values[0][1], values[1][1]
        ledger = state.balances[place] if place else state.stx
        if amount == 0:
            return 1 if act in ("ft-mint", "ft-burn") else 3
        if act == "ft-mint":
            if state.supplies[place] + amount > state.caps[place]:
                raise Abort("A6 SupplyOverflow")
            state.supplies[place] += amount
            add(ledger, who, amount)
            return None
        if act.endswith("-transfer") and who == values[2][1]:
            return 2
        if act.startswith("stx-") and who != frame.sender:
            return 4
        if ledger.get(who, 0) < amount:
            return 1
        add(ledger, who, -amount)
        if act.endswith("-transfer"):
            add(ledger, values[2][1], amount)
        elif place:
            state.supplies[place] -= amount
        return None


def add(ledger, principal, amount):
    ledger[principal] = ledger.get(principal, 0) + amount
    if not ledger[principal]:
        del ledger[principal]


def field_of(key, value):
    if value[0] == "tuple":
        return dict(value[1])[key]
    return some(dict(value[1][1])[key]) if value[0] == "some" else NONE


# ---- deployments

def deploy(evaluator, contract, sender):
    """Evaluates the forms of a contract in their order, and puts what they define into the state."""
    evaluator.meter.charge("deploy", contract.length)
    frame = Frame(contract, sender, sender)
    for place in contract.order:
        form = contract.forms[place]
        value = None
        if form.expression is not None and form.kind != "function":
            try:
                value = evaluator.evaluate(frame, form.expression, {})
            except Throw:
                raise Abort("A7 EarlyTop") from None
        if form.kind != "expression":
            evaluator.meter.charge("define", 0 if value is None else size(value))
            define(evaluator.state, contract, form, value)


def define(state, contract, form, value):
    place = (contract.principal, form.name)
    if form.kind == "constant":
        contract.constants[form.name] = value
    elif form.kind == "variable":
        state.variables[place] = value
    elif form.kind == "ft":
        state.caps[place], state.supplies[place] = GREATEST_AMOUNT if value is None else value[1], 0
        state.balances[place] = {}
    elif form.kind == "nft":
        state.owners[place] = {}
