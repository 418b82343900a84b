"""Checking a source: typed expressions, or the first break of the rules for expressions and forms (C1 to C25)."""
from dataclasses import dataclass, field

import natives
from forms import forms_of, order_of
from kinds import (
    BOOL, NO_TYPE, PRINCIPAL, UINT, Broken, admits, entry_of, is_sequence, least_supertype, made, size, tuple_of, with_length
)
from natives import ROWS, WRITING, charged_at, err_part, is_reserved, native, ok_part, type_of, want
from texts import Break, read

HIGHEST = 256
NAMES = (
    "UnknownName ArgumentCount ArgumentKind NotSame TooLarge TooDeep Undetermined ThrownDiffer NotResponse UnusedResponse "
    "ShadowedName NoSuchKey NoSuchVariable NoSuchMap NoSuchToken NoSuchContract NoSuchFunction NotAFunction LiteralExpected "
    "EmptyForm BadBinding TooDeepCalls KeyTwice NotAValue WritesInReadOnly"
).split()
DONE = ("response", BOOL, UINT)


def broken(rules, place):
    """The break of the least of these rules at an item or form."""
    number = min(rules)
    return Break(f"C{number} {NAMES[number - 1]}", place.start, place.end)


def outcome(rule, *arguments):
    """The type that a rule gives, or none and the rules that are broken."""
    try:
        return rule(*arguments), set()
    except Broken as error:
        return NO_TYPE, error.rules


@dataclass
class Use:
    """What is given by name to `map`, `filter` or `fold`, applied so many times at entries of these types."""

    name: str
    function: object
    kinds: list
    times: int


@dataclass
class Code:
    """A typed expression: what it is charged itself at the sizes of its types, its parts, and the branches of which one runs."""

    type: tuple
    thrown: tuple = None
    height: int = 1
    charges: list = field(default_factory=list)
    parts: list = field(default_factory=list)
    branches: list = field(default_factory=list)
    called: object = None
    use: Use = None


@dataclass
class Function:
    name: str
    access: str
    parameters: list
    returns: tuple
    height: int
    body: Code
    expression: object


@dataclass
class Checked:
    """An accepted contract, with the typed expression of each form that has one."""

    principal: tuple
    version: int
    length: int
    forms: list
    order: list
    functions: dict
    codes: dict
    constants: dict = field(default_factory=dict)


TABLES = {
    **dict.fromkeys(("var-get", "var-set"), ("variable", 13)),
    **dict.fromkeys(("map-get?", "map-set", "map-insert", "map-delete"), ("map", 14)),
    **dict.fromkeys(("ft-get-balance", "ft-get-supply", "ft-mint?", "ft-burn?", "ft-transfer?"), ("ft", 15)),
    **dict.fromkeys(("nft-get-owner?", "nft-mint?", "nft-burn?", "nft-transfer?"), ("nft", 15)),
}


class Checker:
    """What is known at a form: the forms that come before in the order of evaluation, and the deployed contracts."""

    def __init__(self, deployed, principal, version):
        self.deployed, self.principal, self.version = deployed, principal, version
        self.defined, self.functions = {}, {}

    # ---- names

    def native(self, name):
        return native(name, self.version)

    def is_taken(self, name, bound):
        return is_reserved(name, self.version) or name in self.defined or name in bound

    def kind_of(self, name):
        return self.defined[name].kind if name in self.defined else None

    # ---- an expression

    def conclude(self, item, code, rules=(), throws=None):
        """The expression, with what it throws; raises the least rule that is broken at it."""
        rules, parts = set(rules), code.parts + [part for _, branch in code.branches for part in branch]
        thrown = [kind for kind in [part.thrown for part in parts] + [throws] if kind is not None]
        if thrown:
            code.thrown, differing = outcome(lambda: least_supertype(*thrown, differ=8))
            rules |= differing
        if rules:
            raise broken(rules, item)
        heights = [part.height for part in parts]
        if code.called is not None:
            heights.append(code.called.height)
        if code.use is not None:
            heights.append(code.use.function.height if code.use.function else 1)
        code.height = 1 + max(heights, default=0)
        return code

    def leaf(self, item, kind, charge="literal"):
        kind, rules = outcome(made, kind)
        return self.conclude(item, Code(kind, charges=[(charge, size(kind))]), rules)

    def judge(self, item, bound):
        if item.kind in ("int", "uint", "principal"):
            return self.leaf(item, (item.kind,))
        if item.kind == "local":
            return self.leaf(item, PRINCIPAL)
        if item.kind in ("buff", "ascii", "utf8"):
            return self.leaf(item, (item.kind, len(item.value)))
        if item.kind == "atom":
            return self.atom(item, bound)
        if item.kind == "tuple":
            return self.tuple(item, item.value, set(), bound)
        return self.application(item, bound)

    def atom(self, item, bound):
        name = item.value
        words = {"true": BOOL, "false": BOOL, "none": ("optional", NO_TYPE)}
        if name in words:
            return self.leaf(item, words[name])
        if name in ("tx-sender", "contract-caller", "block-height"):
            return self.leaf(item, UINT if name == "block-height" else PRINCIPAL, "context")
        if name in bound:
            return self.leaf(item, bound[name], "lookup")
        if self.kind_of(name) == "constant":
            return self.leaf(item, self.defined[name].type, "lookup")
        is_no_value = self.native(name) or name in natives.DEFINES or name in self.defined
        raise broken({24 if is_no_value else 1}, item)

    def application(self, item, bound):
        name = item.head()
        if name is None:
            raise broken({20}, item)
        arguments = item.value[1:]
        if self.native(name):
            return self.native_form(item, name, arguments, bound)
        if name not in self.functions:
            raise broken({1}, item)
        function = self.functions[name]
        self.shape(item, {2} if len(arguments) != len(function.parameters) else set())
        return self.call(item, function, arguments, bound, [])

    def call(self, item, function, arguments, bound, charges):
        parts = [self.judge(argument, bound) for argument in arguments]
        fits = all(admits(kind, part.type) for (_, kind), part in zip(function.parameters, parts))
        return self.conclude(item, Code(function.returns, charges=charges, parts=parts, called=function), () if fits else {3})

    def shape(self, item, rules):
        if rules:
            raise broken(rules, item)

    def tuple(self, item, pairs, rules, bound):
        keys = [key for key, _ in pairs]
        self.shape(item, rules | ({23} if len(set(keys)) != len(keys) else set()))
        parts = [self.judge(part, bound) for _, part in pairs]
        kinds = [part.type for part in parts]
        kind, rules = outcome(lambda: made(tuple_of(zip(keys, kinds))))
        return self.conclude(item, Code(kind, charges=[("make", sum(map(size, kinds)))], parts=parts), rules)

    # ---- natives

    def native_form(self, item, name, arguments, bound):
        row = ROWS[name]
        rules = set() if row.least <= len(arguments) <= row.most else {2}
        if name in TABLES:
            return self.data(item, name, arguments, bound, rules)
        special = {
            **{"let": self.let, "match": self.match, "if": self.if_, "tuple": self.tuple_form, "get": self.get},
            **{"as-max-len?": self.as_max_len, "contract-call?": self.contract_call, "begin": self.begin},
            **{"map": self.iterate, "filter": self.iterate, "fold": self.iterate},
        }
        if name in special:
            return special[name](item, arguments, bound, rules)
        self.shape(item, rules)
        rule = {
            **{"print": lambda kinds: kinds[0], "as-contract": lambda kinds: kinds[0], "asserts!": asserted},
            **{"unwrap!": lambda kinds: ok_part(kinds[0]), "unwrap-err!": lambda kinds: err_part(kinds[0])},
            **{"try!": lambda kinds: ok_part(kinds[0])},
            "stx-get-balance": lambda kinds: stated([PRINCIPAL], UINT, kinds),
            "stx-transfer?": lambda kinds: stated([UINT, PRINCIPAL, PRINCIPAL], DONE, kinds),
            "stx-burn?": lambda kinds: stated([UINT, PRINCIPAL], DONE, kinds),
        }.get(name, lambda kinds: type_of(name, kinds, self.version))
        return self.strict(item, name, arguments, bound, rule)

    def strict(self, item, name, arguments, bound, rule):
        """A native, with those of its arguments that are evaluated."""
        parts = [self.judge(argument, bound) for argument in arguments]
        kinds = [part.type for part in parts]
        kind, rules = outcome(rule, kinds)
        charges = [(ROWS[name].cost, charged_at(name, kinds, size))]
        return self.conclude(item, Code(kind, charges=charges, parts=parts), rules, thrown_by(name, kinds))

    def begin(self, item, arguments, bound, rules):
        self.shape(item, rules)
        return self.strict(item, "begin", arguments, bound, last_of)

    def if_(self, item, arguments, bound, rules):
        self.shape(item, rules)
        condition, one, other = [self.judge(argument, bound) for argument in arguments]
        kind, rules = outcome(least_supertype, one.type, other.type)
        rules |= {3} if condition.type != BOOL else set()
        code = Code(kind, charges=[("control", 3)], parts=[condition], branches=[([], [one]), ([], [other])])
        return self.conclude(item, code, rules)

    def tuple_form(self, item, arguments, bound, rules):
        if not all(argument.is_pair() for argument in arguments):
            rules.add(21)
        pairs = [(argument.value[0].value, argument.value[1]) for argument in arguments if argument.is_pair()]
        return self.tuple(item, pairs, rules, bound)

    def get(self, item, arguments, bound, rules):
        if arguments and arguments[0].kind != "atom":
            rules.add(21)
        self.shape(item, rules)
        return self.strict(item, "get", arguments[1:], bound, lambda kinds: field_of(arguments[0].value, kinds[0]))

    def as_max_len(self, item, arguments, bound, rules):
        if len(arguments) > 1 and arguments[1].kind != "uint":
            rules.add(19)
        self.shape(item, rules)
        return self.strict(item, "as-max-len?", arguments[:1], bound, lambda kinds: shortened(kinds[0], arguments[1].value))

    def let(self, item, arguments, bound, rules):
        bindings, inner = [], dict(bound)
        if arguments and arguments[0].kind != "list":
            rules.add(21)
        elif arguments:
            for binding in arguments[0].value:
                if not binding.is_pair():
                    rules.add(21)
                    continue
                name = binding.value[0].value
                rules |= {11} if self.is_taken(name, inner) else set()
                inner[name] = None
                bindings.append((name, binding.value[1]))
        self.shape(item, rules)
        inner, charges, parts = dict(bound), [("control", len(arguments))], []
        for name, expression in bindings:
            parts.append(self.judge(expression, inner))
            inner[name] = parts[-1].type
            charges.append(("bind", size(parts[-1].type)))
        body = [self.judge(argument, inner) for argument in arguments[1:]]
        kind, rules = outcome(last_of, [part.type for part in body])
        return self.conclude(item, Code(kind, charges=charges, parts=parts + body), rules)

    def match(self, item, arguments, bound, rules):
        names, seen = {4: arguments[1:2], 5: arguments[1:4:2]}.get(len(arguments), arguments[1:2]), set(bound)
        for name in names:
            if name.kind != "atom":
                rules.add(21)
                continue
            rules |= {11} if self.is_taken(name.value, seen) else set()
            seen.add(name.value)
        self.shape(item, rules)
        matched = self.judge(arguments[0], bound)
        if matched.type[0] != {4: "optional", 5: "response"}[len(arguments)]:
            if len(arguments) == 4:
                self.judge(arguments[3], bound)
            raise broken({3}, item)
        branches = [self.branch(name, body, kind, bound) for name, body, kind in zip(names, arguments[2::2], matched.type[1:])]
        if len(arguments) == 4:
            branches.append(([], [self.judge(arguments[3], bound)]))
        kind, rules = outcome(lambda: least_supertype(*[parts[0].type for _, parts in branches]))
        rules |= {7} if NO_TYPE in matched.type[1:] else set()
        return self.conclude(item, Code(kind, charges=[("control", len(arguments))], parts=[matched], branches=branches), rules)

    def branch(self, name, body, kind, bound):
        return [("bind", size(kind))], [self.judge(body, {**bound, name.value: kind})]

    # ---- variables, maps, tokens

    def data(self, item, name, arguments, bound, rules):
        wanted, rule = TABLES[name]
        if arguments and arguments[0].kind != "atom":
            rules.add(21)
        elif arguments and self.kind_of(arguments[0].value) != wanted:
            rules.add(rule)
        self.shape(item, rules)
        form = self.defined[arguments[0].value]
        if name == "var-get":
            return self.conclude(item, Code(form.types[0], charges=[("read_var", size(form.types[0]))]))
        if name == "map-get?":
            return self.map_get(item, form, arguments[1], bound)
        return self.strict(item, name, arguments[1:], bound, lambda kinds: data_type(name, form, kinds))

    def map_get(self, item, form, argument, bound):
        key = self.judge(argument, bound)
        kind, rules = outcome(made, ("optional", form.types[1]))
        rules |= set() if admits(form.types[0], key.type) else {3}
        return self.conclude(item, Code(kind, charges=[("read_map", size(key.type) + size(kind))], parts=[key]), rules)

    # ---- what is given by name

    def use_of(self, item, count, rules):
        """The function or native that is given by name, or none and the rules that are broken."""
        name = item.value if item.kind == "atom" else None
        row = self.native(name) if name else None
        if row and row.by_name:
            rules |= set() if row.least <= count <= row.most else {2}
            return Use(name, None, [], 0)
        if name not in self.functions:
            rules.add(18)
            return None
        function = self.functions[name]
        rules |= {2} if len(function.parameters) != count else set()
        return Use(name, function, [], 0)

    def use_type(self, use, kinds):
        if use.function is None:
            return type_of(use.name, kinds, self.version)
        want(all(admits(kind, given) for (_, kind), given in zip(use.function.parameters, kinds)))
        return use.function.returns

    def iterate(self, item, arguments, bound, rules):
        use = self.use_of(arguments[0], len(arguments) - 1, rules) if arguments else None
        self.shape(item, rules)
        parts = [self.judge(argument, bound) for argument in arguments[1:]]
        kinds = [part.type for part in parts]
        name = item.head()
        sequences = kinds[:1] if name == "fold" else kinds
        rule = {"map": self.map_type, "filter": self.filter_type, "fold": self.fold_type}[name]
        kind, rules = outcome(rule, use, kinds)
        if not rules:
            use.kinds = [entry_of(sequence) for sequence in sequences] + ([kind] if name == "fold" else [])
            use.times = min(sequence[1] for sequence in sequences)
        charges = [("iterate", sum(map(size, kinds)))]
        return self.conclude(item, Code(kind, charges=charges, parts=parts, use=use), rules)

    def entries(self, use, sequences):
        want(all(map(is_sequence, sequences)))
        entries = [entry_of(sequence) for sequence in sequences]
        if use.function is None and NO_TYPE in entries:
            raise Broken(7)
        return entries

    def map_type(self, use, kinds):
        given = self.use_type(use, self.entries(use, kinds))
        return made(("list", min(kind[1] for kind in kinds), given))

    def filter_type(self, use, kinds):
        want(self.use_type(use, self.entries(use, kinds)) == BOOL)
        return kinds[0]

    def fold_type(self, use, kinds):
        sequence, initial = kinds
        if use.function is None:
            (entry,) = self.entries(use, [sequence])
            kind = least_supertype(initial, self.use_type(use, [entry, initial]))
            self.use_type(use, [entry, kind])
            return kind
        (_, first), (_, second) = use.function.parameters
        _, rules = outcome(lambda: want(is_sequence(sequence) and admits(first, entry_of(sequence))))
        kind, more = outcome(least_supertype, initial, use.function.returns)
        more |= {3} if not more and not admits(second, kind) else set()
        if rules | more:
            raise Broken(*(rules | more))
        return kind

    # ---- calls of other contracts

    def contract_call(self, item, arguments, bound, rules):
        target = self.target_of(arguments[0], rules) if arguments else None
        function = None
        if len(arguments) > 1 and arguments[1].kind != "atom":
            rules.add(21)
        elif len(arguments) > 1 and target is not None:
            function = target.functions.get(arguments[1].value)
            if function is None or function.access == "private":
                rules.add(17)
            elif len(function.parameters) != len(arguments) - 2:
                rules.add(2)
        self.shape(item, rules)
        return self.call(item, function, arguments[2:], bound, [("contract_call", target.length)])

    def target_of(self, item, rules):
        principal = called_contract(item, self.principal)
        if principal is None:
            rules.add(19)
        elif principal == self.principal or principal not in self.deployed:
            rules.add(16)
        return self.deployed.get(principal)

    # ---- forms

    def form(self, form):
        """The typed expression of a form, which is defined from here on."""
        if form.kind == "function":
            code = self.judge(form.expression, dict(zip(form.parameters, form.types)))
            self.function(form, code)
        else:
            code = None if form.expression is None else self.judge(form.expression, {})
            wanted = {"variable": form.types[0] if form.types else None, "ft": UINT}.get(form.kind)
            if code is not None and wanted is not None and not admits(wanted, code.type):
                raise broken({3}, form)
            if code is not None and code.height > HIGHEST:
                raise broken({22}, form)
            form.type = None if code is None else code.type
        if form.name is not None:
            self.defined[form.name] = form
        return code

    def function(self, form, code):
        thrown = [] if code.thrown is None else [code.thrown]
        returns, rules = outcome(lambda: least_supertype(code.type, *thrown, differ=8))
        if not rules:
            rules |= {9} if form.access == "public" and returns[0] != "response" else set()
            rules |= {22} if code.height + 1 > HIGHEST else set()
        if rules:
            raise broken(rules, form)
        parameters = list(zip(form.parameters, form.types))
        self.functions[form.name] = Function(form.name, form.access, parameters, returns, code.height + 1, code, form.expression)


def asserted(kinds):
    want(kinds[0] == BOOL)
    return BOOL


def stated(wanted, given, kinds):
    want(kinds == wanted)
    return given


def last_of(kinds):
    if any(kind[0] == "response" for kind in kinds[:-1]):
        raise Broken(10)
    return kinds[-1]


def field_of(key, kind):
    fields = kind[1] if kind[0] == "optional" else kind
    want(fields[0] == "tuple")
    if key not in dict(fields[1]):
        raise Broken(12)
    field_type = dict(fields[1])[key]
    return made(("optional", field_type)) if kind[0] == "optional" else field_type


def shortened(kind, length):
    want(is_sequence(kind))
    return made(("optional", with_length(kind, length)))


def data_type(name, form, kinds):
    """The type of a native on variables, maps and tokens other than the two that read what is declared."""
    if name in ("var-set", "map-set", "map-insert", "map-delete"):
        want(all(map(admits, form.types, kinds)))
        return BOOL
    others = {"ft-get-balance": [PRINCIPAL], "ft-get-supply": [], "nft-get-owner?": []}
    if name.startswith("nft-"):
        want(admits(form.types[0], kinds[0]))
        kinds = kinds[1:]
        principals = {"nft-mint?": 1, "nft-burn?": 1, "nft-transfer?": 2}.get(name, 0) * [PRINCIPAL]
        return stated(principals, ("optional", PRINCIPAL) if name == "nft-get-owner?" else DONE, kinds)
    if name in others:
        return stated(others[name], UINT, kinds)
    return stated([UINT] + {"ft-transfer?": 2}.get(name, 1) * [PRINCIPAL], DONE, kinds)


def thrown_by(name, kinds):
    """The type that an expression of this native throws itself, or None."""
    if name in ("asserts!", "unwrap!", "unwrap-err!"):
        return kinds[1]
    if name == "try!" and kinds[0][0] == "optional":
        return ("optional", NO_TYPE)
    return ("response", NO_TYPE, kinds[0][2]) if name == "try!" and kinds[0][0] == "response" else None


def called_contract(item, principal):
    """The contract that `contract-call?` names in a text of this principal, or None where it names none."""
    if item.kind == "local":
        return (principal[0], principal[1], item.value)
    return item.value if item.kind == "principal" and item.value[2] else None


# ---- what writes

def applications_in(item, found):
    """Adds the heads of all lists that are evaluated in an expression, with their arguments."""
    if item.kind == "tuple":
        for _, part in item.value:
            applications_in(part, found)
    elif item.kind == "list":
        head, arguments = item.head(), item.value[1:]
        found.append((head, arguments))
        if head == "let":
            arguments = [binding.value[1] for binding in arguments[0].value] + arguments[1:]
        if head == "tuple":
            arguments = [argument.value[1] for argument in arguments]
        for argument in arguments:
            applications_in(argument, found)


def writes(form, deployed, principal, writing):
    found = []
    applications_in(form.expression, found)
    for head, arguments in found:
        if head in WRITING or head in writing:
            return True
        if head in ("map", "filter", "fold") and arguments[0].value in writing:
            return True
        if head == "contract-call?":
            target = deployed[called_contract(arguments[0], principal)]
            if target.functions[arguments[1].value].access == "public":
                return True
    return False


def check_writes(forms, order, deployed, principal):
    writing, breaks = set(), []
    for place in order:
        form = forms[place]
        if form.kind == "function" and writes(form, deployed, principal, writing):
            writing.add(form.name)
            breaks += [form] if form.access == "read-only" else []
    if breaks:
        raise broken({25}, breaks[0])


def check(deployed, principal, source, version):
    """The accepted contract; raises Break with the first rule that the source breaks, but for bounds."""
    forms = forms_of(read(source), version)
    order = order_of(forms)
    checker = Checker(deployed, principal, version)
    codes = {place: checker.form(forms[place]) for place in order}
    check_writes(forms, order, deployed, principal)
    return Checked(principal, version, len(source), forms, order, checker.functions, codes)
