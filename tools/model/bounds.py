"""Bounds of functions and deployments under a table of costs, and the rule B1."""
from costs import DIMENSIONS, GREATEST, charge, greatest, plus, times
from kinds import size
from natives import ROWS, charged_at
from texts import Break


class Bounds:
    """The bounds under one table; that of each function is computed once."""

    def __init__(self, table):
        self.table, self.known = table, {}

    def charges(self, charges):
        return plus(*[charge(self.table, name, number) for name, number in charges])

    def code(self, code):
        """The bound of a typed expression."""
        parts = [self.code(part) for part in code.parts]
        branches = [plus(self.charges(charges), *map(self.code, branch)) for charges, branch in code.branches]
        others = [self.function(code.called)] if code.called is not None else []
        if code.use is not None:
            others.append(times(self.use(code.use), code.use.times))
        return plus(self.charges(code.charges), *parts, greatest(*branches), *others)

    def use(self, use):
        if use.times == 0:
            return plus()
        if use.function is not None:
            return self.function(use.function)
        return self.charges([(ROWS[use.name].cost, charged_at(use.name, use.kinds, size))])

    def function(self, function):
        if id(function) not in self.known:
            binds = [("bind", size(kind)) for _, kind in function.parameters]
            own = self.charges([("call", len(binds)), *binds])
            self.known[id(function)] = plus(own, self.code(function.body))
        return self.known[id(function)]

    def deployment(self, checked):
        sums = [self.charges([("deploy", checked.length)])]
        for place in checked.order:
            form, code = checked.forms[place], checked.codes[place]
            if code is not None and form.kind != "function":
                sums.append(self.code(code))
            if form.kind != "expression":
                sums.append(self.charges([("define", defined_size(form, code))]))
        return plus(*sums)


def defined_size(form, code):
    """The size at which the definition of a form is bounded."""
    if form.kind in ("constant", "variable"):
        return size(code.type)
    return 17 if form.kind == "ft" and code is not None else 0


def first_over(bound):
    """The first dimension in which a bound is too large, or None."""
    return next((dimension for dimension, number in zip(DIMENSIONS, bound) if number > GREATEST), None)


def within(bound, start, end):
    dimension = first_over(bound)
    if dimension is not None:
        raise Break("B1 BoundTooLarge", start, end, f" {dimension}")
    return bound


def bounds_of(checked, table):
    """The bound of the deployment, and of each function by its name; raises Break where one is too large."""
    bounds, functions = Bounds(table), {}
    for place in checked.order:
        form = checked.forms[place]
        if form.kind == "function":
            functions[form.name] = within(bounds.function(checked.functions[form.name]), form.start, form.end)
    return within(bounds.deployment(checked), 0, 0), functions
