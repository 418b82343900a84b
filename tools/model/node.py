"""A node: what each entry makes of it, and the lines of the report."""
from addresses import write_principal
from bounds import Bounds, bounds_of, first_over
from checking import check
from evaluation import CostLimit, Evaluator, Frame, Meter, State, deploy
from kinds import write_type
from natives import Abort
from texts import Break
from transactions import Entry
from values import inhabits, write_value


# An entry without a limit and conditions of its own.
PLAIN = Entry("call", {})


class Refused(Exception):
    """An entry that isn't begun, with what is printed of it."""


class Result:
    """The result of an entry: the outcome as it is printed, its cost, the lines of bounds, its events, and its trace."""

    def __init__(self, outcome, cost=None, bounds=(), events=(), trace=()):
        self.outcome, self.cost, self.bounds, self.events, self.trace = outcome, cost, bounds, events, trace


def numbers(cost):
    return " ".join(map(str, cost))


def bound_lines(checked, table):
    """The lines of the bounds of an accepted contract; raises Break where one is too large."""
    deployment, functions = bounds_of(checked, table)
    lines = [f"deploy-bound {numbers(deployment)}"]
    for form in checked.forms:
        if form.kind == "function":
            lines.append(f"bound {form.name} {numbers(functions[form.name])} {write_type(checked.functions[form.name].returns)}")
    return lines


def rebound_lines(checked, bounds):
    """The lines of the bounds of a deployed contract's functions under a table that begins."""
    lines = []
    for form in checked.forms:
        if form.kind == "function":
            function = checked.functions[form.name]
            bound = bounds.function(function)
            over = first_over(bound)
            reach = f"{numbers(bound)} {write_type(function.returns)}" if over is None else f"over {over}"
            lines.append(f"rebound '{write_principal(checked.principal)} {form.name} {reach}")
    return lines


class Node:
    def __init__(self, schedule, holders=None):
        self.schedule, self.contracts, self.state, self.height = schedule, {}, State(), 0
        self.bounds = Bounds(self.table())
        self.state.stx = {who: amount for who, amount in (holders or {}).items() if amount}

    def table(self):
        return self.schedule.at(self.height)

    def begin(self, height):
        """Begins a block; where the epoch changes, the result has the bounds of all deployed functions."""
        before, self.height = self.schedule.epoch(self.height), height
        if self.schedule.epoch(height) == before:
            return Result(None)
        self.bounds = Bounds(self.table())
        return Result(None, bounds=[line for checked in self.contracts.values() for line in rebound_lines(checked, self.bounds)])

    def attempt(self, entry, act, bounds=()):
        """Evaluates an entry on a copy of the state, and keeps the copy unless it errs, aborts or fails a condition."""
        meter = Meter(self.table(), entry.limit())
        evaluator = Evaluator(self.contracts, self.state.copy(), meter, self.height)
        result = self.ended(entry, act, bounds, evaluator)
        result.trace = evaluator.trace
        return result

    def ended(self, entry, act, bounds, evaluator):
        meter = evaluator.meter
        try:
            outcome, is_kept = act(evaluator)
        except CostLimit as error:
            return Result(f"aborted {error}", error.attempted, bounds)
        except Abort as error:
            return Result(f"aborted {error}", meter.spent, bounds)
        if is_kept:
            failing = first_failing(evaluator.state.moves, entry.members.get("mode", "allow"), entry.members.get("post", []))
            if failing is not None:
                return Result(f"aborted A9 PostCondition {failing}", meter.spent, bounds)
        events = evaluator.state.events if is_kept else []
        if is_kept:
            self.state = evaluator.state
            self.state.events, self.state.moves = [], []
        return Result(outcome, meter.spent, bounds, events)

    def deploy(self, sender, name, source, version=1, entry=PLAIN):
        principal = (sender[0], sender[1], name)
        if principal in self.contracts:
            return Result("refused E6 NameTaken")
        try:
            checked = check(self.contracts, principal, source, version)
            bounds = bound_lines(checked, self.table())
        except Break as error:
            return Result(f"refused E7 ContractRefused {error.text()}")

        def act(evaluator):
            deploy(evaluator, checked, sender)
            return "done", True

        result = self.attempt(entry, act, bounds)
        if result.outcome == "done":
            self.contracts[principal] = checked
        return result

    def call(self, sender, contract, function, values, entry=PLAIN):
        try:
            called = self.called(contract, function, values)
        except Refused as error:
            return Result(f"refused {error}")

        def act(evaluator):
            value = evaluator.apply(Frame(self.contracts[contract], sender, sender), called, values)
            if called.access != "public":
                return f"value {write_value(value)}", True
            return f"{value[0]} {write_value(value[1])}", value[0] == "ok"

        return self.attempt(entry, act)

    def called(self, contract, function, values):
        if contract not in self.contracts:
            raise Refused("E1 NoContract")
        called = self.contracts[contract].functions.get(function)
        if called is None:
            raise Refused("E2 NoFunction")
        if called.access == "private":
            raise Refused("E3 NotPublic")
        if len(values) != len(called.parameters):
            raise Refused("E4 ArgumentCount")
        for place, ((_, kind), value) in enumerate(zip(called.parameters, values)):
            if not inhabits(value, kind):
                raise Refused(f"E5 Argument {place}")
        over = first_over(self.bounds.function(called))
        if over is not None:
            raise Refused(f"E8 NoBound {over}")
        return called

    def step(self, entry):
        """The head of an entry's line, and its result."""
        members = entry.members
        if entry.kind == "block":
            return f"block {members['height']}", self.begin(members["height"])
        if entry.kind == "deploy":
            sender, name = members["sender"], members["name"]
            head = f"deploy '{write_principal((*sender[:2], name))}"
            source, version = members["source"].encode(), members.get("clarity", 1)
            return head, self.deploy(sender, name, source, version, entry)
        head = f"call '{write_principal(members['contract'])} {members['function']}"
        call = self.call(members["sender"], members["contract"], members["function"], members["args"], entry)
        return head, call


def first_failing(moves, mode, conditions):
    """The place of the first condition that fails; in deny mode their number, where an asset moved that none names."""
    for place, condition in enumerate(conditions):
        amounts = [amount for who, asset, amount in moves if (who, asset) == (condition.principal, condition.asset)]
        if not condition.holds(amounts):
            return place
    named = {(condition.principal, condition.asset) for condition in conditions}
    if mode == "deny" and any((who, asset) not in named for who, asset, _ in moves):
        return len(conditions)
    return None


def event_lines(events):
    return [f"  event {kind} '{write_principal(contract)} {details}" for contract, kind, details in events]


def lines(number, head, result):
    """The lines of an entry in the report."""
    written = [f"{number} {head}" + ("" if result.outcome is None else f" {result.outcome}")]
    if result.cost is not None:
        written.append(f"  cost {numbers(result.cost)}")
    return written + [f"  {bound}" for bound in result.bounds] + event_lines(result.events)
