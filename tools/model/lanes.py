"""Calls that are tried ahead of their turn in lanes and committed in the file's order, and the line of what became of them."""
from checking import called_contract
from natives import WRITING, native
from node import lines

STX = ("stx",)
KINDS = {"var": "variable", "map": "map", "ft": "token", "nft": "token", "stx": "stx"}


# ---- the spots of a call

def joined(uses):
    return tuple(set().union(*(use[at] for use in uses)) for at in range(3))


def uses_of(item, contract):
    """What an expression names: functions to be applied, as (principal, name), spots that are touched, and those that are written."""
    if item.kind == "tuple":
        return joined([uses_of(part, contract) for _, part in item.value])
    if item.kind != "list":
        return joined([])
    parts = item.value
    if item.head() == "tuple":
        parts = [pair.value[1] for pair in item.value[1:]]
    return joined([own_uses(item.head(), item.value[1:], contract)] + [uses_of(part, contract) for part in parts])


def own_uses(name, arguments, contract):
    """The same of an application without its parts."""
    here = contract.principal
    if name in contract.functions:
        return {(here, name)}, set(), set()
    if name is None or not native(name, contract.version):
        return joined([])
    if name == "contract-call?":
        return {(called_contract(arguments[0], here), arguments[1].value)}, set(), set()
    if name in ("map", "filter", "fold"):
        return ({(here, arguments[0].value)} if arguments[0].value in contract.functions else set()), set(), set()
    kind, dash, _ = name.partition("-")
    if not dash or kind not in KINDS:
        return joined([])
    spot = STX if kind == "stx" else (KINDS[kind], here, arguments[0].value)
    return set(), {spot}, {spot} if name in WRITING else set()


def footprint(contracts, principal, name):
    """The spots that a call touches and those that it writes; none where it is refused with E1 to E3."""
    found = contracts.get(principal)
    called = found.functions.get(name) if found else None
    if called is None or called.access == "private":
        return set(), set()
    reached, left, touched, written = set(), [(principal, name)], set(), set()
    while left:
        function = left.pop()
        if function in reached:
            continue
        reached.add(function)
        contract = contracts[function[0]]
        more, touches, writes = uses_of(contract.functions[function[1]].expression, contract)
        left += more
        touched |= touches
        written |= writes
    return touched, written


# ---- states at spots

def graft(state, origin, spots):
    """Takes over what another state has at these spots."""
    for spot in spots:
        if spot == STX:
            state.stx = origin.stx.copy()
            continue
        kind, place = spot[0], spot[1:]
        if kind == "variable":
            state.variables[place] = origin.variables[place]
        elif kind == "map":
            state.entries = {key: value for key, value in state.entries.items() if key[0] != place}
            state.entries.update({key: value for key, value in origin.entries.items() if key[0] == place})
        else:
            for name in ("caps", "supplies", "balances", "owners"):
                if place in getattr(origin, name):
                    value = getattr(origin, name)[place]
                    getattr(state, name)[place] = value.copy() if isinstance(value, dict) else value


# ---- moves

class Held:
    def __init__(self, entry, start, trial, state, touched, written):
        self.entry, self.start, self.trial, self.state = entry, start, trial, state
        self.touched, self.written = touched, written


class Lanes:
    """A node, the steps of the entries that are committed with what each wrote (None: no call), and what each lane holds."""

    def __init__(self, node, entries, count):
        self.node, self.entries, self.held = node, entries, [None] * count
        self.steps, self.wrote, self.redone, self.skipped = [], [], 0, 0

    def is_call(self, place):
        return place < len(self.entries) and self.entries[place].kind == "call"

    def run(self, lane, ahead):
        place = len(self.steps) + ahead
        if lane >= len(self.held) or not self.is_call(place):
            self.skipped += 1
            return
        entry, before = self.entries[place], self.node.state
        spots = footprint(self.node.contracts, entry.members["contract"], entry.members["function"])
        self.node.state = before.copy()
        trial = self.node.step(entry)
        self.held[lane] = Held(place, len(self.steps), trial, self.node.state, *spots)
        self.node.state = before

    def commit(self, lane):
        held = self.held[lane] if lane < len(self.held) else None
        if held is None or held.entry > len(self.steps):
            self.skipped += 1
            return
        self.held[lane] = None
        if held.entry < len(self.steps):
            self.skipped += 1
        elif any(wrote is None or wrote & held.touched for wrote in self.wrote[held.start :]):
            self.redone += 1
        else:
            graft(self.node.state, held.state, held.written)
            self.steps.append(held.trial)
            self.wrote.append(held.written)

    def barrier(self):
        place = len(self.steps)
        if place == len(self.entries) or self.is_call(place):
            self.skipped += 1
            return
        self.steps.append(self.node.step(self.entries[place]))
        self.wrote.append(None)

    def move(self, draw):
        lane = draw // 4 % len(self.held)
        if draw % 4 == 2:
            self.commit(lane)
        elif draw % 4 == 3:
            self.barrier()
        else:
            self.run(lane, draw // 64 % len(self.held))

    def finish(self):
        while len(self.steps) < len(self.entries):
            if self.is_call(len(self.steps)):
                self.run(0, 0)
                self.commit(0)
            else:
                self.barrier()


def in_lanes(node, entries, count, seed):
    """The lines of the report, and behind them that of the two numbers."""
    lanes, drawn = Lanes(node, entries, count), seed
    for _ in range(2 * len(entries)):
        drawn = (drawn * 6364136223846793005 + 1442695040888963407) % (1 << 64)
        lanes.move(drawn >> 33)
    lanes.finish()
    written = [line for place, (head, result) in enumerate(lanes.steps) for line in lines(place, head, result)]
    return written + [f"lanes redone {lanes.redone} skipped {lanes.skipped}"]
