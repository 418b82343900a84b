"""Costs in five dimensions (SIP-006), the cost file, the unit table, and tables that change at stated heights.

A cost is a list of five numbers.
"""
import strict_json
from strict_json import NotJson, is_whole

DIMENSIONS = ("runtime", "read_count", "read_length", "write_count", "write_length")
NAMES = (
    "literal lookup context control call bind arith compare hash wrap make take scan iterate read_var write_var read_map "
    "write_map read_token write_token event contract_call deploy define"
).split()
SHAPES = {"constant": 1, "linear": 2, "logn": 2, "nlogn": 2}
NOTHING = [0, 0, 0, 0, 0]
GREATEST = (1 << 128) - 1


class BadCosts(Exception):
    """A text that is no cost file, with its fault as it is printed."""


def unit_table():
    table = {name: [("constant", 1)] + 4 * [("constant", 0)] for name in NAMES}
    for name in ("read_var", "read_map", "read_token", "contract_call"):
        table[name][1:3] = ("constant", 1), ("linear", 1, 0)
    for name in ("write_var", "write_map", "write_token", "deploy", "define"):
        table[name][3:5] = ("constant", 1), ("linear", 1, 0)
    return table


def is_shape(value):
    return (
        isinstance(value, list)
        and len(value) > 1
        and isinstance(value[0], str)
        and SHAPES.get(value[0]) == len(value) - 1
        and all(is_whole(number) for number in value[1:])
    )


def read_function(name, member):
    if not isinstance(member, dict):
        raise BadCosts(f"BadShape {name} runtime")
    for dimension in DIMENSIONS:
        if dimension in member and not is_shape(member[dimension]):
            raise BadCosts(f"BadShape {name} {dimension}")
    unknown = strict_json.least_unknown(member, DIMENSIONS)
    if unknown is not None:
        raise BadCosts(f"BadShape {name} {unknown}")
    shapes = [tuple(member.get(dimension, ("constant", 0))) for dimension in DIMENSIONS]
    if any(number >= 1 << 32 for shape in shapes for number in shape[1:]):
        raise BadCosts(f"TooBig {name}")
    return shapes


def read_costs(data):
    """The table of a cost file; raises BadCosts with its first fault."""
    try:
        return table_of(strict_json.parse_object(data))
    except NotJson:
        raise BadCosts("NotJson") from None


def table_of(members):
    """The table of the object of a cost file; raises BadCosts with its first fault."""
    if not isinstance(members, dict):
        raise BadCosts("NotJson")
    unknown = strict_json.least_unknown(members, NAMES)
    if unknown is not None:
        raise BadCosts(f"Unknown {unknown}")
    table = {}
    for name in NAMES:
        if name not in members:
            raise BadCosts(f"Missing {name}")
        table[name] = read_function(name, members[name])
    return table


class Schedule:
    """A table, and epochs: those that take its place, each with the height at which it begins, rising."""

    def __init__(self, first, epochs=()):
        self.first, self.epochs = first, list(epochs)

    def epoch(self, height):
        """How many epochs begin at this height or below."""
        return sum(start <= height for start, _ in self.epochs)

    def at(self, height):
        number = self.epoch(height)
        return self.epochs[number - 1][1] if number else self.first


def shape_at(shape, number):
    kind, *factors = shape
    logarithm = number.bit_length() - 1 if number else 0
    if kind == "constant":
        return factors[0]
    a, b = factors
    return a * {"linear": number, "logn": logarithm, "nlogn": number * logarithm}[kind] + b


def charge(table, name, number):
    return [shape_at(shape, number) for shape in table[name]]


def plus(*costs):
    return [sum(numbers) for numbers in zip(NOTHING, *costs)]


def greatest(*costs):
    return [max(numbers) for numbers in zip(NOTHING, *costs)]


def times(cost, count):
    return [number * count for number in cost]
