"""JSON as `serde_json` reads it: numbers that aren't whole ones of 64 bits without a sign are floats."""
import json
import math

DEEPEST = 127


class NotJson(Exception):
    pass


def whole(digits):
    number = int(digits)
    return number if not digits.startswith("-") and number < 1 << 64 else finite(digits)


def finite(digits):
    number = float(digits)
    if math.isinf(number):
        raise NotJson
    return number


def refused(_):
    raise NotJson


def depth(value):
    if isinstance(value, dict):
        return 1 + max(map(depth, value.values()), default=0)
    if isinstance(value, list):
        return 1 + max(map(depth, value), default=0)
    return 0


def parse(data):
    try:
        value = json.loads(data.decode(), parse_int=whole, parse_float=finite, parse_constant=refused)
        json.dumps(value, ensure_ascii=False).encode()  # a lone surrogate is no text
    except (ValueError, RecursionError) as error:
        raise NotJson from error
    if depth(value) > DEEPEST:
        raise NotJson
    return value


def parse_object(data):
    value = parse(data)
    if not isinstance(value, dict):
        raise NotJson
    return value


def is_whole(value):
    """Whether this is a whole number of 64 bits without a sign."""
    return isinstance(value, int) and not isinstance(value, bool)


def least_unknown(members, known):
    """The bytewise least name that isn't known, or None."""
    return min((name for name in members if name not in known), key=str.encode, default=None)
