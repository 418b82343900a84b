"""Trace files: the claims in one, and where it and a report differ from those of a transaction file."""
import re

from transactions import BadFile
from values import Refused, decode, wire

NUMBER = rb"(0|[1-9][0-9]{0,9})"
LINE = re.compile(NUMBER + rb" " + NUMBER + rb"\.\." + NUMBER + rb" ((?:[0-9a-f]{2})+)")
ABOVE_PLACES = 1 << 32


def claim_of(start, end, value):
    """What is compared of an expression's claim: its span, and the wire form of its value."""
    return start, end, wire(value)


def read_line(line, least, entries):
    """The entry and the claim of a line that has no line feed; None where it isn't one of an entry from `least` on."""
    found = LINE.fullmatch(line)
    if found is None:
        return None
    entry, start, end = map(int, found.groups()[:3])
    if not least <= entry < entries or start >= ABOVE_PLACES or end >= ABOVE_PLACES:
        return None
    try:
        return entry, claim_of(start, end, decode(bytes.fromhex(found[4].decode())))
    except Refused:
        return None


def read_claims(data, entries):
    """The claims of a trace file, a list for each of so many entries; raises BadFile with the first line that is bad."""
    claims, entry = [[] for _ in range(entries)], 0
    *lines, rest = data.split(b"\n")
    for place, line in enumerate(lines):
        read = read_line(line, entry, entries)
        if read is None:
            raise BadFile(f"BadLine {place}")
        entry, claim = read
        claims[entry].append(claim)
    if rest:
        raise BadFile(f"BadLine {len(lines)}")
    return claims


def first_apart(one, other):
    """The first place at which two sequences differ, or at which one has ended; None where they are one."""
    for place, (left, right) in enumerate(zip(one, other)):
        if left != right:
            return place
    return None if len(one) == len(other) else min(len(one), len(other))


def compared(results, claims, written, report):
    """The status and the line of an audit: of results with their traces, of the claims of their entries, and of two reports."""
    for entry, (result, claimed) in enumerate(zip(results, claims)):
        place = first_apart([claim_of(*node) for node in result.trace], claimed)
        if place is not None:
            return 6, [f"no claim {entry} {place}"]
    place = first_apart(written, report)
    return (0, ["yes"]) if place is None else (6, [f"no report {place}"])
