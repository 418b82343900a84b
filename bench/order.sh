#!/usr/bin/env bash
# Checks and deploys 1,000 to 16,000 definitions: chains that name the next or the one before, fans of one that names all and
# of all that name one; and finds rings of them. Flat nanoseconds a byte say that it is linear in atoms and definitions. Run by
# hand; python3 measures.
# Usage: bench/order.sh
set -eu
[ "${1-}" != --help ] || exec sed -n '2,/^[^#]/s/^# \{0,1\}//p' "$0"
cd "$(dirname "$0")"
PYTHONDONTWRITEBYTECODE=1 python3 - <<'PYTHON'
from measure import table

SIZES = [1000, 2000, 4000, 8000, 16000]


def constants(value):
    return lambda count: "".join(f"(define-constant c{i:05} {value(i, count)})\n" for i in range(count))


def fan(count):
    names = " ".join(f"c{i:05}" for i in range(count))
    return f"(define-constant all (list {names}))\n" + constants(lambda i, count: i)(count)


forward = constants(lambda i, count: f"c{i + 1:05}" if i + 1 < count else "1")
backward = constants(lambda i, count: f"c{i - 1:05}" if i else "1")
one = constants(lambda i, count: "c00000" if i else "1")
ring = constants(lambda i, count: f"c{(i + 1) % count:05}")
table([
    ("forward", forward, "E2 NoFunction"),
    ("backward", backward, "E2 NoFunction"),
    ("to all", fan, "E2 NoFunction"),
    ("to one", one, "E2 NoFunction"),
], ["f"], 7, SIZES)
table([("ring", ring, "O1 Cycle")], ["f"], 6, SIZES)
PYTHON
