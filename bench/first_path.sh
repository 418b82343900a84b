#!/usr/bin/env bash
# Reads, checks, evaluates and reports texts of 64 KiB to 1 MiB, each one function whose body is a long sum. Flat nanoseconds
# a byte say that the work is linear. Run by hand; python3 measures.
# Usage: bench/first_path.sh
set -eu
[ "${1-}" != --help ] || exec sed -n '2,/^[^#]/s/^# \{0,1\}//p' "$0"
cd "$(dirname "$0")"
PYTHONDONTWRITEBYTECODE=1 python3 - <<'PYTHON'
from measure import table


def sum_of(part):
    front, back = "(define-read-only (f (x int)) (+", "))"
    return lambda size: front + part * ((size - len(front) - len(back)) // len(part)) + back


parts = [("ints", " 1"), ("names", " x"), ("sums", " (+ x 1)"), ("wide", " 1234567890123456")]
table([(name, sum_of(part), " value ") for name, part in parts], ["f", "1"], 0)
PYTHON
