#!/usr/bin/env bash
# Checks sources of rising size under the unit table: a function with a long body, many small functions that call the one
# before, the same in chains as long as heights allow, many constants, nests nearly as deep as brackets may be, and contracts
# that call the one before. Prints instructions for each unit, from the difference of two sizes, by callgrind; without valgrind,
# nanoseconds for each. Where the numbers of a row are flat the work is linear. Run by hand; python3 measures.
# Usage: bench/check.sh
set -eu
[ "${1-}" != --help ] || exec sed -n '2,/^[^#]/s/^# \{0,1\}//p' "$0"
cd "$(dirname "$0")"
PYTHONDONTWRITEBYTECODE=1 python3 - <<'PYTHON'
import tempfile

import made
from made import DEPLOYER, UNIT, written
from measure import instructions, run

CHECK = ["check", UNIT, DEPLOYER]


def body(count):
    return ["(define-read-only (f (x int)) (+" + " (* x 2)" * count + "))"]


def functions(count):
    return [made.functions(count)]


def chains(count):
    call = lambda i: f"(g{i - 1} x)" if i % 128 else "x"
    return ["".join(f"(define-private (g{i} (x uint)) {call(i)})\n" for i in range(count))]


def constants(count):
    return ["".join(f"(define-constant c{i} (list {i} {i + 1}))\n" for i in range(count))]


def nests(count):
    return ["".join(f"(define-read-only (f{i} (x int)) {'(+ x ' * 60}1{')' * 60})\n" for i in range(count))]


def contracts(count):
    inner = lambda i: f"(contract-call? .c{i - 1} f (+ x 1))" if i % 50 else "(+ x 1)"
    return [f"(define-read-only (f (x int)) {inner(i)})\n" for i in range(count)]


def cost(sources):
    with tempfile.TemporaryDirectory() as folder:
        paths = [written(folder, f"c{i}.clar", source) for i, source in enumerate(sources)]
        counted = instructions([*CHECK, *paths], 0, "deploy-bound ")
        if counted is not None:
            return counted
        return min(run([*CHECK, *paths], 0, "deploy-bound ")[0] for _ in range(5)) * 1e9


print(f"{'unit':20} {'sizes':>18} {'for each unit':>24}")
ROWS = [("product in a body", body, 4000), ("function", functions, 1000), ("function in a chain", chains, 1024), ("constant", constants, 2500),
        ("function of 60 sums", nests, 100), ("contract", contracts, 50)]
for name, sources, first in ROWS:
    sizes = [first, 2 * first, 4 * first]
    costs = [cost(sources(size)) for size in sizes]
    each = [(costs[i + 1] - costs[i]) / (sizes[i + 1] - sizes[i]) for i in range(2)]
    print(f"{name:20} {'/'.join(map(str, sizes)):>18} {each[0]:12.0f} {each[1]:11.0f}", flush=True)
PYTHON
