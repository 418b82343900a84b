#!/usr/bin/env bash
# Counts the instructions of whole commands by callgrind, for each unit of their work, from the difference of two sizes. The
# counts are the same at every run. Without valgrind it says so and ends. Run by hand; python3 measures.
# Usage: bench/instructions.sh [ROW..]
set -eu
[ "${1-}" != --help ] || exec sed -n '2,/^[^#]/s/^# \{0,1\}//p' "$0"
cd "$(dirname "$0")"
command -v valgrind >/dev/null || { echo "valgrind isn't there: nothing is counted"; exit 0; }
PYTHONDONTWRITEBYTECODE=1 python3 - "$@" <<'PYTHON'
import sys
import tempfile

import made
from made import DEPLOYER, HOLDER, UNIT, call, example, written
from measure import instructions


def entries(folder, all_of_them, *flags):
    return ["run", UNIT, made.transactions(folder, all_of_them), *flags], 0, "0 deploy"


def ints(folder, count):
    return ["call", written(folder, "f.clar", f"(define-read-only (f) (+{' 1' * count}))"), "f"], 0, f"value {count}"


def wire(folder, count):
    return ["wire", f"(list{' u12345678901' * count})"], 0, "0x0b"


def puts(folder, count):
    deploy, put, no = example("put.json")
    return entries(folder, [deploy] + [put, no] * (count // 2))


def functions(folder, count):
    return ["check", UNIT, DEPLOYER, written(folder, "f.clar", made.functions(count))], 0, "deploy-bound"


def transfers(folder, count):
    transfer = call(HOLDER, "token", "transfer", "u1", f"'{HOLDER}", f"'{DEPLOYER}", "none")
    mint = call(DEPLOYER, "token", "mint", "u100000", f"'{HOLDER}")
    return entries(folder, example("token.json")[:1] + [mint] + [transfer] * count)


def inserts(folder, count):
    source = "(define-map m uint uint)(define-public (ins (k uint) (v uint)) (ok (map-insert m k v)))"
    return entries(folder, [made.deploy("c", source)] + [call(DEPLOYER, "c", "ins", f"u{i}", "u5") for i in range(count)], "--state")


def folds(folder, count):
    source = "(define-private (add (a uint) (x uint)) (+ x (* a u1)))(define-read-only (f (xs (list 1000 uint))) (fold add xs u0))"
    return ["call", written(folder, "f.clar", source), "f", f"(list{' u7' * count})"], 0, f"value u{7 * count}"


def made_calls(folder, count):
    return ["gen", "7", str(count)], 0, f"calls {count} ok"


ROWS = [
    ("int of a sum, read, checked, evaluated", ints, 8000, 32000, 1060),
    ("element of a list, `wire`", wire, 100, 1000, 840),
    ("call that writes a variable, `run`", puts, 1000, 4000, 26000),
    ("function, `check`", functions, 100, 1000, 41000),
    ("transfer of a token, `run`", transfers, 1000, 8000, 80000),
    ("`map-insert` of a new key, `run --state`", inserts, 1000, 4000, 30000),
    ("entry of a `fold`", folds, 100, 1000, 1750),
    ("call of a workload, `gen`", made_calls, 1000, 10000, 5000),
]
print("| Unit | Sizes | Instructions | Aim |\n|---|---|---|---|")
for name, of, first, second, aim in ROWS:
    if sys.argv[1:] and of.__name__ not in sys.argv[1:]:
        continue
    with tempfile.TemporaryDirectory() as folder:
        counts = [instructions(*of(folder, size)) for size in (first, second)]
    print(f"| {name} | {first:,}, {second:,} | {(counts[1] - counts[0]) / (second - first):,.0f} | {aim:,} |", flush=True)
PYTHON
