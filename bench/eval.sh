#!/usr/bin/env bash
# Counts the instructions of evaluation for each charge by callgrind (without valgrind, nanoseconds): arithmetic in a `fold`, a
# private function, puts into a map, transfers of a token, and calls of another contract. Under the unit table each charge is 1 of
# runtime, so the report says how many there are. Each row is the difference between runs with different numbers of rounds of 1,000
# applications, over a list that the contract keeps: one to six, and six to eleven. Last, nanoseconds of a transfer among 16,000
# and 64,000. Run by hand, some minutes; python3 measures.
# Usage: bench/eval.sh
set -eu
[ "${1-}" != --help ] || exec sed -n '2,/^[^#]/s/^# \{0,1\}//p' "$0"
cd "$(dirname "$0")"
PYTHONDONTWRITEBYTECODE=1 python3 - <<'PYTHON'
import re
import tempfile

from made import DEPLOYER, HOLDER, UNIT, call, deploy, transactions
from measure import counted, ended

ENTRIES = 1000
KEPT = f"(define-data-var xs (list {ENTRIES} uint) (list{''.join(f' u{i}' for i in range(ENTRIES))}))"
ROUND = "(define-public (go (by uint)) (ok (fold step (var-get xs) by)))"
STEPS = [
    ("arithmetic", "(define-private (step (x uint) (by uint)) (+ by (* x u3)))"),
    ("arithmetic, five times", "(define-private (step (x uint) (by uint)) (+ (/ (* (+ x by) u3) u3) (mod x u7)))"),
    ("private function", "(define-private (same (x uint)) x)(define-private (step (x uint) (by uint)) (same x))"),
    ("private in private", "(define-private (a (x uint)) x)(define-private (b (x uint)) (a x))(define-private (step (x uint) (by uint)) (b x))"),
    ("`let`, `if`, `match`",
     "(define-private (step (x uint) (by uint)) (let ((y (if (> x by) x by)) (z (some y))) (match z w w u0)))"),
    ("put of a new key", "(define-map m uint uint)(define-private (step (x uint) (by uint)) (begin (map-insert m (+ x by) x) by))"),
    ("put of a key that is there", "(define-map m uint uint)(define-private (step (x uint) (by uint)) (begin (map-set m x by) by))"),
    ("read of an entry", "(define-map m uint uint)(map-set m u1 u1)(define-private (step (x uint) (by uint)) (default-to by (map-get? m u1)))"),
    ("variable read and written", "(define-data-var n uint u0)(define-private (step (x uint) (by uint)) (begin (var-set n (+ (var-get n) x)) by))"),
    ("transfer of a token",
     "(define-fungible-token coin)(ft-mint? coin u1000000 tx-sender)(define-private (step (x uint) (by uint))"
     f" (begin (unwrap-panic (ft-transfer? coin u1 tx-sender '{HOLDER})) by))"),
    ("call of another contract", "(define-private (step (x uint) (by uint)) (contract-call? .other same x))"),
    ("public call that is undone", "(define-private (step (x uint) (by uint)) (begin (is-ok (contract-call? .other no x)) by))"),
]
OTHER = "(define-data-var n uint u0)(define-read-only (same (x uint)) x)(define-public (no (x uint)) (begin (var-set n x) (if (> x u0) (err x) (ok x))))"


def run_of(step, rounds):
    """Instructions (None without valgrind) or nanoseconds of a run of so many rounds, and its charges."""
    entries = [deploy("other", OTHER), deploy("c", KEPT + step + ROUND)] + [call(DEPLOYER, "c", "go", f"u{i * ENTRIES}") for i in range(rounds)]
    with tempfile.TemporaryDirectory() as folder:
        words = ["run", UNIT, transactions(folder, entries)]
        cost, written = counted(words, 0, " ok ")
        if cost is None:
            cost = min(ended(words).seconds for _ in range(5)) * 1e9
    assert written.count(" go ok ") == rounds, written[-300:]
    return cost, sum(int(runtime) for runtime in re.findall(r"^  cost (\d+) ", written, re.M))


print(f"{'step':28} {'charges':>8} {'a charge':>10} {'':>10} {'a step':>10}")
for name, step in STEPS:
    runs = [run_of(step, rounds) for rounds in (1, 6, 11)]
    spent = [(runs[i + 1][0] - runs[i][0], runs[i + 1][1] - runs[i][1]) for i in range(2)]
    steps = 5 * ENTRIES
    print(f"{name:28} {spent[0][1] / steps:8.0f} {spent[0][0] / spent[0][1]:10.0f} {spent[1][0] / spent[1][1]:10.0f} {spent[1][0] / steps:10.0f}", flush=True)

name, step = STEPS[9]
for rounds in (16, 64):
    entries = [deploy("other", OTHER), deploy("c", KEPT + step + ROUND)] + [call(DEPLOYER, "c", "go", f"u{i}") for i in range(rounds)]
    with tempfile.TemporaryDirectory() as folder:
        words = ["run", UNIT, transactions(folder, entries)]
        one = min((ended(words) for _ in range(3)), key=lambda it: it.seconds)
    assert one.status == 0 and one.written.count("event ft-transfer") == rounds * ENTRIES
    print(f"{name}, {rounds * ENTRIES:,} of them: {one.seconds / rounds / ENTRIES * 1e9:,.0f} ns each, {one.memory:.0f} MiB at most", flush=True)
PYTHON
