#!/usr/bin/env bash
# Runs transaction files: calls that write a variable, calls whose err undoes the write, calls that read, transfers of a token
# between 1,000 holders, and calls of a contract that calls another; each in a node of 1, 100 and 1,000 contracts. Prints the
# instructions of one call more, from the difference of two numbers of calls, by callgrind (without valgrind, nanoseconds), and
# the peak of memory at 4,000 and at 64,000 calls beside the size of the file. Where a row is flat, a call costs the same however
# many contracts a node has. The last row is of a block at which the epoch changes, beside one at which it doesn't, and prints
# their difference for each deployed function too: it may rise no faster than the functions. Run by hand; python3 measures.
# Usage: bench/run.sh
set -eu
[ "${1-}" != --help ] || exec sed -n '2,/^[^#]/s/^# \{0,1\}//p' "$0"
cd "$(dirname "$0")"
PYTHONDONTWRITEBYTECODE=1 python3 - <<'PYTHON'
import json
import os
import tempfile

from made import DEPLOYER, UNIT, address, block, call, deploy, transactions
from measure import instructions, run

VARIABLE = (
    "(define-data-var n int 0)"
    "(define-public (put (x int)) (begin (var-set n x) (ok (+ x 1))))"
    "(define-public (no (x int)) (begin (var-set n x) (err x)))"
    "(define-read-only (sum (x int)) (+ x (var-get n)))"
)
AWAY = "(define-public (put (x int)) (contract-call? .c put x))"
TOKEN = (
    "(define-fungible-token coin)(ft-mint? coin u1000000 tx-sender)"
    "(define-public (send (a uint) (from principal) (to principal)) (ft-transfer? coin a from to))"
)
HOLDERS = [DEPLOYER] + [address(i) for i in range(1, 1000)]


def transfer(i):
    # First one to each holder, then around in a ring.
    start = "0" if i < 1000 else str(i % 1000)
    return call(DEPLOYER, "t", "send", "u1", "'" + HOLDERS[int(start)], "'" + HOLDERS[(i + 1) % 1000])


ROWS = [
    ("writes a variable", lambda i: call(DEPLOYER, "c", "put", str(i)), " ok "),
    ("err undoes the write", lambda i: call(DEPLOYER, "c", "no", str(i)), " err "),
    ("reads a variable", lambda i: call(DEPLOYER, "c", "sum", str(i)), " value "),
    ("transfers a token", transfer, " ok "),
    ("calls another contract", lambda i: call(DEPLOYER, "a", "put", str(i)), " ok "),
]


def deployments(contracts):
    others = [deploy(f"c{i}", "(define-read-only (f) 1)") for i in range(contracts)]
    return [deploy("c", VARIABLE), deploy("t", TOKEN), *others, deploy("a", AWAY)]


def file_of(folder, of, contracts, calls):
    return transactions(folder, deployments(contracts) + [of(i) for i in range(calls)])


def file_of_blocks(folder, contracts, changes):
    """A file with 64 epochs, of which so many begin with one of its 64 blocks."""
    with open(UNIT) as file:
        table = json.load(file)
    blocks = [block(min(height, changes)) for height in range(1, 65)]
    return transactions(folder, deployments(contracts) + blocks, epochs=[(height, table) for height in range(1, 65)])


def cost(path):
    counted = instructions(["run", UNIT, path], 0, "0 deploy")
    return counted if counted is not None else min(run(["run", UNIT, path], 0, "0 deploy")[0] for _ in range(5)) * 1e9


with tempfile.TemporaryDirectory() as folder:
    print(f"{'call that':24} {'1 contract':>12} {'100':>10} {'1,000':>10}   MiB of 4,000 and 64,000 calls (of their files)")
    for name, of, answer in ROWS:
        each = []
        for contracts in (1, 100, 1000):
            costs = [cost(file_of(folder, of, contracts, calls)) for calls in (2000, 4000)]
            each.append((costs[1] - costs[0]) / 2000)
        peaks = []
        for calls in (4000, 64000):
            path = file_of(folder, of, 1, calls)
            peaks.append(f"{run(['run', UNIT, path], 0, answer)[1]:.0f} ({os.path.getsize(path) / 2**20:.0f})")
        print(f"{name:24} {each[0]:12.0f} {each[1]:10.0f} {each[2]:10.0f}   {', '.join(peaks)}", flush=True)
    each, functions = [], []
    for contracts in (1, 100, 1000):
        costs = [cost(file_of_blocks(folder, contracts, changes)) for changes in (32, 64)]
        each.append((costs[1] - costs[0]) / 32)
        # Those of the three contracts besides: put, no, sum; send; put.
        functions.append(contracts + 5)
    print(f"{'changes the epoch':24} {each[0]:12.0f} {each[1]:10.0f} {each[2]:10.0f}   a function: "
          + ", ".join(f"{cost / count:.0f}" for cost, count in zip(each, functions)), flush=True)  # fmt: skip
PYTHON
