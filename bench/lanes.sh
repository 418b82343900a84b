#!/usr/bin/env bash
# Runs the files of the cases of lanes in 1 to 16 lanes, by hundreds of seeds, and compares the report with that of `run`, and the
# line of the two numbers with tools/model. Then counts instructions by callgrind (without valgrind it leaves that out): a call more,
# in a node of 100 and of 10,000 rows, beside `run`. A trial copies the state, so a call takes time by the rows; in a node of one
# size it is flat. CLARITY and CLARITY_LANES name other programs. Run by hand; python3; some minutes.
# Usage: bench/lanes.sh
set -eu
[ "${1-}" != --help ] || exec sed -n '2,/^[^#]/s/^# \{0,1\}//p' "$0"
cd "$(dirname "$0")"
PYTHONDONTWRITEBYTECODE=1 python3 - <<'PYTHON'
import json
import os
import subprocess
import sys
import tempfile

import measure
from made import DEPLOYER, UNIT, address, call, deploy, transactions

sys.path.insert(0, "../tools/model")
sys.setrecursionlimit(100000)
import cases
import commands

LANES = os.path.abspath(os.environ.get("CLARITY_LANES", "../crates/clarity_lanes/out/clarity_lanes"))
PLAIN = os.path.abspath(measure.PROGRAM)
COUNTER = "(define-data-var n uint u0)(define-public (inc) (begin (var-set n (+ (var-get n) u1)) (ok (var-get n))))"


def compared(held):
    """How many runs were compared: of each file in each number of lanes by twenty seeds."""
    count = 0
    with tempfile.TemporaryDirectory() as folder:
        for name, content in held.items():
            with open(os.path.join(folder, name), "wb") as file:
                file.write(content)
        for name in held:
            if name == "unit.json":
                continue
            report = subprocess.run([PLAIN, "run", "unit.json", name], cwd=folder, capture_output=True, text=True).stdout
            for lanes in range(1, 17):
                for seed in range(20 * lanes, 20 * lanes + 20):
                    words = [str(lanes), str(seed), "unit.json", name]
                    ended = subprocess.run([LANES, *words], cwd=folder, capture_output=True, text=True)
                    line = commands.answer_in_lanes(words, commands.Files(dict(held))).lines[-1]
                    if ended.returncode != 0 or ended.stdout != f"{report}{line}\n":
                        sys.exit(f"differs: {' '.join(words)}: status {ended.returncode}, and not {line!r} behind the report")
                    count += 1
    return count


def a_call(program, words, rows):
    """The instructions of a call more, by the difference of 200 and 400."""
    taken = []
    measure.PROGRAM = program
    for calls in (200, 400):
        entries = [deploy("n", COUNTER)] + [call(DEPLOYER, "n", "inc")] * calls
        with tempfile.TemporaryDirectory() as folder:
            file = transactions(folder, entries, [{"principal": address(i), "stx": "u1"} for i in range(rows)])
            taken.append(measure.instructions([*words, UNIT, file], 0, "0 deploy"))
    return (taken[1] - taken[0]) / 200 if taken[0] else None


theme = cases.read_theme(cases.DATA / "lanes.json")
print(f"{compared({name: cases.content(value) for name, value in theme['files'].items()}):,} runs have the report of `run` and the line of tools/model")
for rows in (100, 10000):
    plain = a_call(PLAIN, ["run"], rows)
    if plain is None:
        print("valgrind isn't there: nothing is counted")
        break
    print(f"{rows:6,} rows: {a_call(LANES, ['4', '7'], rows):,.0f} instructions a call in 4 lanes, {plain:,.0f} by `run`", flush=True)
PYTHON
