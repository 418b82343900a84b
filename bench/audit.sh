#!/usr/bin/env bash
# Audits what `trace` and `run` write of each transaction file of the cases, and of each source that they call: `audit` has to say yes;
# with another place in a claim, and with a byte of the report less, it has to say where. Then counts instructions by callgrind (without
# valgrind it leaves that out): `audit` beside `run` of the same file, for a call more, twice: with half and with all of the calls; at
# most four times. Last the peak of memory for a byte of the trace file, beside that with an empty one; at most 20 bytes, but lists of
# small values are above, each of which takes some 150. Ends with 1 where something is above. CLARITY names another program. Run by
# hand; python3; some minutes.
# Usage: bench/audit.sh
set -eu
[ "${1-}" != --help ] || exec sed -n '2,/^[^#]/s/^# \{0,1\}//p' "$0"
cd "$(dirname "$0")"
PYTHONDONTWRITEBYTECODE=1 python3 - <<'PYTHON'
import json
import os
import shutil
import subprocess
import sys
import tempfile

from made import DEPLOYER, UNIT, call, deploy, transactions, written
from measure import PROGRAM, ended, instructions

sys.path.insert(0, "../tools/model")
import cases

LONGEST_FILE = 16 << 20
MOST_TIMES, MOST_BYTES = 4, 20
wrong = 0


def compared(name, amount, most, unit):
    global wrong
    wrong += amount > most
    print(f"{name}: {amount:.1f} {unit}{'' if amount <= most else ', which is too much'}", flush=True)


# ---- the files of the cases

def answered(words):
    one = subprocess.run([PROGRAM, *words], stdout=subprocess.PIPE, stderr=subprocess.DEVNULL)
    return one.returncode, one.stdout


def calling(words, held):
    """The transaction file of the words of `call`."""
    file, function, *arguments = [word for word in words if word not in ("--", "--clarity2")]
    deployment = deploy("main", held[file].decode())
    deployment["deploy"]["clarity"] = 2 if "--clarity2" in words else 1
    return json.dumps({"version": 1, "genesis": [], "entries": [deployment, call(DEPLOYER, "main", function, *arguments)]}).encode()


def files_of_cases():
    """The costs and the transaction file of each case of a command that has these, or of `call`; some are no such files."""
    for path in sorted(cases.DATA.glob("*.json")):
        theme = cases.read_theme(path)
        for case in theme.get("cases", ()):
            held = {name: cases.content(value) for name, value in cases.files_of(theme, case).items()}
            try:
                command, *words = [cases.content(word).decode() for word in case.get("words", theme.get("words"))]
                if command in ("run", "trace", "root"):
                    yield held[words[0]], held[words[1]]
                elif command == "call":
                    yield (cases.DATA / "unit.json").read_bytes(), calling(words, held)
            except (KeyError, IndexError, ValueError):
                continue


def other_claim(trace):
    """The trace with another START in the claim in the middle, and the entry and the number of this claim."""
    lines = trace.splitlines()
    place = len(lines) // 2
    entry, span, value = lines[place].split(b" ")
    start, _, end = span.partition(b"..")
    number = sum(line.startswith(entry + b" ") for line in lines[:place])
    lines[place] = b"%s %d..%s %s" % (entry, int(start) + 1, end, value)
    return b"\n".join(lines) + b"\n", b"no claim %s %d\n" % (entry, number)


def audited(folder, costs, file):
    """How many answers were as they have to be for one file."""
    paths = [os.path.join(folder, name) for name in ("costs.json", "tx.json", "trace", "report")]
    for path, content in zip(paths, (costs, file)):
        with open(path, "wb") as out:
            out.write(content)
    (status, report), (_, trace) = answered(["run", *paths[:2]]), answered(["trace", *paths[:2]])
    if status != 0 or max(len(report), len(trace)) > LONGEST_FILE:
        return 0
    tried = [(trace, report, 0, b"yes\n")]
    if trace:
        other, answer = other_claim(trace)
        tried.append((other, report, 6, answer))
    if report:
        tried.append((trace, report[:-1], 6, b"no report %d\n" % (len(report) - 1)))
    for trace, report, *answer in tried:
        for path, content in zip(paths[2:], (trace, report)):
            with open(path, "wb") as out:
                out.write(content)
        came = answered(["audit", *paths])
        if list(came) != answer:
            sys.exit(f"differs: {file.decode(errors='replace')[:2000]}: {came}, and not {answer}")
    return len(tried)


# ---- instructions and memory

SOURCES = {
    "c": "(define-data-var n int 0)(define-public (put (x int)) (begin (var-set n x) (ok (+ x 1))))(define-read-only (sum (x int)) (+ x (var-get n)))",
    "t": "(define-fungible-token coin)(ft-mint? coin u1000000 tx-sender)(define-public (send (to principal)) (ft-transfer? coin u1 tx-sender to))",
    "a": "(define-public (put (x int)) (contract-call? .c put x))",
    "m": "(define-map kept uint {n: uint, s: (string-ascii 8)})(define-public (put (k uint)) (ok (map-set kept k {n: k, s: \"abc\"})))",
    "f": "(define-private (add (x int) (sum int)) (+ (* x 2) sum))(define-read-only (by-name (xs (list 100 int))) (fold + xs 0))(define-read-only (own (xs (list 100 int))) (fold add xs 0))",
}  # fmt: skip
HUNDRED = "(list " + " ".join(map(str, range(100))) + ")"
MANY = "".join(f"(define-private (f{i}) {i})" for i in range(300)) + "(define-constant k 1)(define-public (last) (ok (+ k (f299))))"
CONSTANTS = "".join(f"(define-constant k{i} {i})" for i in range(300)) + "(define-public (last) (ok k299))"
NAMES = f"(define-public (last) (let ((a0 1) {' '.join(f'(a{i} a{i - 1})' for i in range(1, 300))}) (ok a299)))"
FEW = [deploy(name, source) for name, source in SOURCES.items()]
OTHERS = [deploy(f"c{i}", "(define-read-only (f) 1)") for i in range(300)]
OFTEN, SELDOM = (250, 500, 1000), (25, 50, 100)
# What a call does, how many calls there are, what is deployed before, and the call.
ROWS = [
    ("writes a variable", OFTEN, FEW, lambda i: call(DEPLOYER, "c", "put", str(i))),
    ("reads a variable", OFTEN, FEW, lambda i: call(DEPLOYER, "c", "sum", str(i))),
    ("transfers a token", OFTEN, FEW, lambda i: call(DEPLOYER, "t", "send", f"'{DEPLOYER}.c")),
    ("calls another contract", OFTEN, FEW, lambda i: call(DEPLOYER, "a", "put", str(i))),
    ("sets an entry of a map", OFTEN, FEW, lambda i: call(DEPLOYER, "m", "put", f"u{i}")),
    ("folds a native over 100 ints", SELDOM, FEW, lambda i: call(DEPLOYER, "f", "by-name", HUNDRED)),
    ("folds a function over 100 ints", SELDOM, FEW, lambda i: call(DEPLOYER, "f", "own", HUNDRED)),
    ("writes a variable, behind 300 contracts", SELDOM, OTHERS + FEW, lambda i: call(DEPLOYER, "c", "put", str(i))),
    ("calls the last of 300 functions", SELDOM, [deploy("d", MANY)], lambda i: call(DEPLOYER, "d", "last")),
    ("reads the last of 300 constants", SELDOM, [deploy("d", CONSTANTS)], lambda i: call(DEPLOYER, "d", "last")),
    ("binds 300 names, each to the one before", SELDOM, [deploy("d", NAMES)], lambda i: call(DEPLOYER, "d", "last")),
]


def traced(folder, file):
    """The paths of the trace and of the report of a file, and how many claims there are."""
    texts = [answered([command, UNIT, file])[1].decode() for command in ("trace", "run")]
    return written(folder, "trace", texts[0]), written(folder, "report", texts[1]), texts[0].count("\n")


def beside_run(folder, calls, before, of):
    """For each number of calls the instructions of `audit` and of `run`, and the claims."""
    for count in calls:
        file = transactions(folder, before + [of(i) for i in range(count)])
        trace, report, claims = traced(folder, file)
        audit = instructions(["audit", UNIT, file, trace, report], 0, "yes")
        yield audit, instructions(["run", UNIT, file], 0, "0 deploy"), claims


def a_call(folder, name, calls, before, of):
    first, second, third = beside_run(folder, calls, before, of)
    more, most = calls[1] - calls[0], calls[2] - calls[1]
    audits = [(second[0] - first[0]) / more, (third[0] - second[0]) / most]
    run, claims = (third[1] - second[1]) / most, (third[2] - second[2]) / most
    print(f"{name}: `audit` {audits[0]:,.0f} and {audits[1]:,.0f} instructions a call of {claims:.0f} claims, `run` {run:,.0f}")
    compared(f"{name}: `audit` takes", audits[1] / run, MOST_TIMES, "times `run`")


def a_byte(folder, name, file, trace, status, answer):
    """The peak for a byte of a trace file, above that with an empty one, where the answer is another and `run` is done too."""
    report, path = written(folder, "report", ""), written(folder, "trace", "")
    plain = max(ended(["audit", UNIT, file, path, report]).memory, ended(["run", UNIT, file]).memory)
    path = written(folder, "trace", trace)
    one = ended(["audit", UNIT, file, path, report])
    assert one.status == status and one.written.startswith(answer), (name, one.status, one.written[:200])
    compared(f"{name}, {len(trace):,} bytes", (one.memory - plain) * 2**20 / len(trace), MOST_BYTES, "bytes of memory a byte")


with tempfile.TemporaryDirectory() as folder:
    count = sum(audited(folder, *files) for files in files_of_cases())
    print(f"{count:,} audits of what the program writes of the files of the cases answer as they have to", flush=True)
    for row in ROWS if shutil.which("valgrind") else []:
        a_call(folder, *row)
    file = transactions(folder, [deploy("e", "")])
    a_byte(folder, "the shortest lines", file, "0 0..0 03\n" * 1600000, 6, "no claim 0 0")
    a_byte(folder, "ints", file, f"0 0..0 00{41:032x}\n" * 380000, 6, "no claim 0 0")
    a_byte(folder, "buffers of 1 MiB", file, f"0 0..0 02{1048571:08x}{'5a' * 1048571}\n" * 7, 6, "no claim 0 0")
    a_byte(folder, "lists of 100 bools", file, f"0 0..0 0b{100:08x}{'03' * 100}\n" * 70000, 6, "no claim 0 0")
    file = transactions(folder, [deploy("f", SOURCES["f"])] + [call(DEPLOYER, "f", "own", HUNDRED)] * 400)
    with open(traced(folder, file)[0]) as trace:
        a_byte(folder, "its own trace, folds", file, trace.read(), 6, "no report 0")
sys.exit(1 if wrong else 0)
PYTHON
