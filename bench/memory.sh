#!/usr/bin/env bash
# Refuses the built program memory: one allocation after another, once that one alone and once it and all behind it. Each such run
# has to end with status 9 and a first part of the answer, or with the answer and its status. The runs: the call of `add1`, the
# token, and the vault with its calls between contracts. The program's calls of `malloc` and `realloc` go through a library of a few
# lines, which `cc` builds here. Every allocation of `add1` is refused, and of the others one in so many that some 4,000 are (a
# word is another number for it; 1 refuses each). Run by hand, a few minutes; python3 and cc.
# Usage: bench/memory.sh [EACH]
set -eu
[ "${1-}" != --help ] || exec sed -n '2,/^[^#]/s/^# \{0,1\}//p' "$0"
cd "$(dirname "$0")"
command -v cc >/dev/null || { echo "cc isn't there: nothing is refused"; exit 1; }
work=$(mktemp -d)
trap 'rm -rf "$work"' EXIT
cat >"$work/refuse.c" <<'LIBRARY'
/* Refuses the allocation whose number is in REFUSED, and all behind it where REFUSED_ON is set; writes their count to descriptor 9. */
#define _GNU_SOURCE
#include <dlfcn.h>
#include <stdio.h>
#include <stdlib.h>
#include <unistd.h>

static unsigned long made, refused;
static int on, is_read;

static int refuses(void) {
    if (!is_read) {
        const char *number = getenv("REFUSED");
        is_read = 1;
        refused = number ? strtoul(number, 0, 10) : 0;
        on = getenv("REFUSED_ON") != 0;
    }
    made++;
    return refused && (made == refused || (on && made > refused));
}

void *malloc(size_t size) {
    static void *(*real)(size_t);
    if (!real) real = (void *(*)(size_t))dlsym(RTLD_NEXT, "malloc");
    return refuses() ? 0 : real(size);
}

void *realloc(void *old, size_t size) {
    static void *(*real)(void *, size_t);
    if (!real) real = (void *(*)(void *, size_t))dlsym(RTLD_NEXT, "realloc");
    return refuses() ? 0 : real(old, size);
}

__attribute__((destructor)) static void tell(void) {
    char text[32];
    int length = snprintf(text, sizeof text, "%lu", made);
    if (write(9, text, length) < 0) return;
}
LIBRARY
cc -O2 -shared -fPIC -o "$work/refuse.so" "$work/refuse.c" -ldl
PYTHONDONTWRITEBYTECODE=1 python3 - "$work" "$@" <<'PYTHON'
import collections
import os
import subprocess
import sys

from made import UNIT
from measure import PROGRAM

ROOM, STRIDE = sys.argv[1], int(sys.argv[2]) if sys.argv[2:] else 0
RUNS = [
    ("call of add1", ["call", "../examples/inc.clar", "add1", "41"], 1),
    ("token", ["run", UNIT, "../examples/token.json", "--state"], 0),
    ("vault, calls between contracts", ["run", UNIT, "../examples/vault.json", "--state"], 0),
]


def ran(words, number, on):
    """The status, what was written, and how many allocations were asked for."""
    environment = {**os.environ, "LD_PRELOAD": f"{ROOM}/refuse.so", "REFUSED": str(number)}
    if on:
        environment["REFUSED_ON"] = "1"
    with open(f"{ROOM}/count", "w+") as count:
        told = count.fileno()
        child = subprocess.run([PROGRAM, *words], env=environment, stdout=subprocess.PIPE, stderr=subprocess.PIPE, preexec_fn=lambda: os.dup2(told, 9), close_fds=False, timeout=60)
        count.seek(0)
        return child.returncode, child.stdout, int(count.read() or 0)


bad = 0
for name, words, stride in RUNS:
    status, answer, made = ran(words, 0, False)
    assert status == 0 and made > 0, (status, answer[:200], made)
    step = STRIDE or stride or max(1, made // 4000)
    ends = collections.Counter()
    for number in range(1, made + 1, step):
        for on in (False, True):
            ended, written, _ = ran(words, number, on)
            if ended == 9 and answer.startswith(written):
                ends["status 9 and nothing written" if not written else "status 9 and a first part"] += 1
            elif (ended, written) == (status, answer):
                ends["the answer"] += 1
            else:
                bad += 1
                print(f"{name}: allocation {number}{' and on' if on else ''}: status {ended}, {written[-200:]!r}", flush=True)
    print(f"{name}: {made} allocations, one in {step} refused: " + ", ".join(f"{count} times {end}" for end, count in sorted(ends.items())), flush=True)
sys.exit(f"{bad} runs ended otherwise" if bad else None)
PYTHON
