#!/usr/bin/env bash
# Runs `rt ci` in a clean clone of what is committed, and prints the processor seconds of each crate's proof, edits, tests and
# programs, and their sums. Names of crates: those alone, with what they stand on. `--try-sums`: no gate, but whether the sums
# add up over a few processes that stand for it. Run by hand; python3 measures.
# Usage: bench/gate.sh [--try-sums | CRATE..]
set -eu
[ "${1-}" != --help ] || exec sed -n '2,/^[^#]/s/^# \{0,1\}//p' "$0"
cd "$(dirname "$0")"
PYTHONDONTWRITEBYTECODE=1 exec python3 gate.py "$@"
