#!/usr/bin/env bash
# Instructions of one call more of the library for C, by callgrind: a call in parts, and the step within it; a `peek`; the call in a
# transaction file alone; among others in a file, and in `run`; a value's wire form; the opening and closing of a node under costs
# that were read. memset and memcpy are counted by their vectors, not by the bytes of a `rep`. Run by hand; needs valgrind and gcc.
# Usage: bench/library.sh OUT, with the OUT of bindings/build.sh
set -eu
[ "${1-}" != --help ] || exec sed -n '2,/^[^#]/s/^# \{0,1\}//p' "$0"
top=$(cd "$(dirname "${BASH_SOURCE[0]}")/.." && pwd)
work=$(mktemp -d)
trap 'rm -rf "$work"' EXIT
gcc -std=c11 -O2 -I"$top/include" "$top/bench/library.c" "$1/libclarity.a" -o "$work/library"
export GLIBC_TUNABLES=glibc.cpu.x86_rep_stosb_threshold=1048576:glibc.cpu.x86_rep_movsb_threshold=1048576

# The instructions of a row's calls, or of a function within them.
count() {
    local within=${3:-main}
    valgrind --tool=callgrind --callgrind-out-file=/dev/null --toggle-collect="$within" "$work/library" "$top/examples/unit.json" "$1" "$2" 2>&1 |
        sed -n 's/.*Collected : //p'
}

for row in call peek alone file run wire open; do
    echo "$row $((($(count "$row" 300) - $(count "$row" 100)) / 200))"
done
echo "the step of a call $((($(count call 300 'cl_engine::node::Node::step') - $(count call 100 'cl_engine::node::Node::step')) / 200))"
