#!/usr/bin/env bash
# Makes page/dist, unless it is there, runs the cases through its module in node, and drives the page in a headless Chromium. A tool
# that is missing is skipped, and said. Debian's packages: nodejs (20 or later), chromium.
# Usage: page/test.sh [--unproved]
set -u
[ "${1-}" != --help ] || exec sed -n '2,/^[^#]/s/^# \{0,1\}//p' "$0"
page=$(cd "$(dirname "${BASH_SOURCE[0]}")" && pwd)
cases=$(dirname "$page")/crates/cases
"$page/build.sh" "$@" || exit 1
command -v node >/dev/null || { echo "node is missing: skipped" && exit; }
# Node 20 takes a 64-bit memory only by a flag, and its optimizing compiler wants more stack for the deepest cases.
flags=(--stack-size=3500)
! node --experimental-wasm-memory64 -e 0 2>/dev/null || flags+=(--experimental-wasm-memory64)
failed=0
# The names of themes have no spaces.
node "${flags[@]}" "$page/cases.mjs" "$page/dist/clarity.wasm" "$cases/data" $(cat "$cases/args") || failed=1
if command -v chromium >/dev/null; then
    node "$page/test.mjs" "$page/dist" || failed=1
else
    echo "chromium is missing: skipped"
fi
exit $failed
