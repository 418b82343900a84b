#!/usr/bin/env bash
# Measures the first hour in a fresh clone of what is committed: the first answer, the second one, the tests and the unproved library.
# Prints for each its seconds, those of processors, its status and the load when it began, and the last lines
# of what one writes that fails. Run by hand, on a quiet machine; takes ten minutes.
# Usage: bench/first_hour.sh
set -u
[ "${1-}" != --help ] || exec sed -n '2,/^[^#]/s/^# \{0,1\}//p' "$0"
top=$(cd "$(dirname "$0")/.." && pwd) || exit 1
folder=$(mktemp -d) || exit 1
trap 'rm -rf "$folder"' EXIT
TIMEFORMAT='%R %U %S'

# Runs the command behind the text, and prints the line of the table.
measure() {
    local text=$1 load status=0 times
    shift
    read -r load _ </proc/loadavg
    times=$({ time "$@" >"$folder/out" 2>&1 </dev/null || status=$?; echo "$status" >"$folder/status"; } 2>&1)
    status=$(cat "$folder/status")
    awk -v text="$text" -v status="$status" -v load="$load" '{ printf "%-40s %9.1f %9.1f %6d %6.1f\n", text, $1, $2 + $3, status, load }' <<<"$times"
    [ "$status" = 0 ] || tail -n 5 "$folder/out"
}

git clone -q "$top" "$folder/clone" && cd "$folder/clone" || exit 1
echo "$(tools/build commit), $(rt version | head -n 1), $(nproc) processors"
printf '%-40s %9s %9s %6s %6s\n' "" seconds processor status load
measure "first answer" ./clarity call examples/inc.clar add1 41
measure "second answer" ./clarity call examples/inc.clar add1 41
measure "tests" ./test
measure "tests again" ./test
measure "unproved library" bindings/build.sh --unproved "$folder/library"
