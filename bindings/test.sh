#!/usr/bin/env bash
# Builds the library into OUT (bindings/out, unless given), unless it is there, and tries it: its names and version, the examples in C
# and C++, in C also under valgrind, in Python and Rust, and an installed one. A tool that is missing is skipped, and said. Debian's
# packages: gcc, g++, clang, binutils, valgrind, python3, cargo, pkg-config.
# Usage: bindings/test.sh [--unproved] [OUT]
set -u
[ "${1-}" != --help ] || exec sed -n '2,/^[^#]/s/^# \{0,1\}//p' "$0"
here=$(cd "$(dirname "${BASH_SOURCE[0]}")" && pwd)
top=$(dirname "$here")
way=()
[ "${1-}" != --unproved ] || { way=(--unproved) && shift; }
"$here/build.sh" "${way[@]}" "${1-$here/out}" || exit 1
out=$(cd "${1-$here/out}" && pwd)
header=$top/include/clarity.h costs=$top/examples/unit.json
version=$(cat "$top/VERSION")
strict=(-Wall -Wextra -Werror -pedantic -Wno-overlength-strings -O1 -g)
passed=0 failed=0
work=$(mktemp -d) || exit 1
trap 'rm -rf "$work"' EXIT

try() {
    local name=$1
    shift
    if "$@" >"$work/said" 2>&1; then
        passed=$((passed + 1)) && echo "$name: passed"
    else
        failed=$((failed + 1)) && echo "$name: FAILED" && tail -n 20 "$work/said"
    fi
}

has() {
    command -v "$1" >/dev/null || { echo "$1 is missing: skipped" && return 1; }
}

# Whether a text is the one that is wanted.
same() {
    [ "$1" = "$2" ] || { echo "it is '$1', not '$2'" && return 1; }
}

# The names that a library shows, one a line, as `nm` with these words lists them.
shown() {
    nm --defined-only "$@" | sed -n 's/^[0-9a-f]\+ [^ ] //p' | LC_ALL=C sort
}

try_names() {
    has nm || return
    try 'header' "$here/header" "$header" "$top"/crates/clarity_c/src/*.rt
    local names
    names=$("$here/header" "$header")
    try 'names of libclarity.so' same "$(shown -D "$out/libclarity.so")" "$names"
    try 'names of libclarity.a' same "$(shown -g "$out/libclarity.a")" "$names"
    local soname
    soname=$(readelf -d "$out/libclarity.so" | sed -n 's/.*(SONAME).*\[\(.*\)\]/\1/p')
    try 'SONAME' same "$soname" "libclarity.so.${version%%.*}"
}

try_version() {
    local macros='CLARITY_VERSION CLARITY_VERSION_MAJOR CLARITY_VERSION_MINOR CLARITY_VERSION_PATCH'
    macros=$(printf '#include "clarity.h"\n%s\n' "$macros" | gcc -E -P -I"$top/include" - | tail -n 1)
    try 'version of the header' same "$macros" "\"$version\" ${version//./ }"
    local in_python='import lumpitseha; print(lumpitseha.__version__)'
    has python3 && try 'version in Python' same "$(cd "$here/python" && python3 -Bc "$in_python")" "$version"
    try 'version in Rust' same "$(sed -n 's/^version = "\(.*\)"/\1/p' "$here/rust/Cargo.toml")" "$version"
}

# Compiles an example by a compiler under each standard, and runs what the last one made.
try_example() {
    local compiler=$1 source=$2 standard
    has "$compiler" || return
    shift 2
    for standard in "$@"; do
        try "$compiler -std=$standard" "$compiler" "-std=$standard" "${strict[@]}" -I"$top/include" "$source" "$out/libclarity.a" \
            -o "$work/$compiler"
    done
    try "$compiler, the example" "$work/$compiler" "$costs"
}

# The block of docs/EMBEDDING.md with this number.
block() {
    awk -v number="$1" '/^```/ { inside = !inside; count += inside; next } inside && count == number' "$top/docs/EMBEDDING.md"
}

# Compiles an example over the installed library by pkg-config's words, and tells what it prints.
installed() {
    local source=$1 words
    read -ra words < <(PKG_CONFIG_PATH=$work/prefix/lib/pkgconfig pkg-config --cflags --libs clarity)
    gcc -std=c11 "${strict[@]}" "$source" "${words[@]}" -o "$work/installed" && LD_LIBRARY_PATH=$work/prefix/lib "$work/installed" "$costs"
}

try_installed() {
    try 'install' "$here/install.sh" "$work/prefix" "$out"
    try 'install below DESTDIR' env DESTDIR="$work/stage" "$here/install.sh" /usr "$out"
    try 'its prefix' grep -qx 'prefix=/usr' "$work/stage/usr/lib/pkgconfig/clarity.pc"
    try 'nothing to install' same "$("$here/install.sh" "$work/none" "$work" 2>/dev/null; echo $?)" 1
    has pkg-config || return
    try 'version of the package' same "$(PKG_CONFIG_PATH=$work/prefix/lib/pkgconfig pkg-config --modversion clarity)" "$version"
    try 'C by pkg-config' installed "$here/c/example.c"
    block 1 >"$work/page.c"
    try 'the example of the page' same "$(installed "$work/page.c" 2>&1)" "$(block 2)"
}

try_names
try_version
for compiler in gcc clang; do try_example "$compiler" "$here/c/example.c" c99 c11 c17; done
for compiler in g++ clang++; do try_example "$compiler" "$here/cpp/example.cpp" c++11 c++14 c++17 c++20; done
has valgrind && try 'C under valgrind' valgrind -q --leak-check=full --error-exitcode=9 "$work/gcc" "$costs"
has python3 && try 'Python' env PYTHONDONTWRITEBYTECODE=1 python3 "$here/python/example.py" "$out/libclarity.so" "$costs"
has python3 && try 'the console' env CLARITY_LIBRARY="$out" "$top/bench/console.sh" --library
if has cargo; then
    export CARGO_TARGET_DIR=$out/target CLARITY_LIBRARY=$out
    try 'Rust, doc test' cargo test --offline -q --manifest-path "$here/rust/Cargo.toml"
    try 'Rust' cargo run --offline -q --release --manifest-path "$here/rust/Cargo.toml" --example node "$costs"
    rm -f "$here/rust/Cargo.lock"
fi
try_installed
echo "$passed passed, $failed failed"
[ "$failed" = 0 ]
