#!/usr/bin/env bash
# Builds the library of include/clarity.h in OUT (bindings/out, unless given): libclarity.a, and libclarity.so by its three names. It
# proves clarity_c first, in up to three hours of processor time. With --unproved it doesn't: the library is there in minutes, and
# has checks at run time, which end the process where one fails and take some stack. It is kept until a source changes. `rt`, python3,
# gcc and binutils have to be on PATH.
# Usage: bindings/build.sh [--unproved] [OUT]
#        bindings/build.sh --kept [OUT]     builds nothing: status 0 if one of either kind is there, and no source is newer
set -euo pipefail
[ "${1-}" != --help ] || exec sed -n '2,/^[^#]/s/^# \{0,1\}//p' "$0"
here=$(cd "$(dirname "${BASH_SOURCE[0]}")" && pwd)
top=$(dirname "$here")
. "$here/common.sh"
way=proved
if [ "${1-}" = --kept ]; then
    out=${2-$here/out}
    is_library_kept "$out" proved || is_library_kept "$out" unproved
    exit
fi
[ "${1-}" != --unproved ] || { way=unproved && shift; }
mkdir -p "${1-$here/out}"
out=$(cd "${1-$here/out}" && pwd)
version=$(cat "$top/VERSION")

proved() {
    (cd "$top/crates/clarity_c" && rt lib >"$work/log" 2>&1) || { tail -n 40 "$work/log" >&2 && exit 1; }
    ld -r -o "$work/engine.o" --whole-archive "$top/crates/clarity_c/out/libclarity_c.a"
}

# -O0 compiles in a quarter of the time, but its code takes twice the stack, and is nearly four times as long.
unproved() {
    write_unproved_code "$work/code.ll"
    echo "build.sh: compiles it, the last step" >&2
    "$kit/toolchain/bin/clang" --no-default-config -no-canonical-prefixes -w -O1 -march=x86-64 -ffunction-sections -fdata-sections -fPIC \
        -x ir -c "$work/code.ll" -o "$work/engine.o"
}

# Makes both libraries of one object that shows the header's names alone, with its memory: an allocator over malloc, realloc and free.
pack() {
    local soname=libclarity.so.${version%%.*} shared=libclarity.so.$version
    "$here/header" "$top/include/clarity.h" >"$work/names"
    ld -r -o "$work/clarity.o" "$work/engine.o" "$kit/c/liblibc_c.a"
    objcopy --keep-global-symbols="$work/names" "$work/clarity.o"
    mkdir "$work/made"
    ar rcs "$work/made/libclarity.a" "$work/clarity.o"
    gcc -shared -o "$work/made/$shared" -Wl,-soname,"$soname" -Wl,--gc-sections -Wl,--no-undefined -Wl,-s "$work/clarity.o"
    # Second names and no symbolic links, which `rt` refuses within a checkout.
    ln "$work/made/$shared" "$work/made/$soname"
    ln "$work/made/$shared" "$work/made/libclarity.so"
}

[ $way = proved ] || say_unproved
# A second build waits, and takes what the first one made. What builds left that were killed goes.
exec 9>"$out/.building" && flock 9
! is_library_kept "$out" $way || exit 0
rm -rf "$out"/building.*
work=$(mktemp -d "$out/building.XXXXXX")
trap 'rm -rf "$work"' EXIT
: >"$work/began"
kit=$(dirname "$(rt doc)")
$way
pack
rm -f "$out"/libclarity.* "$out"/{un,}proved
mv "$work"/made/* "$out/"
mv "$work/began" "$out/$way"
