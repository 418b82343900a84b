#!/usr/bin/env bash
# Makes page/dist: the page, and the engine as a WebAssembly module. It proves clarity_c, keeps the LLVM code that the library is
# compiled of, and compiles it for wasm64. With --unproved it takes that code before any proof, in minutes, and the page says so. The
# module is kept until a source changes. Any server can hand page/dist out: cd page/dist && python3 -m http.server
# `rt` and python3 have to be on PATH. Usage: page/build.sh [--unproved]
set -euo pipefail
[ "${1-}" != --help ] || exec sed -n '2,/^[^#]/s/^# \{0,1\}//p' "$0"
page=$(cd "$(dirname "${BASH_SOURCE[0]}")" && pwd)
top=$(dirname "$page") crate=$(dirname "$page")/crates/clarity_c
. "$top/bindings/common.sh"
case "$*" in
"") way=proved ;;
--unproved) way=unproved ;;
*) echo "page/build.sh --help shows the usage" >&2 && exit 2 ;;
esac
kit=$(dirname "$(rt doc)")
work=$(mktemp -d)
trap 'rm -rf "$work"' EXIT

# A kit of links to the one that `rt` is of, whose clang keeps the LLVM code that it is given.
link_kit() {
    mkdir -p "$work/kit/bin" "$work/kit/toolchain/bin" "$work/kept"
    local it
    for it in "$kit"/*; do
        case $(basename "$it") in bin | toolchain) ;; *) ln -s "$it" "$work/kit/" ;; esac
    done
    for it in "$kit"/bin/*; do
        # `rt` finds its kit by where it is.
        case $(basename "$it") in rt | rtlib.py) cp "$it" "$work/kit/bin/" ;; *) ln -s "$it" "$work/kit/bin/" ;; esac
    done
    ln -s "$kit/toolchain/lib" "$work/kit/toolchain/lib"
    for it in "$kit"/toolchain/bin/*; do
        case $(basename "$it") in
        clang) ;;
        rattle-x64) ln -s "$it" "$work/kit/toolchain/bin/" ;;
        *) printf '#!/bin/bash\nexec "%s" "$@"\n' "$it" >"$work/kit/toolchain/bin/$(basename "$it")" ;;
        esac
    done
    cat >"$work/kit/toolchain/bin/clang" <<END
#!/bin/bash
for it in "\$@"; do
    case \$it in *.bc) [ ! -f "\$it" ] || cp "\$it" "$work/kept/\$(date +%s%N).bc" ;; esac
done
exec "$kit/toolchain/bin/clang" "\$@"
END
    chmod +x "$work"/kit/toolchain/bin/*
}

# The LLVM code of the library, as $work/library.ll.
proved() {
    link_kit
    rm -f "$crate/out/libclarity_c.a"
    (cd "$crate" && "$work/kit/bin/rt" lib >"$work/log" 2>&1) || { tail -n 40 "$work/log" >&2 && exit 1; }
    as_text "$(ls -S "$work"/kept/*.bc | head -n 1)" >"$work/library.ll"
}

# Without the checks at run time: they take stack, which a browser has little of.
unproved() {
    write_unproved_code "$work/checked.ll"
    grep -v 'call void @"rattle-llvm-checks::' "$work/checked.ll" >"$work/library.ll"
}

# The module, of the LLVM code under this path: it is lowered for x86-64, whose pointers and layout have the same sizes, and uses
# one instruction of that processor, for which there is code.
compile() {
    local layout=e-m:e-p:64:64-p10:8:8-p20:8:8-i64:64-i128:128-n32:64-S128-ni:1:10:20
    sed -e "s/^target datalayout = .*/target datalayout = \"$layout\"/; s/^target triple = .*/target triple = \"wasm64-unknown-unknown\"/" \
        -e 's/"probe-stack"="inline-asm"//; s/"stack-probe-size"="[0-9]*"//; s/"target-cpu"="[^"]*"//' \
        -e '/^declare .*@llvm\.x86\.ssse3\.pshuf\.b\.128(/d; s/@llvm\.x86\.ssse3\.pshuf\.b\.128(/@shuffle_bytes(/' "$1" >"$work/all.ll"
    cat "$page/wasm/shuffle.ll" >>"$work/all.ll"
    local clang=("$kit/toolchain/bin/clang" --target=wasm64-unknown-unknown -mcpu=lime1 -mllvm -expand-div-rem-bits=64
        -mllvm -expand-fp-convert-bits=64 -ffunction-sections -fdata-sections --no-default-config -no-canonical-prefixes -w -c)
    "${clang[@]}" -Os -x ir "$work/all.ll" -o "$work/all.o"
    "${clang[@]}" -O2 -x ir "$page/wasm/shim.ll" -o "$work/shim.o"
    "${clang[@]}" -O2 -ffreestanding -nostdinc -x c "$page/wasm/heap.c" -o "$work/heap.o"
    "${clang[@]}" -O2 -fwrapv -ffreestanding -nostdinc -x c "$page/wasm/wide.c" -o "$work/wide.o"
    local exports=()
    local it
    for it in clarity_answer heap_take heap_give; do exports+=("--export=$it"); done
    # The stack is first in memory, so that running over it is a trap.
    "$kit/toolchain/bin/ld.lld" -flavor wasm -mwasm64 --no-entry --stack-first -z stack-size=8388608 "${exports[@]}" --gc-sections \
        --compress-relocations --strip-all --fatal-warnings -o "$2" "$work"/{wide,shim,heap,all}.o
}

# The examples, the rules and what the page says of its engine, as JSON.
data() {
    python3 - "$top" "$("$top/tools/build" commit || echo unknown)" "$(rt version | head -n 1)" "$1" <<'END'
import json
import pathlib
import sys

SAYS = {"proved": "The engine is proved before it is built (docs/PROVED.md).", "unproved": "This build of the engine isn't proved."}
top, (commit, kit, way) = pathlib.Path(sys.argv[1]), sys.argv[2:]
sys.path.insert(0, str(top / "tools"))
sys.dont_write_bytecode = True
import advice  # noqa: E402

token = json.loads((top / "examples/token.json").read_text())["entries"][0]["deploy"]["source"]
calls = "A mint u500 B\nB transfer u200 B A (some 0x6869)\nA transfer u1 B A none\nB get-balance A\n"
examples = {"token": {"name": "token", "source": token, "calls": calls}}
for path in sorted(top.glob("examples/*.clar")):
    examples[path.stem] = {"name": path.stem, "source": path.read_text(), "calls": ""}
rules = {rule: [text for _, text in says] for rule, says in advice.of_rules().items()}
engine = f"Engine {commit}, {kit}. {SAYS[way]} The way to WebAssembly, its heap and this page aren't proved."
print(json.dumps({"examples": examples, "rules": rules, "engine": engine}))
END
}

[ $way = proved ] || say_unproved
dist=$page/dist
mkdir -p "$dist"
if ! is_kept "$dist" $way "$page/wasm" "$page/build.sh"; then
    : >"$work/began"
    $way
    compile "$work/library.ll" "$work/clarity.wasm"
    rm -f "$dist"/{un,}proved
    mv "$work/clarity.wasm" "$dist/" && mv "$work/began" "$dist/$way"
fi
data $way >"$dist/data.json"
cp "$page"/{index.html,page.css,page.mjs,worker.mjs} "$top/examples/unit.json" "$dist/"
ls -l "$dist/clarity.wasm"
