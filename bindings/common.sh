# shellcheck shell=bash disable=SC2154
# What the scripts of bindings/ and page/build.sh share, which read this file. `top` is the checkout, `work` a new folder.

say_unproved() {
    echo "build.sh: this build is unproved: nobody has checked these sources on this machine yet; without --unproved it is proved" >&2
}

# Whether the folder has what was built this way, proved or unproved, and no source is newer, those behind among them. What isn't
# proved doesn't change with the proofs.
is_kept() {
    local folder=$1 way=$2 others=out
    shift 2
    [ "$way" = proved ] || others=proofs
    "$top/tools/build" current "$folder/$way" $others "$top"/bindings/{common.sh,header} "$@"
}

is_library_kept() {
    is_kept "$1" "$2" "$top/include" "$top/VERSION" "$top/bindings/build.sh"
}

# A folder of links to the crates, in which clarity_c is a program that calls each export: of a program the code is there before any
# proof, and what it doesn't call isn't in it.
link_crates() {
    local program=$work/crates/clarity_c
    mkdir "$work/crates"
    ln -s "$top"/crates/* "$work/crates/"
    rm "$program" && mkdir "$program"
    cp -r "$top"/crates/clarity_c/{src,specs,proofs} "$program/"
    "$top/bindings/header" --main "$program"/src/*.rt >>"$program/src/lib.rt"
    mv "$program/src/lib.rt" "$program/src/main.rt"
    sed 's/^clarity_c staticlib:/clarity_c:/' "$top/crates.txt" >"$work/crates.txt"
}

# Makes the exports what they are in a library. What looks at addresses needs a run time of its own, so it is left out, and with it the
# bytes that fill what has no value yet.
export_calls() {
    sed -E -e '/call void @llvm\.memset\.p0\.i64\(.*i8 -86, /d' -e 's/^(attributes .*\{.*) sanitize_address /\1 /' \
        -e 's/^define i32 @main\(/define internal i32 @main(/' -e 's/@"clarity_c::[a-z_]+::(clarity_[a-z_]+)"\(/@\1(/g' \
        -e 's/^define internal (.*@clarity_[a-z_]+\()/define \1/'
}

# LLVM code as text.
as_text() {
    "$(dirname "$(rt doc)")/toolchain/bin/clang" --target=x86_64-unknown-linux-gnu --no-default-config -w -x ir -S -emit-llvm -O0 \
        -Xclang -disable-llvm-passes "$1" -o -
}

# Writes the LLVM code of the library before its proofs, with its checks at run time, as a file. What it is made of is kept.
write_unproved_code() {
    local code=$top/crates/clarity_c/out/unproved.bc
    if ! "$top/tools/build" current "$code" proofs "$top/bindings/header"; then
        link_crates
        mkdir -p "${code%/*}"
        "$top/tools/build" code "$work/crates/clarity_c" "$code" >/dev/null
    fi
    as_text "$code" | export_calls >"$1"
}
