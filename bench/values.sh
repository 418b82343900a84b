#!/usr/bin/env bash
# Decodes, encodes, compares, prints and parses values of 64 KiB to 1 MiB: a long buffer, long strings, a wide list, and a list
# of deep nests. Prints nanoseconds a byte of the wire form for each; flat numbers say that the work is linear. A printed text
# above 1 MiB is no text, so it isn't parsed. The numbers are of the checked build of `rt try`, far slower than the program's
# own. Run by hand, some minutes.
# Usage: bench/values.sh
set -eu
[ "${1-}" != --help ] || exec sed -n '2,/^[^#]/s/^# \{0,1\}//p' "$0"
top=$(cd "$(dirname "$0")/.." && pwd)
work=$(mktemp -d)
trap 'rm -rf "$work"' EXIT
mkdir -p "$work/crates/value_bench/src"
for crate in cl_types cl_c32 cl_shapes cl_arith cl_sexpr cl_values cl_codec cl_text; do
    mkdir "$work/crates/$crate"
    cp -r "$top/crates/$crate/src" "$top/crates/$crate/specs" "$top/crates/$crate/proofs" "$work/crates/$crate"
done
grep -E '^(cl_types|cl_c32|cl_shapes|cl_arith|cl_sexpr|cl_values|cl_codec|cl_text):' "$top/crates.txt" >"$work/crates.txt"
echo 'value_bench: cl_types cl_values cl_codec cl_text anyhow' >>"$work/crates.txt"
cat >"$work/crates/value_bench/src/main.rt" <<'PROGRAM'
//! Values of more and more bytes, written and read.
#![tactic(auto)]

use cl_codec::{decode, encode};
use cl_text::{parse, print_value};
use cl_values::{Val, compare};
use std::alloc::{AllocError, Global};
use std::time::Instant;

// The wire form of a value of about so many bytes: a head with a count, and as many parts as fit.
fn wire(alloc: Global, prefix: u8, part: &[u8], size: usize) -> Result<Vec<u8>, AllocError> {
    let parts = (size - 5) / part.len();
    let mut bytes = Vec::new(alloc);
    bytes.push(prefix)?;
    bytes.extend_from_slice(&(parts as u32).to_be_bytes())?;
    for _ in 0..parts {
        bytes.extend_from_slice(part)?;
    }
    Ok(bytes)
}

fn each(start: &Instant, rt: &HostRuntime, bytes: usize) -> anyhow::Result<u128> {
    Ok(start.elapsed(rt)?.as_nanos() / bytes as u128)
}

fn measure(rt: &HostRuntime, name: &str, bytes: &[u8]) -> anyhow::Result<()> {
    let alloc = rt.alloc();
    let size = bytes.len();
    let start = Instant::now(rt)?;
    let Ok(value) = decode(alloc, bytes) else {
        println!(rt; "{name}: no value")?;
        return Ok(());
    };
    let decoding = each(&start, rt, size)?;
    let start = Instant::now(rt)?;
    let written = encode(alloc, &value).is_ok();
    let encoding = each(&start, rt, size)?;
    let start = Instant::now(rt)?;
    let order = compare(&value, &value).is_eq();
    let comparing = each(&start, rt, size)?;
    let start = Instant::now(rt)?;
    let Ok(text) = print_value(alloc, &value) else {
        return Ok(());
    };
    let printing = each(&start, rt, size)?;
    println!(rt; "{name} {size}: decode {decoding}, encode {encoding} ({written}), compare {comparing} ({order}), print {printing}")?;
    if text.len() <= 1_048_576 {
        let start = Instant::now(rt)?;
        let read = parse(alloc, &text).is_ok();
        let parsing = each(&start, rt, size)?;
        println!(rt; "{name} {size}: parse {parsing} ({read})")?;
    }
    Ok(())
}

fn main(rt: HostRuntime) -> anyhow::Result<()> {
    let alloc = rt.alloc();
    let uint = [1u8, 0, 0, 0, 0, 0, 0, 0, 0, 0, 0, 0, 0, 0, 0, 0, 7];
    let mut nest = [10u8; 31];
    nest[30] = 9;
    for size in [65536usize, 131072, 262144, 524288, 1048576] {
        measure(&rt, "buffer", &wire(alloc, 2, b"\x5a", size)?)?;
        measure(&rt, "ascii", &wire(alloc, 13, b"a", size)?)?;
        measure(&rt, "utf8", &wire(alloc, 14, b"a", size)?)?;
        measure(&rt, "list", &wire(alloc, 11, &uint, size)?)?;
        measure(&rt, "nests", &wire(alloc, 11, &nest, size)?)?;
    }
    Ok(())
}
PROGRAM
cd "$work/crates/value_bench"
rt try --seconds 900 2>&1 | grep -E '^(buffer|ascii|utf8|list|nests)|error'
