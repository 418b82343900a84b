#!/usr/bin/env bash
# Mints to 1,000 to 300,000 holders, sends from each to the next and burns what each has, three acts a holder, and prints
# nanoseconds an act for each number of holders: flat, since an act takes the same time however many hold. The numbers are of
# the checked build of `rt try`, far slower than the program's own. Run by hand, some minutes.
# Usage: bench/ledger.sh
set -eu
[ "${1-}" != --help ] || exec sed -n '2,/^[^#]/s/^# \{0,1\}//p' "$0"
top=$(cd "$(dirname "$0")/.." && pwd)
work=$(mktemp -d)
trap 'rm -rf "$work"' EXIT
mkdir -p "$work/crates/ledger_bench/src"
for crate in cl_types cl_maps cl_keyed cl_tokens; do
    mkdir "$work/crates/$crate"
    for part in src specs proofs; do
        [ ! -d "$top/crates/$crate/$part" ] || cp -r "$top/crates/$crate/$part" "$work/crates/$crate"
    done
done
cat >"$work/crates.txt" <<'CRATES'
cl_types:
cl_maps:
cl_keyed: core
cl_tokens: cl_types cl_maps cl_keyed indexmap
ledger_bench: cl_types cl_tokens anyhow
CRATES
cat >"$work/crates/ledger_bench/src/main.rt" <<'PROGRAM'
//! Acts on ledgers of more and more holders.
#![tactic(auto)]

use cl_tokens::{Fungible, Key};
use std::alloc::{AllocError, Global};
use std::env;
use std::time::Instant;

fn key(alloc: Global, holder: u32) -> Result<Key, AllocError> {
    Ok(Key::new(Vec::from_slice(alloc, &holder.to_be_bytes())?))
}

fn reserve(token: &mut Fungible, holder: Key) -> Result<(), AllocError> {
    token.reserve(holder).map_err(|_| AllocError)
}

// How many acts were done.
fn acts(alloc: Global, holders: u32) -> Result<u64, AllocError> {
    let mut token = Fungible::new(alloc, None);
    let mut done = 0;
    for holder in 0..holders {
        reserve(&mut token, key(alloc, holder)?)?;
        done += token.mint(2, &key(alloc, holder)?).is_ok() as u64;
    }
    for holder in 1..holders {
        let from = key(alloc, holder - 1)?;
        done += token.transfer(1, &from, &key(alloc, holder)?).is_ok() as u64;
    }
    for holder in 0..holders {
        done += token.burn(1, &key(alloc, holder)?).is_ok() as u64;
    }
    Ok(done)
}

fn main(rt: HostRuntime) -> anyhow::Result<()> {
    for holders in [1000u32, 10000, 100000, 300000] {
        let start = Instant::now(&rt)?;
        let done = acts(rt.alloc(), holders)?;
        let spent = start.elapsed(&rt)?.as_nanos() / done.max(1) as u128;
        println!(rt; "{holders} holders: {done} acts, {spent} ns an act")?;
    }
    Ok(())
}
PROGRAM
cd "$work/crates/ledger_bench"
rt try --seconds 600 2>&1 | grep holders
