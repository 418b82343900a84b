#!/usr/bin/env bash
# Worlds of 1,000 to 1,000,000 balances, entries of a map or variables. Prints instructions, by callgrind, for a layer in which
# one balance moves, one entry or variable changes, or one entry is removed, and which is dropped, kept or committed: flat, since
# a layer costs what it changes. Prints too how many bytes a balance, an entry, a variable and a layer take, by the peak of
# memory. The program is proved and built in a copy, which goes fast where the repository is proved (./prove). Run by hand, some
# minutes; python3 measures, with valgrind.
# Usage: bench/world.sh
set -eu
[ "${1-}" != --help ] || exec sed -n '2,/^[^#]/s/^# \{0,1\}//p' "$0"
top=$(cd "$(dirname "$0")/.." && pwd)
work=$(mktemp -d)
trap 'rm -rf "$work"' EXIT
mkdir -p "$work/crates/world_bench/src"
for crate in cl_types cl_c32 cl_arith cl_values cl_codec cl_maps cl_keyed cl_tokens cl_events cl_tables cl_state; do
    mkdir -p "$work/crates/$crate/out"
    for part in src specs proofs; do
        [ ! -d "$top/crates/$crate/$part" ] || cp -r "$top/crates/$crate/$part" "$work/crates/$crate"
    done
    [ ! -d "$top/crates/$crate/out/rlib" ] || cp -a "$top/crates/$crate/out/rlib" "$work/crates/$crate/out"
    grep "^$crate:" "$top/crates.txt" >>"$work/crates.txt"
done
echo "world_bench: cl_types cl_c32 cl_values cl_events cl_tables cl_state anyhow" >>"$work/crates.txt"
cat >"$work/crates/world_bench/src/main.rt" <<'PROGRAM'
//! Layers on a world of many balances, entries or variables: words ACT END COUNT LAYERS.
#![tactic(auto)]
ghost use Rattle.std.specs.Prelude.{◌≡◌, true};
ghost use Rattle.cl_events.specs.State.{State};
ghost use Rattle.cl_tables.specs.Deeds.{is_there};

use cl_c32::{Address, ContractName, Principal};
use cl_events::EventKind;
use cl_state::{TokenAct, World, acts_have_answers};
use cl_tables::Place;
use cl_types::Name;
use cl_values::{Kind, Val, Value};
use std::alloc::{AllocError, Global};
use std::env;

// What is done in a layer.
#[derive(Clone, Copy)]
enum Act {
    Transfer,
    Put,
    Remove,
    Set,
}

// How a layer ends.
#[derive(Clone, Copy)]
enum End {
    Drop,
    Keep,
    Commit,
    Never,
}

fn act_of(word: &str) -> Act {
    match word {
        "transfer" => Act::Transfer,
        "put" => Act::Put,
        "remove" => Act::Remove,
        _ => Act::Set,
    }
}

fn end_of(word: &str) -> End {
    match word {
        "drop" => End::Drop,
        "keep" => End::Keep,
        "commit" => End::Commit,
        _ => End::Never,
    }
}

fn int(number: u32) -> Result<Val, AllocError> {
    let kind = Kind::Int(i128::from(number));
    Val::make(Value { kind }).map_err(|_| AllocError)
}

fn address(number: u32) -> Address {
    let digits = number.to_be_bytes();
    let mut hash = [7; 20];
    hash[0] = digits[0];
    hash[1] = digits[1];
    hash[2] = digits[2];
    hash[3] = digits[3];
    Address::new(22, &hash)
}

fn principal(number: u32) -> Principal {
    let contract = None;
    Principal { address: address(number), contract }
}

fn holders(alloc: Global, count: u32) -> Result<Vec<(Principal, u128)>, AllocError> {
    let mut all = Vec::new(alloc);
    for number in 0..count {
        // (The function that pushes names the types of what it pushes: without, its proof isn't found.)
        let contract: Option<ContractName> = None;
        let who = Principal { address: address(number), contract };
        all.push((who, 1_000_000))?;
    }
    Ok(all)
}

// The place of a variable, with its number in letters.
fn place(number: u32) -> Result<Place, AllocError> {
    let mut name = [b'v'; 9];
    let mut left = number;
    for letter in &mut name {
        *letter = b'a' + (left % 16) as u8;
        left /= 16;
    }
    let Some(name) = Name::make(&name) else {
        return Err(AllocError);
    };
    let address = Address::new(22, &[7; 20]);
    let contract = ContractName::make(b"main");
    let contract = Principal { address, contract };
    Ok(Place { contract, name })
}

fn stx_sent(from: &Principal, to: &Principal) -> TokenAct
    ensures { (s : State) → is_there result.contract result.kind s ≡ true }
{
    TokenAct {
        contract: *to,
        kind: EventKind::StxTransfer {
            amount: 1,
            from: *from,
            to: *to,
        },
    }
}

fn perform(world: &mut World, act: Act, number: u32, other: u32) -> Result<(), AllocError> {
    match act {
        Act::Transfer => {
            acts_have_answers();
            let _sent = world.token(stx_sent(&principal(number), &principal(other)));
            Ok(())
        }
        Act::Put => world
            .put_entry(&place(0)?, &int(number)?, int(other)?)
            .map_err(|_| AllocError),
        Act::Remove => match world.remove_entry(&place(0)?, &int(number)?) {
            Ok(_) => Ok(()),
            Err(_) => Err(AllocError),
        },
        Act::Set => world
            .put_variable(&place(number)?, int(other)?)
            .map_err(|_| AllocError),
    }
}

fn push(world: &mut World) -> Result<(), AllocError> {
    world.push_layer().map_err(|_| AllocError)
}

fn commit(world: &mut World) -> Result<(), AllocError> {
    if world.layers() == 1 {
        return world.commit().map_err(|_| AllocError);
    }
    Ok(())
}

fn keep(world: &mut World) -> Result<(), AllocError> {
    if world.layers() > 0 {
        return world.keep_layer().map_err(|_| AllocError);
    }
    Ok(())
}

fn end_layer(world: &mut World, end: End) -> Result<(), AllocError> {
    match end {
        End::Drop => {
            if world.layers() > 0 {
                world.drop_layer();
            }
            Ok(())
        }
        End::Keep => keep(world),
        End::Commit => commit(world),
        End::Never => Ok(()),
    }
}

// What there is before the layers: of balances there is each already.
fn fill(world: &mut World, what: Act, count: u32) -> Result<(), AllocError> {
    push(world)?;
    for number in 0..count {
        match what {
            Act::Transfer => {}
            Act::Put | Act::Remove => perform(world, Act::Put, number, number)?,
            Act::Set => perform(world, Act::Set, number, number)?,
        }
    }
    commit(world)
}

fn number_of(round: u32, count: u32) -> u32 {
    let place = u64::from(round) * 7919 % u64::from(count.max(1));
    place as u32
}

fn layers(world: &mut World, what: Act, how: End, count: u32, rounds: u32) -> Result<(), AllocError> {
    if matches!(how, End::Keep) {
        push(world)?;
    }
    for round in 0..rounds {
        push(world)?;
        let number = number_of(round, count);
        perform(world, what, number, number_of(number, count))?;
        end_layer(world, how)?;
    }
    Ok(())
}

fn run(alloc: Global, what: Act, how: End, count: u32, rounds: u32) -> Result<usize, AllocError> {
    let held = if matches!(what, Act::Transfer) { count } else { 0 };
    let holders = holders(alloc, held)?;
    let Ok(mut world) = World::genesis(holders) else {
        return Err(AllocError);
    };
    fill(&mut world, what, count)?;
    layers(&mut world, what, how, count, rounds)?;
    Ok(world.layers())
}

fn main(rt: HostRuntime) -> anyhow::Result<()> {
    let mut words = Vec::new(rt.alloc());
    for word in env::args(&rt)?.skip(1) {
        words.push(word)?;
    }
    if words.len() != 4 {
        return Ok(());
    }
    let count = words[2].as_str().parse::<u32>()?;
    let rounds = words[3].as_str().parse::<u32>()?;
    let left = run(rt.alloc(), act_of(words[0].as_str()), end_of(words[1].as_str()), count, rounds)?;
    println!(rt; "{left} layers")?;
    Ok(())
}
PROGRAM
cd "$work/crates/world_bench"
rt run >"$work/log" 2>&1 || true
PROGRAM=$work/crates/world_bench/out/world_bench
[ -x "$PROGRAM" ] || { tail -n 40 "$work/log" >&2; exit 1; }
cd "$top/bench"
CLARITY=$PROGRAM PYTHONDONTWRITEBYTECODE=1 python3 - <<'PYTHON'
import measure

LAYERS = 2000


def layer(act, end, count):
    """Instructions for a layer on a world of this size, from the difference of two numbers of layers."""
    each = [measure.instructions([act, end, str(count), str(layers)], 0, "layers") for layers in (LAYERS, 2 * LAYERS)]
    return (each[1] - each[0]) / LAYERS


def peak(act, count, layers):
    """Bytes of memory at most."""
    return measure.run([act, "never", str(count), str(layers)], 0, "layers")[1] * 2**20


SIZES = [1000, 10_000, 100_000, 1_000_000]
print(f"{'instructions a layer':22}" + "".join(f"{size:>12}" for size in SIZES))
for act, end in [("transfer", "drop"), ("transfer", "commit"), ("put", "drop"), ("put", "keep"), ("put", "commit"),
                 ("remove", "drop"), ("set", "drop"), ("set", "keep"), ("set", "commit")]:
    sizes = SIZES if (act, end) in [("transfer", "drop"), ("put", "keep"), ("set", "commit")] else SIZES[:3]
    print(f"{act + ', ' + end:22}" + "".join(f"{layer(act, end, size):12.0f}" for size in sizes), flush=True)
for name, act in [("balance", "transfer"), ("entry", "put"), ("variable", "set")]:
    print(f"bytes a {name:14}{(peak(act, 400_000, 0) - peak(act, 200_000, 0)) / 200_000:12.0f}")
print(f"bytes a layer with one write {(peak('set', 100_000, 90_000) - peak('set', 100_000, 45_000)) / 45_000:12.0f}")
PYTHON
