#!/usr/bin/env bash
# Runs tools/shape and tools/above in a repository of two crates that is written out here, and compares what they print with what was
# counted by hand. Then it checks the form of this repository.
# Usage: bench/shape.sh
set -eu
[ "${1-}" != --help ] || exec sed -n '2,/^[^#]/s/^# \{0,1\}//p' "$0"
tools=$(cd "$(dirname "$0")/../tools" && pwd)
. "$tools/../bench/counts.sh"
folder=$(mktemp -d)
trap 'rm -rf "$folder"' EXIT
cd "$folder"
mkdir -p tools docs crates/low/src crates/low/specs crates/top/src
cp "$tools/shape" "$tools/above" "$tools/commands.py" "$tools/crates.py" "$tools/form.py" tools/
own=$tools tools=$folder/tools
: >given

# The form is kept.
kept() { wanted shape --check <<<$'the form is kept\nstatus 0'; }

# Compares a file with standard input.
holds() {
    cp "$1" shown
    compare "$1"
}

cat >crates.txt <<'FILE'
# NAME: the libraries that it stands on
low:
top staticlib: low
FILE
cat >crates/low/src/lib.rt <<'FILE'
// A comment with fn made(a: u8) in it.
pub fn made<F: Fn(u8) -> u8>(a: u8, b: (u8, u8), c: Vec<(u8, u8)>, d: u8, e: u8, f: u8, g: &str) -> u8
    requires { a ≡ b }
    ensures { (first : ℕ) → first < 100 → (second : ℕ) → second < 100 → first + second < 200 → it_is_so first second }
{
    "fn told(x: u8) { } // {"
}

fn none() {}
FILE
printf -- '-- a line\n-- and another\n' >crates/low/specs/Lib.antt
{
    echo 'fn of_many_lines('
    echo '    self,'
    echo ') {'
    for _ in $(seq 38); do echo '    next();'; done
    echo '}'
} >crates/top/src/lib.rt
echo 'Four words and one' >README.md
echo 'Two words' >docs/A.md

wanted shape <<'SHOWN'
low: code 1 of 9, specs 1 of 2, proofs 0 of 0; parameters 7 (1 over 6), lines 6 (0 over 40), clauses 118 (1 over 100), participles 1
top: code 1 of 42, specs 0 of 0, proofs 0 of 0; parameters 1 (0 over 6), lines 42 (1 over 40), clauses 0 (0 over 100), participles 0
README.md: 4 words
docs/A.md: 2 words
documents: 6 words
status 0
SHOWN
wanted shape --over top low <<'SHOWN'
top: code 1 of 42, specs 0 of 0, proofs 0 of 0; parameters 1 (0 over 6), lines 42 (1 over 40), clauses 0 (0 over 100), participles 0
  crates/top/src/lib.rt:1 of_many_lines: 42 lines
low: code 1 of 9, specs 1 of 2, proofs 0 of 0; parameters 7 (1 over 6), lines 6 (0 over 40), clauses 118 (1 over 100), participles 1
  crates/low/src/lib.rt:2 made: 7 parameters
  crates/low/src/lib.rt:2 made: a participle alone
  crates/low/src/lib.rt:4: a clause of 118 columns
status 0
SHOWN
wanted shape low --over <<'SHOWN'
low: code 1 of 9, specs 1 of 2, proofs 0 of 0; parameters 7 (1 over 6), lines 6 (0 over 40), clauses 118 (1 over 100), participles 1
  crates/low/src/lib.rt:2 made: 7 parameters
  crates/low/src/lib.rt:2 made: a participle alone
  crates/low/src/lib.rt:4: a clause of 118 columns
status 0
SHOWN
misused shape nobody
misused shape --under
misused shape --check low

# ---- the form

cat >crates.txt <<'FILE'
# NAME: the libraries that it stands on
# == Ground
# low: numbers
low:
# == Roof
# top: many lines
top staticlib: low sha2
FILE
cat >known <<'FILE'
crates/low/src/lib.rt made ensures: columns 118
crates/low/src/lib.rt made: parameters 7
crates/top/src/lib.rt of_many_lines: lines 42
low: its code begins with another sentence
top: its code begins with another sentence
top: no text names low
FILE
wanted shape --check <<'SHOWN'
low: its code begins with another sentence
crates/low/src/lib.rt made: parameters 7
crates/low/src/lib.rt made ensures: columns 118
top: its code begins with another sentence
top: no text names low
crates/top/src/lib.rt of_many_lines: lines 42
docs/ARCHITECTURE.md: its layers aren't those of crates.txt: tools/shape --write
status 1
SHOWN
printf 'Before.\n<!-- layers: tools/shape --write -->\n```\nold\n```\n<!-- end of layers -->\nAfter.\n' >docs/ARCHITECTURE.md
{ echo "# known"; cat known; } >tools/shape.known
wanted shape --write <<<'status 0'
holds docs/ARCHITECTURE.md <<'SHOWN'
Before.
<!-- layers: tools/shape --write -->
```
Ground
  low  numbers
Roof, over Ground
  top  many lines
```
<!-- end of layers -->
After.
SHOWN
kept

# What is mended has to leave the list, and `--write` takes it out; what is less is lowered.
sed -i '1s/.*/\/\/! Numbers. And more./; s/, g: &str)/)/' crates/low/src/lib.rt
sed -i '4d' crates/top/src/lib.rt
echo '// low: 1' >>crates/top/src/lib.rt
wanted shape --check <<'SHOWN'
tools/shape.known: no more: crates/low/src/lib.rt made: parameters 7
tools/shape.known: no more: crates/top/src/lib.rt of_many_lines: lines 42
tools/shape.known: no more: low: its code begins with another sentence
tools/shape.known: no more: top: no text names low
status 1
SHOWN
wanted shape --write <<<'status 0'
holds tools/shape.known <<'SHOWN'
# known
crates/low/src/lib.rt made ensures: columns 118
crates/top/src/lib.rt of_many_lines: lines 41
top: its code begins with another sentence
SHOWN
kept

# One match with an arm for each variant may be longer than other functions, and a cycle's functions may take seven parameters.
long_match() {
    echo "fn $1(a: Kind) -> u8 {"
    echo '    match a {'
    for one in $(seq 40); do echo "        Kind::Of$one(x) => { x }"; done
    echo "        $2 => 0,"
    printf '    }\n}\n'
}
seven() { echo "fn $1(a: u8, b: u8, c: u8, d: u8, e: u8, f: u8, g: u8$3) { $2(a, b, c, d, e, f, g) }"; }
{
    long_match whole 'Kind::Last { .. }'
    long_match open _
    long_match named other
    seven to from ''
    seven from to ''
    seven alone to ''
    seven eight eight ', h: u8'
} >>crates/low/src/lib.rt
wanted shape --check <<'SHOWN'
crates/low/src/lib.rt open: lines 45
crates/low/src/lib.rt named: lines 45
crates/low/src/lib.rt alone: parameters 7
crates/low/src/lib.rt eight: parameters 8
status 1
SHOWN

# No line may be added to the list.
git init -q .
git add .
git -c user.name=shape -c user.email=shape@localhost commit -q -m "crates: begin"
sed -n '1,4p' shown >>tools/shape.known
wanted shape --check <<'SHOWN'
tools/shape.known: 2 more than in the last commit: lines
tools/shape.known: 2 more than in the last commit: parameters
status 1
SHOWN
git checkout -q tools/shape.known
sed -i '/^fn whole/,$d' crates/low/src/lib.rt
kept

# Layers, order and the auditor.
cat >crates.txt <<'FILE'
# == The auditor
# top: many lines
top: low
# == Evaluation
low:
FILE
wanted shape --write <<<'status 0'
wanted shape --check <<'SHOWN'
top: before low
top: an auditor over low
low: no sentence
status 1
SHOWN

# ---- what is proved anew

sed -i 's/^low:/other:\nlow:/' crates.txt
mkdir -p crates/other/src crates/low/must-fail
touch crates/low/must-fail/one.edit crates/low/must-fail/two.edit
echo '#[test]' >>crates/top/src/lib.rt
wanted above low <<'SHOWN'
low: 2 functions, proof 0.2, wrong bodies 1.1
top: 1 functions, proof 0.4
2 of 3 crates; minutes of a processor: proofs 0.7, wrong bodies 1.1
longest chain 0.7: low top
status 0
SHOWN
wanted above <<'SHOWN'
low: 2 crates, proofs 0.7, wrong bodies 1.1
other: 1 crates, proofs 0.2, wrong bodies 0.0
top: 1 crates, proofs 0.4, wrong bodies 0.0
status 0
SHOWN
misused above low nobody

tools=$own
kept
summary
