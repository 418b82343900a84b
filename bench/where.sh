#!/usr/bin/env bash
# Runs tools/where on reports and traces that are written out here, compares what it prints and ends with, and sees that the pages
# have a text for each rule, abort, refusal and fault. It needs no program.
# Usage: bench/where.sh
set -eu
[ "${1-}" != --help ] || exec sed -n '2,/^[^#]/s/^# \{0,1\}//p' "$0"
tools=$(cd "$(dirname "$0")/../tools" && pwd)
. "$tools/../bench/counts.sh"
folder=$(mktemp -d)
trap 'rm -rf "$folder"' EXIT
cd "$folder"

# Sources by their names, by `main` where there is one alone, and by their entry; the end of a text; a span of two lines; a tab.
printf '(define-read-only (f) (unwrap-panic none))' >f.clar
printf '(define-private (a)\n  (b\n 1))\n(define-constant x "1' >g.clar
printf '{"version": 1, "genesis": [], "entries": [{"block": {"height": 1}}, {"deploy": {"sender": "SP000000000000000000002Q6VF78", "name": "h", "source": "(define-private (a)\\n\\t(b))"}}]}' >h.json
printf '%s\n' \
    "contract 'SP000000000000000000002Q6VF78.f refused C7 Undetermined 22..41" \
    "0 deploy 'SP000000000000000000002Q6VF78.g refused E7 ContractRefused T4 Unclosed 50..51" \
    "0 deploy 'SP000000000000000000002Q6VF78.g refused E7 ContractRefused C1 UnknownName 21..28" \
    "1 deploy 'SP000000000000000000002Q6VF78.h refused E7 ContractRefused C1 UnknownName 21..24" >given
wanted where f.clar g.clar h.json <<'SHOWN'
contract 'SP000000000000000000002Q6VF78.f refused C7 Undetermined 22..41
  f.clar:1:23
  1 | (define-read-only (f) (unwrap-panic none))
    |                       ^^^^^^^^^^^^^^^^^^^
  broken: a part of no type is unwrapped, tried or matched; an entry of no type is given to a native by name
  mended: don't unwrap what has no type: none alone, the err part of (ok 1), an entry of (list)
0 deploy 'SP000000000000000000002Q6VF78.g refused E7 ContractRefused T4 Unclosed 50..51
  g.clar:4:21
  4 | (define-constant x "1
    |                     ^
  broken: the text ends within a list, a tuple or a string
  mended: close the bracket or the string that begins at the place
0 deploy 'SP000000000000000000002Q6VF78.g refused E7 ContractRefused C1 UnknownName 21..28
  g.clar:2:2 (to line 3)
  2 |   (b
    |  ^^^
  broken: an atom names nothing; an operator is no native and no function
  mended: define the name, bind it, or correct its spelling; a native of version 2 needs a contract of version 2
1 deploy 'SP000000000000000000002Q6VF78.h refused E7 ContractRefused C1 UnknownName 21..24
  h.json, entry 1:2:2
  2 | 	(b))
    | 	^^^
  broken: an atom names nothing; an operator is no native and no function
  mended: define the name, bind it, or correct its spelling; a native of version 2 needs a contract of version 2
status 1
SHOWN

# Lines that explain nothing, and bytes that aren't text, are printed all the same; a file that isn't there is no matter then.
printf "0 block 7\n  cost 1 0 0 0 0\n\377\000\nno line end" >given
wanted where absent.clar < <(cat given && printf '\nstatus 0\n')
echo "contract 'SP000000000000000000002Q6VF78.k refused T4 Unclosed 0..1" >given
wanted where below/k.clar <<'SHOWN'
contract 'SP000000000000000000002Q6VF78.k refused T4 Unclosed 0..1
  (below/k.clar can't be read: No such file or directory)
  broken: the text ends within a list, a tuple or a string
  mended: close the bracket or the string that begins at the place
status 1
SHOWN
wanted where f.clar <<'SHOWN'
contract 'SP000000000000000000002Q6VF78.k refused T4 Unclosed 0..1
  (no source of k is given)
  broken: the text ends within a list, a tuple or a string
  mended: close the bracket or the string that begins at the place
status 1
SHOWN
echo "contract 'SP000000000000000000002Q6VF78.f refused T4 Unclosed 100..101" >given
wanted where f.clar <<'SHOWN'
contract 'SP000000000000000000002Q6VF78.f refused T4 Unclosed 100..101
  (the place lies behind the end of f.clar: it is another source)
  broken: the text ends within a list, a tuple or a string
  mended: close the bracket or the string that begins at the place
status 1
SHOWN

# Aborts and refusals of entries, with the condition or the argument that is named; an abort alone is no refusal.
cat >calls.json <<'FILE'
{"version": 1, "genesis": [], "entries": [
  {"call": {"sender": "S", "contract": "S.c", "function": "f", "args": ["5", "u1"]}},
  {"call": {"sender": "S", "contract": "S.c", "function": "f", "args": ["foo"], "post": [{"stx": {"principal": "S", "code": "le", "amount": "u1"}}]}}
]}
FILE
printf "1 call 'S.c f aborted A9 PostCondition 0\n1 call 'S.c f aborted A3 DivideByZero\n" >given
wanted where calls.json <<'SHOWN'
1 call 'S.c f aborted A9 PostCondition 0
  condition 0: {"stx": {"principal": "S", "code": "le", "amount": "u1"}}
  why: condition I, counted from 0, is the first that fails; in deny mode, where each holds and an asset moved that none names, I is their number
  do: see what the entry would move; don't send it, or write the condition that allows it (FILES.md)
1 call 'S.c f aborted A3 DivideByZero
  why: a divisor was 0
  do: test the divisor before the division
status 0
SHOWN
echo "0 call 'S.c f refused E5 Argument 0" >given
wanted where calls.json <<'SHOWN'
0 call 'S.c f refused E5 Argument 0
  argument 0: "5"
  why: argument I, counted from 0, is the first that isn't of its parameter's type
  do: write the literal of that type (TEXT.md): a uint has a u in front, a principal a "'"
status 1
SHOWN
echo "1 call 'S.c f refused E8 NoBound write_length" >given
wanted where calls.json <<'SHOWN'
1 call 'S.c f refused E8 NoBound write_length
  why: under the table of the height the function's bound is above 2^128-1, in this dimension first
  do: wait for another epoch; no limit helps
status 1
SHOWN

# Traces.
cases "$tools/../bench/traced.py" "$tools"
cases "$tools/../bench/walked.py"

# Files and words that are refused.
echo "bad file calls.json BadValue /entries/1/call/args" >given
wanted where calls.json <<'SHOWN'
bad file calls.json BadValue /entries/1/call/args
  calls.json has there: ["foo"]
  why: in a holder, later in an epoch or an entry, the member at PATH isn't what it has to be
  do: write what the lists of members say: addresses without "'", uints as texts such as "u5", arguments as literals
status 1
SHOWN
echo '{"version": 2, "genesis": [], "epochs": [{"height": 5, "costs": {"literal": {}}}], "entries": []}' >epochs.json
echo "bad file epochs.json BadValue /epochs/0/costs" >given
wanted where epochs.json <<'SHOWN'
bad file epochs.json BadValue /epochs/0/costs
  epochs.json has there: {"literal": {}}
  why: it has a fault of cost files
  do: check with this object as its COSTS names the fault
status 1
SHOWN
echo '{"a": ' >cut.json
echo "bad file cut.json NotJson" >given
wanted where cut.json <<'SHOWN'
bad file cut.json NotJson
  cut.json isn't JSON: Expecting value: line 2 column 1 (char 7)
  why: it isn't JSON, or no object
  do: mend it, as any JSON tool shows; the whole file is one "{ }" (COSTS.md says what is read)
status 1
SHOWN
echo "bad file unit.json BadShape arith runtime" >given
wanted where unit.json <<'SHOWN'
bad file unit.json BadShape arith runtime
  unit.json can't be read: No such file or directory
  do: write one of the four shapes, with whole numbers in digits alone, or a dimension that there is
status 1
SHOWN
echo "bad file badge.trace BadLine 3" >given
wanted where calls.json <<'SHOWN'
bad file badge.trace BadLine 3
  why: line N, from 0, is the first that is no claim, or whose entry is absent or below that of the line before
  do: take the file as trace wrote it
status 1
SHOWN
echo "refused KeysOrder 8" >given
wanted where f.clar <<'SHOWN'
refused KeysOrder 8
  why: a key isn't above the one before it
  do: sort the keys by their bytes, and give each once
status 1
SHOWN

# The part of an expression that breaks a rule: what is underlined, and its label.
cat >part.py <<'PYTHON'
import sys

sys.dont_write_bytecode = True
sys.path.insert(0, sys.argv[1])
from breaks import narrowed

CASES = [
    ("C3", "(define-read-only (f) [(+ 1 ‹u1›)])"),
    ("C3", "(define-read-only (f (x uint)) (let ((y 1)) [(+ x ‹y›)]))"),
    ("C3", "(define-read-only (f) [(+ ‹true› 1)])"),
    ("C3", "[(define-data-var v uint ‹1›)]"),
    ("C3", "(define-private (g (a (buff 1))) a)(define-read-only (f) [(g ‹0x0102›)])"),
    ("C3", "(define-private (g (a uint) (b principal)) a)(define-read-only (f) [(g u1 ‹u2›)])"),
    ("C3", "(define-read-only (f (x (optional uint))) [(stx-get-balance ‹x›)])"),
    ("C3", "(define-data-var v uint u1)(define-public (f) (ok [(var-set v ‹1›)]))"),
    ("C3", "(define-map m uint int)(define-public (f) (ok [(map-set m u1 ‹u2›)]))"),
    ("C3", "(define-constant c 1)(define-read-only (f) [(to-int ‹c›)])"),
    ("C3", "(define-read-only (f (r (response uint uint))) (match r x (ok [(+ x 1)]) y (ok y)))"),
    ("C3", "(define-read-only (f (a (list 2 uint)) (b uint)) [(fold + a b)])"),
    ("C3", "(define-read-only (f) [(< \"a\" \"b\")])"),
    ("C10", "(define-public (f) [(begin ‹(ok 1)› (ok 2))])"),
    ("C10", "(define-fungible-token c)(define-public (f) [(begin (print 1) ‹(ft-mint? c u1 tx-sender)› (ok 2))])"),
    ("C10", "(define-public (g) (ok 1))(define-public (f) [(let ((a 1)) (asserts! true (err 1)) ‹(g)› (ok 2))])"),
    ("C10", "(define-public (f) [(let ((a (ok 1))) (is-ok a) ‹a› (ok 2))])"),
    ("C10", "(define-public (f) [(begin ‹(contract-call? .a g)› true (ok 2))])"),
    ("F5", "(define-constant a 1)[(define-constant ‹a› 2)]"),
    ("F5", "(define-constant c 1)[(define-private (f (b int) (‹c› int)) b)]"),
    ("F5", "[(define-private (f (b int) (‹b› int)) b)]"),
    ("F5", "[(define-private (f (‹f› int)) 1)]"),
    ("C11", "(define-read-only (f (z int)) [(let ((x 1) (‹z› 2)) x)])"),
    ("C11", "(define-read-only (f) [(let ((x 1) (‹x› 2)) x)])"),
    ("C11", "(define-read-only (f) [(let ((x 1) (‹len› 2)) x)])"),
    ("C11", "(define-read-only (f) [(let ((x 1) (‹hash160› 2)) x)])"),
    ("C11", "(define-read-only (f) (let ((a 1)) [(match (some 1) ‹a› a 2)]))"),
    ("C11", "(define-read-only (f (r (response int int))) [(match r x x ‹x› x)])"),
    ("C11", "(define-read-only (f) (let ((a 1) (b [(let ((‹a› 2)) a)])) a))"),
    ("C7", "(define-read-only (f) [(unwrap-panic none)])"),
    ("F2", "[(define-public (f (a uint) (b ‹(list uint)›)) (ok (list a)))]"),
    ("F2", "[(define-data-var v (optional ‹buff›) none)]"),
    ("F2", "[(define-map m uint {a: (list 2 ‹(string-utf8)›)})]"),
    ("F2", "[(define-non-fungible-token t (tuple (list uint) (b (list 3 ‹(list bool)›))))]"),
    ("F2", "[(define-data-var v (list 5 (buff 4) int) (list))]".replace("(list 5 (buff 4) int)", "‹(list 5 (buff 4) int)›")),
    ("F2", "[(define-public (f (a (optional))) (ok (list a)))]"),
]
for rule, marked in CASES:
    # The expression is in [ ], and in ‹ › its part that is to be found.
    text = "".join(c for c in marked if c not in "[]‹›")
    start, end = (len([c for c in marked[: marked.index(mark)] if c not in "[]‹›"]) for mark in "[]")
    begin, stop, label = narrowed(rule, text, start, end)
    came = f"{text[:start]}[{text[start:begin]}‹{text[begin:stop]}›{text[stop:end]}]{text[end:]}" if label else f"{text[:start]}[{text[start:end]}]{text[end:]}"
    print("ok" if came == marked else f"differs: {rule} {marked}: {came}")
PYTHON
cases part.py "$tools"

# What is said in place of a rule's texts, or beside them. The lines are those below the picture.
said() {
    printf '%b' "$1" >f.clar
    echo "contract 'SP000000000000000000002Q6VF78.f refused $2" >given
    "$tools/where" f.clar <given | tail -n "$(($# - 2))" >shown || true
    compare "$1" < <(printf '  %s\n' "${@:3}")
}
traits='traits are left out: a type in "< >", and a name with two dots (.contract.trait), refused by T2, or by T9 behind an address'
targets='instead: a function for each contract that may be called, with contract-call? of its literal'
said '(impl-trait .x)' 'F4 NotInProfile 1..11' 'broken: impl-trait: traits are left out; it says that the contract has the functions of a trait' \
    'instead: leave the line out: it changes nothing that the contract does'
said "(impl-trait 'SP000000000000000000002Q6VF78.a.b)" 'T9 BadAddress 12..46' \
    'broken: impl-trait: traits are left out; it says that the contract has the functions of a trait' \
    'instead: leave the line out: it changes nothing that the contract does'
said '(use-trait t .a.b)' 'T2 BadToken 13..17' "broken: use-trait: traits are left out; it names another contract's trait" 'instead: leave the line out'
said "(contract-call? 'SP000000000000000000002Q6VF78.a.b f)" 'T9 BadAddress 16..50' "broken: 'SP000000000000000000002Q6VF78.a.b: $traits" "$targets"
said '(define-public (f (t <tr>)) (ok 1))' 'T2 BadToken 21..25' "broken: <tr>: $traits" "$targets"
said '(define-read-only (f) (ok chain-id))' 'C1 UnknownName 26..34' 'broken: chain-id: there is no network' 'instead: a constant of the contract'
said '(define-read-only (f) (slice? 0x u1 u2))' 'C1 UnknownName 22..39' 'broken: slice?: of version 2 alone' 'instead: --clarity2 or "clarity": 2'
said '(define-map m {k: uint} uint)(define-read-only (f) (map-get? m ((k u1))))' 'C20 EmptyForm 63..71' \
    'broken: ((k v)): a tuple without the word: refused by C20, in a type by F2' 'instead: {k: v} or (tuple (k v))'
said '(define-map m ((k uint)) uint)' 'F2 BadType 0..30' 'broken: ((k v)): a tuple without the word: refused by C20, in a type by F2' 'instead: {k: v} or (tuple (k v))'
said '(define-public (f (a (buff -1))) (let ((x 1)) (ok x)))' 'F2 BadType 0..54' \
    "broken: a type isn't one, has a tuple without a key or with a key twice, or is above a limit" \
    'mended: write a type of at most 1,048,576 in size and stated lengths, and 32 in depth'
said '(define-public (f (a (list uint))) (ok a))' 'F2 BadType 0..42' 'broken: a type states no greatest length' \
    'mended: write it, as in (list 10 uint), (buff 32) or (string-ascii 20)'
said '(define-read-only (f) (< "a" "b"))' 'C3 ArgumentKind 22..33' 'broken: <: comparing buffers and strings is of version 2 alone' 'instead: --clarity2 or "clarity": 2'
said '(define-read-only (f (a (optional int)) (b (optional int))) (< (get-it a) b))' 'C3 ArgumentKind 60..76' \
    "broken: an argument isn't of the type that the native needs, or isn't admitted by a declared type" \
    'mended: give a value of that type; to-int and to-uint convert numbers'
said '(define-constant o SP000000000000000000002Q6VF78)' 'C1 UnknownName 19..48' \
    "broken: SP000000000000000000002Q6VF78: a principal is written with a ' in front" "mended: write 'SP000000000000000000002Q6VF78"
said '(define-constant o SP000000000000000000002Q6VF78.coin)' 'T2 BadToken 19..53' \
    "broken: SP000000000000000000002Q6VF78.coin: a principal is written with a ' in front" "mended: write 'SP000000000000000000002Q6VF78.coin"
said '\xef\xbb\xbf(define-constant a 1)' 'T1 BadByte 0..1' 'broken: the file begins with a byte order mark' 'mended: save it as ASCII, or as UTF-8 without the mark'
said ';; caf\xc3\xa9' 'T1 BadByte 6..7' 'broken: characters beyond ASCII, in comments too: refused by T1' 'instead: u"\u{e9}" in a string, ASCII in comments'
said 'a\x01' 'T1 BadByte 1..2' 'broken: a byte other than 32 to 126, tab, LF and CR; in a string also these three' \
    'mended: remove the byte, or escape it in a string (\n, \t, in u".." also \u{..})'
unknown=('broken: an atom names nothing; an operator is no native and no function'
    'mended: define the name, bind it, or correct its spelling; a native of version 2 needs a contract of version 2')
said '(define-read-only (f) (unwarp-panic none))' 'C1 UnknownName 22..41' "${unknown[0]}" 'did you mean: unwrap-panic?' "${unknown[1]}"
said '(define-constant owner 1)(define-read-only (f) (ok ownr))' 'C1 UnknownName 51..55' "${unknown[0]}" 'did you mean: owner?' "${unknown[1]}"
said '(define-read-only (f (amount uint)) (ok ammount))' 'C1 UnknownName 40..47' "${unknown[0]}" 'did you mean: amount?' "${unknown[1]}"
said '(define-read-only (f) (ok tx-sendr))' 'C1 UnknownName 26..34' "${unknown[0]}" 'did you mean: tx-sender?' "${unknown[1]}"
said '(define-private (helper) 1)(define-read-only (f) (helpr))' 'C1 UnknownName 49..56' "${unknown[0]}" 'did you mean: helper?' "${unknown[1]}"
said '(define-read-only (f) (ok zzz))' 'C1 UnknownName 26..29' "${unknown[@]}"
said '(define-data-var count int 1)(define-map counter int int)(define-read-only (f) (var-get counts))' 'C13 NoSuchVariable 79..95' \
    'broken: the contract has no such variable' 'did you mean: count?' "mended: define it here; reach another contract's by its functions"
said '(define-map kept int int)(define-read-only (f) (map-get? keept 1))' 'C14 NoSuchMap 47..65' \
    'broken: the contract has no such map' 'did you mean: kept?' "mended: define it here; reach another contract's by its functions"
said '(define-fungible-token coin)(define-read-only (f) (ft-get-supply coins))' 'C15 NoSuchToken 50..71' \
    'broken: the contract has no token of that name and kind' 'did you mean: coin?' "mended: define it here; reach another contract's by its functions"
said '(define-read-only (f (p {votes: uint, by: int})) (get vote p))' 'C12 NoSuchKey 49..61' \
    "broken: get of a key that the tuple hasn't" 'did you mean: votes?' 'mended: correct the key, or add it to the tuple'
said '(define-private (double (n int)) n)(define-read-only (f) (map doubl (list 1)))' 'C18 NotAFunction 57..77' \
    'broken: the first part of map, filter or fold is neither a function nor a native that can be given by name' 'did you mean: double?' \
    'mended: give the name of one'

# A deployment of version 2 isn't advised to be one.
echo '{"version": 1, "genesis": [], "entries": [{"deploy": {"sender": "S", "name": "f", "source": "(define-read-only (f) (< \"a\" \"b\"))", "clarity": 2}}]}' >later.json
echo "0 deploy 'S.f refused E7 ContractRefused C3 ArgumentKind 22..33" >given
"$tools/where" later.json <given | tail -n 2 >shown || true
compare "a deployment of version 2" <<'SHOWN'
  broken: an argument isn't of the type that the native needs, or isn't admitted by a declared type
  mended: give a value of that type; to-int and to-uint convert numbers
SHOWN

# A wire form is refused at a byte, a text at a span, which have texts of their own.
echo "refused TooDeep 5" >given
wanted where f.clar <<'SHOWN'
refused TooDeep 5
  why: a prefix is at depth 33; this comes before BadPrefix
  do: nest fewer values
status 1
SHOWN
echo "refused TooDeep 0..9" >given
wanted where f.clar <<'SHOWN'
refused TooDeep 0..9
  why: the value is deeper than 32; the span is the item
  do: nest fewer values
status 1
SHOWN

# Each rule, abort, refusal and fault has its text, and no text is Markdown.
cat >texts.py <<'PYTHON'
import sys

sys.dont_write_bytecode = True
sys.path.insert(0, sys.argv[1])
import advice

rules = [f"{letter}{number}" for letter, count in (("T", 10), ("F", 5), ("O", 1), ("C", 25), ("B", 1)) for number in range(1, count + 1)]
endings = [f"A{number}" for number in range(1, 10)] + [f"E{number}" for number in range(1, 9)]
faults = ["TooLong", "NotJson", "Version", "Field /x", "BadValue /entries", "Field /entries/0/x", "BadValue /genesis/0/stx", "GenesisTooBig"]
faults += ["BadValue /genesis/0/principal", "BadValue /epochs", "BadValue /epochs/1/height", "BadValue /epochs/1/costs", "Field /epochs/1/x"]
faults += ["TooMany", "HeightFalls /entries/1/block/height", "Missing arith", "BadShape arith runtime", "TooBig arith", "Unknown x", "BadLine 0"]
values = ["NotALiteral 0..1", "TooDeep 0..1", "TooLarge 0..1", "T9 BadAddress 0..1", "TooLong", "NotHex"]
values += [f"{fault} 1" for fault in ("Ended", "TooDeep", "BadPrefix", "BadName", "KeysOrder", "BadText", "NoKeys", "Extra")]
texts = [("rule", rule, advice.of_rules().get(rule, [])) for rule in rules] + [("ending", ending, advice.of_endings().get(ending, [])) for ending in endings]
texts += [("fault", fault, advice.of_fault(fault)) for fault in faults] + [("value", value, advice.of_value(value)) for value in values]
for kind, name, lines in texts:
    is_right = len(lines) == 2 or kind == "fault" and lines
    is_plain = not any("`" in text or "](" in text or "**" in text for _, text in lines)
    print("ok" if is_right and is_plain else f"differs: {kind} {name} has the texts {lines}")
print("ok" if len(advice.missing()) >= 50 else "differs: MISSING.md has fewer names")
PYTHON
cases texts.py "$tools"

misused where
misused where --no f.clar
summary
