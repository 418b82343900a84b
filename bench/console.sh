#!/usr/bin/env bash
# Runs tools/console through a pipe, and at a terminal of its own, and compares what it answers with what was worked out by hand from the
# rules. The binding is that of bench/modelled, over the model; with --library it is the library's, as tools/console finds it.
# Usage: bench/console.sh [--library]
set -eu
[ "${1-}" != --help ] || exec sed -n '2,/^[^#]/s/^# \{0,1\}//p' "$0"
tools=$(cd "$(dirname "$0")/../tools" && pwd)
. "$tools/../bench/counts.sh"
folder=$(mktemp -d)
trap 'rm -rf "$folder"' EXIT
cd "$folder"
export XDG_STATE_HOME=$folder/home
if [ "${1-}" != --library ]; then
    export PYTHONPATH=$tools/../bench/modelled CLARITY_LIBRARY=$tools/../bench/modelled/lumpitseha.py
fi
printf '#!/usr/bin/env bash\nexec python3 "%s/model" answer "$@"\n' "$tools" >program
chmod +x program
examples=$tools/../examples

# Compares the answers to these inputs, and the status, with standard input.
answered() {
    local ended=0
    printf '%s\n' "${@:2}" >given
    "$tools/console" <given >shown 2>&1 || ended=$?
    echo "status $ended" >>shown
    compare "$1"
}

answered 'expressions' '(+ 1 2)' 'u7' '  "a b" ;; three' '' ';; nothing' '(list 1 2) {a: (some 0x00)}' '(ok u1)' <<'SHOWN'
value 3
value u7
value "a b"
value (list 1 2)
value {a: (some 0x00)}
value (ok u1)
status 0
SHOWN
answered 'an input of several lines' '(+ 1 ;; (one' '' '  2)' '(concat "(" "{")' '{a: 1,' 'b: 2}' <<'SHOWN'
value 3
value "({"
value {a: 1, b: 2}
status 0
SHOWN
printf '(+ 1\n   (* 2' >given
"$tools/console" <given >shown || true
compare 'an input that ends open' <<'SHOWN'
input:2:4: T4 Unclosed: the text ends within a list, a tuple or a string
  2 |    (* 2
    |    ^
  mended: close the bracket or the string that begins at the place
SHOWN

# The contract being written. What an expression changes is kept, unless it is an err.
answered 'definitions' '(define-data-var n uint u0)' '(var-set n u5)' '(var-get n)' '(define-private (twice (x uint)) (* x u2))' \
    '(twice (var-get n))' \
    '(begin (var-set n u9) (ok u1))' '(var-get n)' '(begin (var-set n (+ (var-get n) u1)) (if (> (var-get n) u5) (err u8) (ok u1)))' \
    '(var-get n)' \
    '(map twice (list u1 u2))' ':source' ':state' <<'SHOWN'
defined n
value true
value u5
defined twice
value u10
ok u1
value u9
err u8
value u9
value (list u2 u4)
(define-data-var n uint u0)
(define-private (twice (x uint)) (* x u2))
var 'A.console n u9
status 1
SHOWN
answered 'responses' '(if true (ok u1) (err u2))' '(err u1)' '(asserts! false (err u4))' '(try! (if true (err u1) (ok u1)))' \
    '(unwrap! (some 3) (err u1))' <<'SHOWN'
value (ok u1)
value (err u1)
err u4
err u1
value 3
status 1
SHOWN

# Of the charges of send 7 are of the runtime: call, two bound parameters, two looked up, the sender, and the write.
cp "$examples/coin.clar" .
answered 'calls' ':load coin.clar' ".coin send u300 'B" ':as B' 'coin mine' "A.coin send u1 'SP000000000000000000002Q6VF78" \
    "(contract-call? .coin send u2 'A)" "(contract-call? 'A.coin send (+ u1 u2) tx-sender)" 'coin mine' ':as A' 'coin mine' ':costs on' \
    "coin send u1 'B" '(+ 1 2)' 'coin mine' ':costs off' 'coin mine' <<'SHOWN'
done
  event ft-mint 'A.coin coin u1000 'A
ok true
  event ft-transfer 'A.coin coin u300 'A 'B
value u300
ok true
  event ft-transfer 'A.coin coin u1 'B 'A
ok true
  event ft-transfer 'A.coin coin u2 'B 'A
err u2
value u297
value u703
ok true
  cost 7 0 0 1 61, bound 7 0 0 1 319
  event ft-transfer 'A.coin coin u1 'A 'B
value 3
  cost 4 0 0 0 0, bound 4 0 0 0 0
value u702
  cost 3 1 22 0 0, bound 3 1 151 0 0
value u702
status 1
SHOWN
answered 'senders' "(is-eq tx-sender 'A)" 'contract-caller' ':as B' 'tx-sender' '.x' '(as-contract tx-sender)' \
    ':as SP000000000000000000002Q6VF78' 'tx-sender' \
    ':name owner SP2J6ZY48GV1EZ5V2V5RB9MP66SW86PYKKNRV9EJ7' ':as owner' "(is-eq tx-sender 'B 'owner)" ':as E' ':as A.coin' ':as' <<'SHOWN'
value true
value 'A
value 'B
value 'A.x
value 'A.input-5
value 'A
value true
E is no name and no address
a sender is an address, not a contract
:as PRINCIPAL: who sends from here on
status 1
SHOWN
answered 'blocks' 'block-height' ':block 7' 'block-height' ':block' 'block-height' ':block 8' ':block 3' 'block-height' ':block x' <<'SHOWN'
value u0
block 7
value u7
block 8
value u8
block 8
the height is below that of the block before
  why: in its place among the entries: the height is below that of the block before
  do: let heights stay or rise
value u8
:block [HEIGHT]: begins a block of this height, or the next
status 1
SHOWN
answered 'STX' '(stx-transfer? u1 tx-sender (quote))' "(stx-get-balance 'B)" ':stx B u9' ':stx C u5' ':as C' \
    "(stx-transfer? u2 tx-sender 'A)" ':state' \
    ':stx A 9' ':stx F u9' <<'SHOWN'
input:1:29: C1 UnknownName: an atom names nothing; an operator is no native and no function
  1 | (stx-transfer? u1 tx-sender (quote))
    |                             ^^^^^^^
  mended: define the name, bind it, or correct its spelling; a native of version 2 needs a contract of version 2
value u0
call input-1 input-1: value u0; now value u9
  why: an input before would end otherwise
  do: begin another session with it
ok true
  event stx-transfer 'A.input-2 u2 'C 'A
stx 'A u2
stx 'C u3
:stx PRINCIPAL AMOUNT: gives a principal STX from the beginning, as :stx B u1000
F is no name and no address
status 1
SHOWN

# What fails, with its place in what was typed.
answered 'refused inputs' '(+ 1 u2)' "(ft-transfer? coin u1 'A 'B)" "(is-eq 'A 'B (+ 'B u1))" 'foo' '(define-constant a 1)' \
    '(define-constant a 2)' '(+ b 1)' \
    '(+ a' '   true)' '(unwarp-panic none)' '"a' '(+ 1 2))' '(define-read-only (f) (f))' '(impl-trait .t)' <<'SHOWN'
input:1:6: C3 ArgumentKind: an argument isn't of the type that the native needs, or isn't admitted by a declared type
  1 | (+ 1 u2)
    |      ^^ this argument
  mended: give a value of that type; to-int and to-uint convert numbers
input:1:1: C15 NoSuchToken: the contract has no token of that name and kind
  1 | (ft-transfer? coin u1 'A 'B)
    | ^^^^^^^^^^^^^^^^^^^^^^^^^^^^
  mended: define it here; reach another contract's by its functions
input:1:17: C3 ArgumentKind: an argument isn't of the type that the native needs, or isn't admitted by a declared type
  1 | (is-eq 'A 'B (+ 'B u1))
    |                 ^^ this argument
  mended: give a value of that type; to-int and to-uint convert numbers
input:1:1: C1 UnknownName: an atom names nothing; an operator is no native and no function
  1 | foo
    | ^^^
  mended: define the name, bind it, or correct its spelling; a native of version 2 needs a contract of version 2
defined a
input:1:18: F5 NameUsed: a definition has the name of an earlier one; a parameter that of an earlier one or of any definition
  1 | (define-constant a 2)
    |                  ^ this name
  mended: give each a name of its own
input:1:4: C1 UnknownName: an atom names nothing; an operator is no native and no function
  1 | (+ b 1)
    |    ^
  mended: define the name, bind it, or correct its spelling; a native of version 2 needs a contract of version 2
input:2:4: C3 ArgumentKind: an argument isn't of the type that the native needs, or isn't admitted by a declared type
  2 |    true)
    |    ^^^^ this argument
  mended: give a value of that type; to-int and to-uint convert numbers
input:1:1: C1 UnknownName: an atom names nothing; an operator is no native and no function
  1 | (unwarp-panic none)
    | ^^^^^^^^^^^^^^^^^^^
  did you mean: unwrap-panic?
  mended: define the name, bind it, or correct its spelling; a native of version 2 needs a contract of version 2
input:1:3: T1 BadByte: a byte other than 32 to 126, tab, LF and CR; in a string also these three
  1 | "a
    |   ^
  mended: remove the byte, or escape it in a string (\n, \t, in u".." also \u{..})
input:1:8: T5 StrayClose: a closing bracket that doesn't match the innermost open one
  1 | (+ 1 2))
    |        ^
  mended: remove it, or close the open one with its own kind
input:1:1: O1 Cycle: definitions name each other in a ring, or one itself
  1 | (define-read-only (f) (f))
    | ^^^^^^^^^^^^^^^^^^^^^^^^^^
  mended: break the ring: a function can't call itself, not even through others
input:1:2: F4 NotInProfile: impl-trait: traits are left out; it says that the contract has the functions of a trait
  1 | (impl-trait .t)
    |  ^^^^^^^^^^
  instead: leave the line out: it changes nothing that the contract does
status 1
SHOWN
answered 'refused calls' ':load coin.clar' 'coin snd u9' "coin send 9 'B" 'coin send u1' 'con mine' '.con mine' 'coin send u1 (+ 1' '2)' \
    "coin send u1 'E" <<'SHOWN'
done
  event ft-mint 'A.coin coin u1000 'A
refused E2 NoFunction
  1 | coin snd u9
    |      ^^^
  did you mean: send?
  why: the contract has no function of this name
  do: take a public or read-only function of the contract (its bound lines list private ones too)
refused E5 Argument 0
  1 | coin send 9 'B
    |           ^
  why: argument I, counted from 0, is the first that isn't of its parameter's type
  do: write the literal of that type (TEXT.md): a uint has a u in front, a principal a "'"
refused E4 ArgumentCount
  1 | coin send u1
    |      ^^^^
  why: the function has another number of parameters
  do: give one argument for each parameter
input:1:1: con names no contract
  1 | con mine
    | ^^^
  did you mean: coin?
refused E1 NoContract
  1 | .con mine
    | ^^^^
  why: no such contract is deployed
  do: correct the address or the name; look whether the deployment was refused or aborted
input:1:14: an argument is a literal: `+` begins no literal
  1 | coin send u1 (+ 1
    |              ^^^^
input:1:14: an argument is a literal: `'E` is no literal
  1 | coin send u1 'E
    |              ^^
status 1
SHOWN
answered 'aborts' '(let ((a 1) (b 0)) (+ a (/ a b)))' '(define-data-var n uint u3)' '(define-constant k (+ (var-get n) (/ u1 u0)))' \
    '(define-read-only (least) (- (var-get n) u4))' '(least)' ':costs on' '(- u1 u2)' '(var-get n)' <<'SHOWN'
aborted A3 DivideByZero
  1 | (let ((a 1) (b 0)) (+ a (/ a b)))
    |                              ^ 0
  why: a divisor was 0
  do: test the divisor before the division
defined n
aborted A3 DivideByZero
  1 | (define-constant k (+ (var-get n) (/ u1 u0)))
    |                                         ^^ u0
  why: a divisor was 0
  do: test the divisor before the division
defined least
aborted A2 Underflow
  2 | (define-read-only (least) (- (var-get n) u4))
    |                                          ^^ u4
  why: a result was below the least number of its type
  do: call with other numbers, or compare before a subtraction: a uint can't go below 0
aborted A2 Underflow
  cost 4 0 0 0 0, bound 4 0 0 0 0
  1 | (- u1 u2)
    |       ^^ u2
  why: a result was below the least number of its type
  do: call with other numbers, or compare before a subtraction: a uint can't go below 0
value u3
  cost 2 1 17 0 0, bound 2 1 17 0 0
status 1
SHOWN

# Events, also of definitions, and what is added too late.
answered 'events' '(define-constant a (print 5))' '(define-constant b (print 6))' '(print {a: a})' '(begin (print 1) (print "x") (ok 1))' \
    '(define-data-var n uint u1)' '(var-get n)' '(define-constant c (begin (var-set n u7) 1))' '(var-get n)' <<'SHOWN'
defined a
  event print 'A.console 5
defined b
  event print 'A.console 6
value {a: 5}
  event print 'A.console {a: 5}
value (ok 1)
  event print 'A.input-2 1
  event print 'A.input-2 "x"
defined n
value u1
call console input-3: value u1; now value u7
  why: an input before would end otherwise
  do: begin another session with it
value u1
status 1
SHOWN

# Sources: of a contract as it is, changed, refused, and of version 2.
echo '(define-read-only (add1 (x int)) (+ x 1))' >inc.clar
echo '(define-read-only (add1 (x int)) (+ x u1))' >bad.clar
echo '(define-read-only (both (x uint)) (bit-and x u1))' >two.clar
answered 'check' ':check inc.clar' ':check bad.clar' ':check none.clar' ':check inc' ':check two.clar' ':clarity 2' ':check two.clar' \
    '(bit-and u3 u6)' \
    ':clarity 3' ':state' <<'SHOWN'
  deploy-bound 2 0 0 2 42
  bound add1 5 0 0 0 0
bad.clar:1:39: C3 ArgumentKind: an argument isn't of the type that the native needs, or isn't admitted by a declared type
  1 | (define-read-only (add1 (x int)) (+ x u1))
    |                                       ^^ this argument
  mended: give a value of that type; to-int and to-uint convert numbers
none.clar: No such file or directory
:check NAME.clar: prints the bounds of a source, or the rule that it breaks
two.clar:1:35: C1 UnknownName: bit-and: of version 2 alone
  1 | (define-read-only (both (x uint)) (bit-and x u1))
    |                                   ^^^^^^^^^^^^^^
  instead: --clarity2 or "clarity": 2
  deploy-bound 2 0 0 2 50
  bound both 5 0 0 0 0
value u2
:clarity 1 | 2: the version of sources from here on
status 1
SHOWN
mkdir changed
echo '(define-read-only (add1 (x int)) (if (> x 40) 0 (+ x 1)))' >changed/inc.clar
answered 'a source that changed' ':costs on' ':load inc.clar' '.inc add1 41' ':load changed/inc.clar' '.inc add1 41' ':load bad.clar' <<'SHOWN'
done
  cost 2 0 0 2 42, bound 2 0 0 2 42
  bound add1 5 0 0 0 0 int
value 42
  cost 5 0 0 0 0, bound 5 0 0 0 0
done
  cost 2 0 0 2 58, bound 2 0 0 2 58
  bound add1 9 0 0 0 0 int
call inc add1: value 42, cost 5 0 0 0 0; now value 0, cost 7 0 0 0 0
value 0
  cost 7 0 0 0 0, bound 9 0 0 0 0
bad.clar:1:39: C3 ArgumentKind: an argument isn't of the type that the native needs, or isn't admitted by a declared type
  1 | (define-read-only (add1 (x int)) (+ x u1))
    |                                       ^^ this argument
  mended: give a value of that type; to-int and to-uint convert numbers
status 1
SHOWN
answered 'deploy' ':deploy d' '(define-data-var n uint u1)' '(define-public (set (x uint)) (ok (var-set n x)))' '(set u2)' ':as B' \
    ':deploy d' \
    'd set u3' ':load (none.json' ':source' ':state' '(var-get n)' '(define-constant n u5)' 'n' ':deploy d' ':deploy d-2' ':state' <<'SHOWN'
no definition is kept
defined n
defined set
ok true
done
ok true
(none.json: No such file or directory
var 'A.console n u2
var 'B.d n u3
input:1:1: C13 NoSuchVariable: the contract has no such variable
  1 | (var-get n)
    | ^^^^^^^^^^^
  mended: define it here; reach another contract's by its functions
defined n
value u5
refused E6 NameTaken
  why: the sender has deployed a contract of this name
  do: take another name or another sender; a contract is never replaced
done
var 'A.console n u2
var 'B.d n u3
status 1
SHOWN
mkdir one other
echo '(define-read-only (f) u1)' >one/e.clar
echo '(define-read-only (g) u2)' >other/e.clar
answered 'a contract that others call' ':load one/e.clar' '(define-read-only (twice) (* u2 (contract-call? .e f)))' '(twice)' ':as B' \
    ':deploy d' \
    ':as A' ':load other/e.clar' '(define-constant k 1)' ':load one/e.clar' '(define-constant k 1)' '(twice)' <<'SHOWN'
done
defined twice
value u2
console:1:33: C16 NoSuchContract: the target of contract-call? isn't deployed, or is the own contract
  1 | (define-read-only (twice) (* u2 (contract-call? .e f)))
    |                                 ^^^^^^^^^^^^^^^^^^^^^
  mended: deploy the target before; call an own function by its name
done
deploy console: done; now refused E7 ContractRefused C17 NoSuchFunction 32..53
call console input-1: value u2; now refused E1 NoContract
console:1:33: C17 NoSuchFunction: the target hasn't the function, or it is private
  1 | (define-read-only (twice) (* u2 (contract-call? .e f)))
    |                                 ^^^^^^^^^^^^^^^^^^^^^
  mended: call a public or read-only one
done
defined k
value u2
status 1
SHOWN
answered 'trace' ':load coin.clar' '(define-data-var n uint u3)' ":trace coin send u1 'B" ':trace (var-set n (+ u1 (var-get n)))' \
    ':trace (/ 1 0)' \
    ':trace (define-constant a 1)' ':trace' '(var-get n)' <<'SHOWN'
done
  event ft-mint 'A.coin coin u1000 'A
defined n
'A.coin
  2 | (define-public (send (n uint) (to principal)) (ft-transfer? coin n tx-sender to))
    |                                                                  ^ u1
  2 | (define-public (send (n uint) (to principal)) (ft-transfer? coin n tx-sender to))
    |                                                                    ^^^^^^^^^ 'A
  2 | (define-public (send (n uint) (to principal)) (ft-transfer? coin n tx-sender to))
    |                                                                              ^^ 'B
  2 | (define-public (send (n uint) (to principal)) (ft-transfer? coin n tx-sender to))
    |                                               ^^^^^^^^^^^^^^^^^^^^^^^^^^^^^^^^^^ (ok true)
ok true
input
  1 | (var-set n (+ u1 (var-get n)))
    |               ^^ u1
  1 | (var-set n (+ u1 (var-get n)))
    |                  ^^^^^^^^^^^ u3
  1 | (var-set n (+ u1 (var-get n)))
    |            ^^^^^^^^^^^^^^^^^^ u4
  1 | (var-set n (+ u1 (var-get n)))
    | ^^^^^^^^^^^^^^^^^^^^^^^^^^^^^^ true
value true
input
  1 | (/ 1 0)
    |    ^ 1
  1 | (/ 1 0)
    |      ^ 0
aborted A3 DivideByZero
a definition is evaluated when its contract is deployed: trace a call or an expression
:trace INPUT: prints what each expression of an expression or a call gives; nothing changes
value u3
status 1
SHOWN
answered 'commands' ':hlep' ':' ':costs' ':name' ':name e x' ':load x.txt' ':save x.txt' ':quit' '(+ 1 2)' <<'SHOWN'
:hlep is no command
  did you mean: :help?
: is no command
  do: see :help
:costs on | off: prints costs beside bounds
A SP000000000000000000002Q6VF78
B SP2J6ZY48GV1EZ5V2V5RB9MP66SW86PYKKNRV9EJ7
C SP1G60R30C1G60R30C1G60R30C1G60R30ENX4GX2
D SP2081040G2081040G2081040G2081040JQWQ3V0
x is no name and no address
:load FILE: deploys NAME.clar, again after a change; or does the entries of a scenario or transaction file
:save FILE: writes the session as a transaction file, NAME.json, or as a scenario with its sources, NAME.scenario
status 1
SHOWN
echo :help | "$tools/console" >shown
missing=0
for name in as block check clarity costs deploy help load name quit report save source state stx trace; do
    grep -q "^:$name" shown || missing=1
done
count $missing ':help'

# What is saved gives the same again: by the model, by the console, and as a scenario whose outcomes, costs and events are wanted.
inputs=(':stx B u100' ':load coin.clar' "coin send u300 'B" ':as B' "(contract-call? .coin send (+ u1 u1) 'A)" 'coin send u900 '"'A" ':block 4'
    '(define-data-var n uint u1)' '(var-set n (+ (var-get n) block-height))' '(define-read-only (least) (- (var-get n) u9))' '(least)' \
    'coin snd'
    "(stx-transfer? u3 tx-sender 'D)" '(print {it: (list "a;;b" "c")})')
for kind in json scenario; do
    answered "a session saved as $kind" "${inputs[@]}" ":save saved.$kind" <<'SHOWN'
done
  event ft-mint 'A.coin coin u1000 'A
ok true
  event ft-transfer 'A.coin coin u300 'A 'B
ok true
  event ft-transfer 'A.coin coin u2 'B 'A
err u1
block 4
defined n
value true
defined least
aborted A2 Underflow
  3 | (define-read-only (least) (- (var-get n) u9))
    |                                          ^^ u9
  why: a result was below the least number of its type
  do: call with other numbers, or compare before a subtraction: a uint can't go below 0
refused E2 NoFunction
  1 | coin snd
    |      ^^^
  did you mean: send?
  why: the contract has no function of this name
  do: take a public or read-only function of the contract (its bound lines list private ones too)
ok true
  event stx-transfer 'A.input-4 u3 'B 'D
value {it: (list "a;;b" "c")}
  event print 'A.input-5 {it: (list "a;;b" "c")}
status 1
SHOWN
done
./program run "$examples/unit.json" saved.json >report
outcome='^[0-9]* [a-z]* [^ ]* [^ ]* \(\(ok\|err\|value\|aborted\) .*\)'
sed -n "s/$outcome/\1/p; /^  event/p; s/^[0-9]* \(block .*\)/\1/p" report |
    sed "s/'SP000000000000000000002Q6VF78/'A/g; s/'SP2J6ZY48GV1EZ5V2V5RB9MP66SW86PYKKNRV9EJ7/'B/g" |
    sed "s/'SP2081040G2081040G2081040G2081040JQWQ3V0/'D/g" >shown
compare 'its report by the model' <<'SHOWN'
  event ft-mint 'A.coin coin u1000 'A
ok true
  event ft-transfer 'A.coin coin u300 'A 'B
ok true
  event ft-transfer 'A.coin coin u2 'B 'A
err u1
block 4
ok true
aborted A2 Underflow
ok true
  event stx-transfer 'A.input-4 u3 'B 'D
value {it: (list "a;;b" "c")}
  event print 'A.input-5 {it: (list "a;;b" "c")}
SHOWN
printf '%s\n' "${inputs[@]}" :report | "$tools/console" | sed -n '/^0 deploy/,$p' >shown || true
compare 'the report of the session' <report
for kind in json scenario; do
    printf '%s\n' ":load saved.$kind" :report | "$tools/console" | sed -n '/^0 deploy/,$p' >shown || true
    compare "the report of saved.$kind" <report
done
CLARITY=$folder/program "$tools/expect" saved.scenario >shown
compare 'the scenario as a test' <<<'saved.scenario: 13 of 13 as wanted'
sed -i 's/=> err u1/=> ok true/' saved.scenario
CLARITY=$folder/program "$tools/expect" saved.scenario >shown || true
count "$(grep -c 'wanted: ok true; came: err u1' shown | grep -qx 1; echo $?)" 'a scenario that wants something else'
answered 'what is loaded goes on' ':load saved.json' ':as A' 'coin mine' '(define-constant x 1)' '(+ x 1)' <<'SHOWN'
done
  event ft-mint 'A.coin coin u1000 'A
ok true
  event ft-transfer 'A.coin coin u300 'A 'B
done
ok true
  event ft-transfer 'A.coin coin u2 'B 'A
err u1
block 4
done
ok true
aborted A2 Underflow
  3 | (define-read-only (least) (- (var-get n) u9))
    |                                          ^^ u9
  why: a result was below the least number of its type
  do: call with other numbers, or compare before a subtraction: a uint can't go below 0
done
ok true
  event stx-transfer 'A.input-4 u3 'B 'D
done
value {it: (list "a;;b" "c")}
  event print 'A.input-5 {it: (list "a;;b" "c")}
value u702
defined x
value 2
status 1
SHOWN

# Files that can't be loaded leave the session as it was.
echo '{"version": 1, "genesis": [], "entries": [' >broken.json
echo '{"version": 1, "genesis": [{"principal": 5, "stx": "u1"}], "entries": []}' >holder.json
echo '{"version": 1, "genesis": [{"principal": "S", "stx": "u1"}], "entries": []}' >address.json
echo '{"version": 2, "genesis": [], "epochs": [{"height": 1, "costs": {}}], "entries": []}' >epochs.json
echo '{"version": 1, "genesis": [], "entries": [{"block": {"height": 2}}, {"block": {"height": 1}}, {"block": {"height": 3}}]}' >falls.json
printf 'block 3\ncall x\n' >wrong.scenario
answered 'files that are none' '(+ 1 2)' ':load broken.json' ':load holder.json' ':load address.json' ':load epochs.json' \
    ':load wrong.scenario' \
    ':load none.json' ':load falls.json' 'block-height' '(+ 1 3)' <<'SHOWN'
value 3
it isn't JSON (Expecting value: line 2 column 1 (char 43))
holder.json has a holder that isn't of its form
the holders aren't of their form, or have more than 2^128-1 together
epochs.json has epochs: a session has the costs of its beginning
wrong.scenario:2: a line of this kind is: call SENDER CONTRACT FUNCTION LITERAL.. [=> OUTCOME]
none.json: No such file or directory
block 2
the height is below that of the block before
  why: in its place among the entries: the height is below that of the block before
  do: let heights stay or rise
value u2
value 4
status 1
SHOWN

# An entry that the console doesn't wait for. (The model takes too long.)
if [ "${1-}" = --library ]; then
    answered 'a call that takes long' ":load $examples/slow.clar" 'slow go' '(+ 1 2)' <<'SHOWN'
done
aborted A8 CostLimit runtime 10000001 10000000
  why: the charges passed the entry's limit in that dimension
  do: the console waits no longer: save the session, and raise the limit in its file
value 3
status 1
SHOWN
fi

# Other cost files, and words.
sed 's/"arith": {"runtime": \["constant", 1\]/"arith": {"runtime": ["constant", 9]/' "$examples/unit.json" >dear.json
echo '{}' >none.json
printf '%s\n' ':costs on' '(+ 1 2)' >given
wanted console --costs dear.json <<'SHOWN'
value 3
  cost 12 0 0 0 0, bound 12 0 0 0 0
status 0
SHOWN
wanted console --costs none.json <<'SHOWN'
console: bad file none.json Missing literal
  do: add the name; "{}" makes it cost nothing
status 3
SHOWN
wanted console --costs absent.json <<'SHOWN'
console: absent.json: No such file or directory
status 3
SHOWN
CLARITY_LIBRARY=$folder/nowhere wanted console <<'SHOWN'
console: CLARITY_LIBRARY names no library: FOLDER/nowhere isn't there
status 3
SHOWN
for number in {1..2000}; do echo "$number"; done >given
{ "$tools/console" <given 2>said || echo $? >ended; } | head -n 1 >shown
cat ended said >>shown
compare 'answers that nobody reads' <<'SHOWN'
value 1
4
SHOWN
misused console file
misused console --costs

# Without CLARITY_LIBRARY the kept library is taken, else one is built, by bindings/build.sh; here by a stub, which notes its words.
mkdir copy copy/bindings
cp -r "$tools" "$tools/../docs" "$examples" copy/
cat >copy/bindings/build.sh <<'PROGRAM'
#!/usr/bin/env bash
echo "built $*" >>words
[ "$1" != --kept ] || [ -e kept ] || exit 1
[ ! -e fails ] || exit 1
PROGRAM
chmod +x copy/bindings/build.sh
found() {
    local ended=0
    : >words
    echo '(+ 1 2)' | env -u CLARITY_LIBRARY PYTHONPATH="$tools/../bench/modelled" copy/tools/console >shown 2>&1 || ended=$?
    { cat words && echo "status $ended"; } >>shown
    compare "$1"
}
found 'a library that is built' <<'SHOWN'
the library isn't built yet: bindings/build.sh --unproved builds it, once, in some minutes
value 3
built --kept
built --unproved
status 0
SHOWN
: >fails
found 'a library that is not built' <<'SHOWN'
the library isn't built yet: bindings/build.sh --unproved builds it, once, in some minutes
console: bindings/build.sh --unproved failed
built --kept
built --unproved
status 3
SHOWN
rm fails
: >kept
found 'a library that is kept' <<'SHOWN'
value 3
built --kept
status 0
SHOWN

# At a terminal: a prompt with the sender, completion, an input that is broken off, and history.
cat >terminal.py <<'PYTHON'
import os
import pty
import sys
import time

child, screen = pty.fork()
if not child:
    os.environ["TERM"] = "dumb"
    os.execv(sys.argv[1], sys.argv[1:2])


shown = b""


def wait(*texts):
    """Waits for these texts, one behind another."""
    global shown
    for text in texts:
        while text not in shown:
            shown += os.read(screen, 1000)
        shown = shown.partition(text)[2]


def settle():
    """Waits until the console waits: an interrupt that comes between its prompt and that is heard with the next line alone."""
    while open(f"/proc/{child}/stat").read().rpartition(") ")[2][0] != "S":
        time.sleep(0.01)


wait(b"A> ")
for keys, *texts in (
    ("(define-data-var number uint u5)\n", b"defined number", b"A> "), ("(var-g\t num\t)\n", b"value u5", b"A> "),
    (":sta\t\n", b"var 'A.console number u5", b"A> "), ("(+ 1\n", b" . "), ("\x03", b"A> "), (":as B\n", b"B> "),
    ("tx-sen\t\n", b"value 'B", b"B> "), ("\x1b[A\n", b"value 'B", b"B> "),
):
    settle()
    os.write(screen, keys.encode())
    wait(*texts)
    print(texts[0].decode())
settle()
os.write(screen, b"\x04")
print("status", os.waitstatus_to_exitcode(os.waitpid(child, 0)[1]))
PYTHON
timeout 60 python3 terminal.py "$tools/console" >shown 2>&1 || echo "ended with $?" >>shown
compare 'a terminal' <<SHOWN
defined number
value u5
var 'A.console number u5
 . 
A> 
B> 
value 'B
value 'B
status 0
SHOWN
cp home/lumpitseha/console_history shown
compare 'its history' <<'SHOWN'
(define-data-var number uint u5)
(var-get number)
:state
(+ 1
:as B
tx-sender
SHOWN
summary
