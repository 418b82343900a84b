#!/usr/bin/env bash
# Runs tools/txfile on a scenario of each kind of line, and tools/expect over a stub of the program, and compares what they
# print and end with with what is written out here.
# Usage: bench/scenario.sh
set -eu
[ "${1-}" != --help ] || exec sed -n '2,/^[^#]/s/^# \{0,1\}//p' "$0"
tools=$(cd "$(dirname "$0")/../tools" && pwd)
. "$tools/../bench/counts.sh"
folder=$(mktemp -d)
trap 'rm -rf "$folder"' EXIT
cd "$folder"
: >given
# The stub: `run` gives the file `answer`, with the status in `status`; but once the file `first`, with 5, if it is there.
cat >program <<'PROGRAM'
#!/usr/bin/env bash
case $1 in
wire) echo 0x03 ;;
*)
    if [ -e first ]; then
        cat first
        rm first
        exit 5
    fi
    cat answer
    exit "$(cat status)"
    ;;
esac
PROGRAM
chmod +x program
export CLARITY=$folder/program

mkdir parts
printf '(define-read-only (f) "1")\n' >parts/f.clar
printf '{"literal": {}}' >parts/free.json
cat >all.scenario <<'FILE'
;; Each kind of line.
name owner SP000000000000000000002Q6VF78
name alice SP2J6ZY48GV1EZ5V2V5RB9MP66SW86PYKKNRV9EJ7
stx alice u1000
stx owner.bank u5
epoch 5 parts/free.json
epoch 18446744073709551615 parts/free.json
block 7
    rebound owner.f go 1 2 3 4 5

deploy owner f parts/f.clar => done
  clarity 2
call alice owner.f go -1 (list 'alice "a  'owner ;; \" b") {to: 'owner.f} u"x" 'SP000000000000000000002Q6VF78.alice ;; behind
	limit 1 2 3 4 18446744073709551615
	mode deny
	post stx alice le u300
	post ft owner.f owner.f coin eq u1
	post nft alice owner.f tok (some 'alice) sent
	post nft alice owner.f tok u1 kept
FILE
wanted txfile all.scenario <<'SHOWN'
{"version": 2, "genesis": [
 {"principal": "SP2J6ZY48GV1EZ5V2V5RB9MP66SW86PYKKNRV9EJ7", "stx": "u1000"},
 {"principal": "SP000000000000000000002Q6VF78.bank", "stx": "u5"}
], "epochs": [
 {"height": 5, "costs": {"literal": {}}},
 {"height": 18446744073709551615, "costs": {"literal": {}}}
], "entries": [
 {"block": {"height": 7}},
 {"deploy": {"sender": "SP000000000000000000002Q6VF78", "name": "f", "source": "(define-read-only (f) \"1\")\n", "clarity": 2}},
 {"call": {"sender": "SP2J6ZY48GV1EZ5V2V5RB9MP66SW86PYKKNRV9EJ7", "contract": "SP000000000000000000002Q6VF78.f", "function": "go", "args": ["-1", "(list 'SP2J6ZY48GV1EZ5V2V5RB9MP66SW86PYKKNRV9EJ7 \"a  'owner ;; \\\" b\")", "{to: 'SP000000000000000000002Q6VF78.f}", "u\"x\"", "'SP000000000000000000002Q6VF78.alice"], "limit": [1, 2, 3, 4, 18446744073709551615], "mode": "deny", "post": [{"stx": {"principal": "SP2J6ZY48GV1EZ5V2V5RB9MP66SW86PYKKNRV9EJ7", "code": "le", "amount": "u300"}}, {"ft": {"principal": "SP000000000000000000002Q6VF78.f", "contract": "SP000000000000000000002Q6VF78.f", "token": "coin", "code": "eq", "amount": "u1"}}, {"nft": {"principal": "SP2J6ZY48GV1EZ5V2V5RB9MP66SW86PYKKNRV9EJ7", "contract": "SP000000000000000000002Q6VF78.f", "token": "tok", "id": "(some 'SP2J6ZY48GV1EZ5V2V5RB9MP66SW86PYKKNRV9EJ7)", "sent": true}}, {"nft": {"principal": "SP2J6ZY48GV1EZ5V2V5RB9MP66SW86PYKKNRV9EJ7", "contract": "SP000000000000000000002Q6VF78.f", "token": "tok", "id": "u1", "sent": false}}]}}
]}
status 0
SHOWN
: >empty.scenario
wanted txfile empty.scenario <<'SHOWN'
{"version": 1, "genesis": [], "entries": []}
status 0
SHOWN
"$tools/txfile" "$tools/../examples/coin.scenario" | python3 -m json.tool --sort-keys >shown
compare "examples/coin.scenario" < <(python3 -m json.tool --sort-keys "$tools/../examples/coin.json")

# Lines that aren't of their form. Each scenario begins with two names.
refused() {
    printf 'name a SP000000000000000000002Q6VF78\nname bank SP2J6ZY48GV1EZ5V2V5RB9MP66SW86PYKKNRV9EJ7\n%b' "$1" >bad.scenario
    wanted txfile bad.scenario < <(printf 'txfile: bad.scenario:%s\n' "${@:2}" && echo 'status 3')
}
refused '\nfoo\n' '4: `foo` begins no line of a scenario: include, name, stx, epoch, block, deploy, call, state do'
refused 'block 7\n mode deny' '4: `mode` belongs below a deployment or a call'
refused ' mode deny' '3: `mode` belongs below a deployment or a call'
refused 'mode deny' '3: `mode` begins no line of a scenario: include, name, stx, epoch, block, deploy, call, state do'
refused 'deploy a b parts/f.clar\n rebound a.b f over runtime' '4: `rebound` belongs below a block'
refused 'block 7\n rebound a.b f over time' '4: a line of this kind is: rebound CONTRACT NAME RUNTIME READ_COUNT READ_LENGTH WRITE_COUNT WRITE_LENGTH or rebound CONTRACT NAME over DIMENSION'
refused 'epoch 5 parts/f.clar' "3: parts/f.clar isn't JSON"
refused 'epoch -5 parts/free.json' '3: a line of this kind is: epoch HEIGHT PATH'
refused 'epoch 5 no.json' '3: no.json: No such file or directory'
refused 'block -1' '3: a line of this kind is: block HEIGHT'
refused 'name b SP000000000000000000002Q6VF79' '3: `SP000000000000000000002Q6VF79` is no address: its last characters are a checksum, so copy it whole'
refused 'deploy a b no.clar' '3: no.clar: No such file or directory'
refused 'call a a.b f => maybe' '3: after `=>` comes one of ok, err, value, aborted, refused'
refused 'call a a.b f => ok foo' '3: the value that is wanted is no literal: `foo` is no literal'
refused 'call a a.b f\n limit 1 2' '4: a line of this kind is: limit RUNTIME READ_COUNT READ_LENGTH WRITE_COUNT WRITE_LENGTH'
refused 'call a a.b f\n post stx a is u1' '4: a line of this kind is: post stx PRINCIPAL CODE AMOUNT, post ft PRINCIPAL CONTRACT TOKEN CODE AMOUNT or post nft PRINCIPAL CONTRACT TOKEN ID sent'
# Names, arrows, literals and amounts.
refused 'call bnak a.b f' '3: `bnak` is no name of this scenario, and no address: did you mean `bank`?'
refused 'call a zoe.b f' '3: `zoe` is no name of this scenario, and no address'
refused "call a a.b f 'zoe" '3: `zoe` is no name of this scenario, and no address'
refused "call a a.b f (list 'a 'bonk)" '3: `bonk` is no name of this scenario, and no address: did you mean `bank`?'
refused 'call a a. f' '3: `a.` is no principal: behind the dot comes the name of a contract'
refused 'call a a.b f = ok u1' '3: `=` is no literal: the outcome that is wanted comes after `=>`'
refused 'call a a.b f -> ok' '3: `->` is no literal: the outcome that is wanted comes after `=>`'
refused 'call a a.b f ok u1' '3: a value is no literal: `ok` is no literal'
refused 'stx a 5' '3: `5` is no amount, such as u1000'
refused 'call a a.b f\n post stx a le 5' '4: `5` is no amount, such as u1000'
refused "state var 'a.b v foo" '3: a value is no literal: `foo` is no literal'
# All are named; those below a line at fault aren't looked at.
refused 'call zoe a.b f\n  limit 1\nblock x\ncall a a.b f\n  mode maybe\n  mode deny\n' '3: `zoe` is no name of this scenario, and no address' \
    '5: a line of this kind is: block HEIGHT' '7: a line of this kind is: mode deny'
printf '\xff' >bad.scenario
wanted txfile bad.scenario <<'SHOWN'
txfile: bad.scenario: it isn't UTF-8
status 3
SHOWN
wanted txfile no.scenario <<'SHOWN'
txfile: no.scenario: No such file or directory
status 3
SHOWN

# Files that are included: their lines are as if they were written there, their paths are from their own folder.
printf 'name owner SP000000000000000000002Q6VF78\ndeploy owner f f.clar\n' >parts/begin.scenario
printf 'include parts/begin.scenario\nblock 7\ninclude parts/more.scenario\ncall owner owner.f go\n' >whole.scenario
printf 'call owner owner.f on\n' >parts/more.scenario
wanted txfile whole.scenario <<'SHOWN'
{"version": 1, "genesis": [], "entries": [
 {"deploy": {"sender": "SP000000000000000000002Q6VF78", "name": "f", "source": "(define-read-only (f) \"1\")\n"}},
 {"block": {"height": 7}},
 {"call": {"sender": "SP000000000000000000002Q6VF78", "contract": "SP000000000000000000002Q6VF78.f", "function": "on", "args": []}},
 {"call": {"sender": "SP000000000000000000002Q6VF78", "contract": "SP000000000000000000002Q6VF78.f", "function": "go", "args": []}}
]}
status 0
SHOWN
printf '\ninclude ../ring.scenario\n' >parts/ring.scenario
printf 'block 1\ninclude parts/ring.scenario\n' >ring.scenario
wanted txfile ring.scenario <<'SHOWN'
txfile: parts/ring.scenario:2: the files include each other in a ring: ring.scenario, parts/ring.scenario, ring.scenario
status 3
SHOWN
printf 'include own.scenario\n' >own.scenario
wanted txfile own.scenario <<'SHOWN'
txfile: own.scenario:1: the files include each other in a ring: own.scenario, own.scenario
status 3
SHOWN
printf 'block x\n' >parts/faulty.scenario
printf 'include parts/faulty.scenario\ninclude parts/none.scenario\ninclude bad.scenario\ninclude\ninclude parts/more.scenario\n mode deny\n' >faulty.scenario
wanted txfile faulty.scenario <<'SHOWN'
txfile: parts/faulty.scenario:1: a line of this kind is: block HEIGHT
txfile: faulty.scenario:2: parts/none.scenario: No such file or directory
txfile: faulty.scenario:3: bad.scenario: it isn't UTF-8
txfile: faulty.scenario:4: a line of this kind is: include PATH
txfile: parts/more.scenario:1: `owner` is no name of this scenario, and no address
txfile: faulty.scenario:6: `mode` belongs below a deployment or a call
status 3
SHOWN

# What came is what is wanted, in each form in which it may be written.
cat >good.scenario <<'FILE'
name owner SP000000000000000000002Q6VF78
deploy owner f parts/f.clar
call owner owner.f go => ok
    event print 'owner.f {b: 'owner, a: 007}
    cost 8 2 34 1 17
call owner owner.f go => ok (some 0xFF)
call owner owner.f go => value {b: (list), a: u01}
call owner owner.f go => aborted A8
call owner owner.f go => aborted A8 CostLimit runtime 7 6
call owner owner.f go => refused
call owner owner.f go => err "a  b"
state var 'owner.f n u3
FILE
cat >report <<'FILE'
0 deploy 'SP000000000000000000002Q6VF78.f done
  cost 2 0 0 2 41
  deploy-bound 2 0 0 2 41
1 call 'SP000000000000000000002Q6VF78.f go ok u1
  cost 8 2 34 1 17
  event print 'SP000000000000000000002Q6VF78.f {a: 7, b: 'SP000000000000000000002Q6VF78}
2 call 'SP000000000000000000002Q6VF78.f go ok (some 0xff)
  cost 8 2 34 1 17
3 call 'SP000000000000000000002Q6VF78.f go value {a: u1, b: (list)}
  cost 8 2 34 1 17
4 call 'SP000000000000000000002Q6VF78.f go aborted A8 CostLimit write_length 61 60
  cost 8 2 34 1 61
5 call 'SP000000000000000000002Q6VF78.f go aborted A8 CostLimit runtime 7 6
  cost 7 2 34 1 61
6 call 'SP000000000000000000002Q6VF78.f go refused E2 NoFunction
7 call 'SP000000000000000000002Q6VF78.f go err "a  b"
  cost 7 2 34 1 61
FILE
echo "var 'SP000000000000000000002Q6VF78.f n u3" >rest
cat report rest >answer
echo 0 >status
wanted expect good.scenario <<'SHOWN'
good.scenario: 9 of 9 as wanted
status 0
SHOWN

# Each way to differ.
cat >differs.scenario <<'FILE'
name owner SP000000000000000000002Q6VF78
deploy owner f parts/f.clar
    event ft-mint 'owner.f coin u1 'owner
call owner owner.f go => ok u10
    cost 8 2 34 1 18
call owner owner.f go => err
call owner owner.f go => value
    event print 'owner.f 1
    event print 'owner.f 2
call owner owner.f go
call owner owner.f go => aborted A9
call owner owner.f go => ok
    cost 1 1 1 1 1
call owner owner.f go => err "a b"
state var 'owner.f n u30
FILE
wanted expect differs.scenario good.scenario <<'SHOWN'
differs.scenario:2: entry 0, deploy f: wanted: event ft-mint 'SP000000000000000000002Q6VF78.f coin u1 'SP000000000000000000002Q6VF78; came: no event
differs.scenario:4: entry 1, call f go: wanted: ok u10; came: ok u1
differs.scenario:4: entry 1, call f go: wanted: cost 8 2 34 1 18; came: cost 8 2 34 1 17
differs.scenario:6: entry 2, call f go: wanted: err; came: ok (some 0xff)
differs.scenario:7: entry 3, call f go: wanted: event print 'SP000000000000000000002Q6VF78.f 1, event print 'SP000000000000000000002Q6VF78.f 2; came: no event
differs.scenario:10: entry 4, call f go: wanted: done, ok or value; came: aborted A8 CostLimit write_length 61 60
differs.scenario:11: entry 5, call f go: wanted: aborted A9; came: aborted A8 CostLimit runtime 7 6
differs.scenario:12: entry 6, call f go: wanted: ok; came: refused E2 NoFunction
differs.scenario:12: entry 6, call f go: wanted: cost 1 1 1 1 1; came: no cost
differs.scenario:14: entry 7, call f go: wanted: err "a b"; came: err "a  b"
differs.scenario:15: wanted: var 'SP000000000000000000002Q6VF78.f n u30; came: no such line of the state
differs.scenario: 0 of 9 as wanted
good.scenario: 9 of 9 as wanted
status 1
SHOWN

# Bounds that a block changes.
cat >epochs.scenario <<'FILE'
epoch 5 parts/free.json
block 7
    rebound SP000000000000000000002Q6VF78.f go 1 2 3 4 5
    rebound SP000000000000000000002Q6VF78.f on over read_count
    rebound SP000000000000000000002Q6VF78.f go 1 2 3 4 6
    rebound SP000000000000000000002Q6VF78.f on over runtime
call SP000000000000000000002Q6VF78 SP000000000000000000002Q6VF78.f on => refused E8
FILE
cat >answer <<'FILE'
0 block 7
  rebound 'SP000000000000000000002Q6VF78.f go 1 2 3 4 5 int
  rebound 'SP000000000000000000002Q6VF78.f on over read_count
1 call 'SP000000000000000000002Q6VF78.f on refused E8 NoBound read_count
FILE
wanted expect epochs.scenario <<'SHOWN'
epochs.scenario:2: entry 0, block 7: wanted: rebound 'SP000000000000000000002Q6VF78.f go 1 2 3 4 6; came: no such line
epochs.scenario:2: entry 0, block 7: wanted: rebound 'SP000000000000000000002Q6VF78.f on over runtime; came: no such line
epochs.scenario: 1 of 2 as wanted
status 1
SHOWN

# A deployment that is refused: where, in its source.
printf '(define-read-only (f)\n  (+ 1 u1))\n' >parts/wrong.clar
printf 'deploy SP000000000000000000002Q6VF78 wrong parts/wrong.clar\n' >wrong.scenario
echo "0 deploy 'SP000000000000000000002Q6VF78.wrong refused E7 ContractRefused C3 ArgumentKind 24..32" >answer
wanted expect wrong.scenario <<'SHOWN'
wrong.scenario:1: entry 0, deploy wrong: wanted: done, ok or value; came: refused E7 ContractRefused C3 ArgumentKind 24..32
wrong.scenario:1: entry 0, deploy wrong: parts/wrong.clar:2:8: C3 ArgumentKind: an argument isn't of the type that the native needs, or isn't admitted by a declared type
wrong.scenario: 0 of 1 as wanted
status 1
SHOWN

# Lines at fault are left out, and the others run, also where the program finds the fault; so are files.
cat >left.scenario <<'FILE'
name owner SP000000000000000000002Q6VF78
deploy owner f parts/f.clar
call bob owner.f go => ok
  mode deny
call owner owner.f go = ok u1
call owner owner.f pay u1 => ok
call owner owner.f stop => ok
FILE
echo 'bad file tx.json BadValue /entries/1/call/args' >first
cat >answer <<'FILE'
0 deploy 'SP000000000000000000002Q6VF78.f done
  cost 2 0 0 2 41
  deploy-bound 2 0 0 2 41
1 call 'SP000000000000000000002Q6VF78.f stop err u2
  cost 7 2 34 1 61
FILE
wanted expect left.scenario no.scenario bad.scenario empty.scenario <<'SHOWN'
left.scenario:3: `bob` is no name of this scenario, and no address
left.scenario:5: `=` is no literal: the outcome that is wanted comes after `=>`
left.scenario:6: the program ended with status 5: bad file tx.json BadValue /entries/1/call/args
left.scenario:7: entry 1, call f stop: wanted: ok; came: err u2
left.scenario: 1 of 5 as wanted
no.scenario: No such file or directory
no.scenario: 0 of 1 as wanted
bad.scenario: it isn't UTF-8
bad.scenario: 0 of 1 as wanted
empty.scenario: the report can't be read: byte 0: expected a line of the state
empty.scenario: 0 of 1 as wanted
status 3
SHOWN
printf 'name owner SP000000000000000000002Q6VF78\nstx owner u1\nstx owner u2\nepoch 5 parts/free.json\nepoch 4 parts/free.json\n' >others.scenario
: >answer
for fault in genesis/1/principal:3 epochs/1/height:5; do
    echo "bad file tx.json BadValue /${fault%:*}" >first
    wanted expect others.scenario <<SHOWN
others.scenario:${fault#*:}: the program ended with status 5: bad file tx.json BadValue /${fault%:*}
others.scenario: 0 of 1 as wanted
status 3
SHOWN
done

# As JSON and as JUnit.
cat >two.scenario <<'FILE'
name owner SP000000000000000000002Q6VF78
deploy owner f parts/f.clar
call owner owner.f stop => err "<&"
call owner owner.f
FILE
sed 's/err u2/err "\\0"/' >answer <<'FILE'
0 deploy 'SP000000000000000000002Q6VF78.f done
  cost 2 0 0 2 41
  deploy-bound 2 0 0 2 41
1 call 'SP000000000000000000002Q6VF78.f stop err u2
  cost 7 2 34 1 61
FILE
wanted expect two.scenario --json <<'SHOWN'
{"scenarios": [
 {"path": "two.scenario", "tests": [
  {"place": "two.scenario:4", "name": "", "as_wanted": false, "is_fault": true, "says": ["a line of this kind is: call SENDER CONTRACT FUNCTION LITERAL.. [=> OUTCOME]"]},
  {"place": "two.scenario:2", "name": "entry 0, deploy f", "as_wanted": true, "is_fault": false, "says": []},
  {"place": "two.scenario:3", "name": "entry 1, call f stop", "as_wanted": false, "is_fault": false, "says": ["wanted: err \"<&\"; came: err \"\\0\""]}
 ]}
]}
status 3
SHOWN
"$tools/expect" --junit results.xml two.scenario >shown || true
cp results.xml shown
compare 'tools/expect --junit' <<'SHOWN'
<?xml version="1.0" encoding="UTF-8"?>
<testsuites><testsuite name="two.scenario" tests="3" failures="1" errors="1"><testcase classname="two.scenario" name="two.scenario:4"><error message="a line of this kind is: call SENDER CONTRACT FUNCTION LITERAL.. [=&gt; OUTCOME]">a line of this kind is: call SENDER CONTRACT FUNCTION LITERAL.. [=&gt; OUTCOME]</error></testcase><testcase classname="two.scenario" name="two.scenario:2 entry 0, deploy f" /><testcase classname="two.scenario" name="two.scenario:3 entry 1, call f stop"><failure message="wanted: err &quot;&lt;&amp;&quot;; came: err &quot;\0&quot;">wanted: err "&lt;&amp;"; came: err "\0"</failure></testcase></testsuite></testsuites>
SHOWN
wanted expect --junit absent/results.xml two.scenario <<'SHOWN'
two.scenario:4: a line of this kind is: call SENDER CONTRACT FUNCTION LITERAL.. [=> OUTCOME]
two.scenario:3: entry 1, call f stop: wanted: err "<&"; came: err "\0"
two.scenario: 1 of 3 as wanted
expect: absent/results.xml can't be written: No such file or directory
status 4
SHOWN

# A report that is cut off, a program that ends otherwise, one that doesn't run.
head -n 3 report >answer
wanted expect good.scenario <<'SHOWN'
good.scenario: the report can't be read: byte 91: expected entry 1, a call
good.scenario: 0 of 1 as wanted
status 3
SHOWN
echo 9 >status
: >answer
wanted expect good.scenario <<'SHOWN'
good.scenario: the program ended with status 9: 
good.scenario: 0 of 1 as wanted
status 3
SHOWN
CLARITY=$folder/absent wanted expect good.scenario <<'SHOWN'
expect: FOLDER/absent doesn't run
status 3
SHOWN
for tool in txfile expect; do
    misused "$tool" --no
    misused "$tool"
done
misused txfile good.scenario good.scenario
misused expect --costs
summary
