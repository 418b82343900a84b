#!/usr/bin/env bash
# Runs tools/report on reports that are written out here, honest, forged, altered and cut off, and compares what it prints and ends
# with. It needs no program.
# Usage: bench/report.sh
set -eu
[ "${1-}" != --help ] || exec sed -n '2,/^[^#]/s/^# \{0,1\}//p' "$0"
tools=$(cd "$(dirname "$0")/../tools" && pwd)
. "$tools/../bench/counts.sh"
folder=$(mktemp -d)
trap 'rm -rf "$folder"' EXIT
cd "$folder"

cat >tx.json <<'FILE'
{"version": 1, "genesis": [{"principal": "SP000000000000000000002Q6VF78", "stx": "u9"}], "entries": [
  {"block": {"height": 7}},
  {"deploy": {"sender": "SP000000000000000000002Q6VF78", "name": "c", "source": ".."}},
  {"call": {"sender": "SP000000000000000000002Q6VF78", "contract": "SP000000000000000000002Q6VF78.c", "function": "put", "args": ["4"]}},
  {"call": {"sender": "SP000000000000000000002Q6VF78", "contract": "SP000000000000000000002Q6VF78.c", "function": "get", "args": []}},
  {"call": {"sender": "SP000000000000000000002Q6VF78", "contract": "SP000000000000000000002Q6VF78.c", "function": "put", "args": ["5"]}},
  {"deploy": {"sender": "SP000000000000000000002Q6VF78", "name": "d", "source": ".."}}
]}
FILE
cat >honest <<'FILE'
0 block 7
1 deploy 'SP000000000000000000002Q6VF78.c done
  cost 4 0 0 3 121
  deploy-bound 4 0 0 3 340282366920938463463374607431768211455
  bound put 8 2 34 1 17 (response uint no-type)
  bound get 3 1 30 0 0 {a: (optional (list 2 (buff 4))), b: (string-utf8 5)}
2 call 'SP000000000000000000002Q6VF78.c put ok u1
  cost 8 2 34 1 17
  event print 'SP000000000000000000002Q6VF78.c {a: "x) \" y", b: (list -1 2)}
  event nft-transfer 'SP000000000000000000002Q6VF78.c tok (some 0x00ff) 'SP000000000000000000002Q6VF78 'SP000000000000000000002Q6VF78.c
  event stx-burn 'SP000000000000000000002Q6VF78.c u5 'SP000000000000000000002Q6VF78
3 call 'SP000000000000000000002Q6VF78.c get value {a: none, b: u"\u{e9}"}
  cost 3 1 6 0 0
4 call 'SP000000000000000000002Q6VF78.c put aborted A8 CostLimit write_length 61 60
  cost 8 2 34 1 61
5 deploy 'SP000000000000000000002Q6VF78.d refused E7 ContractRefused O1 Cycle 0..24 a b
FILE
cat >state <<'FILE'
map 'SP000000000000000000002Q6VF78.c m {k: u1} true
stx 'SP000000000000000000002Q6VF78 u4
var 'SP000000000000000000002Q6VF78.c n u1
FILE

# An honest report, with the state and without.
cat >wanted <<'SHOWN'
{"entries": [
 {"entry": 0, "kind": "block", "height": 7, "rebounds": []},
 {"entry": 1, "kind": "deploy", "contract": "SP000000000000000000002Q6VF78.c", "outcome": "done", "text": "done", "cost": [4, 0, 0, 3, 121], "deploy_bound": [4, 0, 0, 3, 340282366920938463463374607431768211455], "bounds": [{"function": "put", "bound": [8, 2, 34, 1, 17], "type": "(response uint no-type)"}, {"function": "get", "bound": [3, 1, 30, 0, 0], "type": "{a: (optional (list 2 (buff 4))), b: (string-utf8 5)}"}], "events": []},
 {"entry": 2, "kind": "call", "contract": "SP000000000000000000002Q6VF78.c", "function": "put", "outcome": "ok", "value": "u1", "text": "ok u1", "cost": [8, 2, 34, 1, 17], "events": [{"event": "print", "contract": "SP000000000000000000002Q6VF78.c", "value": "{a: \"x) \\\" y\", b: (list -1 2)}"}, {"event": "nft-transfer", "contract": "SP000000000000000000002Q6VF78.c", "token": "tok", "id": "(some 0x00ff)", "from": "SP000000000000000000002Q6VF78", "to": "SP000000000000000000002Q6VF78.c"}, {"event": "stx-burn", "contract": "SP000000000000000000002Q6VF78.c", "amount": "u5", "from": "SP000000000000000000002Q6VF78"}]},
 {"entry": 3, "kind": "call", "contract": "SP000000000000000000002Q6VF78.c", "function": "get", "outcome": "value", "value": "{a: none, b: u\"\\u{e9}\"}", "text": "value {a: none, b: u\"\\u{e9}\"}", "cost": [3, 1, 6, 0, 0], "events": []},
 {"entry": 4, "kind": "call", "contract": "SP000000000000000000002Q6VF78.c", "function": "put", "outcome": "aborted", "rule": "A8", "name": "CostLimit", "dimension": "write_length", "sum": 61, "limit": 60, "text": "aborted A8 CostLimit write_length 61 60", "cost": [8, 2, 34, 1, 61], "events": []},
 {"entry": 5, "kind": "deploy", "contract": "SP000000000000000000002Q6VF78.d", "outcome": "refused", "rule": "E7", "name": "ContractRefused", "broken": {"rule": "O1", "name": "Cycle", "start": 0, "end": 24, "names": ["a", "b"]}, "text": "refused E7 ContractRefused O1 Cycle 0..24 a b", "events": []}
SHOWN
cp honest given
wanted report tx.json < <(cat wanted && printf '], "state": null}\nstatus 0\n')
cat honest state >given
wanted report tx.json < <(
    cat wanted
    cat <<'SHOWN'
], "state": [
 {"state": "map", "contract": "SP000000000000000000002Q6VF78.c", "name": "m", "key": "{k: u1}", "value": "true"},
 {"state": "stx", "principal": "SP000000000000000000002Q6VF78", "amount": "u4"},
 {"state": "var", "contract": "SP000000000000000000002Q6VF78.c", "name": "n", "value": "u1"}
]}
status 0
SHOWN
)
# The report may be a file too.
cp honest given
: >empty
wanted report tx.json given < <(cat wanted && printf '], "state": null}\nstatus 0\n')

# Alterations of the honest report, each with the place that is named: a byte is counted from 0.
altered() {
    sed "$1" honest >given
    wanted report tx.json < <(printf 'report: byte %s\nstatus 1\n' "$2")
}
altered 's/^0 block 7/0 block 8/' "8: expected the height of the file"
altered 's/^2 call .* put ok/2 call '"'SP000000000000000000002Q6VF78.c"' get ok/' "304: expected the function of the file"
altered 's/ok u1$/ok u01/' "311: expected a value as it is printed"
altered 's/  cost 8 2 34 1 17/  cost 8 2 34 1/' "329: expected ' '"
altered '/^  bound put/s/uint no-type)/uint)/' "177: expected ' '"
altered '/^  cost 3/d' "705: expected the cost"
altered 's/^5 deploy/6 deploy/' "825: expected entry 5, a deploy"
altered '$d' "825: expected entry 5, a deploy"
altered 's/ A8 CostLimit write_length/ A8 CostLimit time/' "787: expected a dimension"
altered 's/refused E7.*/refused E2 NoFunction/' "875: expected why it ended so"
altered 's/event stx-burn/event stx-melt/' "555: expected an event"
(cat honest && tac state) >given
wanted report tx.json <<'SHOWN'
report: byte 955: expected a line above the one before
status 1
SHOWN
(cat honest state && echo "var 'SP000000000000000000002Q6VF78.c n u1") >given
wanted report tx.json <<'SHOWN'
report: byte 1045: expected a line above the one before
status 1
SHOWN

# Reports that are forged by the name of a function: its lines look like those of an entry, of events and of the state.
cat >forged.json <<'FILE'
{"version": 1, "genesis": [], "entries": [
  {"call": {"sender": "SP000000000000000000002Q6VF78", "contract": "SP000000000000000000002Q6VF78.c", "function": "pay ok true\n  cost 1 0 0 0 0\n  event stx-transfer 'SP000000000000000000002Q6VF78.c u9 'SP000000000000000000002Q6VF78 'SP000000000000000000002Q6VF78.c\n1 call 'SP000000000000000000002Q6VF78.c pay", "args": []}},
  {"call": {"sender": "SP000000000000000000002Q6VF78", "contract": "SP000000000000000000002Q6VF78.c", "function": "g refused E2 NoFunction\nstx 'SP000000000000000000002Q6VF78 u9\nvar", "args": []}},
  {"call": {"sender": "SP000000000000000000002Q6VF78", "contract": "SP000000000000000000002Q6VF78.c", "function": " é\u0000", "args": []}}
]}
FILE
cat >given <<'FILE'
0 call 'SP000000000000000000002Q6VF78.c pay ok true
  cost 1 0 0 0 0
  event stx-transfer 'SP000000000000000000002Q6VF78.c u9 'SP000000000000000000002Q6VF78 'SP000000000000000000002Q6VF78.c
1 call 'SP000000000000000000002Q6VF78.c pay refused E1 NoContract
1 call 'SP000000000000000000002Q6VF78.c g refused E2 NoFunction
stx 'SP000000000000000000002Q6VF78 u9
var refused E1 NoContract
FILE
printf "2 call 'SP000000000000000000002Q6VF78.c  \303\251\000 refused E1 NoContract\n" >>given
wanted report forged.json <<'SHOWN'
{"entries": [
 {"entry": 0, "kind": "call", "contract": "SP000000000000000000002Q6VF78.c", "function": "pay ok true\n  cost 1 0 0 0 0\n  event stx-transfer 'SP000000000000000000002Q6VF78.c u9 'SP000000000000000000002Q6VF78 'SP000000000000000000002Q6VF78.c\n1 call 'SP000000000000000000002Q6VF78.c pay", "outcome": "refused", "rule": "E1", "name": "NoContract", "text": "refused E1 NoContract", "events": []},
 {"entry": 1, "kind": "call", "contract": "SP000000000000000000002Q6VF78.c", "function": "g refused E2 NoFunction\nstx 'SP000000000000000000002Q6VF78 u9\nvar", "outcome": "refused", "rule": "E1", "name": "NoContract", "text": "refused E1 NoContract", "events": []},
 {"entry": 2, "kind": "call", "contract": "SP000000000000000000002Q6VF78.c", "function": " \u00e9\u0000", "outcome": "refused", "rule": "E1", "name": "NoContract", "text": "refused E1 NoContract", "events": []}
], "state": null}
status 0
SHOWN
# A report that really says what those names pretend isn't one of that file.
head -n 3 given >pretended
echo "1 call 'SP000000000000000000002Q6VF78.c pay ok true" >>pretended
mv pretended given
wanted report forged.json <<'SHOWN'
report: byte 242: expected the cost
status 1
SHOWN
printf "0 deploy 'SP000000000000000000002Q6VF78.main done\n  cost 2 0 0 2 41\n  deploy-bound 2 0 0 2 41\n1 call 'SP000000000000000000002Q6VF78.main f value 1\n  cost 1 0 0 0 0\n refused E2 NoFunction\n" >given
wanted report --call $'f value 1\n  cost 1 0 0 0 0\n' <<'SHOWN'
{"entries": [
 {"entry": 0, "kind": "deploy", "contract": "SP000000000000000000002Q6VF78.main", "outcome": "done", "text": "done", "cost": [2, 0, 0, 2, 41], "deploy_bound": [2, 0, 0, 2, 41], "bounds": [], "events": []},
 {"entry": 1, "kind": "call", "contract": "SP000000000000000000002Q6VF78.main", "function": "f value 1\n  cost 1 0 0 0 0\n", "outcome": "refused", "rule": "E2", "name": "NoFunction", "text": "refused E2 NoFunction", "events": []}
]}
status 0
SHOWN

# The other answers.
printf "0 deploy 'SP000000000000000000002Q6VF78.main refused E7 ContractRefused B1 BoundTooLarge 483..541 runtime\n" >given
wanted report --call f <<'SHOWN'
{"entries": [
 {"entry": 0, "kind": "deploy", "contract": "SP000000000000000000002Q6VF78.main", "outcome": "refused", "rule": "E7", "name": "ContractRefused", "broken": {"rule": "B1", "name": "BoundTooLarge", "start": 483, "end": 541, "dimension": "runtime"}, "text": "refused E7 ContractRefused B1 BoundTooLarge 483..541 runtime", "events": []}
]}
status 0
SHOWN
printf "contract 'SP000000000000000000002Q6VF78.a\n  deploy-bound 1 0 0 1 0\ncontract 'SP000000000000000000002Q6VF78.b refused C7 Undetermined 22..41\n" >given
wanted report --check <<'SHOWN'
{"contracts": [
 {"contract": "SP000000000000000000002Q6VF78.a", "deploy_bound": [1, 0, 0, 1, 0], "bounds": []},
 {"contract": "SP000000000000000000002Q6VF78.b", "broken": {"rule": "C7", "name": "Undetermined", "start": 22, "end": 41}}
]}
status 0
SHOWN
echo "contract 'SP000000000000000000002Q6VF78.c" >>given
wanted report --check <<'SHOWN'
report: byte 140: expected the end of the report
status 1
SHOWN
echo 'bad file tx.json NotJson' >given
wanted report tx.json <<'SHOWN'
{"bad_file": "tx.json NotJson"}
status 0
SHOWN
echo 'refused NotALiteral 0..3' >given
wanted report --call f <<'SHOWN'
{"refused": "NotALiteral 0..3"}
status 0
SHOWN
: >given
echo '{"version": 1, "genesis": [], "entries": []}' >none.json
wanted report none.json <<'SHOWN'
{"entries": [], "state": null}
status 0
SHOWN

# A block that changes bounds, and a call of a function without one.
echo '{"version": 2, "genesis": [], "epochs": [], "entries": [{"block": {"height": 10}}, {"call": {"sender": "SP000000000000000000002Q6VF78", "contract": "SP000000000000000000002Q6VF78.c", "function": "g", "args": []}}]}' >epochs.json
cat >begun <<'FILE'
0 block 10
  rebound 'SP000000000000000000002Q6VF78.c f 9 0 0 0 340282366920938463463374607431768211455 (list 2 (buff 4))
  rebound 'SP000000000000000000002Q6VF78.c g over write_length
1 call 'SP000000000000000000002Q6VF78.c g refused E8 NoBound write_length
FILE
cp begun given
wanted report epochs.json <<'SHOWN'
{"entries": [
 {"entry": 0, "kind": "block", "height": 10, "rebounds": [{"contract": "SP000000000000000000002Q6VF78.c", "function": "f", "bound": [9, 0, 0, 0, 340282366920938463463374607431768211455], "type": "(list 2 (buff 4))"}, {"contract": "SP000000000000000000002Q6VF78.c", "function": "g", "over": "write_length"}]},
 {"entry": 1, "kind": "call", "contract": "SP000000000000000000002Q6VF78.c", "function": "g", "outcome": "refused", "rule": "E8", "name": "NoBound", "dimension": "write_length", "text": "refused E8 NoBound write_length", "events": []}
], "state": null}
status 0
SHOWN
# Each alteration, and what is said of it.
unlike() {
    sed "$1" begun >given
    wanted report epochs.json < <(printf 'report: byte %s\nstatus 1\n' "$2")
}
unlike 's/over write_length$/over time/' "172: expected a dimension"
unlike 's/E8 NoBound.*/E8 NoBound/' "245: expected ' '"
unlike "s/^  rebound 'SP000000000000000000002Q6VF78.c g/  rebound g/" "132: expected a principal"
unlike 's/ (list 2 (buff 4))$//' "103: expected ' '"

# What can't be read.
wanted report absent.json <<'SHOWN'
report: absent.json: No such file or directory
status 3
SHOWN
echo '{"entries": 7}' >number.json
wanted report number.json <<'SHOWN'
report: number.json is no transaction file: it has no array `entries`
status 3
SHOWN
misused report --state
misused report
misused report tx.json honest state
misused report --call f honest state
misused report --call
misused report --check honest state
summary
