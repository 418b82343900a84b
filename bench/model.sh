#!/usr/bin/env bash
# Runs tools/model on examples of its own, whose answers are written out here by hand. Run by hand: bench/model.sh; python3.
[ "${1-}" != --help ] || { sed -n '2p' "$0"; exit 0; }
set -u
cd "$(dirname "$0")/.." || exit 1
folder=$(mktemp -d) || exit 1
trap 'rm -rf "$folder"' EXIT
wrong=0 tried=0

# shown STATUS WORDS..: runs tools/model on the words, and compares what it writes with standard input, and its status.
shown() {
    local status=$1
    shift
    tried=$((tried + 1))
    python3 tools/model "$@" >"$folder/came" 2>&1
    local came=$?
    if [ "$came" != "$status" ] || ! diff - "$folder/came"; then
        echo "tools/model $*: status $came"
        wrong=$((wrong + 1))
    fi
}

printf '(define-read-only (add1 (x int)) (+ x 1))' >"$folder/inc.clar"
printf '(define-read-only (s (b (buff 4))) (slice? b u1 u3))' >"$folder/s.clar"
printf '{"version": 1, "genesis": [], "entries": [{"deploy": {"sender": "SP000000000000000000002Q6VF78", "name": "a", "source": "", "clarity": 3}}]}' >"$folder/tx.json"
printf '{"cases": [{"name": "a"}]}' >"$folder/new.json"

shown 0 answer call "$folder/inc.clar" add1 41 <<'END'
0 deploy 'SP000000000000000000002Q6VF78.main done
  cost 2 0 0 2 41
  deploy-bound 2 0 0 2 41
  bound add1 5 0 0 0 0 int
1 call 'SP000000000000000000002Q6VF78.main add1 value 42
  cost 5 0 0 0 0
END
shown 6 answer call "$folder/s.clar" s 0x01020304 <<'END'
0 deploy 'SP000000000000000000002Q6VF78.main refused E7 ContractRefused C1 UnknownName 35..51
END
shown 0 answer call --clarity2 "$folder/s.clar" s 0x01020304 <<'END'
0 deploy 'SP000000000000000000002Q6VF78.main done
  cost 2 0 0 2 52
  deploy-bound 2 0 0 2 52
  bound s 6 0 0 0 0 (optional (buff 4))
1 call 'SP000000000000000000002Q6VF78.main s value (some 0x0203)
  cost 6 0 0 0 0
END
shown 5 answer run examples/unit.json "$folder/tx.json" <<END
bad file $folder/tx.json BadValue /entries/0/deploy/clarity
END
printf '{"version": 2, "genesis": [], "epochs": [{"height": 0, "costs": {}}], "entries": []}' >"$folder/epochs.json"
shown 5 answer run examples/unit.json "$folder/epochs.json" <<END
bad file $folder/epochs.json BadValue /epochs/0/height
END
shown 0 answer run examples/unit.json examples/epochs.json <<'END'
0 deploy 'SP000000000000000000002Q6VF78.inc done
  cost 2 0 0 2 41
  deploy-bound 2 0 0 2 41
  bound add1 5 0 0 0 0 int
1 call 'SP000000000000000000002Q6VF78.inc add1 value 42
  cost 5 0 0 0 0
2 block 9
3 block 10
  rebound 'SP000000000000000000002Q6VF78.inc add1 9 0 0 0 0 int
4 call 'SP000000000000000000002Q6VF78.inc add1 aborted A8 CostLimit runtime 9 5
  cost 9 0 0 0 0
5 call 'SP000000000000000000002Q6VF78.inc add1 value 42
  cost 9 0 0 0 0
END
shown 8 answer value 0703ff <<'END'
refused Extra 2
END
# (The text of the call is counted by hand; 2a is 42.)
printf '{"version": 1, "genesis": [], "entries": [{"deploy": {"sender": "SP000000000000000000002Q6VF78", "name": "main", "source": "(define-read-only (add1 (x int)) (+ x 1))"}}, {"call": {"sender": "SP000000000000000000002Q6VF78", "contract": "SP000000000000000000002Q6VF78.main", "function": "add1", "args": ["41"]}}]}' >"$folder/calls.json"
printf '1 %s %032x\n' 36..37 41 38..39 1 33..40 42 | sed 's/ \(0*..\)$/ 00\1/' >"$folder/trace"
python3 tools/model answer call "$folder/inc.clar" add1 41 >"$folder/report"
shown 0 answer audit examples/unit.json "$folder/calls.json" "$folder/trace" "$folder/report" <<'END'
yes
END
shown 6 answer audit examples/unit.json "$folder/calls.json" <(sed 's/2a$/2b/' "$folder/trace") "$folder/report" <<'END'
no claim 1 2
END
shown 6 answer audit examples/unit.json "$folder/calls.json" "$folder/trace" /dev/null <<'END'
no report 0
END
# (The SHA-256 of nothing, and of a byte 0 and four of the length of an empty key.)
printf '{"version": 1, "genesis": [], "entries": []}' >"$folder/empty.json"
printf '{"version": 1, "genesis": [], "entries": [{"deploy": {"sender": "SP000000000000000000002Q6VF78", "name": "inc", "source": "(define-read-only (add1 (x int)) (+ x 1))"}}]}' >"$folder/deploys.json"
shown 8 answer prove examples/unit.json "$folder/empty.json" 0 <<'END'
root 0xe3b0c44298fc1c149afbf4c8996fb92427ae41e4649b934ca495991b7852b855
refused NoRow
END
shown 0 answer verify "$(printf '\0\0\0\0\0' | sha256sum | cut -d ' ' -f 1)" '' '' <<'END'
yes
END
shown 0 answer gen 2 1 <<'END'
calls 1 ok 1 err 0 supply u740 p1 u740 runtime 33
END
shown 0 lanes 4 7 examples/unit.json "$folder/empty.json" <<'END'
lanes redone 0 skipped 0
END
# (The first draw is a barrier, the second a trial: of the two moves one does nothing.)
shown 0 lanes 4 0 examples/unit.json "$folder/deploys.json" <<'END'
0 deploy 'SP000000000000000000002Q6VF78.inc done
  cost 2 0 0 2 41
  deploy-bound 2 0 0 2 41
  bound add1 5 0 0 0 0 int
lanes redone 0 skipped 1
END
shown 2 lanes 17 7 examples/unit.json "$folder/empty.json" <<'END'
usage: clarity_lanes LANES SEED COSTS TXFILE
END
shown 0 compare readme arithmetic <<'END'
readme: 10 of 10 cases, 0 of what the model doesn't know
arithmetic: 4 of 4 cases, 0 of what the model doesn't know
END
shown 1 add runs "$folder/new.json" <<'END'
a: it has no list of words
END
shown 1 add runs "$folder/inc.clar" <<'END'
model: Expecting value: line 1 column 1 (char 0)
END
echo "$((tried - wrong)) passed, $wrong failed"
[ $wrong = 0 ]
