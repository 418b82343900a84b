#!/usr/bin/env bash
# Runs tools/coverage over the model of tools/model as the program, and compares what it prints and writes with what was counted by
# hand.
# Usage: bench/coverage.sh
set -eu
[ "${1-}" != --help ] || exec sed -n '2,/^[^#]/s/^# \{0,1\}//p' "$0"
tools=$(cd "$(dirname "$0")/../tools" && pwd)
. "$tools/../bench/counts.sh"
folder=$(mktemp -d)
trap 'rm -rf "$folder"' EXIT
cd "$folder"
: >given
printf '#!/usr/bin/env bash\nexec python3 "%s/model" answer "$@"\n' "$tools" >program
chmod +x program
export CLARITY=$folder/program

# Nine lines have expressions, 39 in all, of which four have two branches each.
cat >p.clar <<'SOURCE'
(define-map m uint uint)
(define-constant one u1)
(define-private (unused (n uint))
  (if (> n u2)
    n
    (+ n one)))
(define-public (put (n uint))
  (begin
    (asserts! (> n u0) (err u1))
    (map-set m n (if (> n u5) u9 n))
    (ok (or (is-eq n u3) (is-eq n u4)))))
(define-read-only (all)
  (map + (list u1 u2) (list u3)))
SOURCE
cat >p.scenario <<'FILE'
name owner SP000000000000000000002Q6VF78
deploy owner p p.clar
call owner owner.p put u3
call owner owner.p put u0 => err
call owner owner.p all
FILE
wanted coverage p.scenario --lcov p.info <<'SHOWN'
p.clar: 6 of 9 lines, 27 of 39 expressions, 4 of 8 branches
p.clar:4:3: not evaluated: (if (> n u2)
p.clar:5:5: not evaluated: n
p.clar:6:5: not evaluated: (+ n one)
p.clar:10:18: branch not taken: if, then
p.clar:11:9: branch not taken: or, false
status 0
SHOWN
cp p.info shown
compare 'an LCOV file' <<'SHOWN'
TN:
SF:p.clar
FN:3,unused
FN:7,put
FN:12,all
FNDA:0,unused
FNDA:2,put
FNDA:1,all
FNF:3
FNH:2
BRDA:4,0,0,-
BRDA:4,0,1,-
BRDA:9,1,0,1
BRDA:9,1,1,1
BRDA:10,2,0,0
BRDA:10,2,1,1
BRDA:11,3,0,1
BRDA:11,3,1,0
BRF:8
BRH:4
DA:2,1
DA:4,0
DA:5,0
DA:6,0
DA:8,2
DA:9,2
DA:10,1
DA:11,1
DA:13,1
LF:9
LH:6
end_of_record
SHOWN

# A call from another contract counts in the one that is called, and scenarios add up.
mkdir far
echo '(define-public (go (n uint)) (contract-call? .p put n))' >far/q.clar
cat >far/q.scenario <<'FILE'
name owner SP000000000000000000002Q6VF78
deploy owner p ../p.clar
deploy owner q q.clar
call owner owner.q go u9
FILE
wanted coverage far/q.scenario <<'SHOWN'
far/../p.clar: 5 of 9 lines, 21 of 39 expressions, 3 of 8 branches
far/../p.clar:4:3: not evaluated: (if (> n u2)
far/../p.clar:5:5: not evaluated: n
far/../p.clar:6:5: not evaluated: (+ n one)
far/../p.clar:9:5: branch not taken: asserts!, returns early
far/../p.clar:10:18: branch not taken: if, else
far/../p.clar:11:9: branch not taken: or, true
far/../p.clar:13:3: not evaluated: (map + (list u1 u2) (list u3))
far/q.clar: 1 of 1 lines, 2 of 2 expressions, 0 of 0 branches
all: 6 of 10 lines, 23 of 41 expressions, 3 of 8 branches
status 0
SHOWN
sed 's#../p.clar#p.clar#; s#q.clar#far/q.clar#' far/q.scenario >q.scenario
both() {
    cat <<'SHOWN'
p.clar: 6 of 9 lines, 31 of 39 expressions, 6 of 8 branches
p.clar:4:3: not evaluated: (if (> n u2)
p.clar:5:5: not evaluated: n
p.clar:6:5: not evaluated: (+ n one)
far/q.clar: 1 of 1 lines, 2 of 2 expressions, 0 of 0 branches
all: 7 of 10 lines, 33 of 41 expressions, 6 of 8 branches
status 0
SHOWN
}
wanted coverage p.scenario q.scenario < <(both)

# A transaction file: a source is called by the file beside it that has its text, else by its contract.
"$tools/txfile" q.scenario >q.json
wanted coverage p.scenario q.json < <(both | sed 's#far/q#SP000000000000000000002Q6VF78.q#')

# An expression counts where a part of it gave a value, although it aborted itself, or a limit stopped it.
echo '(define-read-only (f (n uint)) (+ (- n u9) (* n u2)))' >r.clar
printf 'deploy %s r r.clar\ncall %s %s.r f u1 => aborted\n' SP000000000000000000002Q6VF78{,,} >r.scenario
part() {
    cat <<'SHOWN'
r.clar: 1 of 1 lines, 4 of 7 expressions, 0 of 0 branches
r.clar:1:44: not evaluated: (* n u2)
status 0
SHOWN
}
wanted coverage r.scenario < <(part)
sed -i 's/ u1 => / u10 => /' r.scenario
echo '  limit 4 9 9 9 9' >>r.scenario
wanted coverage r.scenario < <(part)

# What of `match`, `try!`, `unwrap!` and `and` isn't taken; a function that is given by name; nothing below a call that is never made.
cat >s.clar <<'SOURCE'
(define-map m uint uint)
(define-private (more (n uint)) (+ n u1))
(define-private (is-set (n uint)) (is-some (map-get? m n)))
(define-public (f)
  (let ((x (match (map-get? m u1) v v u0)) (y (map more (list x u2))))
    (try! (if (and true (is-set u1)) (err u1) (ok u2)))
    (ok (unwrap! (element-at y u0) (err u3)))))
SOURCE
printf 'deploy %s s s.clar\ncall %s %s.s f => ok u1\n' SP000000000000000000002Q6VF78{,,} >s.scenario
wanted coverage s.scenario <<'SHOWN'
s.clar: 5 of 5 lines, 28 of 33 expressions, 5 of 10 branches
s.clar:5:12: branch not taken: match, some or ok
s.clar:6:5: branch not taken: try!, returns early
s.clar:6:11: branch not taken: if, then
s.clar:6:15: branch not taken: and, true
s.clar:7:9: branch not taken: unwrap!, returns early
status 0
SHOWN

# A deployment that is refused, and what can't be counted.
echo '(+ 1 u1)' >t.clar
printf 'deploy SP000000000000000000002Q6VF78 t t.clar => refused\n' >t.scenario
wanted coverage t.scenario <<'SHOWN'
coverage: t.scenario: the deployment of entry 0 is refused E7 ContractRefused C3 ArgumentKind 0..8: it isn't counted
status 0
SHOWN
printf 'block x\nfoo\n' >u.scenario
wanted coverage u.scenario <<'SHOWN'
coverage: u.scenario:1: a line of this kind is: block HEIGHT
coverage: u.scenario:2: `foo` begins no line of a scenario: include, name, stx, epoch, block, deploy, call, state do
status 3
SHOWN
echo '{' >v.json
wanted coverage v.json <<'SHOWN'
coverage: v.json: it isn't JSON (Expecting property name enclosed in double quotes: line 2 column 1 (char 2))
status 3
SHOWN
wanted coverage --costs v.json p.scenario <<'SHOWN'
coverage: p.scenario: the program ended with status 5: bad file v.json NotJson
status 3
SHOWN
wanted coverage w.scenario <<'SHOWN'
coverage: w.scenario: No such file or directory
status 3
SHOWN
wanted coverage --lcov none/p.info r.scenario < <(part | sed "s#status 0#coverage: none/p.info can't be written: No such file or directory\nstatus 4#")
CLARITY=$folder/none wanted coverage p.scenario <<'SHOWN'
coverage: FOLDER/none doesn't run
status 3
SHOWN
misused coverage
misused coverage --no p.scenario
misused coverage p.scenario --lcov
summary
