#!/usr/bin/env bash
# Runs tools/lint over a stub of the program, and compares the words that the program gets, what is printed and the statuses.
# Usage: bench/lint.sh
set -eu
[ "${1-}" != --help ] || exec sed -n '2,/^[^#]/s/^# \{0,1\}//p' "$0"
tools=$(cd "$(dirname "$0")/../tools" && pwd)
. "$tools/../bench/counts.sh"
folder=$(mktemp -d)
trap 'rm -rf "$folder"' EXIT
cd "$folder"
: >given
# The stub notes its words. Of each source it takes the first line: `;; RULE NAME SPAN` refuses it as of version 1, `;;2 ..` as of
# either version; else it is accepted. The file `status`, if it is there, has a status that it ends with at once.
cat >program <<'PROGRAM'
#!/usr/bin/env bash
echo "${*##*/}" >>words
[ ! -e status ] || exit "$(cat status)"
version=1
for word in "$@"; do
    [ "$word" != --clarity2 ] || version=2
    [[ $word = *.clar ]] || continue
    name=${word##*/}
    read -r mark rule <"$word"
    if [ "$mark" = ';;2' ] || [ "$mark$version" = ';;1' ]; then
        echo "contract 'SP000000000000000000002Q6VF78.${name%.clar} refused $rule"
        exit 6
    fi
    printf "contract 'SP000000000000000000002Q6VF78.%s\n  deploy-bound 1 0 0 1 0\n" "${name%.clar}"
done
PROGRAM
chmod +x program
export CLARITY=$folder/program

# The words of each run of the program, then what tools/lint prints, and its status.
linted() {
    local ended=0
    : >words
    "$tools/lint" "$@" >printed 2>&1 || ended=$?
    { sed 's/^/ran /' words && cat printed && echo "status $ended"; } >shown
    compare "tools/lint $*"
}
echo '(define-constant c (contract-call? .b f))' >a.clar
echo "(define-constant c (contract-call? 'SP000000000000000000002Q6VF78.c f))(contract-call? .elsewhere f)" >b.clar
echo '(+ 1 2)' >c.clar
echo '(contract-call? .e f)' >d.clar
echo '(contract-call? .d f)' >e.clar
bounds() {
    local name
    for name in "$@"; do
        printf "contract 'SP000000000000000000002Q6VF78.%s\n  deploy-bound 1 0 0 1 0\n" "$name"
    done
    echo 'status 0'
}

# The order, and the flag at any place.
linted a.clar b.clar c.clar < <(echo 'ran check unit.json SP000000000000000000002Q6VF78 c.clar b.clar a.clar' && bounds c b a)
linted d.clar e.clar c.clar < <(echo 'ran check unit.json SP000000000000000000002Q6VF78 e.clar d.clar c.clar' && bounds e d c)
for words in '--clarity2 c.clar d.clar' 'c.clar --clarity2 d.clar' 'c.clar d.clar --clarity2'; do
    # shellcheck disable=SC2086
    linted $words < <(echo 'ran check --clarity2 unit.json SP000000000000000000002Q6VF78 c.clar d.clar' && bounds c d)
done

# A folder, in the order of the paths, with what is below it.
mkdir -p all/part
cp c.clar all/y.clar
cp c.clar all/part/z.clar
cp c.clar all/x.clar
echo '(' >all/notes.txt
linted all < <(echo 'ran check unit.json SP000000000000000000002Q6VF78 z.clar x.clar y.clar' && bounds z x y)
linted all c.clar < <(echo 'ran check unit.json SP000000000000000000002Q6VF78 z.clar x.clar y.clar c.clar' && bounds z x y c)

# A refusal: where and what first, on a line of its own.
printf ';; T4 Unclosed 22..23\n(define-read-only\n' >f.clar
linted f.clar <<'SHOWN'
ran check unit.json SP000000000000000000002Q6VF78 f.clar
f.clar:2:1: T4 Unclosed: the text ends within a list, a tuple or a string
  2 | (define-read-only
    | ^
  mended: close the bracket or the string that begins at the place
status 1
SHOWN
# Characters are counted, not bytes.
printf ';; T1 BadByte 26..27\n"\xc3\xa9" \x01\n' >g.clar
linted g.clar <<'SHOWN'
ran check unit.json SP000000000000000000002Q6VF78 g.clar
g.clar:2:5: T1 BadByte: a byte other than 32 to 126, tab, LF and CR; in a string also these three
  2 | "é" ?
    |     ^
  mended: remove the byte, or escape it in a string (\n, \t, in u".." also \u{..})
status 1
SHOWN

# All are judged: the others without the refused ones, and only with those that they call.
printf ';; C16 NoSuchContract 32..54\n   (contract-call? .f go)\n' >h.clar
printf '(contract-call? .c go)\n' >i.clar
printf ';;2 C9 NotResponse 0..3\n' >k.clar
linted c.clar k.clar f.clar h.clar i.clar <<'SHOWN'
ran check unit.json SP000000000000000000002Q6VF78 c.clar k.clar f.clar h.clar i.clar
ran check unit.json SP000000000000000000002Q6VF78 c.clar f.clar h.clar i.clar
ran check unit.json SP000000000000000000002Q6VF78 c.clar h.clar i.clar
ran check unit.json SP000000000000000000002Q6VF78 c.clar i.clar
contract 'SP000000000000000000002Q6VF78.c
  deploy-bound 1 0 0 1 0
k.clar:1:1: C9 NotResponse: a public function answers no response
  1 | ;;2 C9 NotResponse 0..3
    | ^^^
  mended: end it with (ok ..) or (err ..), or make it read-only or private
f.clar:2:1: T4 Unclosed: the text ends within a list, a tuple or a string
  2 | (define-read-only
    | ^
  mended: close the bracket or the string that begins at the place
h.clar:2:4: C16 NoSuchContract: the target of contract-call? isn't deployed, or is the own contract
  2 |    (contract-call? .f go)
    |    ^^^^^^^^^^^^^^^^^^^^^^
  because: f.clar is refused, as said above
contract 'SP000000000000000000002Q6VF78.i
  deploy-bound 1 0 0 1 0
status 1
SHOWN
# A call of a contract that isn't among the sources is another matter.
printf ';; C16 NoSuchContract 32..54\n   (contract-call? .q go)\n' >l.clar
linted k.clar l.clar <<'SHOWN'
ran check unit.json SP000000000000000000002Q6VF78 k.clar l.clar
ran check unit.json SP000000000000000000002Q6VF78 l.clar
k.clar:1:1: C9 NotResponse: a public function answers no response
  1 | ;;2 C9 NotResponse 0..3
    | ^^^
  mended: end it with (ok ..) or (err ..), or make it read-only or private
l.clar:2:4: C16 NoSuchContract: the target of contract-call? isn't deployed, or is the own contract
  2 |    (contract-call? .q go)
    |    ^^^^^^^^^^^^^^^^^^^^^^
  mended: deploy the target before; call an own function by its name
status 1
SHOWN

# --clarity2 is advised where it helps: not where it is given, and not where the same breaks in version 2.
printf ';; C3 ArgumentKind 27..34\n (< a b)\n' >m.clar
printf ';;2 C3 ArgumentKind 28..35\n (< a b)\n' >n.clar
advised() {
    printf '%s:2:2: C3 ArgumentKind: %s\n  2 |  (< a b)\n    |  ^^^^^^^\n  %s\nstatus 1\n' "$@"
}
kind=("an argument isn't of the type that the native needs, or isn't admitted by a declared type"
    'mended: give a value of that type; to-int and to-uint convert numbers')
linted m.clar < <(
    printf 'ran check%s unit.json SP000000000000000000002Q6VF78 m.clar\n' '' ' --clarity2'
    advised m.clar '<: comparing buffers and strings is of version 2 alone' 'instead: --clarity2 or "clarity": 2'
)
linted n.clar < <(
    printf 'ran check%s unit.json SP000000000000000000002Q6VF78 n.clar\n' '' ' --clarity2'
    advised n.clar "${kind[@]}"
)
linted n.clar --clarity2 < <(echo 'ran check --clarity2 unit.json SP000000000000000000002Q6VF78 n.clar' && advised n.clar "${kind[@]}")

# Statuses and words.
echo 9 >status
linted c.clar < <(printf 'ran check unit.json SP000000000000000000002Q6VF78 c.clar\nstatus 3\n')
echo 2 >status
linted 1.clar < <(printf 'lint: 1.clar: No such file or directory\nstatus 3\n')
cp c.clar 1.clar
linted 1.clar < <(printf 'ran check unit.json SP000000000000000000002Q6VF78 1.clar\nstatus 2\n')
rm status
CLARITY=$folder/none linted c.clar < <(printf 'lint: %s/none doesn'"'"'t run: No such file or directory\nstatus 3\n' "$folder")
mkdir empty
refused() {
    misused lint "${@:2}"
    head -n 1 shown >said && mv said shown
    compare "tools/lint ${*:2}" < <(echo "lint: $1")
}
refused 'f.txt is no folder and no NAME.clar' f.txt
refused 'no source is below empty' empty
refused 'all/x.clar has the name of x.clar: each source has a name of its own' x.clar all
refused 'the following arguments are required: FILE.clar'
refused 'unrecognized arguments: --clarity3' --clarity3 c.clar
summary
