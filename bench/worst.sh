#!/usr/bin/env bash
# The worst that a stranger can send within the limits: sources up to 1 MiB that break each rule of texts at their end, or that are
# made of one thing; wide and deep types; values up to 1 MiB compared, hashed, printed and as keys; up to 100,000 entries; files up
# to 16 MiB of each kind. Three sizes of each: processor seconds and peak MiB, how many times those of the size before they are
# (as the input is twice as long, 2 is linear, 4 isn't), and at the last two sizes the peak bytes that a byte of input adds. A run
# has at most 120 seconds and 6 GiB. Rows that begin with `again` write to the same places again and again. Behind them, with `cc`,
# floods: keys that are chosen to collide, beside as many ordinary ones, and how many times the seconds of these they take. With
# --strict it fails where a flood takes more than 3 times as long, or an `again` more than 64 MiB.
# Words: only the rows whose names begin with one of them. Run by hand, half an hour; python3 measures.
# Usage: bench/worst.sh [--strict] [ROW..]
set -eu
[ "${1-}" != --help ] || exec sed -n '2,/^[^#]/s/^# \{0,1\}//p' "$0"
cd "$(dirname "$0")"
PYTHONDONTWRITEBYTECODE=1 python3 - "$@" <<'PYTHON'
import os
import sys
import tempfile

from floods import AGAINS, FLOODS, colliding, ordinary, program
from made import DEPLOYER, HOLDER, UNIT, address, call, deploy, filled, numbered, transactions, written
from measure import ended

IS_STRICT = "--strict" in sys.argv
WANTED = [word for word in sys.argv[1:] if word != "--strict"]

KIB, MIB = 1 << 10, 1 << 20
SOURCES, SMALL = (MIB // 4, MIB // 2, MIB), (4 * KIB, 8 * KIB, 16 * KIB)
# As long as a list of ints, or a tuple of them, may be.
LISTS = (30 * KIB, 60 * KIB, 120 * KIB)
FILES, COUNTS = (4 * MIB, 8 * MIB, 16 * MIB), (25000, 50000, 100000)
SECONDS, GIBIBYTES = 120, 6
MOST_TIMES, MOST_MIB = 3, 64


def source(text, answer="deploy-bound"):
    """A row of a source that is checked: its text by its size."""
    return lambda folder, size: (["check", UNIT, DEPLOYER, written(folder, "f.clar", text(size))], answer)


def of_parts(part, answer="deploy-bound", front="", back=""):
    return source(lambda size: filled(part, size, front, back), answer)


def of_numbers(part, answer="deploy-bound", front="", back=""):
    return source(lambda size: numbered(part, size, front, back), answer)


def wide(use, kind="{0}: int, ", rest=" true"):
    """Half of the text is the type of a tuple, the other half uses of a parameter of this type."""
    def text(size):
        front = numbered("k" + kind, size // 2, "(define-read-only (f (c bool) (p {", "last: int}))")
        return filled(use, size, f"{front} (begin", f"{rest}))")
    return source(text)


def nested(opening, inner, closing, depth):
    one = "".join(opening.replace("{0}", str(i)) for i in range(depth)) + inner + closing * depth
    return of_parts(one + "\n")


def tuples(size):
    """Tuples of 10,000 keys, of which the last has those that are left."""
    return "".join(numbered("k{0}:1,", min(78908, size - start), "{", "l:1}") for start in range(0, size - 16, 78908))


def calls_across(folder, size):
    """A contract of many functions, and one that calls each of them."""
    named = written(folder, "c.clar", numbered("(define-read-only (f{0}) 1)", size * 3 // 5))
    calls = numbered("(contract-call? .c f{0})", size * 2 // 5, "(begin (contract-call? .c f0)", ")")
    return ["check", UNIT, DEPLOYER, named, written(folder, "d.clar", calls)], "SP000000000000000000002Q6VF78.d\n"


def ran(entries, answer, *flags):
    return lambda folder, size: (["run", UNIT, transactions(folder, entries(size)), *flags], answer)


LONG = "(string-ascii 1048571)"
VALUES = (
    f"(define-map m {LONG} uint)(define-data-var kept {LONG} \"\")"
    f"(define-read-only (same (a {LONG}) (b {LONG})) (is-eq a b))"
    f"(define-public (show (a {LONG})) (begin (print a) (ok u1)))"
    f"(define-public (key (a {LONG})) (begin (map-set m a u1) (map-set m a u2) (ok (map-get? m a))))"
    f"(define-public (keep (a {LONG})) (ok (var-set kept a)))"
    "(define-read-only (hash (a (buff 524283))) (len (sha512/256 (concat a a))))"
    "(define-read-only (find (xs (list 61680 uint))) (index-of xs u8))"
    "(define-read-only (twin (xs (list 61680 uint))) (is-eq xs xs))"
)


def value(function, answer, *args):
    """A row of a call with a value of about so many bytes, and what it answers."""
    texts = lambda size: [arg(size) for arg in args]
    return ran(lambda size: [deploy("c", VALUES), call(DEPLOYER, "c", function, *texts(size))], f".c {function} {answer}")


def string(size):
    return '"' + "a" * (size - 5) + '"'


def buffer(size):
    return "0x" + "5a" * (size // 2 - 5)


def uints(size):
    return "(list" + " u7" * (size // 17 - 1) + ")"


PUT = "(define-map m uint uint)(define-public (put (i uint)) (ok (map-insert m i u7)))"
TRADE = (
    "(define-non-fungible-token badge uint)"
    "(define-private (give (i uint)) (unwrap-panic (nft-mint? badge i tx-sender)))"
    f"(define-private (send (i uint)) (unwrap-panic (nft-transfer? badge i tx-sender '{HOLDER})))"
    "(define-public (start (xs (list 60000 uint))) (ok (len (map give xs))))"
    "(define-public (go (xs (list 60000 uint))) (ok (len (map send xs))))"
)


def trades(count):
    numbers = f"(list{''.join(f' u{i}' for i in range(count))})"
    sold = [{"nft": {"principal": DEPLOYER, "contract": f"{DEPLOYER}.t", "token": "badge", "id": f"u{i}", "sent": True}} for i in range(count)]
    bought = call(DEPLOYER, "t", "go", numbers)
    bought["call"].update(mode="deny", post=sold)
    return [deploy("t", TRADE), call(DEPLOYER, "t", "start", numbers), bought]


def unmoved(count):
    """As many conditions, all about the same STX, which doesn't move."""
    paid = call(DEPLOYER, "t", "start", "(list)")
    paid["call"]["post"] = [{"stx": {"principal": DEPLOYER, "code": "eq", "amount": "u0"}}] * count
    return [deploy("t", TRADE), paid]


def holders(folder, count):
    genesis = [{"principal": address(i), "stx": "u1"} for i in range(count)]
    return ["run", UNIT, transactions(folder, [], genesis), "--state"], "stx '"


def in_file(text, answer, kind):
    """A row of a file of the kind, by its text."""
    def words(folder, size):
        path = written(folder, "tested.json", text(size))
        return (["run", UNIT, path] if kind == "transactions" else ["check", path, DEPLOYER, "../examples/inc.clar"]), answer
    return words


def both(name, text, answers):
    return [(f"file of {kind}: {name}", FILES, in_file(text, answer, kind)) for kind, answer in zip(("costs", "transactions"), answers)]


def member(part, front='{"literal":[', back="0]}"):
    return lambda size: filled(part, size, front, back)


LETTERS = ("a ", "refused ")
ROWS = [
    *[(f"text: {rule} at the end", SOURCES, of_parts("a ", f"refused {rule} ", front, back)) for rule, front, back in [
        ("T1", "", "\1"), ("T2", "", "-a"), ("T3", "", "1" * 40), ("T4", "(", ""), ("T5", "", ")"), ("T6", "", "(" * 65), ("T7", "", '"\\q"'),
        ("T8", "", ","), ("T9", "", "'S")]],
    ("text: T10", FILES, of_parts("a ", "refused T10 ")),
    ("text: one number", SOURCES, of_parts("1", "refused T3 ")),
    ("text: one name", SOURCES, of_parts("a", "refused T2 ")),
    ("text: one principal", SOURCES, of_parts("0", "refused T9 ", "'S")),
    ("text: string, T7 at its end", SOURCES, of_parts("a", "refused T7 ", '"', '\\q"')),
    ("text: tuples, T8 at the end", SOURCES, of_parts("{a:1}", "refused T8 ", "", "{,")),
    ("text: comments", SOURCES, of_parts(";;\n", "refused C1 ", "x ")),
    ("items: names", SOURCES, of_parts(*LETTERS)),
    ("items: names in brackets", SOURCES, of_parts("a()", "refused ")),
    ("items: names of 128 bytes", SOURCES, of_parts("n" * 128 + " ", "refused ")),
    ("items: brackets", SOURCES, of_parts("()", "refused C20 ")),
    ("items: brackets, 64 deep", SOURCES, of_parts("(" * 64 + ")" * 64, "refused C20 ")),
    ("items: names, 64 deep", SOURCES, of_parts("(a" * 64 + ")" * 64, "refused C1 ")),
    ("items: principals", SOURCES, of_parts(f"'{DEPLOYER} ")),
    ("items: strings", SOURCES, of_parts('""')),
    ("items: a string of escapes", SOURCES, of_parts("\\n", front='"', back='"')),
    ("items: a string of \\u{..}", SOURCES, of_parts("\\u{e9}", front='u"', back='"')),
    ("items: a buffer", SOURCES, of_parts("5a", front="0x")),
    ("items: ints in a list", LISTS, of_parts(" 1", front="(len (list", back="))")),
    ("items: ints in `begin`", SOURCES, of_parts(" 1", front="(begin", back=")")),
    ("items: ints in a sum", SOURCES, of_parts(" 1", front="(+", back=")")),
    ("items: strings in `begin`", SOURCES, of_parts('""', front="(begin", back=")")),
    ("items: tuples of one key", SOURCES, of_parts("{a:1}")),
    ("items: a tuple", LISTS, of_numbers("k{0}:1,", front="{", back="l:1}")),
    ("items: tuples of 10,000 keys", SOURCES, source(tuples)),
    ("items: `match`es", SOURCES, of_parts("(match (some 1) x x 1)")),
    ("items: `match`es, 30 deep", SOURCES, nested("(match (some 1) x{0} ", "1", " 1)", 30)),
    ("items: `let`s, 30 deep", SOURCES, nested("(let ((x{0} 1)) ", "1", ")", 30)),
    ("items: a `let`, each names the one before", SOURCES, of_numbers("(y{0} y{1})", front="(let ((y 1)", back=") 1)")),
    ("items: a `let`, whose first is named", SOURCES, source(lambda size: numbered("(x{0} 1)", size // 2, "(let (", ")") + filled(" x0", size // 2, " (begin", "))"))),
    ("a call: a `let`, each names the one before", SOURCES, ran(lambda size: [deploy("c", numbered("(y{0} y{1})", size - 64, "(define-read-only (f) (let ((y 1)", ") 1))")), call(DEPLOYER, "c", "f")], "f value 1")),
    ("items: calls of another contract", SOURCES, calls_across),
    ("items: a function of many parameters", SOURCES, of_numbers("(x{0} int)", front="(define-private (f ", back=") 1)")),
    ("items: a map of a type, 31 deep", SOURCES, of_numbers("(define-map m{0} " + "(optional " * 30 + "int" + ")" * 30 + " int)")),
    ("items: many maps", SOURCES, of_numbers("(define-map m{0} int int)")),
    ("wide: names of a tuple", SMALL, wide(" p")),
    ("wide: its parts", SMALL, wide(" (get k0 p)")),
    ("wide: `if` of two", SMALL, wide(" (if c p p)")),
    ("wide: `merge`", SMALL, wide(" (merge p {last: 1})")),
    ("wide: compared", SMALL, wide(" (is-eq p p p p)")),
    ("wide: `asserts!`", SMALL, wide(" (asserts! c p)", rest=" p")),
    ("wide: bound by `let`", SMALL, wide(" (let ((q p)) true)")),
    ("value: compared", SOURCES, value("same", "value true", string, string)),
    ("value: printed", SOURCES, value("show", "ok u1", string)),
    ("value: a key, three times", SOURCES, value("key", "ok (some u2)", string)),
    ("value: kept in a variable", SOURCES, value("keep", "ok true", string)),
    ("value: hashed", SOURCES, value("hash", "value u32", buffer)),
    ("value: a list, searched", SOURCES, value("find", "value none", uints)),
    ("value: a list, compared", SOURCES, value("twin", "value true", uints)),
    ("entries: blocks", COUNTS, ran(lambda count: [{"block": {"height": i}} for i in range(count)], "0 block")),
    ("entries: deployments of nothing", COUNTS, ran(lambda count: [deploy(f"c{i}", "") for i in range(count)], "0 deploy")),
    ("entries: a name taken", COUNTS, ran(lambda count: [deploy("c", "1") for _ in range(count)], "E6 NameTaken")),
    ("entries: calls of nothing", COUNTS, ran(lambda count: [call(DEPLOYER, "c", "f")] * count, "E1 NoContract")),
    ("entries: prints", COUNTS, ran(lambda count: [deploy("c", "(define-public (f) (ok (print u7)))")] + [call(DEPLOYER, "c", "f")] * (count - 1), "event print")),
    ("entries: puts of new keys, and the state", COUNTS, ran(lambda count: [deploy("c", PUT)] + [call(DEPLOYER, "c", "put", f"u{i}") for i in range(count - 1)], "put ok true", "--state")),
    ("entries: refused sources", COUNTS, ran(lambda count: [deploy(f"c{i}", "(") for i in range(count)], "T4 Unclosed")),
    ("holders", (45000, 90000, 180000), holders),
    ("conditions: as many assets, in mode deny", (2000, 4000, 8000), ran(trades, "go ok")),
    ("conditions: many on what doesn't move", COUNTS, ran(unmoved, "start ok")),
    *[(f"again: {name}", (4096, 8192, 16384), words) for name, words in AGAINS],
    ("file of sources: 1 MiB each", FILES, ran(lambda size: [deploy(f"c{i}", filled(" 1", MIB - 16 * KIB, "(+", ")")) for i in range(size // MIB)], "done")),
    ("file of calls: arguments", FILES, ran(lambda size: [deploy("c", VALUES), call(DEPLOYER, "c", "find", *["1"] * (size // 5 - 1000))], "E4 ArgumentCount")),
    *both("spaces", lambda size: " " * (size - 2) + "{}", ("Missing literal", "Version")),
    *both("names", lambda size: numbered('"k{0}":1,', size, "{", '"l":1}'), ("Unknown k0", "Version")),
    *both("one name", lambda size: filled("k", size, '{"', '":1}'), ("Unknown k", "Version")),
    *both("a text of escapes", lambda size: filled("\\n", size, '{"version":"', '"}'), ("Unknown version", "Version")),
    *both("numbers", member("0,"), ("BadShape literal", "Version")),
    *both("empty arrays", member("[],"), ("BadShape literal", "Version")),
    *both("arrays, 100 deep", member("[" * 100 + "]" * 100 + ","), ("BadShape literal", "Version")),
    *both("empty objects", member("{},"), ("BadShape literal", "Version")),
    *both("objects of one name", member('{"":0},'), ("BadShape literal", "Version")),
]


class Cell:
    """What one size took, or why nothing is known of it."""

    def __init__(self, words, folder, answer):
        self.size = sum(os.path.getsize(word) for word in words if word.startswith(folder))
        best = None
        for _ in range(3):
            one = ended(words, GIBIBYTES, SECONDS)
            if best is None or one.seconds < best.seconds:
                best = one
            if one.seconds > 0.5:
                break
        self.seconds, self.memory, self.fails = best.seconds, best.memory, None
        if best.status < 0:
            self.fails = f"killed by signal {-best.status}"
        elif best.status == 9:
            self.fails = "want of memory"
        elif answer not in best.written:
            self.fails = f"status {best.status}: {best.written[:60]!r}"


def shown(value, before):
    return f"{value:9.3g} {'' if before is None else f'x{value / before:.1f}':>6}"


def is_wanted(name):
    return not WANTED or any(name.startswith(word) for word in WANTED)


def measured(of, folder, size):
    words, answer = of(folder, size)
    return Cell(words, folder, answer)


print(f"{'input':44} {'bytes':>10} {'seconds':>9} {'':>6} {'MiB':>9} {'':>6} {'bytes a byte':>12}")
wrong = dear = 0
for name, sizes, of in ROWS:
    before = None
    for size in sizes if is_wanted(name) else ():
        with tempfile.TemporaryDirectory() as folder:
            cell = measured(of, folder, size)
        seconds = shown(cell.seconds, before and before.seconds)
        memory = shown(cell.memory, before and before.memory)
        each = f"{(cell.memory - before.memory) * MIB / (cell.size - before.size):12.0f}" if before else ""
        print(f"{name:44} {cell.size:10} {seconds} {memory} {each:>12} {cell.fails or ''}".rstrip(), flush=True)
        dear += name.startswith("again: ") and cell.memory > MOST_MIB
        if cell.fails:
            wrong += 1
            break
        before = cell

floods = [flood for flood in FLOODS if is_wanted(f"flood: {flood[0]}")]
if floods and program() is None:
    print("cc isn't there: no flood is made")
    floods = []
elif floods:
    print(f"{'flood':44} {'bytes':>10} {'seconds':>9} {'':>6} {'ordinary':>9} {'times':>6}")
for name, front, length, letters, counts, of in floods:
    before = None
    for count in counts:
        with tempfile.TemporaryDirectory() as folder:
            chosen, other = (measured(of, folder, keys(front, length, letters, max(counts))[:count]) for keys in (colliding, ordinary))
        times = chosen.seconds / max(other.seconds, 0.01)
        fails = other.fails or chosen.fails or ""
        print(f"{'flood: ' + name:44} {chosen.size:10} {shown(chosen.seconds, before)} {other.seconds:9.3g} x{times:.1f} {fails}".rstrip(), flush=True)
        dear += times > MOST_TIMES
        before = chosen.seconds
        # A flood that reaches the time limit is too dear, and no wrong answer.
        if chosen.seconds > SECONDS - 1:
            break
        wrong += bool(fails)
if dear:
    print(f"{dear} rows are too dear")
sys.exit(f"{wrong} rows have no answer" if wrong else 1 if dear and IS_STRICT else 0)
PYTHON
