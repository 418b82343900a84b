#!/usr/bin/env bash
# Counts the instructions of natives on values by callgrind (without valgrind, nanoseconds). Numbers: one application more of a
# native given by name to `fold` or `map`, over lists of 500, 1,000 and 2,000 numbers. Sequences: one application more in the text of
# a function, on values of 1 KiB, 32 KiB and as near to 1 MiB as the text of an argument lets come; and from the last two sizes what
# a byte adds to a call. Each is the difference between a body that has it eleven times and one that has it once, on the same
# arguments, without reading and checking it. An application has the look-ups of its arguments in it, which the rows `looked up`
# show alone.
# Run by hand, some minutes; python3 measures.
# Usage: bench/natives.sh
set -eu
[ "${1-}" != --help ] || exec sed -n '2,/^[^#]/s/^# \{0,1\}//p' "$0"
cd "$(dirname "$0")"
PYTHONDONTWRITEBYTECODE=1 python3 - <<'PYTHON'
import tempfile

from made import DEPLOYER, UNIT, call, deploy, transactions
from measure import instructions, run

TIMES = 10


def cost(source, function, *args):
    """Of one run that deploys the source and calls its function with these arguments."""
    with tempfile.TemporaryDirectory() as folder:
        words = ["run", UNIT, transactions(folder, [deploy("c", source), call(DEPLOYER, "c", function, *args)])]
        counted = instructions(words, 0, " value u1")
        return counted if counted is not None else min(run(words, 0, " value u1")[0] for _ in range(5)) * 1e9


def one(parameters, before, use, after, *args):
    """What one use more costs, but for reading and checking it: the same source is deployed where another function is called."""
    def evaluation(times):
        uses = f"{before} (begin{f' {use}' * times}{after}))"
        source = f"(define-read-only (f {parameters}) {uses}(define-read-only (g {parameters}) u1)"
        return cost(source, "f", *args) - cost(source, "g", *args)
    return (evaluation(TIMES + 1) - evaluation(1)) / TIMES


def closed(before):
    return ")" * (before.count("(") - before.count(")"))


def numbers(name, use):
    """Instructions for each entry."""
    costs = []
    for count in (500, 1000, 2000):
        made = one(f"(xs (list {count} uint)) (bs (list {count} bool)) (is (list {count} int))", "", use, " u1",
                   f"(list{' u7' * count})", f"(list{' true' * count})", f"(list{' 7' * count})")
        costs.append(made / count)
    print(f"{name:24} {costs[0]:12.0f} {costs[1]:12.0f} {costs[2]:12.0f}", flush=True)


def sequences(name, of, use, sizes):
    """Instructions for each application, and for each byte from the last two sizes."""
    costs = []
    for size in sizes:
        parameters, before, args = of(size)
        costs.append(one(parameters, before, use.replace("SIZE", str(size)), " u1" + closed(before), *args))
    byte = (costs[2] - costs[1]) / (sizes[2] - sizes[1])
    print(f"{name:24} {costs[0]:12.0f} {costs[1]:12.0f} {costs[2]:12.0f} {byte:10.2f}", flush=True)


def buffers(size):
    return f"(x (buff {size}))", "", ["0x" + "5a" * size]


def doubled(size):
    """A buffer that two make, since the text of one of 1 MiB is longer than a text may be."""
    return f"(h (buff {size // 2}))", "(let ((x (concat h h)))", ["0x" + "5a" * (size // 2)]


def strings(size):
    return f"(x (string-ascii {size}))", "", ['"' + "a" * size + '"']


def uints(size):
    count = size // 17
    return f"(x (list {count} uint))", "", [f"(list{' u7' * count})"]


KIB = 1 << 10
# The text of a buffer of 512 KiB is longer than a text may be, by its 0x.
TEXTS, LISTS, BUFFERS = (KIB, 32 * KIB, 500 * KIB), (KIB, 32 * KIB, 512 * KIB), (KIB, 32 * KIB, 1000 * KIB)
print(f"{'an entry':24} {'of 500':>12} {'of 1,000':>12} {'of 2,000':>12}")
numbers("fold +", "(fold + xs u9)")
numbers("fold xor", "(fold xor xs u9)")
for native in ("+", "-", "*", "/", "mod", "pow"):
    numbers(f"map {native}", f"(map {native} xs xs)")
for native in ("sqrti", "log2", "to-int"):
    numbers(f"map {native}", f"(map {native} xs)")
numbers("map to-uint", "(map to-uint is)")
numbers("map <", "(map < xs xs)")
numbers("map is-eq", "(map is-eq xs xs)")
numbers("map not", "(map not bs)")
numbers("fold and", "(fold and bs true)")
numbers("map some", "(map some xs)")
numbers("map sha256", "(map sha256 xs)")
print(f"\n{'a call':24} {'of 1 KiB':>12} {'of 32 KiB':>12} {'the longest':>12} {'a byte':>10}")
sequences("a buffer looked up", doubled, "x", BUFFERS)
sequences("sha256", doubled, "(sha256 x)", BUFFERS)
sequences("sha512", doubled, "(sha512 x)", BUFFERS)
sequences("sha512/256", doubled, "(sha512/256 x)", BUFFERS)
sequences("len of a buffer", doubled, "(len x)", BUFFERS)
sequences("element-at of a buffer", doubled, "(element-at x u5)", BUFFERS)
sequences("index-of, not there", doubled, "(index-of x 0x00)", BUFFERS)
sequences("is-eq of buffers", doubled, "(is-eq x x)", BUFFERS)
sequences("concat of buffers", buffers, "(concat x x)", TEXTS)
sequences("as-max-len? of a buffer", buffers, "(as-max-len? x uSIZE)", TEXTS)
sequences("a string looked up", strings, "x", TEXTS)
sequences("concat of strings", strings, "(concat x x)", TEXTS)
sequences("a list looked up", uints, "x", LISTS)
sequences("append to a list", uints, "(append x u7)", LISTS)
sequences("concat of lists", uints, "(concat x x)", LISTS)
sequences("len of a list", uints, "(len x)", LISTS)
sequences("element-at of a list", uints, "(element-at x u5)", LISTS)
sequences("index-of in a list", uints, "(index-of x u8)", LISTS)
sequences("is-eq of lists", uints, "(is-eq x x)", LISTS)
PYTHON
