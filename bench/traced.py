"""Cases of traces for bench/where.sh: each line of a trace has to be shown in the contract that it is of. The contract and the
expression of each line are written here by the rules of traces; its bytes follow from where the expression is in the source."""
import json
import pathlib
import subprocess
import sys

WHERE = pathlib.Path(sys.argv[1]) / "where"
OWNER = "SP000000000000000000002Q6VF78"
TRUE, FALSE = "03", "04"


def uint(number):
    return "01" + f"{number:032x}"


def listed(*numbers):
    return f"0b{len(numbers):08x}" + "".join(map(uint, numbers))


def ok(value):
    return "07" + value


def err(value):
    return "08" + value


# Deployed in this order by the first entries: `inc` is longer than what calls it, `far` longer than what it calls, and the first part
# of `same` has the bytes of that of `like`.
CONTRACTS = {
    "inc": ";; Adds one to a number, in a source that is longer than some that call it.\n(define-read-only (plus (n uint))\n  (+ n u1))",
    "near": "(define-read-only (two (m uint)) (* u2 (contract-call? .inc plus m)))",
    "far": f";; {'A comment that makes this source longer. ' * 4}\r(a CR doesn't end it\n(define-read-only (go (k uint)) (contract-call? .near two k))",
    "each": "(define-private (one (n uint)) (contract-call? .inc plus n))\n(define-read-only (all) (map one (list u1 u2)))\n"
            "(define-read-only (sum (l (list 2 uint))) (fold + (map one l) u0))\n"
            "(define-private (is-two (n uint)) (is-eq (one n) u2))\n(define-read-only (twos) (filter is-two (list u1 u5)))",
    "less": "(define-public (minus (n uint)) (ok (- n u9)))\n(define-public (check (n uint)) (begin (asserts! (> n u5) (err u7)) (ok n)))",
    "tries": "(define-public (fall) (ok (try! (contract-call? .less minus u1))))\n"
             "(define-public (catch) (match (contract-call? .less check u1) v (ok v) w (ok w)))\n"
             "(define-public (pass) (begin (try! (contract-call? .less check u2)) (ok u0)))",
    "begun": "(define-constant first (contract-call? .inc plus second))\n(define-constant second u3)\n(and false true)",
    "like": "(define-read-only (f (n uint)) (+ n u1))",
    "same": "(define-read-only (f (n uint)) (+ n (contract-call? .like f n)))",
    "hears": "(define-private (add (b (buff 1)) (n uint)) (+ n u1))\n(define-read-only (count) (fold add 0x0a0b u4))\n"
             "(define-private (keep (c (string-utf8 1)) (n uint)) n)\n(define-read-only (chars) (fold keep u\"\\u{e9}\" u4))",
}  # fmt: skip


# A line is a contract, an expression in [ ] with what is beside it in the source, and its value.
def plus(number):
    return [("inc", "(+ [n] u1)", uint(number)), ("inc", "(+ n [u1])", uint(1)), ("inc", "[(+ n u1)]", uint(number + 1))]


def two(number):
    return [("near", "(* [u2]", uint(2)), ("near", "plus [m]", uint(number)), *plus(number),
            ("near", "[(contract-call? .inc plus m)]", uint(number + 1)),
            ("near", "[(* u2 (contract-call? .inc plus m))]", uint(2 * number + 2))]  # fmt: skip


def one(number):
    return [("each", "plus [n]", uint(number)), *plus(number), ("each", "[(contract-call? .inc plus n)]", uint(number + 1))]


def is_two(number):
    return [("each", "(one [n]) u2", uint(number)), *one(number), ("each", "[(one n)] u2", uint(number + 1)), ("each", "(one n) [u2]", uint(2)),
            ("each", "[(is-eq (one n) u2)]", TRUE if number == 1 else FALSE)]  # fmt: skip


def check(number):
    return [("less", "(> [n]", uint(number)), ("less", "(> n [u5])", uint(5)), ("less", "[(> n u5)]", FALSE), ("less", "(err [u7])", uint(7)),
            ("less", "[(err u7)]", err(uint(7)))]  # fmt: skip


SAME = [("same", "(+ [n]", uint(3)), ("same", "like f [n]", uint(3)), ("like", "(+ [n]", uint(3)), ("like", "[u1]", uint(1)), ("like", "[(+ n u1)]", uint(4)),
        ("same", "[(contract-call? .like f n)]", uint(4)), ("same", "[(+ n (contract-call? .like f n))]", uint(7))]  # fmt: skip
# The calls, each with its whole trace.
CALLS = {
    "calls of calls, by longer and shorter callers": ("far.go", ["u4"], [
        ("far", "two [k]", uint(4)), *two(4), ("far", "[(contract-call? .near two k)]", uint(10))]),
    "map of a function that calls another contract": ("each.all", [], [
        ("each", "(list [u1] u2)", uint(1)), ("each", "(list u1 [u2])", uint(2)), ("each", "[(list u1 u2)]", listed(1, 2)),
        *one(1), *one(2), ("each", "[(map one (list u1 u2))]", listed(2, 3))]),
    "fold of a native": ("each.sum", ["(list u4)"], [
        ("each", "(map one [l])", listed(4)), *one(4), ("each", "[(map one l)]", listed(5)), ("each", "(map one l) [u0]", uint(0)),
        ("each", "(fold [+]", uint(5)), ("each", "[(fold + (map one l) u0)]", uint(5))]),
    "filter of a function that calls another contract": ("each.twos", [], [
        ("each", "(list [u1] u5)", uint(1)), ("each", "(list u1 [u5])", uint(5)), ("each", "[(list u1 u5)]", listed(1, 5)), *is_two(1), *is_two(5),
        ("each", "[(filter is-two (list u1 u5))]", listed(1))]),
    "an abort in the called contract": ("tries.fall", [], [
        ("tries", "minus [u1]", uint(1)), ("less", "(- [n]", uint(1)), ("less", "[u9]", uint(9))]),
    "an early return in the called contract": ("tries.catch", [], [
        ("tries", "check [u1]", uint(1)), *check(1), ("tries", "[(contract-call? .less check u1)]", err(uint(7))), ("tries", "(ok [w])", uint(7)),
        ("tries", "[(ok w)]", ok(uint(7))), ("tries", "[(match (contract-call? .less check u1) v (ok v) w (ok w))]", ok(uint(7)))]),
    "an early return with what the called contract answers": ("tries.pass", [], [
        ("tries", "check [u2]", uint(2)), *check(2), ("tries", "[(contract-call? .less check u2)]", err(uint(7)))]),
    "as many applications as bytes": ("hears.count", [], [
        ("hears", "[0x0a0b]", "02000000020a0b"), ("hears", "0x0a0b [u4]", uint(4)),
        ("hears", "(+ [n]", uint(4)), ("hears", "[u1]", uint(1)), ("hears", "[(+ n u1)]", uint(5)),
        ("hears", "(+ [n]", uint(5)), ("hears", "[u1]", uint(1)), ("hears", "[(+ n u1)]", uint(6)), ("hears", "[(fold add 0x0a0b u4)]", uint(6))]),
    "as many applications as characters": ("hears.chars", [], [
        ("hears", '[u"\\u{e9}"]', "0e00000002c3a9"), ("hears", '" [u4]', uint(4)), ("hears", "(n uint)) [n])", uint(4)),
        ("hears", '[(fold keep u"\\u{e9}" u4)]', uint(4))]),
    "parts with the same bytes": ("same.f", ["u3"], SAME),
}  # fmt: skip
BEGUN = [("begun", "[u3]", uint(3)), ("begun", "plus [second]", uint(3)), *plus(3), ("begun", "[(contract-call? .inc plus second)]", uint(4)),
         ("begun", "and [false]", FALSE), ("begun", "[(and false true)]", FALSE)]  # fmt: skip


def span(contract, marked):
    """Where the marked expression is in its source."""
    before, expression, behind = marked.replace("]", "[").split("[")
    start = CONTRACTS[contract].index(before + expression + behind) + len(before)
    return start, start + len(expression)


def line_of(entry, claim):
    start, end = span(*claim[:2])
    return f"{entry} {start}..{end} {claim[2]}"


def shown(entry, claim, more=()):
    """A line of the trace, with what is to be shown below it."""
    (start, end), source = span(*claim[:2]), CONTRACTS[claim[0]]
    begin = source.rfind("\n", 0, start) + 1
    number = source.count("\n", 0, start) + 1
    place = f"  tx.json, entry {list(CONTRACTS).index(claim[0])}:{number}:{start - begin + 1}"
    return [line_of(entry, claim), place, f"  {number} | {source[begin:].splitlines()[0]}", f"    | {' ' * (start - begin)}{'^' * (end - start)}", *more]


def compare(called, given, wanted, file="tx.json"):
    came = subprocess.run([WHERE, file], input="".join(line + "\n" for line in given), stdout=subprocess.PIPE, text=True).stdout.splitlines()
    print("ok" if came == wanted else f"differs: {called}: {next((pair for pair in zip(came, wanted) if pair[0] != pair[1]), (len(came), len(wanted)))}")


def deployment(name, source):
    return {"deploy": {"sender": OWNER, "name": name, "source": source}}


def call(called, arguments, **more):
    contract, function = called.split(".")
    return {"call": {"sender": OWNER, "contract": f"{OWNER}.{contract}", "function": function, "args": arguments, **more}}


def written(path, entries):
    pathlib.Path(path).write_text(json.dumps({"version": 1, "genesis": [], "entries": entries}))


def whole_traces():
    calls = [call(called, arguments) for called, arguments, _ in CALLS.values()]
    written("tx.json", [deployment(*contract) for contract in CONTRACTS.items()] + calls)
    traces = [(name, len(CONTRACTS) + place, claims) for place, (name, (_, _, claims)) in enumerate(CALLS.items())]
    traces.append(("constants that call another contract", list(CONTRACTS).index("begun"), BEGUN))
    for name, entry, claims in traces:
        compare(name, [line_of(entry, claim) for claim in claims], [line for claim in claims for line in shown(entry, claim)])
    ordered = sorted(traces, key=lambda trace: trace[1])
    compare("all at once", [line_of(entry, claim) for _, entry, claims in ordered for claim in claims],
            [line for _, entry, claims in ordered for claim in claims for line in shown(entry, claim)])  # fmt: skip


def parts_of_traces():
    """What is certain without the whole trace is shown, what isn't is said."""
    entry = len(CONTRACTS) + list(CALLS).index("calls of calls, by longer and shorter callers")
    for lines in (two(4)[-2:], two(4)[3:5], [two(4)[0], two(4)[-1]]):
        compare("a part of a trace", [line_of(entry, claim) for claim in lines], [line for claim in lines for line in shown(entry, claim)])
    entry, places = len(CONTRACTS) + list(CALLS).index("parts with the same bytes"), list(CONTRACTS)
    either = f"  (in '{OWNER}.like, entry {places.index('like')}, or '{OWNER}.same, entry {places.index('same')}, which the lines given don't say)"
    compare("a part that may be of two", [line_of(entry, SAME[2])], [line_of(entry, SAME[2]), either])
    compare("a part that may be of two, and one of one", [line_of(entry, claim) for claim in SAME[2:4]],
            [line_of(entry, SAME[2]), either, *shown(entry, SAME[3])])  # fmt: skip
    none = f"  (entry {entry} of tx.json has no expression there: it is of another file)"
    compare("a trace of another file", [f"{entry} 5..6 03", "99 1..2 03"], [f"{entry} 5..6 03", none, "99 1..2 03", none.replace(str(entry), "99")])
    given = "  (give the transaction file: a line of a trace says no contract)"
    pathlib.Path("same.clar").write_text(CONTRACTS["same"])
    compare("no transaction file", [line_of(entry, SAME[0])], [line_of(entry, SAME[0]), given], "same.clar")


def limited():
    """A limit may end a trace anywhere, so what it is of is certain only if nothing is missing behind the last line."""
    written("tx.json", [deployment(*contract) for contract in CONTRACTS.items()] + [call("same.f", ["u3"], limit=[9, 9, 9, 9, 9])])
    entry, note = len(CONTRACTS), ["  (if this is the whole trace of the entry)"]
    wanted = [*shown(entry, SAME[0], note), *shown(entry, SAME[1]), *shown(entry, SAME[2], note)]
    compare("a limit", [line_of(entry, claim) for claim in SAME[:3]], wanted)


def deployed_again():
    """A name is deployed anew where its deployment was refused or aborted, which isn't in the trace, but may follow from it."""
    plain = CONTRACTS["like"]
    CONTRACTS["like"] = plain + "(define-constant c u7)"
    number = ("like", "(+ [n]", uint(1))
    written("tx.json", [deployment("like", plain + "(bad)"), deployment("like", CONTRACTS["like"]), call("like.f", ["u1"])])
    either = f"  (in '{OWNER}.like, entry 0, or '{OWNER}.like, entry 1, which the lines given don't say)"
    compare("deployed twice", [line_of(2, number)], [line_of(2, number), either])
    constant, place = line_of(1, ("like", "c [u7]", uint(7))), "  tx.json, entry 1:1:"
    mark = [f"  1 | {CONTRACTS['like']}", f"    | {' ' * span('like', 'c [u7]')[0]}^^", f"    | {' ' * span('like', '(+ [n]')[0]}^"]
    compare("deployed twice, as its constant says", [constant, line_of(2, number)],
            [constant, f"{place}{span('like', 'c [u7]')[0] + 1}", *mark[:2], line_of(2, number), f"{place}{span('like', '(+ [n]')[0] + 1}", mark[0], mark[2]])  # fmt: skip
    written("tx.json", [deployment("like", " " + plain), deployment("like", CONTRACTS["like"]), call("like.f", ["u1"])])
    compare("deployed twice, as the bytes say", [line_of(2, number)], [line_of(2, number), f"{place}{span('like', '(+ [n]')[0] + 1}", mark[0], mark[2]])


whole_traces()
parts_of_traces()
limited()
deployed_again()
