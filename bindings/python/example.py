"""example.py LIBRARY COSTS: deploys a contract on a node, calls it, reads its events, and catches refusals."""
import pathlib
import sys

from lumpitseha import Engine, Failed, Status

SENDER = "SP000000000000000000002Q6VF78"
SOURCE = "(define-data-var n uint u0)(define-public (add (x uint)) (begin (print x) (var-set n (+ (var-get n) x)) (ok (var-get n))))"


def status_of(call, *words):
    """The status of a call that fails."""
    try:
        call(*words)
    except Failed as failed:
        return failed.status
    raise AssertionError("the call didn't fail")


def events(text):
    return [line.strip() for line in text.decode().splitlines() if line.startswith("  event ")]


engine = Engine(sys.argv[1])
costs = pathlib.Path(sys.argv[2]).read_bytes()
wire = engine.wire

assert wire("u7") == b"\1" + (7).to_bytes(16, "big")
assert engine.text(wire("{b: 0x01, a: -7}")) == "{a: -7, b: 0x01}"
assert wire("0x" + "00" * 100000) == b"\2" + (100000).to_bytes(4, "big") + bytes(100000)
assert status_of(wire, "u") == status_of(engine.text, b"\1") == Status.VALUE
broken = {"costs": costs, "f.clar": "(define-read-only (f) (unwrap-panic none))"}
assert engine.answer(["check", "costs", SENDER, "f.clar"], broken) == (
    Status.REFUSED,
    f"contract '{SENDER}.f refused C7 Undetermined 22..41\n".encode(),
)
status, long = engine.answer(["check", "costs", SENDER] + [f"c{i}.clar" for i in range(2000)], {"costs": costs} | {f"c{i}.clar": "" for i in range(2000)})
assert status == Status.DONE and len(long) > 1 << 16

with engine.node(costs) as node:
    node.run([{"deploy": {"sender": SENDER, "name": "n", "source": SOURCE}}])
    text = node.run([{"call": {"sender": SENDER, "contract": f"{SENDER}.n", "function": "add", "args": ["u2"]}}] * 3)
    assert events(text) == [f"event print '{SENDER}.n u2"] * 3
    sender, contract = wire(f"'{SENDER}"), wire(f"'{SENDER}.n")
    assert b" ok u11\n" in node.peek(sender, contract, "add", [wire("u5")])
    assert b" ok u11\n" in node.call(sender, contract, "add", [wire("u5")], [11, 2, 34, 1, 17])
    assert b" aborted A8 CostLimit runtime 11 10\n" in node.call(sender, contract, "add", [wire("u5")], [10, 2, 34, 1, 17])
    assert node.state() == f"var '{SENDER}.n n u11\n".encode()
    source = "(define-read-only (f) (unwrap-panic none))"
    refused = node.check(wire(f"'{SENDER}.f"), source)
    assert (refused.rule, refused.names, source[refused.span]) == ("C7 Undetermined", (), "(unwrap-panic none)")
    accepted = node.check(wire(f"'{SENDER}.f"), "(define-read-only (one) 1)")
    assert (accepted.deploy, accepted.functions) == ((2, 0, 0, 2, 26), {"one": (2, 0, 0, 0, 0)})
    assert status_of(node.check, sender, "") == Status.REQUEST
    node.run([{"block": {"height": 9}}])
    assert node.height == 9
    assert status_of(node.run, [{"block": {"height": 8}}]) == Status.FALLS
    assert status_of(node.run, "{") == Status.FILE
    assert status_of(node.call, sender, contract, "add", [b"\1"]) == Status.REQUEST
    node.close()
    assert status_of(node.state) == Status.CLOSED
with engine.costs(costs) as table, engine.node(table) as node, engine.node(table) as other:
    node.run([{"deploy": {"sender": SENDER, "name": "n", "source": SOURCE}}])
    assert (node.state(), other.state()) == (f"var '{SENDER}.n n u0\n".encode(), b"")
assert status_of(engine.node, b"{}") == status_of(engine.costs, b"{}") == status_of(engine.node, b"", b"{}") == Status.FILE
assert status_of(engine.node, table) == Status.CLOSED
print("each call did what it is to do")
