#!/usr/bin/env bash
# Reads texts of 64 KiB to 1 MiB that hold every kind of token. Each breaks a rule, so nothing comes after that, or is deployed and
# has no function to call. Flat nanoseconds a byte say that it is linear. Run by hand; python3 measures.
# Usage: bench/reader.sh
set -eu
[ "${1-}" != --help ] || exec sed -n '2,/^[^#]/s/^# \{0,1\}//p' "$0"
cd "$(dirname "$0")"
PYTHONDONTWRITEBYTECODE=1 python3 - <<'PYTHON'
from measure import table

contract = """;; Moves tokens of the sender.
(define-public (transfer-NUMBER (amount uint) (to principal) (memo (optional (buff 34))))
  (begin
    (asserts! (> amount u0) (err u3))
    (try! (ft-transfer? token amount tx-sender to))
    (map-set moves {from: tx-sender, to: to} {amount: amount, note: "moved\\n"})
    (match memo text (print {memo: text, as: 0x00ff}) (print {memo: 0x, as: 0x}))
    (contract-call? 'SP000000000000000000002Q6VF78.audit seen .token u"\\u{e9}" -17)
    (ok true)))
"""


def contracts(size):
    return "".join(contract.replace("NUMBER", f"{i:05}") for i in range(size // (len(contract) - 1)))


def row(part):
    return lambda size: part * (size // len(part))


table([
    ("contract", contracts, "C15 NoSuchToken"),
    ("names", row("a "), "C1 UnknownName"),
    ("lists", row("()"), "C20 EmptyForm"),
    ("comments", lambda size: "x" + ";;\n" * ((size - 1) // 3), "C1 UnknownName"),
    ("digits", row("1"), "T3 NumberTooWide"),
    ("marks", row("'"), "T9 BadAddress"),
    ("string", lambda size: '"' + "a" * (size - 1), "T4 Unclosed"),
    ("escapes", lambda size: '"' + "\\" * (size - 2), "T4 Unclosed"),
], ["f"], 6)
table([
    ("tuples", row("{a:1}"), "E2 NoFunction"),
    ("strings", row('""'), "E2 NoFunction"),
], ["f"], 7)
PYTHON
