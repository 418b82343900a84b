#!/usr/bin/env bash
# Counts the instructions of `root`, `prove` and `verify` by callgrind, and ends with 1 where they are above what they may take:
# - `root` of 1,000, 10,000 and 100,000 rows of STX, and of as many entries of a map: 1.2 times `run --state` of the same file and
#   the SHA-256 of what is hashed, which is computed from the blocks of 64 bytes; and how much a row takes beside both, which grows
#   only with its sort
# - `prove` of the row in the middle: 1.1 times `root`. It is above: the line of each row has an address, whose checksum takes two
#   digests; beside it stands what it takes over `root` and what `run --state` takes over `run`, both for a row
# - `verify` of 64 sides beside the same words with a digit wrong: 1.2 times the SHA-256 of its 65 digests
# Without valgrind it says so and ends. Run by hand; python3.
# Usage: bench/root.sh
set -eu
[ "${1-}" != --help ] || exec sed -n '2,/^[^#]/s/^# \{0,1\}//p' "$0"
cd "$(dirname "$0")"
command -v valgrind >/dev/null || { echo "valgrind isn't there: nothing is counted"; exit 0; }
PYTHONDONTWRITEBYTECODE=1 python3 - <<'PYTHON'
import hashlib
import sys
import tempfile

from made import DEPLOYER, UNIT, address, call, deploy, transactions, written
from measure import instructions

ROWS = (1000, 10000, 100000)
# The inputs of a digest: of a row the byte 00, four bytes of length, a key of 23 bytes (STX) or 44 (an entry) and a value of 17; of
# more rows two digests.
LEAF, PAIR, ENTRY = 45, 65, 66
MAP = (
    "(define-map m uint uint)(define-private (put (k uint) (n uint)) (begin (map-set m k k) n))"
    "(define-public (fill (ks (list 1000 uint))) (ok (fold put ks u0)))"
)


def blocks(length):
    """How many blocks SHA-256 takes for an input of this length, with its end."""
    return (length + 9 + 63) // 64


def a_block(folder):
    """The instructions of one block: of two lengths of a buffer what its digest takes beside its length, and of these the difference."""
    source = written(folder, "f.clar", "".join(f"(define-read-only ({name} (b (buff 60000))) {body})" for name, body in (("f", "(sha256 b)"), ("g", "(len b)"))))
    counts = []
    for size in (16000, 48000):
        word = "0x" + "5a" * size
        digest = hashlib.sha256(b"\x5a" * size).hexdigest()
        counts.append(instructions(["call", source, "f", word], 0, f"value 0x{digest}") - instructions(["call", source, "g", word], 0, f"value u{size}"))
    return (counts[1] - counts[0]) / (blocks(48000) - blocks(16000))


def holders(folder, rows):
    return transactions(folder, [], [{"principal": address(i), "stx": "u1"} for i in range(rows)])


def entries(folder, rows):
    keys = [f"u{i * 2654435761 % 2**32}" for i in range(rows)]
    fills = [call(DEPLOYER, "c", "fill", f"(list {' '.join(keys[at:at + 1000])})") for at in range(0, rows, 1000)]
    return transactions(folder, [deploy("c", MAP), *fills])


def chain(count):
    """The words of a proof with so many sides."""
    sides = [hashlib.sha256(bytes([i])).digest() for i in range(count)]
    reached = hashlib.sha256(b"\0" + (23).to_bytes(4, "big") + bytes(23) + bytes(17)).digest()
    for side in sides:
        reached = hashlib.sha256(b"\1" + side + reached).digest()
    return ["verify", reached.hex(), "00" * 23, "00" * 17, *("L" + side.hex() for side in sides)]


wrong = 0


def compared(name, count, most):
    global wrong
    wrong += count > most
    print(f"{name}: {count:,.0f} of at most {most:,.0f}{'' if count <= most else ', which is too much'}", flush=True)


with tempfile.TemporaryDirectory() as folder:
    block = a_block(folder)
    print(f"SHA-256: {block:,.0f} instructions a block of 64 bytes")
    for kind, make, leaf, bare_answer, line in (("STX", holders, LEAF, "", "stx '"), ("entries", entries, ENTRY, "ok u0", "map '")):
        for rows in ROWS:
            file, name = make(folder, rows), f"{rows:7,} rows ({kind})"
            bare = instructions(["run", UNIT, file], 0, bare_answer)
            plain = instructions(["run", UNIT, file, "--state"], 0, line)
            hashing = block * (rows * blocks(leaf) + (rows - 1) * blocks(PAIR))
            root = instructions(["root", UNIT, file], 0, "root 0x")
            proof = instructions(["prove", UNIT, file, str(rows // 2)], 0, "row 0x")
            compared(f"{name}: root", root, 1.2 * (plain + hashing))
            print(f"{name}: {(root - hashing) / rows:,.0f} a row beside the hashing; `run --state` {plain / rows:,.0f}, the hashing {hashing / rows:,.0f}")
            compared(f"{name}: prove", proof, 1.1 * root)
            print(f"{name}: prove is {proof / root:.2f} times root, {(proof - root) / rows:,.0f} a row more; the lines of the state {(plain - bare) / rows:,.0f}")
    words = chain(64)
    verified = instructions(words, 0, "yes")
    unhashed = instructions([*words[:-1], words[-1][:-1] + "g"], 8, "refused NotHex")
    compared("verify of 64 sides", verified - unhashed, 1.2 * block * (blocks(LEAF) + 64 * blocks(PAIR)))
    print(f"verify of 64 sides, the whole command: {verified:,}")
sys.exit(1 if wrong else 0)
PYTHON
