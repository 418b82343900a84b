"""Floods for bench/worst.sh: keys and names that are chosen to collide under the toolchain's own hash, whose seed is fixed, each
beside as many ordinary ones of the same length; and writes to the same places again and again."""

import functools
import os
import random
import subprocess
import tempfile

from made import DEPLOYER, UNIT, address, call, deploy, transactions, written

# What comes before a key in its table: for an entry the place of the map, of another value nothing; then the head of its wire form.
PLACE = bytes([6, 22, *bytes(20), 1, *b"c", 1, *b"m"])
BUFFER, HOLDER = bytes([2, 0, 0, 0, 5]), bytes([5, 22, *bytes(15)])
LETTERS = "abcdefghijklmnopqrstuvwxyz"

FOLDER = tempfile.TemporaryDirectory()


@functools.cache
def program():
    """The path of colliding.c, compiled; None where there is no C compiler."""
    path = os.path.join(FOLDER.name, "colliding")
    try:
        subprocess.run(["cc", "-O2", "-o", path, "colliding.c"], check=True)
    except FileNotFoundError:
        return None
    return path


@functools.cache
def colliding(front, length, letters, count):
    """So many parts of this length that are keys which collide, behind this front."""
    made = subprocess.run([program(), front.hex() or "-", str(length), letters, str(count)], capture_output=True, text=True, check=True)
    return [bytes.fromhex(line)[len(front) :] for line in made.stdout.split()]


@functools.cache
def ordinary(front, length, letters, count):
    """As many different parts, drawn at random."""
    drawn = random.Random(7)
    of = letters.encode() if letters != "-" else bytes(range(256))
    return list(dict.fromkeys(bytes(drawn.choices(of, k=length)) for _ in range(2 * count)))[:count]


def listed(keys):
    return f"(list{''.join(f' 0x{key.hex()}' for key in keys)})"


PUTS = (
    "(define-map m (buff 5) uint)(define-non-fungible-token badge (buff 5))"
    "(define-private (put (k (buff 5))) (map-set m k u7))"
    "(define-private (mint (k (buff 5))) (unwrap-panic (nft-mint? badge k tx-sender)))"
    "(define-public (kept (ks (list 16384 (buff 5)))) (ok (len (map put ks))))"
    "(define-public (undone (ks (list 16384 (buff 5)))) (if (is-eq (len (map put ks)) u0) (ok u0) (err u0)))"
    "(define-public (minted (ks (list 16384 (buff 5)))) (ok (len (map mint ks))))"
)


def called(function, answer):
    def words(folder, keys):
        return ["run", UNIT, transactions(folder, [deploy("c", PUTS), call(DEPLOYER, "c", function, listed(keys))])], f".c {function} {answer}"
    return words


def holders(folder, keys):
    genesis = [{"principal": address(int.from_bytes(key, "big")), "stx": "u1"} for key in keys]
    return ["run", UNIT, transactions(folder, [], genesis), "--state"], "stx '"


def checked(text):
    return lambda folder, names: (["check", UNIT, DEPLOYER, written(folder, "f.clar", text([name.decode() for name in names]))], "deploy-bound")


def functions(names):
    return "".join(f"(define-private ({name}) 1)\n" for name in names)


def bindings(names):
    return f"(let ({' '.join(f'({name} 1)' for name in names)}) 1)"


# A name, what comes before the keys, their length and letters, how many, and the words of a run over them.
FLOODS = [
    ("keys of entries", PLACE + BUFFER, 5, "-", (8000, 16000), called("kept", "ok")),
    ("keys of entries, undone", PLACE + BUFFER, 5, "-", (8000, 16000), called("undone", "err")),
    ("assets", BUFFER, 5, "-", (8000, 16000), called("minted", "ok")),
    ("holders of STX", HOLDER, 5, "-", (8000, 16000), holders),
    ("names of functions", b"", 8, LETTERS, (4000, 8000), checked(functions)),
    ("names of a `let`", b"", 8, LETTERS, (4000, 8000), checked(bindings)),
]

LONGER = " ".join(f"(a{i} (concat a{i - 1} a{i - 1}))" for i in range(1, 13))
AGAIN = (
    "(define-data-var long (string-ascii 61440) \"\")(define-data-var v (string-ascii 61440) \"\")"
    "(define-map m uint (string-ascii 61440))"
    "(define-private (set-one (i uint)) (var-set v (var-get long)))"
    "(define-private (set-two (i uint)) (begin (var-set v (var-get long)) (map-set m u0 (var-get long))))"
    "(define-private (put-and-delete (i uint)) (begin (map-set m u0 (var-get long)) (map-delete m u0)))"
    "(define-public (set-kept (i uint)) (ok (var-set v (var-get long))))"
    f"(define-private (start) (let ((a0 \"0123456789abcde\") {LONGER}) (var-set long a12)))"
)


def again(step):
    """A call in which one function is called so often: each writes 60 KiB to places that have been written to."""
    go = f"(define-public (go (xs (list 16384 uint))) (begin (start) (ok (len (map {step} xs)))))"

    def words(folder, count):
        return ["run", UNIT, transactions(folder, [deploy("c", AGAIN + go), call(DEPLOYER, "c", "go", f"(list{' u0' * count})")])], "go ok"
    return words


AGAINS = [
    ("a variable is set", again("set-one")),
    ("a variable and an entry are set", again("set-two")),
    ("an entry is put and deleted", again("put-and-delete")),
    ("a variable is set in a layer that is kept", again("set-kept")),
]
