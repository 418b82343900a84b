"""The words of the command line, and what each command answers: a status and lines."""
import pathlib
import re

from addresses import is_contract_name, read_address, write_principal
from audits import compared, read_claims
from checking import check
from costs import BadCosts, Schedule, read_costs, unit_table
from lanes import in_lanes
from node import Node, bound_lines, event_lines, lines
from rows import leaves_of, led_to, path_of, root, rows_of, state_lines
from texts import Break
from transactions import BadFile, read_transactions
from values import Refused, decode, parse, wire, write_value

LONGEST_FILE = 16 << 20
MOST_SIDES = 64
LONGEST_KEY_WORD = 1 << 33
MOST_LANES = 16
DEPLOYER = (22, bytes(20), None)
HOLDER = "SP2J6ZY48GV1EZ5V2V5RB9MP66SW86PYKKNRV9EJ7"
TOKEN = pathlib.Path(__file__).resolve().parents[2] / "crates" / "cases" / "data" / "token.clar"


class Ended(Exception):
    """A command that ends early, with its status and lines."""


class Answer:
    """A status, the lines that are written, the files that are asked for, and the lines of events, a list for each entry."""

    def __init__(self, status, written, asked=(), heard=()):
        self.status, self.lines, self.asked, self.heard = status, written, list(asked), list(heard)


def bytes_of(written):
    """Lines, each with its line feed."""
    return "".join(line + "\n" for line in written).encode()


class Files:
    """Files by their names. `read` notes each name that is asked for."""

    def __init__(self, held, failing=()):
        self.held, self.failing, self.asked = held, failing, []

    def read(self, name):
        self.asked.append(name)
        if len(self.asked) in self.failing or name not in self.held:
            raise Ended(3, [])
        if len(self.held[name]) > LONGEST_FILE:
            raise Ended(5, [f"bad file {name} TooLong"])
        return self.held[name]

    def read_as(self, name, reader):
        try:
            return reader(self.read(name))
        except (BadCosts, BadFile) as error:
            raise Ended(5, [f"bad file {name} {error}"]) from None


# ---- words

FLAGS = {"--state": ("run",), "--clarity2": ("call", "check")}


def split(words):
    """The flags and the other words."""
    end = words.index("--") if "--" in words else len(words)
    flags = [word for word in words[:end] if word.startswith("-") and word != "-"]
    return flags, [word for word in words[:end] if word not in flags] + words[end + 1 :]


def number(digits):
    """Python reads no number of more than some thousand digits, zeros in front among them."""
    return int(digits.lstrip("0") or "0")


def is_number(word, above):
    return re.fullmatch("0*[0-9]{1,20}", word, re.ASCII) is not None and number(word) < above


def contract_of(path):
    """The contract's name that a path has, or None."""
    name = path.rpartition("/")[2]
    return name[:-5] if name.endswith(".clar") and is_contract_name(name[:-5], 40) else None


def are_taken(command, words):
    names = [contract_of(path) for path in words[2:]]
    return {
        "run": lambda: len(words) == 2,
        "call": lambda: len(words) >= 2,
        "check": lambda: len(words) >= 3 and read_address(words[1]) and None not in names and len(set(names)) == len(names),
        "value": lambda: len(words) == 1,
        "wire": lambda: len(words) == 1,
        "gen": lambda: len(words) == 2 and is_number(words[0], 1 << 64) and is_number(words[1], 100000),
        "trace": lambda: len(words) == 2,
        "audit": lambda: len(words) == 4,
        "root": lambda: len(words) == 2,
        "prove": lambda: len(words) == 3 and is_number(words[2], 1 << 32),
        "verify": lambda: 3 <= len(words) <= 3 + MOST_SIDES and len(words[1].encode(errors="surrogateescape")) < LONGEST_KEY_WORD,
    }.get(command, lambda: False)()


def answer(words, files):
    """The answer to these words over these files."""
    flags, others = split(words)
    command = others[0] if others else None
    if (
        len(set(flags)) != len(flags)
        or any(command not in FLAGS.get(flag, ()) for flag in flags)
        or not are_taken(command, others[1:])
    ):
        return Answer(2, ["usage: clarity COMMAND WORDS"])
    heard = []
    try:
        status, written = COMMANDS[command](files, flags, heard, *others[1:])
    except Ended as error:
        status, written = error.args
    return Answer(status, written, files.asked, heard)


def answer_in_lanes(words, files):
    """The answer of `clarity_lanes` to these words over these files."""
    is_shaped = len(words) == 4 and is_number(words[0], MOST_LANES + 1) and number(words[0]) and is_number(words[1], 1 << 64)
    if not is_shaped:
        return Answer(2, ["usage: clarity_lanes LANES SEED COSTS TXFILE"])
    try:
        node, entries = node_before(files, *words[2:])
        status, written = 0, in_lanes(node, entries, number(words[0]), number(words[1]))
    except Ended as error:
        status, written = error.args
    return Answer(status, written, files.asked)


# ---- commands

def version_of(flags):
    return 2 if "--clarity2" in flags else 1


def node_before(files, costs, file):
    """The node before the entries of a transaction file, and the entries."""
    table = files.read_as(costs, read_costs)
    transactions = files.read_as(file, read_transactions)
    return Node(Schedule(table, transactions.epochs), transactions.holders), transactions.entries


def reported(node, entries):
    """The results of entries, one after another, and the lines of their report."""
    results, written = [], []
    for place, entry in enumerate(entries):
        head, result = node.step(entry)
        results.append(result)
        written += lines(place, head, result)
    return results, written


def entries_done(files, heard, costs, file):
    """The state after the entries of a transaction file, and the lines of their report."""
    node, entries = node_before(files, costs, file)
    results, written = reported(node, entries)
    heard += [event_lines(result.events) for result in results]
    return node.state, written


def run(files, flags, heard, costs, file):
    state, written = entries_done(files, heard, costs, file)
    return 0, written + (state_lines(state) if "--state" in flags else [])


def trace(files, flags, heard, costs, file):
    results, _ = reported(*node_before(files, costs, file))
    claims = [(entry, *claim) for entry, result in enumerate(results) for claim in result.trace]
    return 0, [f"{entry} {start}..{end} {wire(value).hex()}" for entry, start, end, value in claims]


def audit(files, flags, heard, costs, file, trace_file, report_file):
    node, entries = node_before(files, costs, file)
    claims = files.read_as(trace_file, lambda data: read_claims(data, len(entries)))
    report = files.read(report_file)
    results, written = reported(node, entries)
    return compared(results, claims, bytes_of(written), report)


def shown(data):
    return "0x" + data.hex()


def state_root(files, flags, heard, costs, file):
    state, _ = entries_done(files, [], costs, file)
    return 0, [f"root {shown(root(leaves_of(state)))}"]


def prove(files, flags, heard, costs, file, place):
    state, _ = entries_done(files, [], costs, file)
    leaves = leaves_of(state)
    written = [f"root {shown(root(leaves))}"]
    rows = sorted((row.line().encode(), *row.leaf()) for row in rows_of(state))
    if number(place) >= len(rows):
        return 8, written + ["refused NoRow"]
    _, key, value = rows[number(place)]
    sides = path_of(leaves, leaves.index((key, value)))
    names = {"L": "left", "R": "right"}
    return 0, written + [f"row {shown(key)} {shown(value)}"] + [f"{names[letter]} {shown(other)}" for letter, other in sides]


def verify(files, flags, heard, root, key, value, *sides):
    words = [root, key, value, *(side[1:] for side in sides)]
    if not all(re.fullmatch("([0-9a-fA-F]{2})*", word) for word in words) or not all(side[:1] in ("L", "R") for side in sides):
        return 8, ["refused NotHex"]
    root, key, value, *others = map(bytes.fromhex, words)
    if any(len(digest) != 32 for digest in [root, *others]):
        return 8, ["refused NotHex"]
    reached = led_to(key, value, [(side[0], other) for side, other in zip(sides, others)])
    return (0, ["yes"]) if reached == root else (6, ["no"])


def call(files, flags, heard, file, function, *arguments):
    try:
        values = [parse(argument.encode()) for argument in arguments]
    except Refused as error:
        return 8, [f"refused {error}"]
    node = Node(Schedule(unit_table()))
    deployed = node.deploy(DEPLOYER, "main", files.read(file), version_of(flags))
    main = (*DEPLOYER[:2], "main")
    written = lines(0, f"deploy '{write_principal(main)}", deployed)
    if deployed.outcome.startswith("refused"):
        return 6, written
    called = node.call(DEPLOYER, main, function, values)
    is_good = called.outcome.split(" ")[0] in ("ok", "value")
    return 0 if is_good else 7, written + lines(1, f"call '{write_principal(main)} {function}", called)


def check_sources(files, flags, heard, costs, address, *paths):
    table = files.read_as(costs, read_costs)
    sources = [files.read(path) for path in paths]
    deployed, written = {}, []
    for path, source in zip(paths, sources):
        principal = (*read_address(address), contract_of(path))
        head = f"contract '{write_principal(principal)}"
        try:
            checked = check(deployed, principal, source, version_of(flags))
            written += [head] + [f"  {line}" for line in bound_lines(checked, table)]
        except Break as error:
            return 6, written + [f"{head} refused {error.text()}"]
        deployed[principal] = checked
    return 0, written


def value(files, flags, heard, word):
    digits = word[2:] if word.startswith("0x") else word
    if len(digits) % 2 or not re.fullmatch("[0-9a-fA-F]*", digits):
        return 8, ["refused NotHex"]
    try:
        return 0, [write_value(decode(bytes.fromhex(digits)))]
    except Refused as error:
        return 8, [f"refused {error}"]


def wire_form(files, flags, heard, word):
    try:
        return 0, ["0x" + wire(parse(word.encode())).hex()]
    except Refused as error:
        return 8, [f"refused {error}"]


def generated(files, flags, heard, seed, count):
    """The summary of the calls of a token that are drawn by a seed."""
    node, drawn = Node(Schedule(unit_table())), number(seed)
    token, holder = (*DEPLOYER[:2], "token"), (*read_address(HOLDER), None)
    results = [node.deploy(DEPLOYER, "token", TOKEN.read_bytes())]
    for _ in range(number(count)):
        drawn = (drawn * 6364136223846793005 + 1442695040888963407) % (1 << 64)
        draw = drawn >> 33
        amount = ("uint", draw % 1000)
        if draw % 4 == 0:
            results.append(node.call(DEPLOYER, token, "mint", [amount, ("principal", holder)]))
        else:
            values = [amount, ("principal", holder), ("principal", DEPLOYER), ("none", None)]
            results.append(node.call(holder, token, "transfer", values))
    goods, bads = [sum(result.outcome.startswith(word) for result in results) for word in ("ok ", "err ")]
    coin = (token, "coin")
    supply, held = node.state.supplies[coin], node.state.balances[coin].get(holder, 0)
    runtime = sum(result.cost[0] for result in results)
    return 0, [f"calls {number(count)} ok {goods} err {bads} supply u{supply} p1 u{held} runtime {runtime}"]


COMMANDS = {
    "run": run,
    "call": call,
    "check": check_sources,
    "value": value,
    "wire": wire_form,
    "gen": generated,
    "trace": trace,
    "audit": audit,
    "root": state_root,
    "prove": prove,
    "verify": verify,
}
