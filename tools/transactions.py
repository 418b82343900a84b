"""Transaction files, as far as a report of one depends on them (docs/FILES.md has the whole format)."""
import json


class NoTransactionFile(ValueError):
    """The bytes aren't a transaction file."""


def entries_of(held):
    """The entries of a transaction file, each a pair of its kind, `deploy`, `call` or `block`, and its members."""
    try:
        whole = json.loads(held.decode("utf-8"))
    except (ValueError, RecursionError) as fault:
        raise NoTransactionFile(f"it isn't JSON ({fault})") from None
    entries = whole.get("entries") if isinstance(whole, dict) else None
    if not isinstance(entries, list):
        raise NoTransactionFile("it has no array `entries`")
    found = []
    for number, entry in enumerate(entries):
        kind, members = next(iter(entry.items())) if isinstance(entry, dict) and len(entry) == 1 else (None, None)
        wanted = {"deploy": ("sender", "name", "source"), "call": ("contract", "function"), "block": ()}.get(kind)
        if wanted is None or not isinstance(members, dict) or not all(isinstance(members.get(name), str) for name in wanted):
            raise NoTransactionFile(f"entry {number} is no deployment, call or block")
        if kind == "block" and type(members.get("height")) is not int:
            raise NoTransactionFile(f"entry {number} is a block without a height")
        found.append((kind, members))
    return found


def laid_out(file):
    """The text of a file, with a line for each holder, each epoch and each entry."""
    rows = {name: ",\n ".join(map(json.dumps, members)) for name, members in file.items() if name != "version"}
    return f'{{"version": {file["version"]}, ' + ", ".join(f'"{name}": [\n {row}\n]' if row else f'"{name}": []' for name, row in rows.items()) + "}"


def contract_of(kind, members):
    """The contract that an entry deploys or calls."""
    return f"{members['sender']}.{members['name']}" if kind == "deploy" else members["contract"]
