"""The transaction file, of versions 1 and 2: what is in it, or its first fault."""
from dataclasses import dataclass

import strict_json
from addresses import is_contract_name, read_principal
from costs import GREATEST, BadCosts, table_of
from strict_json import NotJson, is_whole
from texts import NAME
from values import Refused, parse

NO_LIMIT = [(1 << 64) - 1] * 5
MOST_ENTRIES = 100000
MOST_EPOCHS = 64


class BadFile(Exception):
    """A text that is no transaction file, with its fault as it is printed."""


class NotSo(Exception):
    """A member that isn't as said."""


@dataclass
class Entry:
    """An entry. Kinds: deploy, call, block."""

    kind: str
    members: dict

    def limit(self):
        return self.members.get("limit", NO_LIMIT)


@dataclass
class Condition:
    principal: tuple
    asset: tuple
    holds: object


@dataclass
class Transactions:
    """A file: the holders of STX with their amounts, the epochs with their heights, and the entries."""

    holders: dict
    epochs: list
    entries: list


# ---- members

def text_of(value):
    if not isinstance(value, str):
        raise NotSo
    return value


def principal_of(value):
    principal = read_principal(text_of(value))
    if principal is None:
        raise NotSo
    return principal


def standard(value):
    principal = principal_of(value)
    if principal[2] is not None:
        raise NotSo
    return principal


def contract(value):
    principal = principal_of(value)
    if principal[2] is None:
        raise NotSo
    return principal


def literal(value):
    try:
        return parse(text_of(value).encode())
    except Refused:
        raise NotSo from None


def amount(value):
    kind, number = literal(value)
    if kind != "uint":
        raise NotSo
    return number


def one_of(*allowed):
    def read(value):
        if isinstance(value, bool) or not isinstance(value, (str, int)) or value not in allowed:
            raise NotSo
        return value
    return read


def short_name(value):
    if not is_contract_name(text_of(value), 40):
        raise NotSo
    return value


def token_name(value):
    if not NAME.fullmatch(text_of(value)):
        raise NotSo
    return value


def array(value):
    if not isinstance(value, list):
        raise NotSo
    return value


def literals(value):
    return [literal(element) for element in array(value)]


def whole_number(value):
    if not is_whole(value):
        raise NotSo
    return value


def five_numbers(value):
    if len(array(value)) != 5:
        raise NotSo
    return [whole_number(element) for element in value]


def truth(value):
    if not isinstance(value, bool):
        raise NotSo
    return value


def table(value):
    try:
        return table_of(value)
    except BadCosts:
        raise NotSo from None


TOP = {
    1: [("version", whole_number, True), ("genesis", array, True), ("entries", array, True)],
    2: [("version", whole_number, True), ("genesis", array, True), ("epochs", array, True), ("entries", array, True)],
}
HOLDER = [("principal", principal_of, True), ("stx", amount, True)]
COMMON = [("limit", five_numbers, False), ("mode", one_of("allow", "deny"), False), ("post", None, False)]
ENTRIES = {
    "deploy": [("sender", standard, True), ("name", short_name, True), ("source", text_of, True), *COMMON,
               ("clarity", one_of(1, 2), False)],
    "call": [("sender", standard, True), ("contract", contract, True), ("function", text_of, True), ("args", literals, True),
             *COMMON],
    "block": [("height", whole_number, True)],
}
AMOUNT = [("code", one_of("eq", "gt", "ge", "lt", "le"), True), ("amount", amount, True)]
TOKEN = [("principal", principal_of, True), ("contract", contract, True), ("token", token_name, True)]
CONDITIONS = {
    "stx": [("principal", principal_of, True), *AMOUNT],
    "ft": [*TOKEN, *AMOUNT],
    "nft": [*TOKEN, ("id", literal, True), ("sent", truth, True)],
}
HOLDS = {
    "eq": lambda sent, bound: sent == bound,
    "gt": lambda sent, bound: sent > bound,
    "ge": lambda sent, bound: sent >= bound,
    "lt": lambda sent, bound: sent < bound,
    "le": lambda sent, bound: sent <= bound,
}


def read_members(value, members, path, special=None):
    """The members of an object that are there, each as it reads; a special one is read by its own function and path."""
    if not isinstance(value, dict):
        raise BadFile(f"BadValue {path}")
    unknown = strict_json.least_unknown(value, [name for name, _, _ in members])
    if unknown is not None:
        raise BadFile(f"Field {path}/{unknown}")
    read = {}
    for name, of_text, is_needed in members:
        if name not in value:
            if is_needed:
                raise BadFile(f"Field {path}/{name}")
            continue
        try:
            read[name] = special(value[name], f"{path}/{name}", read) if of_text is None else of_text(value[name])
        except NotSo:
            raise BadFile(f"BadValue {path}/{name}") from None
    return read


def only_member(value, kinds, path):
    """The name of the one member of an entry or condition, and the member."""
    if not isinstance(value, dict) or len(value) != 1:
        raise BadFile(f"BadValue {path}")
    ((kind, member),) = value.items()
    if kind not in kinds:
        raise BadFile(f"Field {path}/{kind}")
    return kind, member


def read_condition(value, path):
    kind, member = only_member(value, CONDITIONS, path)
    read = read_members(member, CONDITIONS[kind], f"{path}/{kind}")
    asset = tuple(read[name] for name in ("contract", "token", "id") if name in read)
    if kind == "nft":
        holds = lambda amounts: bool(amounts) == read["sent"]
    else:
        holds = lambda amounts: HOLDS[read["code"]](sum(amounts), read["amount"])
    return Condition(read["principal"], (kind, *asset), holds)


def read_conditions(value, path, _):
    return [read_condition(condition, f"{path}/{place}") for place, condition in enumerate(array(value))]


def read_entry(value, place):
    path = f"/entries/{place}"
    kind, member = only_member(value, ENTRIES, path)
    return Entry(kind, read_members(member, ENTRIES[kind], f"{path}/{kind}", read_conditions))


def read_holders(value):
    holders = {}
    for place, holder in enumerate(value):
        def new_principal(text):
            principal = principal_of(text)
            if principal in holders:
                raise NotSo
            return principal

        members = [("principal", new_principal, True), HOLDER[1]]
        read = read_members(holder, members, f"/genesis/{place}")
        holders[read["principal"]] = read["stx"]
    if sum(holders.values()) > GREATEST:
        raise BadFile("GenesisTooBig")
    return holders


def read_epochs(value):
    if len(value) > MOST_EPOCHS:
        raise BadFile("BadValue /epochs")
    epochs = [(0, None)]
    for place, epoch in enumerate(value):
        def higher(number):
            if whole_number(number) <= epochs[-1][0]:
                raise NotSo
            return number

        read = read_members(epoch, [("height", higher, True), ("costs", table, True)], f"/epochs/{place}")
        epochs.append((read["height"], read["costs"]))
    return epochs[1:]


def read_entries(value):
    if len(value) > MOST_ENTRIES:
        raise BadFile("TooMany")
    entries, height = [], 0
    for place, member in enumerate(value):
        entry = read_entry(member, place)
        if entry.kind == "block":
            if entry.members["height"] < height:
                raise BadFile(f"HeightFalls /entries/{place}/block/height")
            height = entry.members["height"]
        entries.append(entry)
    return entries


def read_transactions(data):
    """What is in a transaction file; raises BadFile with its first fault."""
    try:
        value = strict_json.parse_object(data)
    except NotJson:
        raise BadFile("NotJson") from None
    version = value.get("version")
    if not is_whole(version) or version not in TOP:
        raise BadFile("Version")
    read = read_members(value, TOP[version], "")
    holders = read_holders(read["genesis"])
    epochs = read_epochs(read.get("epochs", []))
    return Transactions(holders, epochs, read_entries(read["entries"]))
