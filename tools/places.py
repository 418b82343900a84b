"""Explains the lines of a report, below each refusal and abort the place in the source or in the file, why it is so, and what to do;
and below each line of a trace its expression."""
import itertools
import json
import re

import advice
import traces
from breaks import Break, are_texts

BROKEN = re.compile(r"(?:(?P<entry>[0-9]{1,9}) deploy|contract) '(?P<contract>\S+) refused (?:E7 ContractRefused )?"
                    r"(?P<rule>[TFOCB][0-9]{1,2}) (?P<name>\w+) (?P<start>[0-9]{1,9})\.\.(?P<end>[0-9]{1,9})")  # fmt: skip
ENDED = re.compile(r"(?P<entry>[0-9]{1,9}) (?:deploy|call) '.* (?P<how>aborted|refused) (?P<rule>[AE][0-9]) \w+(?P<more>(?: \w+)*)\Z")
TRACED = re.compile(r"(?P<entry>[0-9]{1,9}) (?P<start>[0-9]{1,10})\.\.(?P<end>[0-9]{1,10}) (?P<value>(?:[0-9a-f]{2})+)\Z")
BAD_FILE = re.compile(r"bad file (?P<name>.*?) (?P<fault>TooLong|NotJson|Version|GenesisTooBig|TooMany|(?:Field|BadValue|HeightFalls) /.*"
                      r"|(?:Missing|TooBig|Unknown) .*|BadShape .*|BadLine [0-9]+)\Z")  # fmt: skip
BAD_VALUE = re.compile(r"refused (?P<refusal>[A-Z]\w+(?: \w+)?(?: [0-9]{1,9}(?:\.\.[0-9]{1,9})?)?)\Z")


class Sources:
    """The files that a report is about, each read when it is first asked for."""

    def __init__(self, paths):
        self.paths, self.held, self.made = [str(path) for path in paths], {}, None

    def bytes_of(self, path):
        """The bytes of a file, or why it can't be read."""
        if path not in self.held:
            try:
                with open(path, "rb") as file:
                    self.held[path] = file.read(), None
            except OSError as fault:
                self.held[path] = None, f"{path} can't be read: {fault.strerror}"
        return self.held[path]

    def transactions(self):
        """The first transaction file and its members; without members where it is none."""
        for path in self.paths:
            if path.endswith(".json"):
                held, fault = self.bytes_of(path)
                try:
                    return path, json.loads(held.decode("utf-8")) if held is not None else None, fault
                except (ValueError, RecursionError) as fault:
                    return path, None, f"{path} isn't JSON: {fault}"
        return None, None, None

    def entry(self, number):
        """An entry of the transaction file, or nothing."""
        _, file, _ = self.transactions()
        entries = file.get("entries") if isinstance(file, dict) else None
        entry = entries[number] if isinstance(entries, list) and number < len(entries) else None
        return next(iter(entry.items())) if isinstance(entry, dict) and len(entry) == 1 else (None, None)

    def deployed(self, contract, number):
        """The entry before this one that deploys a contract last, or nothing."""
        for place in range(number - 1, -1, -1):
            kind, members = self.entry(place)
            if kind == "deploy" and isinstance(members, dict) and f"{members.get('sender')}.{members.get('name')}" == contract:
                return place
        return None

    def contracts(self):
        """The contracts that the transaction file deploys; none without a file."""
        if self.made is None:
            file = self.transactions()[1]
            entries = file.get("entries") if isinstance(file, dict) else None
            numbers = range(len(entries) if isinstance(entries, list) else 0)
            self.made = traces.Contracts([(kind, members if isinstance(members, dict) else {}) for kind, members in map(self.entry, numbers)])
        return self.made

    def helps_version_2(self, found, source):
        """Whether version 2 may help where a name or a comparison of it breaks a rule of version 1."""
        _, members = self.entry(int(found["entry"])) if found["entry"] else (None, None)
        is_given = isinstance(members, dict) and members.get("clarity") == 2
        return not is_given and (found["rule"] != "C3" or are_texts(source.decode("latin-1"), int(found["start"]), int(found["end"])))

    def source(self, contract, number):
        """What the source of a contract is called, its text byte by byte, and why it isn't found."""
        if number is not None:
            kind, members = self.entry(number)
            if kind == "deploy" and isinstance(members, dict) and isinstance(members.get("source"), str):
                path = self.transactions()[0]
                return f"{path}, entry {number}", members["source"].encode("utf-8", "surrogatepass"), None
        plain = [path for path in self.paths if not path.endswith(".json")]
        name = contract.partition(".")[2]
        named = [path for path in plain if path.rpartition("/")[2] == f"{name}.clar"]
        # `call` deploys its one file as `main`, whatever the file's name.
        named = named or (plain if len(plain) == 1 and name == "main" else [])
        if not named:
            return None, None, self.transactions()[2] or f"no source of {name} is given"
        return named[0], *self.bytes_of(named[0])


def spot(place, source, start):
    """A place as editors read it: the file, the line, and the character in it, both from 1."""
    begin = source.rfind(b"\n", 0, start) + 1
    line, column = source.count(b"\n", 0, start) + 1, len(source[begin:start].decode(errors="replace")) + 1
    return f"{place}:{line}:{column}"


def picture(source, start, end, label=""):
    """The first line of a span, with the span underlined."""
    begin = source.rfind(b"\n", 0, start) + 1
    stop = source.find(b"\n", start)
    line = source[begin : len(source) if stop < 0 else stop].decode(errors="replace").rstrip("\r")
    column = len(source[begin:start].decode(errors="replace"))
    # A place without a byte, such as the end of the text, is one mark.
    width = max(1, min(len(source[start:end].decode(errors="replace")), len(line) - column))
    lead = re.sub(r"[^\t]", " ", line[:column])
    number = str(source.count(b"\n", 0, start) + 1)
    visible = "".join(c if c.isprintable() or c == "\t" else "?" for c in line)
    return [f"  {number} | {visible}", f"  {' ' * len(number)} | {lead}{'^' * width}{label}"]


def shown(place, source, start, end, label=""):
    """The place of a span, and its picture."""
    last = source.count(b"\n", 0, end) + 1
    more = f" (to line {last})" if last > source.count(b"\n", 0, start) + 1 else ""
    return [f"  {spot(place, source, start)}{more}", *picture(source, start, end, label)]


def of_broken(found, files):
    """Where a source breaks a rule, and how it is mended."""
    place, source, fault = files.source(found["contract"], int(found["entry"]) if found["entry"] else None)
    if source is None or int(found["start"]) > len(source):
        advised = advice.of_rules().get(found["rule"], [])
        return [f"  ({fault or f'the place lies behind the end of {place}: it is another source'})"], advised
    broken = Break(found, source, lambda: files.helps_version_2(found, source))
    return shown(place, source, broken.start, broken.end, broken.label), broken.advised


def headline(path, source, broken):
    """A line that says where a source breaks a rule, and which, as editors read it."""
    return f"{spot(path, source, broken.start)}: {broken.rule} {broken.name}: {cause(broken)}".rstrip(": ")


def cause(broken):
    """What breaks the rule."""
    return broken.advised[0][1] if broken.advised else ""


def explained_break(path, source, broken, advised):
    """What is printed of a source that breaks a rule: the headline, the place, and what is advised behind it."""
    return [headline(path, source, broken), *picture(source, broken.start, broken.end, broken.label), *indented(advised)]


def indented(advised):
    return [f"  {word}: {text}" for word, text in advised]


def broken_place(path, source, refusal):
    """The same of a refusal in a report that was read."""
    held = source.encode("utf-8", "surrogatepass")
    return headline(path, held, Break(refusal, held, lambda: False))


def of_claims(found, files):
    """The expression of each line of a trace, of one entry."""
    path, file, fault = files.transactions()
    if file is None:
        return [[f"  ({fault or 'give the transaction file: a line of a trace says no contract'})"]] * len(found)
    number, claims = int(found[0]["entry"]), [(int(claim["start"]), int(claim["end"]), claim["value"]) for claim in found]

    def shown_in(contract, start, end):
        return shown(f"{path}, entry {contract.entry}", contract.source, start, end)

    lines = []
    for (start, end, _), (contracts, walked) in zip(claims, traces.placed(files.contracts(), number, claims)):
        may_be = " or ".join(f"'{contract.principal}, entry {contract.entry}," for contract in contracts)
        if len(contracts) == 1:
            lines.append(shown_in(contracts[0], start, end))
        elif walked:
            lines.append(shown_in(walked, start, end) + ["  (if this is the whole trace of the entry)"])
        elif contracts:
            lines.append([f"  (in {may_be} which the lines given don't say)"])
        else:
            lines.append([f"  (entry {number} of {path} has no expression there: it is of another file)"])
    return lines


def of_ending(found, files):
    """Why an entry ended so, and the condition or the argument of its file that is named."""
    rule, more = found["rule"], found["more"].split()
    lines = []
    part = {"A9": "post", "E5": "args"}.get(rule)
    if part and more and re.fullmatch(r"[0-9]{1,9}", more[-1]):
        _, members = files.entry(int(found["entry"]))
        given = members.get(part) if isinstance(members, dict) else None
        if isinstance(given, list) and int(more[-1]) < len(given):
            called = "condition" if part == "post" else "argument"
            lines.append(f"  {called} {more[-1]}: {json.dumps(given[int(more[-1])])}")
    return lines, advice.of_endings().get(rule, [])


def of_bad_file(found, files):
    """What a file has at the path of its fault."""
    path, file, fault = files.transactions()
    lines = [f"  {fault}"] if fault else []
    steps = found["fault"].partition(" /")[2]
    if file is not None and steps:
        member = file
        for step in steps.split("/"):
            if isinstance(member, list) and re.fullmatch(r"[0-9]{1,9}", step) and int(step) < len(member):
                member = member[int(step)]
            elif isinstance(member, dict) and step in member:
                member = member[step]
            else:
                member = None
                break
        if member is not None:
            text = json.dumps(member)
            lines.append(f"  {path} has there: {text if len(text) <= 160 else text[:160] + ' ..'}")
    return lines, advice.of_fault(found["fault"])


def explained(line, files):
    """What is to be said below a line, and whether the line refuses something."""
    for pattern, explain in ((BROKEN, of_broken), (ENDED, of_ending), (BAD_FILE, of_bad_file)):
        found = pattern.match(line)
        if found:
            lines, advised = explain(found, files)
            return lines + indented(advised), not (pattern is ENDED and found["how"] == "aborted")
    found = BAD_VALUE.match(line)
    if found:
        return indented(advice.of_value(found["refusal"])), True
    return [], False


def text_of(line):
    return line.decode("utf-8", "replace").rstrip("\r\n")


def entry_of(numbered):
    """The entry of a line of a trace; of another line its own number, so that it is alone."""
    found = TRACED.match(text_of(numbered[1]))
    return (True, found["entry"]) if found else (False, numbered[0])


def explain(report, out, paths):
    """Writes each line of a report, and below it what explains it. Gives whether a line refuses something."""
    files, refused = Sources(paths), False
    for (is_traced, _), group in itertools.groupby(enumerate(report), entry_of):
        # The lines of a trace's entry are read together, another line is written as soon as it comes.
        lines = [line for _, line in (group if is_traced else itertools.islice(group, 1))]
        below = of_claims([TRACED.match(text_of(line)) for line in lines], files) if is_traced else []
        for place, line in enumerate(lines):
            out.write(line if line.endswith(b"\n") else line + b"\n")
            out.flush()
            texts, refuses = (below[place], False) if is_traced else explained(text_of(line), files)
            out.write("".join(text + "\n" for text in texts).encode("utf-8", "replace"))
            refused = refused or refuses
    return refused
