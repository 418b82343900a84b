"""For bench/language_server.sh: opens every source of the cases in an editor, and compares the rule and the range of its diagnostic with the
rule and the span that the case has. Prints a line for each source: `ok`, or how it differs. With the word `small` it leaves out what
takes the model long: long sources, and those with many contracts before them."""
import json
import pathlib
import re
import sys

sys.dont_write_bytecode = True
sys.path.insert(0, str(pathlib.Path(__file__).resolve().parent.parent / "tools" / "model"))
from cases import DATA, content, files_of  # noqa: E402
from commands import split  # noqa: E402
from editor import Editor  # noqa: E402

MOST_BYTES, MOST_BEFORE = 4000, 8
ADDRESS = "SP000000000000000000002Q6VF78"
DEPLOYED = re.compile(r"(\d+) deploy '(\S+) (done|aborted|refused E7 ContractRefused (\S+ \S+) (\d+)\.\.(\d+)(.*))")
CHECKED = re.compile(r"contract '(\S+?)\.(\S+)(?: refused (\S+ \S+) (\d+)\.\.(\d+)(.*))?\Z")


class Found:
    """A source of a case: its name, its bytes and version, the contracts before it, and the break that the case has: the rule, where
    it begins and ends, and what follows; nothing where it is accepted."""

    def __init__(self, case, name, source, version, before):
        self.case, self.name, self.source, self.version, self.before, self.broken = case, name, source, version, before, None

    def key(self):
        return self.name, self.source, self.version, tuple(self.before)


def broken_of(rule, start, end, more):
    return (rule, int(start), int(end), more.split()) if rule else None


def of_call(case, words, files, lines):
    """The source of a `call`."""
    flags, others = split(words)
    match = DEPLOYED.match(lines[0]) if lines else None
    if match and match[2] == f"{ADDRESS}.main" and others[1] in files:
        found = Found(case, "main", files[others[1]], 2 if "--clarity2" in flags else 1, ())
        found.broken = broken_of(*match.groups()[3:])
        yield found


def of_check(case, words, files, lines):
    """The sources of a `check`."""
    flags, others = split(words)
    version, before = 2 if "--clarity2" in flags else 1, ()
    held = {path.rpartition("/")[2][:-5]: files.get(path) for path in others[3:]}
    for line in lines:
        match = CHECKED.match(line)
        if match and match[1] == ADDRESS == others[2] and held.get(match[2]) is not None:
            found = Found(case, match[2], held[match[2]], version, before)
            found.broken = broken_of(*match.groups()[2:])
            if has_unit_table(words, files) or not found.broken or found.broken[0] != "B1 BoundTooLarge":
                yield found
            before += ((found.name, found.source, version),)


def has_unit_table(words, files):
    """Whether bounds are those that an editor shows."""
    return files.get(split(words)[1][1]) == (DATA / "unit.json").read_bytes()


def of_run(case, words, files, lines):
    """The sources of the deployments of a `run`: of another address those that call no contract, and under another table those whose
    bounds are no matter."""
    try:
        entries = json.loads(files[words[2]])["entries"]
    except (ValueError, KeyError, TypeError, IndexError):
        return
    before, is_unit = (), has_unit_table(words, files) and "epochs" not in json.loads(files[words[2]])
    for match in filter(None, map(DEPLOYED.match, lines)):
        members = entries[int(match[1])].get("deploy", {})
        if match[2] != f"{members.get('sender')}.{members.get('name')}":
            continue
        source = members["source"].encode("utf-8", "surrogatepass")
        found = Found(case, members["name"], source, members.get("clarity", 1), before)
        found.broken = broken_of(*match.groups()[3:])
        is_alike = is_unit or not found.broken or found.broken[0] != "B1 BoundTooLarge"
        if is_alike and (members["sender"] == ADDRESS or b"contract-call?" not in source):
            yield found
        if members["sender"] == ADDRESS and match[3] == "done":
            before += ((found.name, source, found.version),)


def sources():
    """Each source of the cases once."""
    seen = set()
    for path in sorted(DATA.glob("*.json")):
        theme = json.loads(path.read_text())
        for case in theme.get("cases", []) if isinstance(theme, dict) else []:
            words, output = case.get("words", theme.get("words")), case.get("output")
            if not words or output is None or words[0] not in ("call", "check", "run"):
                continue
            files = {name: content(value) for name, value in files_of(theme, case).items()}
            lines = content(output).decode("utf-8", "surrogateescape").split("\n")
            words = [content(word).decode("utf-8", "surrogateescape") for word in words]
            for found in {"call": of_call, "check": of_check, "run": of_run}[words[0]](f"{path.stem}: {case['name']}", words, files, lines):
                if found.key() not in seen:
                    seen.add(found.key())
                    yield found


def position(source, at):
    """The line and the UTF-16 column of a byte."""
    before = re.split(rb"\r\n|\n|\r", source[:at])
    # A line feed whose carriage return is before it begins no line of its own.
    column = len(before[-1].decode("utf-8", "ignore").encode("utf-16-le")) // 2
    return {"line": len(before) - 1, "character": column}


def end_of(source, at):
    """The end of the character that a byte before this place is part of."""
    while at < len(source) and source[at] & 0xC0 == 0x80:
        at += 1
    return at


class Cases:
    """An editor with the contracts open that come before the source of a case."""

    def __init__(self):
        self.editor, self.open, self.number = Editor(), {}, 0

    def have(self, before):
        """Opens these contracts, and closes others."""
        wanted = {name: (source, version) for name, source, version in before}
        for name in [name for name, held in self.open.items() if wanted.get(name) != held]:
            self.editor.close(uri_of(name))
            del self.open[name]
        for name, (source, version) in wanted.items():
            if name not in self.open:
                self.editor.open(uri_of(name), f";; clarity-version: {version}\n" + source.decode("ascii"))
                self.open[name] = source, version

    def differs(self, found):
        """How the diagnostic of a source differs, or nothing."""
        self.number += 1
        self.have([one for one in found.before if one[0] != found.name])
        self.editor.tell("workspace/didChangeConfiguration", {"settings": {"clarity": {"version": found.version}}})
        self.editor.open(uri_of(found.name), found.source.decode("utf-8"), self.number)
        shown = self.editor.diagnostics(uri_of(found.name), self.number)
        self.editor.close(uri_of(found.name))
        return unlike(found, shown)


def uri_of(name):
    return f"file:///cases/{name}.clar"


def unlike(found, shown):
    """How diagnostics aren't those of a source, or nothing."""
    if shown is None or found.broken is None:
        return f"{shown}, accepted wanted" if shown != [] else None
    rule, start, end, names = found.broken
    place = {"start": position(found.source, start), "end": position(found.source, end_of(found.source, end))}
    came = [(one["code"], one["range"]) for one in shown]
    if came != [(rule, place)]:
        return f"{came}, wanted {rule} {place}"
    return None if all(name in shown[0]["message"] for name in names) else f"{shown[0]['message']} lacks {names}"


def main():
    cases, left_out = Cases(), 0
    for found in sources():
        try:
            found.source.decode("utf-8")
        except UnicodeDecodeError:
            # An editor has no such text.
            left_out += 1
            continue
        if sys.argv[1:] == ["small"] and (len(found.source) > MOST_BYTES or len(found.before) > MOST_BEFORE):
            left_out += 1
            continue
        how = cases.differs(found)
        print(f"differs: {found.case}, {found.name}: {how}"[:2000] if how else "ok", flush=True)
    print(f"{left_out} sources are left out", file=sys.stderr)
    status = cases.editor.end()
    print("ok" if status == 0 else f"differs: status {status}")


main()
