"""The cases of crates/cases/data: answering them, comparing what they want with the model's answers, and adding some."""
import json
import pathlib

import commands

DATA = pathlib.Path(__file__).resolve().parents[2] / "crates" / "cases" / "data"
ROOM = 100000
MEMBERS = (
    "name program words files failing_reads failing_writes failing_hearings heard deaf room status output start asked says"
).split()
LISTENERS = ("1", "2", "3")
PROGRAMS = {"clarity": commands.answer, "clarity_lanes": commands.answer_in_lanes}


def read_theme(path):
    number = lambda digits: int(digits) if digits != "-0" else -0.0
    return json.loads(path.read_text(), parse_int=number)


def part(value):
    if isinstance(value, str):
        return value.encode()
    if "json" in value:
        return json.dumps(value["json"], separators=(",", ":"), ensure_ascii=False).encode()
    if "hex" in value:
        return bytes.fromhex(value["hex"])
    if "file" in value:
        return (DATA / value["file"]).read_bytes()
    return value["repeat"].encode() * value["times"]


def content(value):
    """The bytes that a case writes down."""
    if isinstance(value, list):
        return b"".join(line.encode() + b"\n" for line in value)
    if isinstance(value, dict) and "parts" in value:
        return b"".join(map(part, value["parts"]))
    return part(value)


def files_of(theme, case):
    return {**theme.get("files", {}), **case.get("files", {})}


def answer(theme, case):
    """The model's answer to a case, or None where the case is of what the model doesn't know, failing writes."""
    if "failing_writes" in {**theme, **case}:
        return None
    held = {name: content(value) for name, value in files_of(theme, case).items()}
    failing = case.get("failing_reads", theme.get("failing_reads", []))
    words = [content(word).decode() for word in case.get("words", theme.get("words"))]
    program = case.get("program", theme.get("program", "clarity"))
    return PROGRAMS[program](words, commands.Files(held, failing))


def hearings(heard, failing):
    """What each listener hears, and which go deaf, in that order: each gets all events of an entry before the next one does."""
    hears, deaf = {name: [] for name in LISTENERS}, []
    for events in heard:
        for name in LISTENERS:
            for line in events:
                if name in deaf:
                    break
                if len(hears[name]) + 1 in failing.get(name, []):
                    deaf.append(name)
                else:
                    hears[name].append(line)
    return hears, [int(name) for name in deaf]


def differences(theme, case, given):
    """What of a case isn't as the model says."""
    wanted = {**theme, **case}
    whole, room = commands.bytes_of(given.lines), wanted.get("room", ROOM)
    written, status = whole[:room], given.status if len(whole) <= room else 4
    found = []
    if wanted.get("status") != status:
        found.append(f"status {status}")
    is_start = "start" in wanted and written.startswith(content(wanted["start"]))
    if not is_start and ("start" in wanted or written != content(wanted["output"])):
        found.append("writes " + written.decode())
    if "asked" in wanted and wanted["asked"] != given.asked:
        found.append(f"asks for {given.asked}")
    hears, deaf = hearings(given.heard, wanted.get("failing_hearings", {}))
    if deaf != wanted.get("deaf", []):
        found.append(f"leaves {deaf} deaf")
    for name, lines in wanted.get("heard", {}).items():
        if content(lines) != commands.bytes_of(hears[name]):
            found.append(f"lets listener {name} hear {hears[name]}")
    return found


def compare(names):
    """Prints each case that the model answers otherwise, and how many it answers so, theme by theme."""
    different = 0
    for name in names or sorted(path.stem for path in DATA.glob("*.json") if "cases" in read_theme(path)):
        theme = read_theme(DATA / f"{name}.json")
        same = unknown = 0
        for case in theme["cases"]:
            given = answer(theme, case)
            if given is None:
                unknown += 1
                continue
            found = differences(theme, case, given)
            same += not found
            different += bool(found)
            for difference in found:
                print(f"{name}: {case['name']}: {difference[:2000]}")
        print(f"{name}: {same} of {len(theme['cases'])} cases, {unknown} of what the model doesn't know")
    return 1 if different else 0


# ---- adding

class Unfit(Exception):
    """A case that can't be added, and why."""


def check_members(theme, case):
    """Sees that a case has a name and words, and no member that a case can't have."""
    if not isinstance(case, dict) or not isinstance(case.get("name"), str):
        raise Unfit(f"a case without a name: {case}")
    unknown = [name for name in case if name not in MEMBERS]
    if unknown:
        raise Unfit(f"{case['name']}: there is no member {unknown[0]}")
    if not isinstance(case.get("words", theme.get("words")), list):
        raise Unfit(f"{case['name']}: it has no list of words")


def filled(theme, case):
    """The case with the status and the output of the model's answer, where neither it nor its theme has them."""
    check_members(theme, case)
    given = answer(theme, case)
    if given is None:
        raise Unfit(f"{case['name']}: the model doesn't know failing writes")
    case = dict(case)
    says = case.pop("says", "")
    written = "".join(line + "\n" for line in given.lines)
    if says not in written:
        raise Unfit(f"{case['name']}: it says nothing of {says!r}, but {written}")
    if "status" not in case and theme.get("status") != given.status:
        case["status"] = given.status
    if theme.get("output") != given.lines:
        case.setdefault("output", given.lines)
    found = differences(theme, case, given)
    if found:
        raise Unfit(f"{case['name']}: {found}")
    return case


def shown(value):
    return json.dumps(value, ensure_ascii=False)


def write_case(case):
    members = []
    for name, value in case.items():
        if name == "output" and isinstance(value, list) and len(value) > 1:
            members.append('      "output": [\n' + ",\n".join(f"        {shown(line)}" for line in value) + "\n      ]")
        else:
            members.append(f"      {shown(name)}: {shown(value)}")
    return "    {\n" + ",\n".join(members) + "\n    }"


def new_theme(members):
    """The text of a theme that has no cases yet."""
    shared = [f"  {shown(name)}: {shown(value)},\n" for name, value in members.items() if name != "cases"]
    return "{\n" + "".join(shared) + '  "cases": [\n  ]\n}\n'


def with_cases(text, cases):
    """The text of a theme with these cases behind its own."""
    head, end, tail = text.rpartition("\n  ]")
    comma = "" if head.endswith('"cases": [') else ","
    return head + comma + "\n" + ",\n".join(map(write_case, cases)) + end + tail


def add(words):
    """Writes the cases of a file, filled in, behind those of a theme, and how many cases all themes have."""
    name, file = words
    given = read_theme(pathlib.Path(file))
    if not isinstance(given, dict) or not isinstance(given.get("cases"), list):
        print(f"{file}: it has no list of cases")
        return 1
    path = DATA / f"{name}.json"
    text = path.read_text() if path.exists() else new_theme(given)
    theme = json.loads(text)
    names = [case["name"] for case in theme["cases"]]
    try:
        cases = [filled(theme, case) for case in given["cases"]]
        for case in cases:
            if case["name"] in names:
                raise Unfit(f"{case['name']}: there is a case of this name")
            names.append(case["name"])
    except Unfit as error:
        print(error)
        return 1
    path.write_text(with_cases(text, cases))
    count()
    return 0


def count():
    """Lists each theme in `args`, and writes into `stdout` how many cases there are."""
    listed = (DATA.parent / "args").read_text().split()
    there = sorted(path.stem for path in DATA.glob("*.json") if "cases" in read_theme(path))
    themes = [*listed, *(name for name in there if name not in listed)]
    number = sum(len(read_theme(DATA / f"{name}.json")["cases"]) for name in themes)
    (DATA.parent / "args").write_text("".join(f"{name}\n" for name in themes))
    (DATA.parent / "stdout").write_text(f"{number} cases passed\n")
