"""The form that this repository is held to: limits of functions and clauses, and crates.txt beside the code and ARCHITECTURE."""

import collections
import functools
import re
import subprocess

import crates
from commands import ROOT
from crates import files, text_of

PARAMETERS, LINES, COLUMNS = 6, 40, 100
KNOWN, PAGE = "tools/shape.known", "docs/ARCHITECTURE.md"
BEGIN, END = "<!-- layers: tools/shape --write -->\n```\n", "```\n<!-- end of layers -->\n"
# An audit judges an evaluation, so its crates stand on none that evaluates.
AUDITOR, EVALUATION = "The auditor", "Evaluation"


# ---- functions and clauses


def callers(crate):
    """The names of a crate's functions, each with those that its body calls, by name alone."""
    calls = collections.defaultdict(set)
    for path in files(crate, "src", ".rt"):
        for function in crates.functions_of(text_of(path)):
            calls[function.name] |= set(re.findall(r"\b(\w+)(?:::<[^>]*>)?\(", function.body or ""))
    return {name: {it for it in called if it in calls} for name, called in calls.items()}


@functools.lru_cache(maxsize=None)
def in_cycle(crate):
    """The names of the functions of a crate that call themselves, maybe through others."""
    calls = callers(crate)

    def reached(name):
        found, left = set(), [name]
        while left:
            new = calls[left.pop()] - found
            found |= new
            left += new
        return found

    return {name for name in calls if name in reached(name)}


def is_one_match(body):
    """Whether a body is one match that has an arm for each variant, and none for all others."""
    inner = (body or "{}")[1:-1].strip()
    opens = inner.find("{")
    if not inner.startswith("match ") or opens < 0 or crates.closed(inner, opens) != len(inner):
        return False
    arms, depth = "", 0
    for letter in inner[opens + 1 : -1]:
        depth -= letter in ")]}"
        arms += letter if depth == 0 else ""
        depth += letter in "([{"
    return not re.search(r"(?:^|[,}])\s*[a-z_]\w*\s*=>", arms)


def over_limits(crate, function):
    """What of a function is over a limit: what it is, and its number."""
    most = PARAMETERS
    if function.parameters == most + 1 and function.name in in_cycle(crate):
        most += 1
    if function.parameters > most:
        yield "parameters", function.parameters
    if function.lines > LINES and not is_one_match(function.body):
        yield "lines", function.lines


def over_in_file(crate, path):
    """The same of a file's functions and clauses, with the words that say where."""
    text, place = text_of(path), path.relative_to(ROOT)
    functions, clauses = crates.functions_of(text), crates.clauses_of(text)
    ends = [function.line for function in functions[1:]] + [float("inf")]
    for function, end in zip(functions, ends):
        for what, number in over_limits(crate, function):
            yield f"{place} {function.name}: {what}", number
        for clause in clauses:
            if function.line <= clause.line < end and clause.width > COLUMNS:
                yield f"{place} {function.name} {clause.words}: columns", clause.width


# ---- crates.txt


def needless(crate):
    """The crates of the repository that a crate's line names, and none of its texts."""
    words = set()
    for path in crates.texts(crate):
        words |= set(re.findall(r"\w+", text_of(path)))
    return [dep for dep in crates.own_uses(crate) if dep not in words]


def said_of_crate(crate, row, before):
    """What a crate's lines in crates.txt lack, what its code says otherwise, and what it stands on wrongly."""
    if not row.layer:
        yield f"{crate}: no layer"
    if not row.sentence:
        yield f"{crate}: no sentence"
    elif not crates.is_same_sentence(row.sentence, crates.first_sentence(crate)):
        yield f"{crate}: its code begins with another sentence"
    yield from (f"{crate}: before {dep}" for dep in crates.own_uses(crate) if dep not in before)
    yield from (f"{crate}: no text names {dep}" for dep in needless(crate))
    if row.layer == AUDITOR:
        evaluators = [dep for dep in sorted(crates.below(crate)) if crates.rows()[dep].layer == EVALUATION]
        yield from (f"{crate}: an auditor over {dep}" for dep in evaluators)


# ---- the page on architecture


def layers():
    """The crates of each layer, lowest first."""
    found = {}
    for crate, row in crates.rows().items():
        found.setdefault(row.layer or "", []).append(crate)
    return found


def right_below():
    """Of each layer those that it stands on by none of its other layers."""
    near, far = {}, {}
    for layer, names in layers().items():
        under = {crates.rows()[dep].layer or "" for name in names for dep in crates.own_uses(name)} - {layer}
        deeper = set().union(*(far.get(it, set()) for it in under))
        near[layer], far[layer] = [it for it in near if it in under - deeper], under | deeper
    return near


def drawn():
    """The layers with their crates and sentences, as the page shows them."""
    near, lines = right_below(), []
    for layer, names in layers().items():
        lines.append(layer + (f", over {', '.join(near[layer])}" if near[layer] else ""))
        width = max(map(len, names))
        lines += [f"  {name:{width}}  {crates.rows()[name].sentence or ''}".rstrip() for name in names]
    return "\n".join(lines) + "\n"


def page_parts():
    """The page before its layers, they, and what follows; None where it has no marks."""
    path = ROOT / PAGE
    text = text_of(path) if path.is_file() else ""
    if BEGIN not in text or END not in text:
        return None
    before, rest = text.split(BEGIN, 1)
    return before, *rest.split(END, 1)


# ---- what is known


def known_in(text):
    """Of each line of the list its number, or 1 where it has none."""
    found = {}
    for line in text.split("\n"):
        if line and not line.startswith("#"):
            words, _, number = line.rpartition(" ")
            found.update({words: int(number)} if number.isdigit() else {line: 1})
    return found


def known_line(words, number):
    """A line of the list: what is counted ends with its number."""
    return f"{words} {number}" if words.endswith(("parameters", "lines", "columns")) else words


def known_now():
    path = ROOT / KNOWN
    return text_of(path) if path.is_file() else ""


def committed():
    """The list as the last commit has it, or None."""
    one = subprocess.run(["git", "-C", str(ROOT), "show", f"HEAD:{KNOWN}"], stdout=subprocess.PIPE, stderr=subprocess.DEVNULL, text=True)
    return known_in(one.stdout) if one.returncode == 0 else None


def found():
    """All that the crates are found with: the words of a line of the list, and its number."""
    every, before, counts = {}, set(), collections.Counter()
    for crate, row in crates.rows().items():
        said = [(words, 1) for words in said_of_crate(crate, row, before)]
        for words, number in said + [it for path in files(crate, "src", ".rt") for it in over_in_file(crate, path)]:
            counts[words] += 1
            place, colon, what = words.rpartition(": ")
            # (two functions of one file may have one name)
            every[words if counts[words] == 1 else f"{place} ({counts[words]}){colon}{what}"] = number
        before.add(crate)
    return every


def kinds(known):
    """How many lines of a list are of each kind."""
    return collections.Counter(re.sub(r"^.*: |(?<=names|efore| over) \w+$", "", words) for words in known)


def findings():
    """A line for each finding."""
    known, every, before = known_in(known_now()), found(), committed()
    yield from (known_line(words, number) for words, number in every.items() if number > known.get(words, 0))
    for words, number in known.items():
        if every.get(words, 0) < number:
            yield f"{KNOWN}: no more: {known_line(words, number)}"
    if before is not None:
        more = kinds(known) - kinds(before)
        yield from (f"{KNOWN}: {count} more than in the last commit: {kind}" for kind, count in sorted(more.items()))
    parts = page_parts()
    if parts is None or parts[1] != drawn():
        yield f"{PAGE}: its layers aren't those of crates.txt: tools/shape --write"


def write():
    """Draws the layers, and takes from the list of known ones what is no more."""
    parts, text = page_parts(), known_now()
    if parts:
        (ROOT / PAGE).write_text(f"{parts[0]}{BEGIN}{drawn()}{END}{parts[2]}", encoding="utf-8")
    if text:
        every, head = found(), [line for line in text.split("\n") if line.startswith("#")]
        kept = [known_line(words, min(number, every[words])) for words, number in known_in(text).items() if words in every]
        (ROOT / KNOWN).write_text("\n".join([*head, *kept]) + "\n", encoding="utf-8")
