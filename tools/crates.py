"""The crates of this repository as their texts are: crates.txt with its layers and sentences, and the functions and clauses of code."""

import functools
import re

from commands import ROOT

TEXTS = (".rt", ".antt", ".edit")
FUNCTION = re.compile(r"^( *)(?:pub(?:\([^)]*\))? )?(?:const |unsafe |extern \"C\" )*fn ((?:r#)?\w+)", re.M)
CLAUSE = re.compile(r"^ *((?:requires|ensures)\b *(?:\w+ )?)[^{\n]*\{", re.M)


class Row:
    """A crate as crates.txt has it: its layer, its sentence or None, and the libraries that it stands on."""

    def __init__(self, layer, sentence, uses):
        self.layer, self.sentence, self.uses = layer, sentence, uses


@functools.lru_cache(maxsize=None)
def rows():
    """Of each crate its row, in the order of crates.txt. A layer begins with a line `# == NAME`; a line `# CRATE: SENTENCE` is before a
    crate's own."""
    found, layer, sentences = {}, None, {}
    for line in (ROOT / "crates.txt").read_text(encoding="utf-8").split("\n"):
        named, row = re.match(r"# (\w+): (.+)", line), re.match(r" *(\w+)[^:#]*:([^#]*)", line)
        if line.startswith("# == "):
            layer = line.removeprefix("# == ").strip()
        elif named:
            sentences[named[1]] = named[2].strip()
        elif row:
            found[row[1]] = Row(layer, sentences.get(row[1]), row[2].split())
    return found


def own_uses(crate):
    """The crates of the repository that a crate's line names."""
    return [dep for dep in rows()[crate].uses if dep in rows()]


@functools.lru_cache(maxsize=None)
def below(crate):
    """The crates of the repository that a crate stands on, itself left out."""
    return frozenset(own_uses(crate)).union(*map(below, own_uses(crate)))


def files(crate, folder, ending):
    return sorted(path for path in (ROOT / "crates" / crate / folder).rglob(f"*{ending}"))


def text_of(path):
    return path.read_text(encoding="utf-8")


def texts(crate):
    """Every text of a crate that its proof or its wrong bodies read."""
    return [path for part in ("src", "specs", "proofs", "must-fail") for ending in TEXTS for path in files(crate, part, ending)]


def first_sentence(crate):
    """The first sentence of the comment at the head of the crate's code, or None."""
    heads = [path for name in ("lib.rt", "main.rt") for path in files(crate, "src", name) if path.parent.name == "src"]
    head = re.match(r"(?://!? ?[^\n]*\n)+", text_of(heads[0])) if heads else None
    if not head:
        return None
    lines = re.sub(r"^//!? ?", "", head[0], flags=re.M).split("\n\n")[0]
    return re.match(r"(.*?)(?:\.(?= [A-Z]|$)|$)", " ".join(lines.split()))[1]


def is_same_sentence(one, other):
    """Whether two sentences are one, whatever their first letter's case and their full stop."""
    plain = [it[:1].lower() + it[1:].rstrip(".") for it in (one or "", other or "")]
    return plain[0] == plain[1]


@functools.lru_cache(maxsize=None)
def without_comments(text):
    """The text with its comments and the content of its strings blank, so that places stay the same."""
    found = re.compile(r'//[^\n]*|/\*.*?\*/|b?"(?:\\.|[^"\\])*"|b?\'(?:\\.[^\']*|[^\'\\])\'', re.S)
    blank = lambda match: re.sub(r"[^\n]", " ", match.group())
    return found.sub(blank, text)


def closed(text, start):
    """The place behind the bracket that closes the one at this place, or the end of the text."""
    depth = 0
    for at in range(start, len(text)):
        depth += (text[at] in "([{") - (text[at] in ")]}")
        if depth == 0:
            return at + 1
    return len(text)


def behind_types(text, start):
    """The place of the bracket that opens the parameters of a function whose name ends at this place."""
    depth = 0
    for at in range(start, len(text)):
        depth += (text[at] == "<") - (text[at] == ">" and text[at - 1] != "-")
        if depth == 0:
            return text.index("(", at)
    return len(text)


def parameters_of(text, start):
    """How many parameters the function takes whose name ends at this place, and the place behind them."""
    at = behind_types(text, start)
    end = closed(text, at)
    depth = commas = angle = 0
    inner = text[at + 1 : end - 1]
    for here, byte in enumerate(inner):
        depth += (byte in "([{") - (byte in ")]}")
        angle += (byte == "<") - (byte == ">" and inner[here - 1] != "-")
        commas += byte == "," and depth == 0 and angle == 0
    kept = inner.rstrip().rstrip(",").strip()
    return (commas + (not inner.rstrip().endswith(",")) if kept else 0), end


def body_of(text, start):
    """Where the body of a function whose parameters end here begins, and the place behind it; None where it has none."""
    at = start
    while at < len(text):
        line_end = text.find("\n", at)
        clause = CLAUSE.match(text, at)
        if clause:
            at = closed(text, clause.end() - 1)
        elif text[at] == "{":
            return at, closed(text, at)
        elif text[at] == ";":
            return None
        else:
            at += 1
        if line_end < 0 and at >= len(text):
            return None
    return None


class Function:
    """A function: its name, line, number of parameters, lines, and its body without comments and strings, if it has one."""

    def __init__(self, bare, match):
        self.name = match.group(2)
        self.parameters, end = parameters_of(bare, match.end())
        body = body_of(bare, end)
        self.line = bare.count("\n", 0, match.start()) + 1
        self.body = bare[body[0] : body[1]] if body else None
        self.lines = bare.count("\n", match.start(), body[1]) + 1 if body else 1


def functions_of(text):
    bare = without_comments(text)
    return [Function(bare, match) for match in FUNCTION.finditer(bare)]


class Clause:
    """A clause: its words before the bracket, its line, and the width of its widest line."""

    def __init__(self, text, bare, match):
        rows_of_it = text[match.start() : closed(bare, match.end() - 1)].split("\n")
        self.words, self.line = match.group(1).strip(), bare.count("\n", 0, match.start()) + 1
        self.width = max(map(len, rows_of_it))


def clauses_of(text):
    bare = without_comments(text)
    return [Clause(text, bare, match) for match in CLAUSE.finditer(bare)]
