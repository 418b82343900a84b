"""What the pages of docs/ say of each rule, abort, refusal and fault, and of what is missing, without their Markdown: the tables there,
and the list of MISSING, are the one place that has these texts."""
import functools
import pathlib
import re

DOCS = pathlib.Path(__file__).resolve().parent.parent / "docs"
# The head of an item of the language's lists, and names in it that share the marks behind them.
NATIVES = re.compile(r"- `[^`]*`[*²]*(?:,? `[^`]*`[*²]*)*(?:, a literal)?: ")
GROUP = re.compile(r"`[^`]*`[*²]*(?: `[^`]*`[*²]*)*")


def quoted(found):
    """A piece of code: a word as it is, a sign in quotes."""
    code = found[1]
    return code if any(c.isalnum() for c in code) or '"' in code else f'"{code}"'


def plain(cell):
    """The text of a cell of a table without Markdown."""
    cell = re.sub(r"\[([^\]]*)\]\([^)]*\)", r"\1", cell.replace("\\|", "|"))
    return re.sub(r"\*\*([^*]+)\*\*", r"\1", re.sub(r"`([^`]*)`", quoted, cell)).strip()


def text_of(page):
    """The text of a page; of one that isn't there none."""
    try:
        return (DOCS / page).read_text(encoding="utf-8")
    except (OSError, UnicodeDecodeError):
        return ""


@functools.cache
def rows(page):
    """The rows of the tables of a page, each the words in `..` of its first cell and its other cells."""
    found = []
    for line in text_of(page).splitlines():
        cells = re.split(r"(?<!\\)\|", line)[1:-1] if line.startswith("|") else []
        if len(cells) > 1:
            found.append((re.findall(r"`([^`]*)`", cells[0]), [plain(cell) for cell in cells[1:]]))
    return found


@functools.cache
def of_rules():
    """What breaks each rule of a source, and how it is mended."""
    says = {}
    for words, cells in rows("RULES.md"):
        found = re.fullmatch(r"([TFOCB]\d+) \w+", words[0]) if words else None
        if found:
            says[found[1]] = [("broken", cells[0]), ("mended", cells[-1])]
    return says


@functools.cache
def of_endings():
    """Why an entry is aborted or refused, and what to do."""
    says = {}
    for words, cells in rows("REPORT.md"):
        found = re.match(r"(?:aborted|refused) ([AE]\d) ", words[0]) if words else None
        if found and len(cells) == 2:
            says[found[1]] = list(zip(("why", "do"), cells))
    return says


def of_fault(fault):
    """Where a fault of a file comes, and what to do: by the row of its path, as `/epochs/I/height`, else by that of its word, of which
    `Field` and `BadValue` of the top members have one of their own."""
    word, _, path = fault.partition(" ")
    is_top = path.count("/") == 1 and word in ("Field", "BadValue")
    wanted = (f"{word} " + re.sub(r"/[0-9]+", "/I", path), f"{word} /NAME" if is_top else f"{word} PATH", word)
    found = {}
    for page in ("FILES.md", "COSTS.md"):
        for words, cells in rows(page):
            for name in words:
                # Of a fault that names what it is about, as `Missing NAME`, the word alone counts.
                found.setdefault(name if name in wanted else name.partition(" ")[0], cells)
    cells = next((found[name] for name in wanted if name in found), [])
    return list(zip(("why", "do"), cells)) if len(cells) == 2 else [("do", cells[-1])] if cells else []


def of_value(refusal):
    """Why a word is no value, and what to do."""
    word = refusal.split(" ")[0]
    if re.fullmatch(r"T\d+", word):
        return of_rules().get(word, [])
    # A text is refused at a span, a wire form at a byte or nowhere.
    for words, cells in rows("TEXT.md" if ".." in refusal else "WIRE.md"):
        if words == [word] and len(cells) in (2, 3):
            return [("why", cells[0]), ("do", cells[-1])]
    return []


class Row:
    """What the language's lists say of a native, a keyword or a define word: the heading above, which has its charge, its items, and
    whether it is of version 2 alone, and can be given by name."""

    def __init__(self, heading, marks):
        self.heading, self.items, self.is_of_version_2, self.is_given_by_name = heading, [], "²" in marks, "*" in marks


@functools.cache
def natives():
    """The rows of the natives, the keywords and the define words, by their names."""
    found, heading = {}, ""
    for line in text_of("LANGUAGE.md").splitlines():
        line = re.sub(r"\[([^\]]*)\]\([^)]*\)", r"\1", line)
        heading = line.lstrip("# ") if line.startswith("#") else heading
        head = NATIVES.match(line)
        for group in GROUP.findall(head[0]) if head else []:
            for code in re.findall(r"`\(?([^` )]*)[^`]*`", group):
                if code != "name" and re.fullmatch(r"[a-z][a-z0-9!?/-]*|[-+*/<>]=?", code):
                    row = found.setdefault(code, Row(heading, group.rpartition("`")[2]))
                    row.items += [line[2:]] if line[2:] not in row.items else []
    return found


@functools.cache
def reserved():
    """The natives, and the names that `F4` refuses."""
    names = list(missing())
    return set(natives()) | set(names[: names.index("<trait>")] if "<trait>" in names else [])


@functools.cache
def left_out():
    """The items of MISSING: the names and forms of each, what they are, and what to write instead. The head of a form may have other
    words behind it."""
    items = re.findall(r"^- (.*?): (.*); instead: (.*)$", text_of("MISSING.md"), re.M)
    found = [(re.findall(r"`([^`]*)`", head) or [head], what, instead) for head, what, instead in items]
    return [(words[:1] if " " in words[0] else words, what, instead) for words, what, instead in found]


@functools.cache
def missing():
    """The names and forms of Clarity that this engine leaves out, each with what it is and what to write instead. The names of an
    item share its texts."""
    return {word: [plain(what), plain(instead)] for words, what, instead in left_out() for word in words}


@functools.cache
def replacements():
    """For each name of Clarity that is left out, what may be written in its place: natives and expressions with which its remedy
    begins; of a line that is left out nothing."""
    found = {}
    for words, _, instead in left_out():
        codes = re.findall(r"`([^`]*)`", re.match(r"(?:`[^`]*`(?:,? or |, )?)*", instead)[0])
        known = [code for code in codes if all(word in natives() for word in re.findall(r"[^() ]+", code))]
        found.update(dict.fromkeys(words, [""] if re.match("leave (?:it|the line) out", instead) else known))
    return found


def is_of_version_2(said):
    """Whether what is said of a missing name is that version 2 has it."""
    return any(word == "instead" and text.startswith("--clarity2") for word, text in said)


def of_missing(rule, piece):
    """What is said of a piece of a source in place of the advice of its rule, where it is of Clarity and left out here."""
    first = re.match(r"\(?\s*([^\s(){},:\";]+)", piece)
    name = first[1] if first else ""
    if rule == "T1" and piece >= "\x80":
        name = said = next((head for head in missing() if head.startswith("characters beyond ASCII")), "")
    elif rule == "T2" and re.match(r"<[A-Za-z]", name) or rule in ("T2", "T9") and name.count(".") > 1:
        said = "<trait>"
    elif rule == "C20" and re.match(r"\(\s*\(\s*[A-Za-z]", piece) or rule == "F2" and re.search(r"\(\s*\(\s*[A-Za-z]", piece):
        said = name = "((k v))"
    elif rule == "C3" and name in ("<", "<=", ">", ">="):
        said = "<"
    else:
        said = name if rule in ("F4", "C1") else None
    cells = missing().get(said)
    return [("broken", f"{name}: {cells[0]}"), ("instead", cells[1])] if cells else []
