"""Changes of a source that mend a broken rule, as docs/MISSING.md and the text of the source say them."""
import re
from typing import NamedTuple

import advice
from breaks import types_of
from items import BLANK, items_of, path_at, path_to, readable_items

VERSION_2 = ";; clarity-version: 2"


class Remedy(NamedTuple):
    """A change: what it does, and the bytes that are replaced, and by what."""

    title: str
    start: int
    end: int
    new: str


def of_break(broken, source, span):
    """The remedies of a break at a span of the bytes of a source."""
    text = source.decode("latin-1")
    word = re.compile(r"[^\s(){},:\";]*").match(text, BLANK.match(text, span.start + text.startswith("(", span.start)).end())
    texts = dict(broken.advised)
    if broken.near:
        item, name = broken.near
        return [Remedy(f"Write {name}", item.start, item.end, name)]
    if texts.get("mended") == f"write '{word[0]}":
        return [Remedy(f"Write '{word[0]}", word.start(), word.start(), "'")]
    if "instead" not in texts:
        return []
    if broken.rule == "T1":
        return escaped(text, span.start)
    if broken.rule in ("C20", "F2"):
        return tuples(text, span)
    form = path_at(readable_items(text), span.start)[:1]
    if form and advice.replacements().get(form[0].head()) == [""]:
        return [left_out(text, form[0])]
    found = [Remedy(f"Write {code} in place of {word[0]}", *word.span(), code) for code in advice.replacements().get(word[0], []) if code]
    return [*([of_version_2(text)] if advice.is_of_version_2(broken.advised) else []), *found]


def of_version_2(text):
    """The comment that makes a source one of version 2, before all that is there."""
    said = re.compile(r"^;;+[ \t]*clarity-version:[^\n]*", re.M).search(BLANK.match(text).group())
    start, end = said.span() if said else (0, 0)
    return Remedy("Make it a contract of version 2", start, end, VERSION_2 if said else VERSION_2 + "\n")


def left_out(text, form):
    """A form is left out, with its line where it has one of its own."""
    end = re.compile(r"[ \t]*(?:\r?\n)?").match(text, form.end).end()
    is_alone = form.start == 0 or text[form.start - 1] == "\n"
    return Remedy(f"Leave out {form.head()}", form.start, end if is_alone else form.end, "")


def escaped(text, at):
    """The characters of a UTF-8 string that aren't ASCII are written by escapes."""
    path = path_at(readable_items(text), at)
    if not path or not (path[-1].text or "").startswith('u"'):
        return []
    held = path[-1].text.encode("latin-1").decode("utf-8", "replace")
    new = re.sub(r"[^\x00-\x7f]", lambda found: f"\\u{{{ord(found[0]):x}}}", held)
    return [Remedy("Write the characters beyond ASCII by escapes", path[-1].start, path[-1].end, new)]


def tuples(text, span):
    """`((k v))` as a tuple."""
    path = path_to(items_of(text), span.start, span.stop)
    if not path:
        return []
    left = types_of(path[-1]) or [path[-1]]
    while left:
        item = left.pop(0)
        pairs = item.items or []
        if pairs and item.is_list() and all(pair.is_list() and len(pair.items) == 2 and pair.items[0].text for pair in pairs):
            new = ", ".join(f"{pair.items[0].text}: {text[pair.items[1].start : pair.items[1].end]}" for pair in pairs)
            return [Remedy("Write it as { }", item.start, item.end, "{" + new + "}")]
        left += pairs
    return []
