"""Items of a source with their places.

The texts of sources are taken byte by byte, one character each, so places are those that the program prints. The reader is for texts
that the program could read; what it can't read has no items.
"""
import functools
import re

BLANK = re.compile(r"(?:[ \t\r\n]+|;;[^\n]*)*")
# Each token with the blanks before it. A byte that begins none is a piece of its own.
PIECES = re.compile(rf"""({BLANK.pattern})(u?"(?:[^"\\]|\\.)*"|[(){{}},:]|[^ \t\r\n(){{}},:";]+|.|\Z)""", re.S)
OPENING, CLOSING, UNREADABLE = ("(", "{"), {")": "(", "}": "{"}, ('"', ";")
MARKS = frozenset([*OPENING, *CLOSING, *UNREADABLE, ":", ",", ""])
# How many brackets may be open (docs/LANGUAGE.md).
MOST_OPEN = 64
FUNCTIONS = ("define-public", "define-read-only", "define-private")


class Item:
    """An item of a source: a token with its text; a list with its items; or a tuple, whose items are its values."""

    __slots__ = ("start", "end", "text", "items", "opening")

    def __init__(self, start, text=None, items=None, opening=None):
        self.start, self.end, self.text, self.items, self.opening = start, None, text, items, opening

    def is_list(self):
        return self.opening == "("

    def head(self):
        """The operator of a list, or nothing."""
        return self.items[0].text if self.is_list() and self.items else None


@functools.lru_cache(maxsize=4)
def items_of(text):
    """The items of a source, or nothing where its text can't be read."""
    opened = [Item(0, items=[])]
    return opened[0].items if _read(text, opened) and len(opened) == 1 else None


@functools.lru_cache(maxsize=16)
def readable_items(text):
    """The items of a source that is being written: what can't be read is passed over, and a definition that begins a line closes what is
    open before it."""
    opened = [Item(0, items=[])]
    _read(text, opened, is_in_writing=True)
    _close(opened, len(text))
    return opened[0].items


def _read(text, opened, is_in_writing=False):
    """Reads items into those that are open, the innermost last. Whether all could be read; nothing is read behind what couldn't, unless the
    text is in writing. An editor is answered as fast as this loop is."""
    end, items = 0, opened[-1].items
    for blank, word in PIECES.findall(text):
        at = end + len(blank)
        end = at + len(word)
        if word not in MARKS:
            item = Item(at, word)
            item.end = end
            items.append(item)
        elif word in OPENING:
            if is_in_writing and len(opened) > MOST_OPEN:
                continue
            if is_in_writing and text.startswith("(define-", at) and text[at - 1 : at] in ("", "\n"):
                _close(opened, at)
            item = Item(at, None, [], word)
            opened[-1].items.append(item)
            opened.append(item)
            items = item.items
        elif word in CLOSING:
            if opened[-1].opening == CLOSING[word]:
                opened.pop().end = end
                items = opened[-1].items
            elif not is_in_writing:
                return False
        elif word == ":":
            # What comes before it is a key, and no part that is evaluated.
            del items[-1:]
        elif word in UNREADABLE and not is_in_writing:
            return False
    return True


def _close(opened, end):
    """Closes what is open, at this place."""
    for item in opened[1:]:
        item.end = end
    del opened[1:]


def path_to(items, start, end):
    """The items from the top down to the one with this span; none where there is no such item."""
    for item in items or []:
        if (item.start, item.end) == (start, end):
            return [item]
        if item.start <= start and end <= item.end and item.items:
            below = path_to(item.items, start, end)
            if below:
                return [item, *below]
    return []


def path_at(items, at):
    """The items from the top down to the innermost one that has this place in it, or else ends there."""
    path = []
    while True:
        found = [item for item in items or [] if item.start <= at <= item.end]
        if not found:
            return path
        path.append(next((item for item in found if at < item.end), found[0]))
        items = path[-1].items


def seconds(pairs):
    """The second part of each pair."""
    return [part for pair in pairs for part in (pair.items or [])[1:2]]
