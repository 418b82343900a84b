"""Texts as they are typed at the console: whether they go on, and names of principals in them."""
import re

from scenarios import QUOTED

# What may hold brackets or quotes that are none, and brackets. A string ends with its line.
PART = re.compile(r';;[^\n]*|"(?:[^"\\\n]|\\.)*(?P<end>"|\n|\Z)|(?P<bracket>[(){}])')
NAMED = re.compile(r";;[^\n]*|" + QUOTED.pattern)


def is_open(text):
    """Whether a bracket is open at the end. A text with a string that its line doesn't close doesn't go on: no text mends it."""
    depth = 0
    for part in PART.finditer(text):
        if part["end"] is not None and part["end"] != '"':
            return False
        depth += {"(": 1, "{": 1, ")": -1, "}": -1}.get(part["bracket"], 0)
    return depth > 0


class Typed:
    """A text as it was typed, in bytes, and the text for the engine, byte by byte, in which each name of a principal behind a quote is
    its address."""

    def __init__(self, text, names):
        self.typed, self.moved = text.encode("utf-8", "replace"), [(0, 0, 0, 0)]
        was, pieces, at, length = self.typed.decode("latin-1"), [], 0, 0
        for found in NAMED.finditer(was):
            if found[1] in names:
                new = names[found[1]]
                pieces += [was[at : found.start(1)], new]
                length += found.start(1) - at
                self.moved.append((length, length + len(new), *found.span(1)))
                length, at = length + len(new), found.end(1)
        self.text = "".join([*pieces, was[at:]])

    def back(self, place):
        """The place in what was typed of one in the text for the engine; of one within an address the end of its name."""
        begin, end, was_begin, was_end = next(moved for moved in reversed(self.moved) if moved[0] <= place)
        return was_begin if place == begin else was_end + max(0, place - end)

    def part(self, item):
        return self.text[item.start : item.end]


def with_names(text, names):
    """A printed text with names in place of addresses."""
    words = {address: word for word, address in names.items()}
    return QUOTED.sub(lambda found: "'" + words.get(found[1], found[1]) if found[1] else found[0], text)
