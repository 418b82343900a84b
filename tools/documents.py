"""Sources that an editor has open. An editor counts lines and UTF-16 units, the engine bytes."""
import bisect
import re

LINE_END = re.compile(rb"\r\n|\n|\r")


def units(text):
    """How many UTF-16 units a piece of a source has."""
    return len(text) if text.isascii() else len(text.decode("utf-8", "surrogatepass").encode("utf-16-le", "surrogatepass")) // 2


class Document:
    """A source by its URI, with the version of its text that the editor counts, or nothing where it isn't open."""

    def __init__(self, uri, text, version=None):
        self.uri, self.version = uri, version
        self.put(text.encode("utf-8", "surrogatepass"))

    def put(self, source):
        """Takes another text, as bytes."""
        self.bytes, self.starts = source, [0] + [end.end() for end in LINE_END.finditer(source)]

    @property
    def text(self):
        """The text, a character a byte."""
        return self.bytes.decode("latin-1")

    def change(self, change):
        """Makes a change as an editor gives it. Raises KeyError, TypeError and ValueError where it is none."""
        new = change["text"].encode("utf-8", "surrogatepass")
        if change.get("range") is None:
            self.put(new)
        else:
            start, end = self.offset(change["range"]["start"]), self.offset(change["range"]["end"])
            self.put(self.bytes[:start] + new + self.bytes[max(start, end) :])

    def offset(self, position):
        """The byte at a position; one behind the end of a line or the text means that end."""
        line, column = position["line"], position["character"]
        if not isinstance(line, int) or not isinstance(column, int) or line < 0 or column < 0:
            raise ValueError(f"{position} is no position")
        if line >= len(self.starts):
            return len(self.bytes)
        begin = self.starts[line]
        end = self.starts[line + 1] if line + 1 < len(self.starts) else len(self.bytes)
        text = self.bytes[begin:end].rstrip(b"\r\n")
        if text.isascii():
            return begin + min(column, len(text))
        # A position in the middle of a character means its start.
        before = text.decode("utf-8", "surrogatepass").encode("utf-16-le", "surrogatepass")[: 2 * column].decode("utf-16-le", "ignore")
        return begin + len(before.encode("utf-8"))

    def position(self, offset):
        """The position of a byte. One within a character means its start."""
        while 0 < offset < len(self.bytes) and self.bytes[offset] & 0xC0 == 0x80:
            offset -= 1
        line = bisect.bisect_right(self.starts, offset) - 1
        return {"line": line, "character": units(self.bytes[self.starts[line] : offset])}

    def range(self, start, end):
        """The range of bytes, with the characters of which they are a part."""
        while start < end < len(self.bytes) and self.bytes[end] & 0xC0 == 0x80:
            end += 1
        return {"start": self.position(start), "end": self.position(end)}
