"""The sources of the folders that an editor has open: each is a contract with the name of its file."""
import functools
import glob
import os
import pathlib
import re
import urllib.parse

from calls import called_by, ordered
from documents import Document
from items import BLANK
from judging import Source
from values import CONTRACT_NAME

VERSION = re.compile(r"^;;+[ \t]*clarity-version:[ \t]*(\S*)", re.M)
# The longest name of a contract, and that of a file whose name is none.
LONGEST_NAME, UNNAMED = 40, "unnamed"
# A folder is read up to so many sources.
MOST_FILES = 10000


@functools.lru_cache(maxsize=4096)
def path_of(uri):
    """The path of a file's URI, or nothing."""
    parts = urllib.parse.urlsplit(uri)
    return urllib.parse.unquote(parts.path) if parts.scheme == "file" else None


def beside(name, uri):
    """The path of the source of a contract in the folder of another source, or nothing."""
    path = path_of(uri)
    return f"{path.rpartition('/')[0]}/{name}.clar" if path else None


@functools.lru_cache(maxsize=4096)
def name_of(uri):
    """The contract's name of a source."""
    name = name_in(urllib.parse.unquote(urllib.parse.urlsplit(uri).path))
    return name if CONTRACT_NAME.match(name) and len(name) <= LONGEST_NAME else UNNAMED


def name_in(path):
    return path.rpartition("/")[2].removesuffix(".clar")


def version_comment(document):
    """The comment `;; clarity-version: 2` before the first item of a source, as a match, or nothing."""
    return VERSION.search(BLANK.match(document.text).group())


def sources_below(folder):
    """The paths of the sources below a folder, but for those in hidden folders and packages of others."""
    found = []
    for above, folders, files in os.walk(folder):
        folders[:] = sorted(one for one in folders if not one.startswith(".") and one != "node_modules")
        found += [os.path.join(above, one) for one in sorted(files) if one.endswith(".clar")]
        if len(found) > MOST_FILES:
            break
    return found


class Workspace:
    """Open documents by their URIs, folders, the sources below them by their names, and the version of a source that says none."""

    def __init__(self):
        self.open, self.paths, self.folders, self.listed, self.read, self.version = {}, {}, [], {}, {}, 1

    def add(self, document):
        """Takes a document that is opened. Editors write the URI of a file in one way or another, so it is found by its path."""
        self.open[document.uri] = self.paths[path_of(document.uri)] = document

    def remove(self, document):
        del self.open[document.uri]
        self.paths.pop(path_of(document.uri), None)

    def list(self):
        """Looks which sources are there."""
        self.listed = {}
        for path in [path for folder in self.folders for path in sources_below(folder)]:
            paths = self.listed.setdefault(name_in(path), [])
            paths += [path] if path not in paths else []

    def names(self, near):
        """The names of the contracts that a source may call."""
        there = glob.glob(f"{glob.escape(path_of(near).rpartition('/')[0])}/*.clar") if path_of(near) else []
        return sorted({*self.listed, *map(name_in, there), *map(name_of, self.open)} - {name_of(near), UNNAMED})

    def find(self, name, near):
        """The source of a contract that another source names: the one beside it, or else the first below the folders; nothing where there
        is none."""
        for path in filter(None, [beside(name, near), *self.listed.get(name, [])]):
            found = self.paths.get(path) or self.kept(path)
            if found:
                return found
        return next((self.open[uri] for uri in self.open if name_of(uri) == name), None)

    def kept(self, path):
        """The document of a file, which is read where it changed."""
        try:
            state = os.stat(path)
            seen = state.st_mtime_ns, state.st_size
            if self.read.get(path, (None, None))[0] != seen:
                document = Document(pathlib.Path(path).as_uri(), "")
                document.put(pathlib.Path(path).read_bytes())
                self.read[path] = seen, document
            return self.read[path][1]
        except OSError:
            self.read.pop(path, None)
            return None

    def others(self):
        """All sources of the folders, open ones as they are written."""
        paths = [path for paths in self.listed.values() for path in paths if path not in self.paths]
        return [*self.open.values(), *filter(None, map(self.kept, paths))]

    def version_of(self, document):
        said = version_comment(document)
        return int(said[1]) if said and said[1] in ("1", "2") else self.version

    def source_of(self, document):
        return Source(name_of(document.uri), self.version_of(document), document.bytes)

    def before(self, document):
        """The documents of the contracts that a source calls, and that these call, each after those that it calls."""
        own, found = name_of(document.uri), {name_of(document.uri): document}

        def called(name):
            for other in called_by(found[name].bytes):
                if other not in found:
                    found[other] = self.find(other, document.uri)
            return [other for other in called_by(found[name].bytes) if found[other]]

        return [found[name] for name in ordered([own], called) if name != own]
