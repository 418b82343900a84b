"""Lumpitseha, the contract engine for Clarity, by its C library (ctypes; the standard library alone).

    engine = Engine("libclarity.so")
    status, text = engine.answer(["check", "costs", ADDRESS, "f.clar"], {"costs": costs, "f.clar": source})
    with engine.node() as node:
        print(node.run(entries).decode())

A node, and a table of costs, is used by one thread at a time.
"""
import ctypes
import enum
import json
import os

__version__ = "0.1.0"


class Status(enum.IntEnum):
    """What a call returns, as include/clarity.h says."""

    DONE = 0
    USAGE = 2
    READ = 3
    WRITE = 4
    FILE = 5
    REFUSED = 6
    FAILED = 7
    VALUE = 8
    MEMORY = 9
    REQUEST = 10
    CLOSED = 11
    FALLS = 12
    HOLDERS = 13


class Failed(Exception):
    """A call that ended with another status than DONE. `text` has what it left, `done` how many entries it did."""

    def __init__(self, status, text=b"", done=0):
        super().__init__(f"{status.name} {text.decode()}".strip())
        self.status, self.text, self.done = status, text, done


class Bounds:
    """The most that a contract's deployment is charged in each dimension, as limits, and the same of its functions, by name."""

    def __init__(self, deploy, functions):
        self.deploy, self.functions = deploy, functions


class Break:
    """The rule that a source breaks first, the slice of its bytes that does, and the names of a cycle or the dimension of a bound."""

    def __init__(self, rule, *names, span):
        self.rule, self.names, self.span = rule, names, span


class _Handle(ctypes.Structure):
    _fields_ = [("at", ctypes.c_void_p), ("is_open", ctypes.c_bool)]


_BYTES, _SIZE, _SIZES = ctypes.c_char_p, ctypes.c_size_t, ctypes.POINTER(ctypes.c_size_t)
_NUMBERS, _HANDLE, _STATUS = ctypes.POINTER(ctypes.c_uint64), ctypes.POINTER(_Handle), ctypes.c_uint32
_PARTS = [_HANDLE, _BYTES, _SIZE, _SIZES, _SIZE, _NUMBERS, _SIZE]
_CALLS = {
    "clarity_answer": (_STATUS, [_BYTES, _SIZE, _SIZES, _SIZE, _SIZE, _BYTES, _SIZE, _SIZES]),
    "clarity_value_wire": (_STATUS, [_BYTES, _SIZE, _BYTES, _SIZE, _SIZES]),
    "clarity_value_text": (_STATUS, [_BYTES, _SIZE, _BYTES, _SIZE, _SIZES]),
    "clarity_costs_read": (_STATUS, [_BYTES, _SIZE, _HANDLE]),
    "clarity_costs_close": (None, [_HANDLE]),
    "clarity_node_open": (_STATUS, [_HANDLE, _BYTES, _SIZE, _BYTES, _SIZE, _HANDLE]),
    "clarity_node_run": (_STATUS, [_HANDLE, _BYTES, _SIZE]),
    "clarity_node_call": (_STATUS, _PARTS),
    "clarity_node_peek": (_STATUS, _PARTS),
    "clarity_node_check": (_STATUS, [_HANDLE, _BYTES, _SIZE, ctypes.c_uint32, _BYTES, _SIZE]),
    "clarity_node_state": (_STATUS, [_HANDLE]),
    "clarity_node_height": (ctypes.c_uint64, [_HANDLE]),
    "clarity_node_done": (_STATUS, [_HANDLE]),
    "clarity_node_length": (_SIZE, [_HANDLE]),
    "clarity_node_copy": (_SIZE, [_HANDLE, _BYTES, _SIZE]),
    "clarity_node_count": (_SIZE, [_HANDLE]),
    "clarity_node_numbers": (_SIZE, [_HANDLE, _NUMBERS, _SIZE]),
    "clarity_node_close": (None, [_HANDLE]),
}
_FIRST_ROOM, _KEY_BYTES = 1 << 16, 16


def _bytes(text):
    return text.encode() if isinstance(text, str) else bytes(text)


def _cut(pieces):
    """Pieces as one run of bytes, and where each ends."""
    ends, end = (ctypes.c_size_t * (len(pieces) or 1))(), 0
    for i, piece in enumerate(pieces):
        end += len(piece)
        ends[i] = end
    return b"".join(pieces), ends


def _written(call, *given):
    """The status of a call that writes, and what it wrote; a call whose room is too short is made again with what it needs."""
    room, needed = _FIRST_ROOM, ctypes.c_size_t()
    while True:
        out = ctypes.create_string_buffer(room)
        status = call(*given, out, room, needed)
        if status != Status.WRITE:
            return Status(status), out.raw[: needed.value]
        room = needed.value


def _value(call, given):
    status, written = _written(call, given, len(given))
    if status != Status.DONE:
        raise Failed(status)
    return written


def _file(entries, genesis=()):
    return json.dumps({"version": 1, "genesis": list(genesis), "entries": list(entries)})


class Engine:
    """The library at a path."""

    def __init__(self, library):
        self._library = ctypes.CDLL(library)
        for name, (gives, takes) in _CALLS.items():
            call = getattr(self._library, name)
            call.restype, call.argtypes = gives, takes

    def answer(self, words, files=None):
        """The status and the bytes of the program for these words over these files, by name."""
        words = [_bytes(word) for word in words]
        pieces = words + [_bytes(part) for file in (files or {}).items() for part in file]
        request, ends = _cut(pieces)
        return _written(self._library.clarity_answer, request, len(request), ends, len(pieces), len(words))

    def wire(self, text):
        """The wire form (SIP-005) of the value that a text stands for."""
        return _value(self._library.clarity_value_wire, _bytes(text))

    def text(self, wire):
        """The text of the value with this wire form."""
        return _value(self._library.clarity_value_text, bytes(wire)).decode()

    def costs(self, file=b""):
        """The table of a cost file, or the unit table: read once, for any number of nodes."""
        return Costs(self._library, _bytes(file))

    def node(self, costs=b"", file=b""):
        """A node under costs, or a cost file, or the unit table, with the holders and epochs of a transaction file, or none."""
        if isinstance(costs, Costs):
            return Node(self._library, costs, _bytes(file))
        with self.costs(costs) as table:
            return Node(self._library, table, _bytes(file))


class _Closing:
    """What has a handle; `close`, or the end of a `with`, frees it."""

    def __enter__(self):
        return self

    def __exit__(self, *_):
        self.close()

    def __del__(self):
        if hasattr(self, "_handle"):
            self.close()


class Costs(_Closing):
    """A table of costs. Nodes that were opened under it keep theirs when it is closed."""

    def __init__(self, library, file):
        self._library, self._handle = library, _Handle()
        status = library.clarity_costs_read(file, len(file), self._handle)
        if status != Status.DONE:
            raise Failed(Status(status))

    def close(self):
        self._library.clarity_costs_close(self._handle)


class Node(_Closing):
    """A node between calls. Its tables hash by a random key."""

    def __init__(self, library, costs, file):
        self._library, self._handle = library, _Handle()
        key = os.urandom(_KEY_BYTES)
        status = library.clarity_node_open(costs._handle, file, len(file), key, len(key), self._handle)
        if status != Status.DONE:
            raise Failed(Status(status))

    def run(self, entries):
        """The lines of entries: a list of them as a transaction file has them, or the text of such a file."""
        file = _bytes(entries if isinstance(entries, (str, bytes)) else _file(entries))
        return self._text_of(self._library.clarity_node_run(self._handle, file, len(file)))

    def call(self, sender, contract, function, args=(), limits=()):
        """The lines of a call; principals and arguments are values in their wire form, the limits five or none."""
        return self._in_parts(self._library.clarity_node_call, sender, contract, function, args, limits)

    def peek(self, sender, contract, function, args=(), limits=()):
        """The lines that such a call would have. The node stays as it is."""
        return self._in_parts(self._library.clarity_node_peek, sender, contract, function, args, limits)

    def check(self, contract, source, version=1):
        """The `Bounds` or the `Break` of a source as a contract (a principal in its wire form) that would be deployed on the node."""
        contract, source = bytes(contract), _bytes(source)
        status = self._library.clarity_node_check(self._handle, contract, len(contract), version, source, len(source))
        numbers = (ctypes.c_uint64 * self._library.clarity_node_count(self._handle))()
        self._library.clarity_node_numbers(self._handle, numbers, len(numbers))
        if status == Status.REFUSED:
            return Break(*self._text().decode().splitlines(), span=slice(*numbers))
        names = self._text_of(status).decode().splitlines()
        deploy, *functions = zip(*[iter(numbers)] * 5)
        return Bounds(deploy, dict(zip(names, functions)))

    def state(self):
        """The lines of the state."""
        return self._text_of(self._library.clarity_node_state(self._handle))

    @property
    def height(self):
        return self._library.clarity_node_height(self._handle)

    def close(self):
        self._library.clarity_node_close(self._handle)

    def _in_parts(self, call, sender, contract, function, args, limits):
        pieces = [bytes(sender), bytes(contract), _bytes(function), *map(bytes, args)]
        parts, ends = _cut(pieces)
        most = (ctypes.c_uint64 * (len(limits) or 1))(*limits)
        return self._text_of(call(self._handle, parts, len(parts), ends, len(pieces), most, len(limits)))

    def _text(self):
        length = self._library.clarity_node_length(self._handle)
        out = ctypes.create_string_buffer(length or 1)
        copied = self._library.clarity_node_copy(self._handle, out, length)
        return out.raw[:copied]

    def _text_of(self, status):
        text = self._text()
        if status != Status.DONE:
            raise Failed(Status(status), text, self._library.clarity_node_done(self._handle))
        return text
