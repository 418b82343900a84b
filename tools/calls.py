"""Which contracts of a folder a source calls, and the order in which they are checked. They are contracts of one address."""
import functools
import re

ADDRESS = "SP000000000000000000002Q6VF78"
CALL = re.compile(rb"contract-call\?[ \t\r\n]+(?:'" + ADDRESS.encode() + rb")?\.([A-Za-z][A-Za-z0-9_-]*)")


@functools.lru_cache(maxsize=1024)
def called_by(source):
    """The names of the contracts that a source calls."""
    return tuple(dict.fromkeys(name.decode() for name in CALL.findall(source)))


def ordered(names, called):
    """The names and those that they call, each after those that it calls, where these don't call each other. `called` gives for a name
    the names that it calls."""
    found, begun = [], set()

    def visit(name):
        if name not in begun:
            begun.add(name)
            for other in called(name):
                visit(other)
            found.append(name)

    for name in names:
        visit(name)
    return found


def missing(rule, source, span, refused):
    """The refused contract that an expression calls, where that is why it is refused."""
    called = called_by(source[span]) if rule == "C16" else []
    return called[0] if called and called[0] in refused else None
