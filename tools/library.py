"""Finds the library of include/clarity.h for tools that keep a node, and opens it by the binding in bindings/python."""
import os
import pathlib
import subprocess
import sys

from commands import ROOT

BUILD = ROOT / "bindings" / "build.sh"
sys.path.append(str(ROOT / "bindings" / "python"))


class NoLibrary(Exception):
    """There is no library: why."""


def path():
    """The path of the library: below CLARITY_LIBRARY, a file or its folder; else the one that is kept in bindings/out, which is built
    where there is none. Raises NoLibrary."""
    given = os.environ.get("CLARITY_LIBRARY")
    if given:
        found = pathlib.Path(given)
        found = found / "libclarity.so" if found.is_dir() else found
        if not found.is_file():
            raise NoLibrary(f"CLARITY_LIBRARY names no library: {found} isn't there")
        return found
    if subprocess.run([BUILD, "--kept"], stderr=subprocess.DEVNULL).returncode != 0:
        print("the library isn't built yet: bindings/build.sh --unproved builds it, once, in some minutes", file=sys.stderr, flush=True)
        if subprocess.run([BUILD, "--unproved"], stdin=subprocess.DEVNULL, stdout=sys.stderr).returncode != 0:
            raise NoLibrary("bindings/build.sh --unproved failed")
    return ROOT / "bindings" / "out" / "libclarity.so"


def engine():
    """The library, opened. Raises NoLibrary."""
    import lumpitseha

    found = path()
    try:
        return lumpitseha.Engine(str(found))
    except (OSError, AttributeError) as fault:
        raise NoLibrary(f"{found} can't be used: {fault}") from None
