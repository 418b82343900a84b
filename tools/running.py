"""Runs the program over transaction files."""
import subprocess
import sys
import tempfile

from commands import PROGRAM


class NoAnswer(Exception):
    """The program doesn't answer with what was asked for: why."""


def is_there():
    """Whether the program runs at all. What it says of its build is seen meanwhile."""
    sys.stdout.flush()
    try:
        return subprocess.run([PROGRAM, "wire", "true"], stdin=subprocess.DEVNULL, stdout=subprocess.PIPE).stdout == b"0x03\n"
    except OSError:
        return False


def answer(command, costs, file, *flags):
    """What a command writes of a transaction file of these bytes. Raises NoAnswer."""
    with tempfile.NamedTemporaryFile(suffix=".json") as held:
        held.write(file)
        held.flush()
        words = [PROGRAM, command, costs, held.name, *flags]
        ran = subprocess.run(words, stdin=subprocess.DEVNULL, stdout=subprocess.PIPE, stderr=subprocess.DEVNULL)
    if ran.returncode != 0:
        said = ran.stdout.decode(errors="replace").strip().replace(held.name, "the transaction file")
        raise NoAnswer(f"the program ended with status {ran.returncode}: {said}")
    return ran.stdout
