"""What the commands of this folder have in common: words, statuses, and no traceback."""
import argparse
import os
import pathlib
import sys

USAGE, UNREADABLE, UNWRITTEN = 2, 3, 4
ROOT = pathlib.Path(__file__).resolve().parent.parent
# The program that tools run, and the cost file where none is named.
PROGRAM = os.environ.get("CLARITY", str(ROOT / "clarity"))
UNIT_COSTS = str(ROOT / "examples" / "unit.json")


class Usage(Exception):
    """The words aren't of the command's usage, perhaps with the reason."""


class Unwritten(Exception):
    """A file that the words name can't be written: why."""


class Words(argparse.ArgumentParser):
    """The words of a command, flags at any place. Raises Usage."""

    def __init__(self):
        super().__init__(add_help=False, allow_abbrev=False)

    def error(self, message):
        raise Usage(message)


def write_file(path, text):
    """Writes a file that the words name. Raises Unwritten."""
    try:
        pathlib.Path(path).write_text(text, encoding="utf-8", errors="replace")
    except OSError as fault:
        raise Unwritten(f"{path} can't be written: {fault.strerror}") from None


def run(name, usage, main):
    """Runs a command, which is given its words and gives its status, and ends the process with it. `--help` prints the usage;
    other words that aren't of it end with 2, a file that can't be read with 3, a write that fails with 4."""
    sys.exit(_status(name, usage, main))


def _status(name, usage, main):
    try:
        if sys.argv[1:] in (["--help"], ["-h"]):
            print(usage.strip())
            status = 0
        else:
            status = main(sys.argv[1:])
        sys.stdout.flush()
        return status
    except Usage as fault:
        print(*[f"{name}: {why}" for why in fault.args], usage.strip(), sep="\n", file=sys.stderr)
        return USAGE
    except Unwritten as fault:
        print(f"{name}: {fault}", file=sys.stderr)
        return UNWRITTEN
    except BrokenPipeError:
        # What is left to be written goes nowhere when the process ends.
        os.dup2(os.open(os.devnull, os.O_WRONLY), sys.stdout.fileno())
        return UNWRITTEN
    except OSError as fault:
        print(f"{name}: {fault.filename}: {fault.strerror}", file=sys.stderr)
        return UNREADABLE
    except KeyboardInterrupt:
        return 130
