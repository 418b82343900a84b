"""Reads the inputs of a console, from a terminal or from what is no terminal."""
import os
import pathlib
import signal
import sys

from typed import is_open

try:
    import readline
except ImportError:
    readline = None

HISTORY = 1000
# A command ends with its line, but for one that is given an input.
ONE_LINE, LONGER = ":", ":trace"


class Quit(Exception):
    """The session ends."""


class Terminal:
    """Lines of a terminal, with history and completion where Python has its readline. `sender` gives who is named in the prompt, and
    `completions` the words that begin with a text."""

    def __init__(self, sender, completions):
        self.sender, self.completions, self.found = sender, completions, []
        folder = pathlib.Path(os.environ.get("XDG_STATE_HOME") or pathlib.Path.home() / ".local" / "state") / "lumpitseha"
        self.history = folder / "console_history"
        print(":help lists what can be typed")
        if readline:
            readline.set_completer_delims(" \t\n(){},\"")
            readline.set_completer(self.complete)
            readline.parse_and_bind("tab: complete")
            readline.set_history_length(HISTORY)
            if self.history.is_file():
                readline.read_history_file(self.history)

    def complete(self, word, number):
        if number == 0:
            self.found = self.completions(word)
        return self.found[number] if number < len(self.found) else None

    def line(self, is_first):
        sender = self.sender()
        return input(f"{sender}> " if is_first else " " * len(sender) + ". ")

    def answer(self, act, text):
        """Does something to an input, all of it or nothing: an interrupt isn't heard meanwhile."""
        before = signal.signal(signal.SIGINT, signal.SIG_IGN)
        try:
            act(text)
        finally:
            signal.signal(signal.SIGINT, before)

    def end(self):
        """Keeps the history."""
        try:
            if readline:
                self.history.parent.mkdir(parents=True, exist_ok=True)
                readline.write_history_file(self.history)
        except OSError as fault:
            print(f"console: {self.history} can't be written: {fault.strerror}", file=sys.stderr)


class Pipe:
    """Lines that no terminal sends."""

    def line(self, is_first):
        line = sys.stdin.readline()
        if not line:
            raise EOFError
        return line.rstrip("\n")

    def answer(self, act, text):
        act(text)

    def end(self):
        pass


def goes_on(text):
    return is_open(text) and (not text.startswith(ONE_LINE) or text.startswith(LONGER))


def answer_all(source, act):
    """Gives each input to `act`, to the end. At a terminal an interrupt drops the input that is begun."""
    held = ""
    try:
        while True:
            try:
                held += source.line(not held) + "\n"
            except KeyboardInterrupt:
                if isinstance(source, Pipe):
                    raise
                held = ""
                print()
            if not goes_on(held):
                text, held = held, ""
                source.answer(act, text)
    except EOFError:
        if isinstance(source, Terminal):
            print()
        source.answer(act, held)
    except Quit:
        pass
    finally:
        source.end()
