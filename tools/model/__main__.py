"""A model of the programs in Python, written from the rules of the language and from nothing of the engine.

usage: python3 tools/model answer WORDS..     answers as ./clarity WORDS.. does
       python3 tools/model lanes WORDS..      answers as ./clarity_lanes WORDS.. does
       python3 tools/model compare [THEME ..] says which cases of crates/cases/data it answers otherwise than they want
       python3 tools/model add THEME FILE     adds the cases of FILE to a theme of crates/cases/data, or makes it

FILE is a theme whose cases have a name, words and files. `add` writes what the model answers into those that leave out `status`
and `output`, refuses one that wants something else, and counts the cases. A case may have a member more, `says`: a part of the
output, worked out by hand, without which it is refused. The model knows both versions of the language and of the transaction
file, and every command, but nothing of failing writes.

The status of `answer` and `lanes` is that of the program; that of `compare` and `add` is 0, or 1 where a case differs or can't be added; it is 2
where the words aren't as above, and 1 where a file can't be read.
"""
import os
import pathlib
import sys
import threading

import cases
import commands

USAGE = 2


class GivenFiles(commands.Files):
    """The files of the folder in which this runs."""

    def __init__(self):
        super().__init__({})

    def read(self, name):
        try:
            self.held[name] = pathlib.Path(name).read_bytes()
        except OSError:
            pass
        return super().read(name)


def answer(words, program=commands.answer):
    given = program(words, GivenFiles())
    sys.stdout.write("".join(line + "\n" for line in given.lines))
    return given.status


def lanes(words):
    return answer(words, commands.answer_in_lanes)


def main(words):
    if words[:1] == ["--help"]:
        print(__doc__.strip())
        return 0
    act = {"answer": answer, "lanes": lanes, "compare": cases.compare, "add": cases.add}.get(words[0] if words else None)
    if act is None or (act is cases.add and len(words) != 3):
        print(__doc__.strip().split("\n\n")[1], file=sys.stderr)
        return USAGE
    return act(words[1:])


def run():
    global status
    try:
        status = main(sys.argv[1:])
        sys.stdout.flush()
    except BrokenPipeError:
        os.dup2(os.open(os.devnull, os.O_WRONLY), sys.stdout.fileno())  # whoever read this has gone
    except (OSError, ValueError) as error:
        print(f"model: {error}", file=sys.stderr)


# What nests deep is walked by recursion, which wants a large stack.
status = 1
sys.setrecursionlimit(1000000)
threading.stack_size(1 << 29)
thread = threading.Thread(target=run)
thread.start()
thread.join()
sys.exit(status)
