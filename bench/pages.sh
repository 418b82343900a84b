#!/usr/bin/env bash
# Runs every command of README and of the pages of docs/ as it is written there, in a fresh clone of what is committed, and compares
# what comes with what is shown behind it (`..` means lines that are left out). Of docs/TUTORIAL.md each block has to be lines of
# a report of its section. Commands are the lines behind `$ ` in a block, the lines of a block that begins with `./clarity` or
# `tools/`, and in a text what begins so and names no placeholder. It is quiet but for what differs; takes one first answer and what
# the program takes. CLARITY names another program for the clone. Run by hand; python3.
# Usage: bench/pages.sh
set -eu
[ "${1-}" != --help ] || exec sed -n '2,/^[^#]/s/^# \{0,1\}//p' "$0"
cd "$(dirname "$0")/.."
PYTHONDONTWRITEBYTECODE=1 python3 - <<'PYTHON'
import os
import pathlib
import re
import subprocess
import sys
import tempfile

ROOT = pathlib.Path.cwd()
BLOCK = re.compile(r"^```\w*\n(?P<block>.*?)^```|`(?P<inline>(?:\./clarity|tools/\w+) [^`]*)`", re.S | re.M)
# A word in capitals or `..` is a placeholder; an address is none.
PLACEHOLDER = re.compile(r"\.\.(?!/)|\b(?!SP[0-9])[A-Z]{2,}\b")


def cloned(folder):
    """A clone as a reader has it after the first answer."""
    subprocess.run(["git", "clone", "-q", str(ROOT), folder], check=True)
    if "CLARITY" in os.environ:
        os.remove(f"{folder}/clarity")
        os.symlink(os.path.abspath(os.environ["CLARITY"]), f"{folder}/clarity")
    subprocess.run(["./clarity", "wire", "true"], cwd=folder, stdout=subprocess.DEVNULL, check=True)


def ran(command, folder):
    """The lines of standard output of a command, and its status. The console runs over the model, so that no library is built."""
    modelled = f"{folder}/bench/modelled"
    given = {**os.environ, "PYTHONPATH": modelled, "CLARITY_LIBRARY": f"{modelled}/lumpitseha.py"}
    one = subprocess.run(["bash", "-c", command], cwd=folder, env=given, stdin=subprocess.DEVNULL, stdout=subprocess.PIPE, stderr=subprocess.DEVNULL, text=True)
    return one.stdout.splitlines(), one.returncode


def is_shown(shown, came):
    """Whether the lines are those that are shown, where `..` stands for any."""
    if not shown:
        return not came
    if shown[0].strip() == "..":
        return any(is_shown(shown[1:], came[i:]) for i in range(len(came) + 1))
    return bool(came) and came[0] == shown[0] and is_shown(shown[1:], came[1:])


def stands_in(block, report):
    """Whether the lines of the block stand one after another in the report, where a line of the state may be left out before it."""
    at = 0
    for line in block:
        if line not in report[at:]:
            return False
        at = report.index(line, at) + 1
    return True


def commands(page):
    """The commands of a page, each with the lines that are shown behind it; nothing where none are shown."""
    found, open_command = [], None
    for match in BLOCK.finditer(page):
        block, inline = match["block"], match["inline"]
        if inline is not None:
            if not PLACEHOLDER.search(inline):
                found.append((inline, None))
            continue
        lines = block.splitlines()
        if any(line.startswith("$ ") for line in lines):
            for line in lines:
                if line.startswith("$ "):
                    found.append((line[2:], []))
                elif found:
                    found[-1][1].append(line)
        elif re.match(r"\./clarity |tools/", block):
            found += [(line.strip(), None) for line in lines if not PLACEHOLDER.search(line)]
            open_command = len(found) - 1 if len(lines) == 1 else None
            continue
        elif open_command is not None and re.match(r"0 (deploy|block|call) ", block):
            # The answer has a block of its own.
            found[open_command] = (found[open_command][0], lines)
        open_command = None
    return found


tried = wrong = 0


def differs(page, command, *lines):
    global wrong
    wrong += 1
    print(f"{page.name}: {command}", *lines, sep="\n  ")


with tempfile.TemporaryDirectory() as folder:
    cloned(folder)
    for page in [ROOT / "README.md", *sorted((ROOT / "docs").glob("*.md"))]:
        text = page.read_text()
        for command, shown in commands(text):
            came, status = ran(command, folder)
            tried += 1
            # A command that shows no lines has to be one: no wrong words, no file that isn't there.
            if shown is None and status in (2, 3, 5, 126, 127):
                differs(page, command, f"ended with status {status}")
            elif shown is not None and not is_shown(shown, came):
                differs(page, command, f"shown: {shown}", f"came: {came}")
        for section in text.split("\n## ") if page.name == "TUTORIAL.md" else []:
            for command in re.findall(r"`(\./clarity run [^`]*)`", section):
                report, _ = ran(command, folder)
                for block in re.findall(r"^```\w*\n(.*?)^```", section, re.S | re.M):
                    if not re.match(r"\d+ (block|deploy|call) ", block):
                        continue
                    tried += 1
                    if not stands_in(block.splitlines(), report):
                        differs(page, command, "doesn't give", block)
        # Each page begins in the clone as it was; the program is kept.
        subprocess.run(["git", "clean", "-fdq"], cwd=folder, check=True)
print(f"{tried - wrong} passed, {wrong} failed")
sys.exit(1 if wrong else 0)
PYTHON
