#!/usr/bin/env bash
# Runs tools/language_server under a client that speaks its protocol: the sources of the cases, whose diagnostic has to be the break that
# the case has, and by hand hover, definitions, references, completion, symbols, quick fixes, changes and messages that are none. The
# binding is that of bench/modelled, over the model, for small sources; with --library it is the library's, for all.
# Usage: bench/language_server.sh [--library]
set -eu
[ "${1-}" != --help ] || exec sed -n '2,/^[^#]/s/^# \{0,1\}//p' "$0"
bench=$(cd "$(dirname "$0")" && pwd)
. "$bench/counts.sh"
folder=$(mktemp -d)
trap 'rm -rf "$folder"' EXIT
cd "$folder"
sources=all
if [ "${1-}" != --library ]; then
    sources=small
    export PYTHONPATH=$bench/modelled CLARITY_LIBRARY=$bench/modelled/lumpitseha.py
fi
mkdir sources
cases "$bench/asked.py" sources 2>errors
cases "$bench/edited.py" $sources 2>>errors

# What the grammar of editors/vscode colours are names of the language.
python3 - "$bench/.." >shown <<'PYTHON'
import json
import pathlib
import re
import sys

sys.dont_write_bytecode = True
top = pathlib.Path(sys.argv[1])
sys.path.insert(0, str(top / "tools"))
import advice

folder = top / "editors" / "vscode"
for path in sorted(folder.rglob("*.json")):
    json.loads(path.read_text())
grammar = json.loads((folder / "syntaxes" / "clarity.tmLanguage.json").read_text())
for name in ("define", "control", "keyword"):
    for word in re.findall(r"[a-z][a-z!?-]*(?=[|)])", grammar["repository"][name]["match"].replace("\\", "")):
        if word not in advice.natives():
            print(f"{word} of {name} is no name of the language")
PYTHON
compare "the grammar" </dev/null
summary
