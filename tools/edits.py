#!/usr/bin/env python3
"""edits.py: tests that every must-fail edit changes src/ or specs/, and that the text it replaces stands there once, as `rt ci` asks: a second pair of lines
applies to what the first one made. `rt ci` lets an edit pass whose text is not there, though it then shows nothing."""
import glob
import os
import re
import sys

from crates import ROOT


def faults_of(edit, crate):
    """What is wrong with an edit."""
    file, old, texts, was, stands = "", "", {}, {}, True
    for line in open(edit, encoding="utf-8").read().split("\n"):
        if line.startswith("file: "):
            file = line[6:].strip()
            if not file.startswith(("src/", "specs/")):
                yield f"changes {file}, not src/ or specs/"
            path = os.path.join(crate, file)
            if file not in texts:
                texts[file] = was[file] = open(path, encoding="utf-8").read() if os.path.isfile(path) else ""
        elif line.startswith("old: "):
            old = line[5:]
            times = texts.get(file, "").count(old)
            if times != 1:
                stands = False
                yield f"its text stands {times} times in {file or 'no file'}"
        elif line.startswith("new:") and file and old:
            texts[file] = texts[file].replace(old, line[4:].removeprefix(" "))
            old = ""
    if stands and texts == was:
        yield "it changes nothing"


faults, edits = [], sorted(glob.glob(os.path.join(ROOT, "crates", "*", "must-fail", "**", "*"), recursive=True))
edits = [edit for edit in edits if os.path.isfile(edit) and not edit.endswith(".md")]
for edit in edits:
    crate, _, name = os.path.relpath(edit, os.path.join(ROOT, "crates")).partition("/must-fail/")
    found = list(faults_of(edit, os.path.join(ROOT, "crates", crate)))
    if not re.fullmatch(r"[A-Za-z0-9_-][A-Za-z0-9_.-]*\.edit", name):
        found.append("its name is not of letters, digits, _, - and . with .edit behind")
    faults += [f"{crate}/{name}: {fault}" for fault in dict.fromkeys(found)]
print("\n".join(faults + [f"{len(edits)} wrong programs, {len(faults)} faults"]))
sys.exit(1 if faults else 0)
