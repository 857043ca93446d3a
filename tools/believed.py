#!/usr/bin/env python3
"""believed.py [--check]: writes into README.md which files of definitions the public library rests on: those that the contracts of its functions and
the claims in crate discv4 cite, and what these cite in turn. With --check it only fails where README.md has another list.

A file of specs/ that is not among them holds a claim of its own (the C boundary, the log, a law that docs/PROMISES.md cites), or it is called
Steps.antt and holds what only proofs and inner functions use."""
import glob
import os
import re
import sys

from crates import ROOT, Crates

crates = Crates()
START, END = "<!-- written by tools/believed.py -->", "<!-- end -->"


def read(path):
    return open(os.path.join(ROOT, path), encoding="utf-8").read()


files = {}
for path in glob.glob(os.path.join(ROOT, "crates", "*", "specs", "**", "*.antt"), recursive=True):
    path = os.path.relpath(path, ROOT)
    crate, module = path.split("/")[1], path.split("/specs/")[1][:-5].replace("/", ".")
    if module != "Lib":
        files[crate, module] = path
CITED = r"Rattle\.(\w+)\.specs\.(\w+)"


def cited(text):
    return {m for m in re.findall(CITED, text) if m in files}


def contract_cites(crate, name):
    """The files that the contract of one function cites."""
    text = read(f"crates/{crate}/src/lib.rt")
    function = re.search(r"pub fn %s\b.*?\n\{" % name, text, re.S)
    if not function:
        return set()
    found = set()
    for m in re.finditer(r"ghost use " + CITED + r"(?:\.\{(.*?)\}| as (\w+));", text):
        names = [n.strip() for n in m[3].split(",")] if m[3] else [m[4] + "."]
        if (m[1], m[2]) in files and any(re.search(r"(?<![\w.])" + re.escape(n) + ("" if n.endswith(".") else r"\b"), function[0]) for n in names):
            found.add((m[1], m[2]))
    return found


def section():
    seen = {key for key in files if key[0] == "discv4"}
    for crate, one, several in re.findall(r"pub use (\w+)::(?:(\w+)|\{([^}]*)\})", read("crates/discv4/src/lib.rt")):
        for name in [one] if one else several.split(","):
            if name.strip():
                seen |= contract_cites(crate, name.split()[0])
    todo = list(seen)
    while todo:
        for key in cited(read(files[todo.pop()])) - seen:
            seen.add(key)
            todo.append(key)
    lines = {key: read(files[key]).count("\n") for key in files}
    out = [
        START,
        f"The public library rests on {len(seen)} of the {len(files)} files in `specs/`, {sum(lines[k] for k in seen):,} of {sum(lines.values()):,} lines:",
        "",
        "| Group | Files |",
        "|---|---|",
    ]
    for group, members in crates.members().items():
        keys = sorted(k for k in seen if k[0] in members)
        if keys:
            out.append(f"| {group} | " + ", ".join(f"[{c}/{m}](crates/{c}/specs/{m}.antt)" for c, m in keys) + " |")
    return "\n".join(out + [END])


def main():
    text = read("README.md")
    start, end = text.index(START), text.index(END) + len(END)
    written = text[:start] + section() + text[end:]
    if "--check" in sys.argv[1:]:
        if written != text:
            sys.exit("README.md has another list of definitions: run tools/believed.py")
        print(re.search(r"The public library rests on .* lines", written)[0])
    else:
        open(os.path.join(ROOT, "README.md"), "w", encoding="utf-8").write(written)


main()
