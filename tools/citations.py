#!/usr/bin/env python3
"""citations.py: tests what README.md and docs/ cite in backticks or as a link, and fails where something is not there.

  `crates/..`, `tests/..`, [..](..)    a file or folder, from the root or from the page's own folder
  `NAME/specs/File.antt`               a file of the crate NAME; `*` stands for any
  `NAME/label`                         crates/NAME/must-fail/label.edit
  `NAME::item`                         an item that the crate's sources have
  `a`, `b` (`NAME/specs/File.antt`)    names that stand in that file, which may be a link
  a table's row with a column File     the names in its column Statement stand in one of those files
  any other `name_of_a_law`, `NameOf`  a name that some source, definition or proof has
"""
import glob
import os
import re
import sys

from crates import ROOT, Crates

crates = Crates()
PARTS = ("src", "specs", "proofs", "must-fail")
WORD = r"[\w'-]+"
OTHERS = {"python3-rlp", "librust-sha3-dev", "libsecp256k1-dev"}  # names of other projects
faults, tested = [], 0


def read(path):
    return open(os.path.join(ROOT, path), encoding="utf-8").read()


CRATES = ("crates/*/src/**/*.rt", "crates/*/specs/**/*.antt", "crates/*/proofs/**/*.antt")
texts = {}
for pattern in (*CRATES, "include/*.h", "host/rust/src/*.rs", "examples/host/*.c", "tests/reference/src/**/*.rs"):
    for path in glob.glob(os.path.join(ROOT, pattern), recursive=True):
        path = os.path.relpath(path, ROOT)
        texts[path] = set(re.findall(WORD, read(path)))
# a program of the reference has its file's name, and a crate is named too
known = set().union(*texts.values(), crates.deps, (os.path.splitext(os.path.basename(path))[0] for path in texts))


def paths_of(token):
    """The files that a token of the form NAME/PART/.. names, or None if it has another form."""
    name, _, rest = token.partition("/")
    if name in crates.deps and rest.split("/")[0] in PARTS:
        return [os.path.relpath(p, ROOT) for p in glob.glob(os.path.join(ROOT, "crates", token))]
    return None


def exists(page, path):
    path = path.split("#")[0]
    return not path or any(glob.glob(os.path.join(ROOT, base, path)) for base in ("", os.path.dirname(page)))


def token_fault(page, token):
    """What is wrong with one token in backticks, or nothing."""
    if token in OTHERS or re.match(r"(crates/)?NAME\b", token):
        return False
    if "::" in token:
        name, item = token.split("::")[:2]
        if re.fullmatch(r"[a-z]\w*", name) and name not in crates.deps and name not in ("self", "std"):
            return True
        if name in crates.deps:
            item = re.match(r"\w*", item)[0]
            sources = [p for p in texts if p.startswith(f"crates/{name}/src/")]
            return not item or not any(item in texts[p] for p in sources)
        return False
    first = token.split()[0] if token.split() else token
    if re.fullmatch(r"[\w.*-]+(/[\w.*:-]+)+/?", first):
        files = paths_of(first)
        if files is not None:
            return not files
        name, _, rest = first.partition("/")
        if name in crates.deps:
            return not glob.glob(os.path.join(ROOT, "crates", name, "must-fail", rest + ".edit"))
        return not first.startswith("target/") and not exists(page, first)
    if re.fullmatch(r"[a-z][\w']*(-[\w']+)+|[a-z]\w*_\w+|[a-z]+[A-Z]\w*|[A-Z][a-z]+[A-Z]\w*", token):
        return token not in known
    return False


def cited_names(text):
    return [t for t in re.findall(r"`([^`]+)`", text) if re.fullmatch(WORD, t)]


def row_faults(names, files, line):
    for name in names:
        if not any(name in texts.get(f, ()) for f in files):
            yield f"{line}: {name} does not stand in {', '.join(files) or 'a file that the row names'}"


def page_faults(page):
    global tested
    header, fenced = [], False
    for number, line in enumerate(read(page).splitlines(), 1):
        place = f"{page}:{number}"
        fenced ^= line.startswith("```")
        if fenced or line.startswith("```"):
            continue
        for token in re.findall(r"`([^`]+)`", line):
            tested += 1
            if token_fault(page, token):
                yield f"{place}: `{token}` is not there"
        for path in re.findall(r"\]\(([^)]+)\)", line):
            tested += 1
            if "://" not in path and not exists(page, path):
                yield f"{place}: {path} is not there"
        for m in re.finditer(r"((?:`%s`(?:, | and | .. )?)+) \(\[?`([^`]+\.(?:antt|rt))`" % WORD, line):
            yield from row_faults(cited_names(m[1]), paths_of(m[2]) or [], place)
        cells = [c.strip() for c in re.split(r"(?<!\\)\|", line)[1:-1]] if line.startswith("|") else []
        if not cells:
            header = []
        elif not header:
            header = cells
        elif "Statement" in header and "File" in header and len(cells) == len(header):
            files = [f for t in re.findall(r"`([^`]+)`", cells[header.index("File")]) for f in paths_of(t) or []]
            names = [n for n in cited_names(cells[header.index("Statement")]) if n not in crates.deps]
            yield from row_faults(names, files, place)


def main():
    pages = ["README.md", "CHANGELOG.md", "host/README.md", "tests/README.md", "examples/host/README.md"]
    pages += sorted(os.path.relpath(p, ROOT) for p in glob.glob(os.path.join(ROOT, "docs", "**", "*.md"), recursive=True)
                    if os.path.basename(p) not in ("PORT.md", "DESIGN-PASS.md"))  # they tell of older names
    for page in pages:
        faults.extend(page_faults(page))
    print("\n".join(faults + [f"{tested} citations on {len(pages)} pages, {len(faults)} faults"]))
    sys.exit(1 if faults else 0)


main()
