#!/usr/bin/env python3
"""forms.py [COMMIT] [-v]: counts the places of src/ that have a form of an older Rattle, by the points of docs/DESIGN-PASS.md; -v lists them. It finds them by
their shape, so each is a place to look at: docs/DESIGN-PASS.md says which are kept, and why. Without COMMIT it reads the work tree."""
import collections
import glob
import os
import re
import subprocess
import sys

from crates import ROOT

verbose = "-v" in sys.argv
commit = next((word for word in sys.argv[1:] if word != "-v"), None)


def sources():
    """The files of src/, by path from crates/."""
    if commit:
        names = subprocess.run(["git", "-C", ROOT, "ls-tree", "-r", "--name-only", commit, "crates"], capture_output=True, text=True, check=True).stdout.split("\n")
        for name in sorted(name for name in names if re.fullmatch(r"crates/[^/]+/src/.*\.rt", name)):
            yield name[7:], subprocess.run(["git", "-C", ROOT, "show", f"{commit}:{name}"], capture_output=True, text=True, check=True).stdout
    else:
        for path in sorted(glob.glob(os.path.join(ROOT, "crates", "*", "src", "**", "*.rt"), recursive=True)):
            yield os.path.relpath(path, os.path.join(ROOT, "crates")), open(path, encoding="utf-8").read()


class Function:
    """A function: its place, name, parameters, clauses, result and body."""

    def __init__(self, place, text):
        self.place = place
        head, _, body = text.partition("\n{\n") if "\n{\n" in text else text.partition("{\n")
        found = re.search(r"fn (\w+)", head)
        self.name = found[1]
        self.result = (re.search(r"\) -> ([^\n{]+?)(?: where| \{|\n|$)", head) or ["", ""])[1].strip()
        self.clauses = re.findall(r"^\s*requires(?: \w+)? \{ (.*) \}$", head, re.M)
        inside = head[found.end():]
        inside = inside[inside.index("(") + 1:] if "(" in inside else ""
        self.parameters = re.findall(r"(?:^|[(,\s])(\w+): ([^,()]+(?:\([^()]*\))?)", inside.split(") ->")[0].split("\n    requires")[0])
        self.body = body
        self.public = bool(re.search(r"\bpub (?:const |unsafe |extern \"C\" )*fn", head))


def functions(name, text):
    for found in re.finditer(r"^( *)((?:pub )?(?:const )?(?:unsafe )?(?:extern \"C\" )?fn \w+.*?)^\1\}$", text, re.M | re.S):
        yield Function(f"{name}:{text.count(chr(10), 0, found.start(2)) + 1}", found[2] + "\n")


files = list(sources())
every = [f for name, text in files for f in functions(name, text)]
lines = [(f"{name}:{n}", line) for name, text in files for n, line in enumerate(text.split("\n"), 1) if not line.lstrip().startswith("//")]
points = collections.OrderedDict()

# ---- 1
points["1 own enums"] = [f"{at} {line.split('enum ')[1].split()[0]}" for at, line in lines if re.match(r" *(pub )?enum ", line)]
points["1 a number or a flag in a struct"] = [
    f"{name}:{text.count(chr(10), 0, found.start()) + 1} {found[1]}: {field}" for name, text in files for found in re.finditer(r"^(?:pub )?struct (\w+).*? \{\n(.*?)^\}", text, re.M | re.S)
    for field in re.findall(r"^    (?:pub )?(number: u8|\w+: bool),$", found[2], re.M)]
points["1 functions that answer by a number"] = [f"{f.place} {f.name}" for f in every if f.result == "u8" and re.search(r"number|numbers::|_on\(|tell_|DONE|fields\.", f.name + f.body)]

# ---- 2: bodies that are alike but for names, numbers and types
shapes = collections.defaultdict(list)
for f in every:
    body = re.sub(r"//.*", "", f.body)
    shape = re.sub(r"\b(?!let\b|mut\b|if\b|else\b|for\b|in\b|while\b|match\b|return\b|true\b|false\b)\w+\b", "_", body)
    shape = re.sub(r"\s+", " ", re.sub(r"(_::)+_", "_", shape))
    if len(re.sub(r"[^_]", "", shape)) >= 8:
        shapes[shape].append(f"{f.place} {f.name}")
points["2 groups of functions of one shape"] = [", ".join(group) for group in shapes.values() if len(group) > 1]

# ---- 3: loops with a counter that the loop steps by hand
counted = []
for name, text in files:
    for found in re.finditer(r"^( *)while (.*?) \{\n(.*?)^\1\}", text, re.M | re.S):
        stepped = set(re.findall(r"^ *(\w+) [+-]= ", found[3], re.M)) | set(re.findall(r"^ *(\w+) = \1 [+-] ", found[3], re.M))
        if any(re.search(rf"\b{word}\b", found[2]) for word in stepped):
            counted.append(f"{name}:{text.count(chr(10), 0, found.start()) + 1} while {found[2]}")
points["3 loops that count an index"] = counted
points["3 other loops by while"] = [f"{at} {line.strip()}" for at, line in lines if re.match(r" *(while|loop)\b", line) and not any(c.startswith(f"{at} ") for c in counted)]

# ---- 4
points["4 widening casts"] = [f"{at} {line.strip()}" for at, line in lines if re.search(r"\bas (u16|u32|u64|usize)\b", line) and not re.search(r"\bas [A-Z]", line)]
points["4 calls of octets for copies and equality"] = [f"{at} {line.strip()}" for at, line in lines if re.search(r"\b(same_bytes|put_bytes|get_bytes|put_zeros|wide)\(", line) and "fn " not in line]
points["4 calls of `both` and `count`"] = [f"{at} {line.strip()}" for at, line in lines if re.search(r"\b(both|count)\($|\bboth\(|bucket_range::count\(", line) and "fn " not in line]

# ---- 5
facts = collections.defaultdict(list)
for f in every:
    for clause in f.clauses:
        for fact in re.split(r" × ", re.sub(r"[()]", "", clause)):
            facts[re.sub(r"\.(old|now|new)\b", "", fact).strip()].append(f.place)
points["5 facts in three or more contracts"] = [f"{len(at)} times: {fact}" for fact, at in sorted(facts.items(), key=lambda it: -len(it[1])) if len(at) >= 3]
together = collections.Counter()
for f in every:
    words = [p for p, _ in f.parameters]
    for i in range(len(words)):
        for k in range(i + 3, len(words) + 1):
            together[tuple(words[i:k])] += 1
runs = [run for run, n in together.items() if n >= 3]
points["5 runs of three or more parameters in three or more functions"] = [
    f"{together[run]} times: {', '.join(run)}" for run in sorted(runs, key=lambda it: (-len(it), it))
    if not any(run != other and together[other] >= together[run] and " ".join(run) in " ".join(other) for other in runs)]

# ---- 6
points["6 structs of an array and a length"] = []
for name, text in files:
    for found in re.finditer(r"^(?:pub )?struct (\w+) \{\n(.*?)^\}", text, re.M | re.S):
        if re.search(r"(len|count|used|n): (usize|u8)", found[2]) and re.search(r": \[", found[2]):
            points["6 structs of an array and a length"].append(f"{name} {found[1]}")
points["6 an array and a number of its elements as parameters"] = [f"{f.place} {f.name}" for f in every if any(re.match(r"\[\w+; \d+\]", t) for _, t in f.parameters) and any(p == "n" for p, _ in f.parameters)]

# ---- 7
points["7 parameters that switch what is done"] = [f"{f.place} {f.name}: {', '.join(p for p, t in f.parameters if t.strip() == 'bool')}" for f in every if any(t.strip() == "bool" for _, t in f.parameters)]

for point, places in points.items():
    print(f"{len(places):4} {point}")
    if verbose:
        for place in places:
            print(f"       {place}")
