#!/usr/bin/env python3
"""texts.py: tests that docs/NUMBERS.md, include/coghammer.h, host/rust and crates/numbers have the same words for each answer number, and that the last
three have the same numbers by the same names."""
import os
import re
import sys

from crates import ROOT


def read(path):
    return open(os.path.join(ROOT, path), encoding="utf-8").read()


header, rust, rattle = read("include/coghammer.h"), read("host/rust/src/number.rs"), read("crates/numbers/src/lib.rt")
# a refusal is a variant, and 0 the answer of what is not refused
variants = [(re.sub(r"(?<=[a-z])(?=[A-Z])", "_", name).upper(), number) for name, number in re.findall(r"^    (\w+) = (\d+),$", rattle, re.M)]
names = {
    "crates/numbers/src/lib.rt": [("DONE", "0"), *variants],
    "its constants": re.findall(r"^pub const (\w+): u8 = (\d+);", rattle, re.M),
    "include/coghammer.h": re.findall(r"COGHAMMER_(\w+) = (\d+)", header[header.index("COGHAMMER_DONE"):header.index("coghammer_text")]),
    "host/rust/src/number.rs": re.findall(r"pub const (\w+): Number = Number\((\d+)\);", rust),
}
cells = [[cell.strip() for cell in line.split("|")[1:-1]] for line in read("docs/NUMBERS.md").splitlines() if re.match(r"\| \d+ \|", line)]
words = {
    "docs/NUMBERS.md": [(row[0], row[2]) for row in cells],
    "include/coghammer.h": [(dict(names["include/coghammer.h"])[name], text) for name, text in re.findall(r'case COGHAMMER_(\w+): return "(.*)";', header)],
    "host/rust/src/number.rs": [(dict(names["host/rust/src/number.rs"])[name], text) for name, text in re.findall(r'\(Number::(\w+), "(.*)"\)', rust)],
    "crates/numbers/src/lib.rt": [("0", "done"), *[(dict(variants)[re.sub(r"(?<=[a-z])(?=[A-Z])", "_", name).upper()], text)
                                                  for name, text in re.findall(r'Refusal::(\w+) => "(.*)"', rattle)]],
}
faults = 0
for kind in (names, words):
    first = next(iter(kind))
    for path, pairs in kind.items():
        for pair in set(pairs) ^ set(kind[first]):
            print(f"{path} and {first} differ: {' '.join(pair)}")
            faults += 1
print(f"{len(words['docs/NUMBERS.md'])} answer numbers in {len(set(names) | set(words))} places, {faults} faults")
sys.exit(faults != 0)
