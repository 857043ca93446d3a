#!/usr/bin/env python3
"""layers.py: writes crates.txt anew in layers, each crate one above the highest that it depends on. Within a layer they keep their order."""
import os
import re

from crates import ROOT, Crates

PATH = os.path.join(ROOT, "crates.txt")
crates = Crates()
text = open(PATH, encoding="utf-8").read()
lines = {m[1]: m[0] for m in re.finditer(r"^(\w+)(?: [\w=]+)*:.*$", text, flags=re.M)}
order = {crate: i for i, crate in enumerate(crates.deps)}
layer = {}


def height(crate):
    if crate not in layer:
        layer[crate] = -1  # found again below itself: rt names the cycle
        layer[crate] = 1 + max((height(d) for d in crates.deps[crate]), default=-1)
    return layer[crate]


for crate in crates.deps:
    height(crate)
head = text[: text.index("\n# ---- layer 0")].rstrip() + "\n"
with open(PATH, "w", encoding="utf-8") as out:
    out.write(head)
    for n in range(max(layer.values()) + 1):
        out.write(f"\n# ---- layer {n}\n")
        for crate in sorted((c for c in layer if layer[c] == n), key=order.get):
            out.write(f"# {crates.about[crate]}\n{lines[crate]}\n")
