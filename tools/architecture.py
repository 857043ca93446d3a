#!/usr/bin/env python3
"""architecture.py [--check]: draws docs/architecture.svg, the groups of crates.txt and which stands on which.

A crate's group is the part of its name before the first `_`, or the one whose line in crates.txt names it. It fails where two groups depend on
each other, where a crate depends on one of its own layer or a higher one, and, with --check, where the picture in docs/ is another one."""
import html
import os
import sys

from crates import ROOT, Crates

PICTURE = os.path.join(ROOT, "docs", "architecture.svg")
WIDTH, BOX, GAP, ROW, LINE, LETTER = 1280, 54, 16, 88, 13, 6.1


def levels(below):
    level = {}

    def height(g, path=()):
        if g in path:
            sys.exit("groups depend on each other: " + " -> ".join(path + (g,)))
        if g not in level:
            level[g] = 1 + max((height(d, path + (g,)) for d in below[g]), default=-1)
        return level[g]

    for g in below:
        height(g)
    return level


def wrapped(names, letters):
    lines = [""]
    for name in names:
        longer = f"{lines[-1]} · {name}" if lines[-1] else name
        if len(longer) > letters and lines[-1]:
            lines.append(name)
        else:
            lines[-1] = longer
    return lines


def picture(crates):
    below, members = crates.below(), crates.members()
    level = levels(below)
    rows, place = {}, {}
    for g in below:
        rows.setdefault(level[g], []).append(g)
    top = max(rows)
    for r, groups in rows.items():
        groups.sort(key=lambda g: (-len(members[g]), g))
        width = min(400, (WIDTH - GAP * (len(groups) + 1)) / len(groups))
        left = (WIDTH - (width * len(groups) + GAP * (len(groups) - 1))) / 2
        for i, g in enumerate(groups):
            place[g] = (left + i * (width + GAP), 16 + (top - r) * ROW, width)
    reach = {}
    for g in sorted(below, key=level.get):
        reach[g] = set().union(*({d} | reach[d] for d in below[g])) if below[g] else set()
    height = 16 + (top + 1) * ROW
    out = [
        f'<svg xmlns="http://www.w3.org/2000/svg" viewBox="0 0 {WIDTH} {height}" width="{WIDTH}" height="{height}" font-family="sans-serif">',
        f'<rect width="{WIDTH}" height="{height}" fill="white"/>',
    ]
    for g in below:
        x, y, w = place[g]
        for d in sorted(below[g]):
            if any(d in reach[other] for other in below[g] if other != d):
                continue
            a, b, c = place[d]
            if level[g] - level[d] == 1:
                out.append(f'<line x1="{x + w / 2:.0f}" y1="{y + BOX}" x2="{a + c / 2:.0f}" y2="{b}" stroke="#89a"/>')
            else:  # past the boxes between them, on the left
                side, from_y, to_y = min(x, a) - 60, y + BOX // 2, b + BOX // 2
                out.append(f'<path d="M{x:.0f} {from_y} C{side:.0f} {from_y} {side:.0f} {to_y} {a:.0f} {to_y}" fill="none" stroke="#89a"/>')
    for g, (x, y, w) in place.items():
        out.append(f'<rect x="{x:.0f}" y="{y}" width="{w:.0f}" height="{BOX}" rx="6" fill="#eef3f8" stroke="#456"/>')
        out.append(f'<text x="{x + 8:.0f}" y="{y + 17}" font-size="13"><tspan font-weight="bold">{g}</tspan></text>')
        about = wrapped(crates.said[g].split(" "), int(w / LETTER) - len(g) - 2)[0].replace(" · ", " ")
        if about != crates.said[g]:
            about += " .."
        out.append(f'<text x="{x + 16 + 8 * len(g):.0f}" y="{y + 17}" font-size="11" fill="#555">{html.escape(about)}</text>')
        names = sorted(c[len(g) + 1 :] if c.startswith(g + "_") else c for c in members[g])
        for i, line in enumerate(wrapped(names, int(w / 5.6))[:2]):
            out.append(f'<text x="{x + 8:.0f}" y="{y + 33 + LINE * i}" font-size="10.5">{html.escape(line)}</text>')
    return "\n".join(out + ["</svg>", ""])


def main():
    crates = Crates()
    for crate, deps in crates.deps.items():
        for d in deps:
            if crates.layer[d] >= crates.layer[crate]:
                sys.exit(f"crates.txt: {crate} (layer {crates.layer[crate]}) depends on {d} (layer {crates.layer[d]})")
    drawn = picture(crates)
    if "--check" in sys.argv[1:]:
        if not os.path.exists(PICTURE) or open(PICTURE, encoding="utf-8").read() != drawn:
            sys.exit("docs/architecture.svg is not the picture of crates.txt: run tools/architecture.py")
        print(f"{len(crates.deps)} crates in {len(crates.said)} groups, no cycle; docs/architecture.svg is theirs")
    else:
        open(PICTURE, "w", encoding="utf-8").write(drawn)


main()
