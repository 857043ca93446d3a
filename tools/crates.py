"""What crates.txt says: the crates with what they depend on, their groups and layers."""
import os
import re
import sys

ROOT = os.path.dirname(os.path.dirname(os.path.abspath(__file__)))


class Crates:
    """`deps`: a crate's own dependencies, without the kit's. `kit`: those of the kit. `static`: the static libraries. `group`: its group. `said`: what each
    group holds, in the order of the file. `about`: a crate's comment. `layer`: the layer that its line stands in."""

    def __init__(self):
        self.deps, self.kit, self.static, self.group, self.said, self.about, self.layer = {}, {}, set(), {}, {}, {}, {}
        named, layer, comment = {}, -1, ""
        for line in open(os.path.join(ROOT, "crates.txt"), encoding="utf-8"):
            if m := re.match(r"# group (\w+) \((.*)\): (.*)", line):
                self.said[m[1]] = m[2]
                named.update({crate: m[1] for crate in m[3].split()})
            elif m := re.match(r"# ---- layer (\d+)", line):
                layer = int(m[1])
            elif line.startswith("# "):
                comment = line[2:].strip()
            elif m := re.match(r"(\w+)((?: [\w=]+)*):(.*)", line):
                self.deps[m[1]], self.about[m[1]], self.layer[m[1]] = m[3].split("#")[0].split(), comment, layer
                if "staticlib" in m[2].split():
                    self.static.add(m[1])
        for crate, deps in self.deps.items():
            self.kit[crate] = [d for d in deps if d not in self.deps]
            self.deps[crate] = [d for d in deps if d in self.deps]
            self.group[crate] = named.get(crate) or crate.split("_")[0]
        for crate in named:
            if crate not in self.deps:
                sys.exit(f"crates.txt: a group names {crate}, which is no crate")

    def members(self):
        """The crates of each group, in the order of the groups' lines."""
        members = {g: [] for g in self.said}
        for crate, g in self.group.items():
            if g not in members:
                sys.exit(f"crates.txt: no group line for {g} ({crate})")
            members[g].append(crate)
        return members

    def below(self):
        """The groups that each group stands on."""
        below = {g: set() for g in self.said}
        for crate, deps in self.deps.items():
            below[self.group[crate]].update(self.group[d] for d in deps if self.group[d] != self.group[crate])
        return below

    def libraries(self, crate):
        """All crates below a crate."""
        found = []
        for dep in self.deps[crate]:
            found += [d for d in [*self.libraries(dep), dep] if d not in found]
        return found
