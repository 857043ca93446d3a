#!/usr/bin/env python3
"""Spells the repository's own definitions and lemmas as today's Rattle does: snake case, and a dash only between two names.

usage: tools/respell.py          once, at the top, on the tree that the toolchain's script for older repositories leaves
       tools/respell.py --list   shows the old and new names, and writes nothing

Types and modules keep their capitals. A name that would meet another one in some file stays, and is listed as 'kept:'.
What turns: .antt files; the clauses, ghost items and comments' code spans of .rt files; must-fail edits; code spans of .md files.
"""
import collections
import glob
import os
import re
import sys

TOKEN = re.compile(r'[^\s(){}.;,@"«»`|\[\]]+')
DECLARED = re.compile(r'(?m)^(?:(?:pub|abbrev|unfoldable|pattern|axiom) )*([^\s(){}.;,@"«»]+)(?: \{[^{}\n]*\})* :(?= |$)')
INNER = re.compile(r'(?m)^ +(?:pub )?([^\s(){}.;,@"«»λ]+)(?: \{[^{}\n]*\})* :(?= |$)')
BOUND = re.compile(r'\blet ([^\s(){}.;,@"«»]+) (?::|=)')
ANSWER = re.compile(r'(?m)^([^\s(){}.;,@"«»]+) : tie\.Need-')
WORDS = set("le lt eq ne add mul sub div mod suc zero nil cons mem ap append length take drop set replicate map filter reverse sum max min pow get_or".split())
PRELUDE = "length take drop set replicate map filter get_or eqb leb ltb head tail".split()


def camel(n):
    return re.search(r"[a-z0-9][A-Z]", n) and not n[0].isupper()


def snake(n):
    n = re.sub(r"(?<=[a-z0-9])([A-Z])([A-Z]*)", lambda m: "_" + (m[1] + m[2]).lower(), n)
    return n


def files(pattern):
    return sorted(p for p in glob.glob(pattern, recursive=True) if "/out/" not in p)


def is_spec(p):
    return "/specs/" in p


def plan():
    antt = files("crates/*/specs/**/*.antt") + files("crates/*/proofs/**/*.antt")
    text = {p: open(p, encoding="utf-8").read() for p in antt}
    spec, lemma, field, local, answer = set(), set(), set(), set(), set()
    for p, t in text.items():
        names = set(DECLARED.findall(t))
        answers = set(ANSWER.findall(t))
        answer |= answers
        (spec if is_spec(p) else lemma).update(names - answers)
        if is_spec(p) or "\nrecord" in "\n" + t or " record " in t or "data " in t:
            for m in re.finditer(r"(?m)^(?:pub )?(?:pattern )?(?:record|data)\b[^\n]*where\n((?:  [^\n]*\n|\n)*)", t):
                field.update(INNER.findall(m[1]))
        local.update(BOUND.findall(t))
    known = {snake(n) for n in spec} | WORDS | set(PRELUDE)
    tokens = collections.defaultdict(set)
    for p, t in text.items():
        for w in TOKEN.findall(t):
            tokens[w].add(p)
    for p in files("crates/*/src/**/*.rt"):
        for w in re.findall(r"\w+", open(p, encoding="utf-8").read()):
            tokens[w].add(p)

    def new(n):
        if n in field or n in spec:
            return snake(n).replace("-", "_")
        if re.fullmatch(r"[a-z0-9_+-]+-spec", n):
            return n.replace("-", "_")
        if "-" not in n:
            return snake(n)
        parts = [snake(x) for x in n.split("-")]
        out = parts[0]
        for a, b in zip(parts, parts[1:]):
            joined = a in known or a[:1].isupper() or not a.isascii()
            out += ("-" if joined and (b in known or b[:1].isupper() or not b.isascii()) else "_") + b
        return out

    olds = {n for n in spec | lemma | field | (local - answer) if camel(n) or "-" in n or any(camel(x) for x in n.split("-"))}
    # what a module or a `where` declares further in
    for p, t in text.items():
        code = re.sub(r"(?m)^\s*--.*$", "", t)
        olds.update(w for w in TOKEN.findall(code) if any(re.fullmatch(r"[a-z][a-z0-9']*[A-Z][A-Za-z0-9']*", x) for x in w.split("-")))
    olds -= {n for n in answer if n not in spec and n not in lemma and n not in field}
    table, kept = {}, []
    by_new = collections.defaultdict(list)
    for n in sorted(olds):
        m = new(n)
        if m != n:
            by_new[m].append(n)
    for m, ns in sorted(by_new.items()):
        for n in ns:
            others = [x for x in ns if x != n]
            where = tokens[n]
            meets = [p for p in where if p in tokens.get(m, ())] + [p for x in others for p in where if p in tokens[x]]
            rust = [p for p in meets if p.endswith(".rt")]
            if [p for p in meets if p.endswith(".antt")]:
                kept.append((n, m, sorted(set(meets))[:3]))
                if camel(n) and "-" not in n:
                    table[n] = m
            else:
                table[n] = m
    return table, kept, field, spec


def turn(t, table):
    return TOKEN.sub(lambda m: table.get(m[0], m[0]), t)


def turn_antt(t, table):
    out = []
    for line in t.split("\n"):
        i = line.find("--") if line.lstrip().startswith("--") else -1
        if i >= 0:
            out.append(re.sub(r"`[^`]*`", lambda m: turn(m[0], table), re.sub(r"(?<![\w-])\w+(?![\w-])", lambda m: table[m[0]] if m[0] in table and camel(m[0]) else m[0], line)))
        else:
            out.append(turn(line, table))
    return "\n".join(out)


def turn_rt(t, table):
    plain = {a: b for a, b in table.items() if "-" not in a}
    t = re.sub(r"(?<![\w-])\w+(?![\w-])", lambda m: plain[m[0]] if m[0] in plain and camel(m[0]) else m[0], t)
    t = re.sub(r"ghost\s+use\b[^;]*;", lambda m: turn(m[0], table), t)
    t = re.sub(r"(?:requires|ensures)\b[^\n]*|//[^\n]*`[^\n]*", lambda m: turn(m[0], table) if not m[0].startswith("//") else re.sub(r"`[^`]*`", lambda k: turn(k[0], table), m[0]), t)
    return t


def turn_md(t, table):
    return re.sub(r"`[^`\n]+`", lambda m: turn(m[0], table), t)


def main(argv):
    table, kept, field, spec = plan()
    if argv:
        for a, b in sorted(table.items()):
            print(a, b)
        for k in kept:
            print("kept:", *k)
        return 0
    for p in files("crates/*/specs/**/*.antt") + files("crates/*/proofs/**/*.antt"):
        write(p, turn_antt, table)
    for p in files("crates/*/src/**/*.rt"):
        write(p, turn_rt, table)
    for p in files("crates/*/must-fail/*.edit"):
        write(p, turn, table)
    for p in ["README.md", "CHANGELOG.md"] + files("docs/**/*.md") + files("host/**/*.md") + files("tests/**/*.md") + files("bench/**/*.md"):
        write(p, turn_md, table)
    for k in kept:
        print("kept:", *k)
    return 0


def write(p, f, table):
    if not os.path.exists(p):
        return
    t = open(p, encoding="utf-8").read()
    n = f(t, table)
    if n != t:
        with open(p, "w", encoding="utf-8") as w:
            w.write(n)


if __name__ == "__main__":
    raise SystemExit(main(sys.argv[1:]))
