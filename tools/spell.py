#!/usr/bin/env python3
"""Spells this repository's own definitions, lemmas, fields and constants in snake case.

usage: tools/spell.py [--list]      at the top of the repository, once, after the toolchain's own scripts

Which names: each that a file of specs/ or proofs/ declares (at the margin, in a `where`, as a constructor or as a field), unless a library of the
toolchain lends that very name, or the toolchain makes it (a goal, a step). camelCase and dashes become snake case: `columnOf` is `column_of`,
`KEY-VALUE-LAYER` is `KEY_VALUE_LAYER`, `is_whole-end` is `is_whole_end`. Types, and facts named like types, keep their capital.
Where the new spelling is taken, a definition gets `_of` behind it (a parameter or field of src/ has it) or the lemma that has it gets `_lem`;
such places are printed: `met: OLD NEW`. --list prints the table and writes nothing.
Items of src/, strings and data are not touched: in a .rt file only clauses and `ghost use` lines are.
"""

import os
import re
import sys

NAME = r'[^\s(){}.;,@"«»]+'
MODIFIERS = r"(?:(?:abbrev|unfoldable|pub|private|data|record|let|do|where|of|in)\s+)*"
DECLARED = re.compile(rf"^\s*{MODIFIERS}({NAME})(?:\s+\{{[^{{}}\n]*\}}|\s+\([^()\n]*\))*\s+:(?:\s|$)(.*)$", re.M)
MADE = re.compile(r"^\s*(?:tie|goal|needs|rules|Given|Goals)\.")
LENT = re.compile(r"^\s*(?:ghost\s+)?use\s+([^\s;{]+)\.\{([^}]*)\}", re.M)
HEADS = ("c", "l", "w", "g", "tie", "goal", "needs", "rules", "mem", "p", "q", "e")
GHOST = re.compile(r"(?:\b(?:requires|ensures)\b\*?\s*(?:\w+\s*)?\{|\bghost\s+(?:\w+\s*:\s*)?\{)|\bghost\s+use\b[^;]*;")


def files(root):
    for folder, dirs, names in os.walk(os.path.join(root, "crates")):
        dirs[:] = sorted(d for d in dirs if d != "out")
        for n in sorted(names):
            if n.endswith((".antt", ".rt", ".edit")):
                yield os.path.join(folder, n)


def read(path):
    with open(path, encoding="utf8") as f:
        return f.read()


def code(text):
    """The text without its comments."""
    return "\n".join(re.sub(r"(?:^|(?<=\s))--.*", "", l) for l in text.split("\n"))


def spelled(name):
    kept, primes = re.fullmatch(r"(.*?)('*)", name).groups()
    if re.fullmatch(r"[A-Z][A-Z0-9]*(?:-[A-Z0-9]+)*", kept):
        return kept.replace("-", "_") + primes
    parts = kept.split("-")
    out = []
    for p in parts:
        if p[:1].isupper() and not p.isupper():
            out.append(p)
        elif p.isupper():
            out.append(p)
        else:
            q = re.sub(r"(?<=[a-z0-9])([A-Z]+)(?=[A-Z][a-z])", lambda m: "_" + m[1].lower(), p)
            q = re.sub(r"(?<=[a-z0-9])([A-Z])", lambda m: "_" + m[1].lower(), q)
            out.append(q[:1] + q[1:].lower() if q.isascii() else q)
    return "_".join(out) + primes


def table(root):
    declared, made, lent, fields = set(), set(), set(), set()
    for path in files(root):
        if not path.endswith(".antt"):
            if path.endswith(".rt"):
                for m in LENT.finditer(read(path)):
                    if not m[1].startswith("Rattle.") or m[1].startswith("Rattle.std"):
                        lent.update(m[2].replace(",", " ").split())
            continue
        text = code(read(path))
        for m in DECLARED.finditer(text):
            (made if MADE.match(m[2]) else declared).add(m[1])
        for m in LENT.finditer(text):
            if not m[1].startswith("Rattle.") or m[1].startswith("Rattle.std"):
                lent.update(m[2].replace(",", " ").split())
    held = set()
    for path in files(root):
        if path.endswith(".rt"):
            text = re.sub(r"//.*", "", read(path))
            text = GHOST.sub("", text)
            held.update(re.findall(r"(?<![.:\w])([a-z_][a-z0-9_]*)\s*:(?!:)", text))
            held.update(re.findall(r"\blet\s+(?:mut\s+)?(\w+)", text))
    able = sorted(n for n in declared - made - lent if re.fullmatch(r"[A-Za-z][A-Za-z0-9_'?ℤℕ₀-₉-]*", n))
    able = [n for n in able if not (n[0].isupper() and "-" not in n)]
    rows, met, taken = {}, [], set(lent)
    # Definitions in camelCase first, so that a lemma of the same words makes room for them.
    camel = [n for n in able if re.search(r"[a-z0-9][A-Z]", n) and "-" not in n]
    for name in camel:
        new = spelled(name)
        if new in lent or new in held or new in taken:
            met.append((name, new))
            new += "_of"
        if new in declared or new in taken:
            other = [n for n in able if n == new]
            if new in taken or not other:
                met.append((name, new))
                continue
            rows[new] = new + "_lem"
            taken.add(new + "_lem")
        rows[name] = new
        taken.add(new)
    for name in able:
        if name in rows or name in camel:
            continue
        new = spelled(name)
        if new == name:
            continue
        if new in taken or new in lent or (new in declared and new not in rows):
            met.append((name, new))
            new += "_lem"
        if new in declared or new in taken:
            continue
        rows[name] = new
        taken.add(new)
    return rows, met


def turn(text, rows):
    def one(m):
        w = m[0]
        if w not in rows:
            return w
        before = text[: m.start()]
        if before.endswith("."):
            head = re.search(rf"({NAME}(?:\.{NAME})*)\.$", before[-200:])
            if head and head[1].split(".")[0] in HEADS and "-" in w:
                return w
        return rows[w]

    return re.sub(NAME, one, text)


def ghosts(text, rows):
    """A .rt file: clauses, ghost items and `ghost use` lines."""
    out, i = [], 0
    for m in GHOST.finditer(text):
        if m.start() < i:
            continue
        out.append(text[i : m.start()])
        end = m.end()
        if text[m.end() - 1] == "{":
            deep = 1
            while deep and end < len(text):
                deep += (text[end] == "{") - (text[end] == "}")
                end += 1
        out.append(turn(text[m.start() : end], rows))
        i = end
    return "".join(out) + text[i:]


def main():
    rows, met = table(".")
    if "--list" in sys.argv:
        for old, new in rows.items():
            print(f"{old}\t{new}")
    for old, new in met:
        print(f"met: {old} {new}")
    print(f"{len(rows)} names")
    if "--list" in sys.argv:
        return
    changed = 0
    for path in files("."):
        old = read(path)
        new = ghosts(old, rows) if path.endswith(".rt") else turn(old, rows)
        if path.endswith(".edit"):
            new = "\n".join(l if l.startswith("file:") else turn(l, rows) for l in old.split("\n"))
        if new != old:
            changed += 1
            with open(path, "w", encoding="utf8") as f:
                f.write(new)
    print(f"{changed} files")


main()
