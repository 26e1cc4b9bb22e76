#!/usr/bin/env python3
"""Respells the repository's own definitions, lemmas, fields and constructors in antt as Rattle spells its own:
words in snake case, types in camel case; a dash stays only between two names, as in `separated-suc`.

usage: python3 tools/respell.py [--list]     at the top of the repository, once, right after the kit's port.py

It collects what the lemma and definition files (specs/*.antt, proofs/*.antt) and the private lemmas of proof folders
declare, and respells those words in every .antt file and in the ghost text of every .rt file. What Rattle itself names (goals, what hangs
on `c.`, `l.`, `goal.`), Rust names, strings and words of the library stay. --list prints the renamings and changes nothing.
"""

import os
import re
import sys

# Names that would fall together with another name in scope, or that read wrong when respelled by rule.
BY_HAND = {
    "firstByte": "first_byte_of",
    "laid-extra": "laid_extra_lem",
    "shift-atom": "shift_atom_lem",
    "shift-term": "shift_term_lem",
    "fact-place": "fact_place_lem",
    "laid-before": "laid_before_lem",
    "laid-later": "laid_later_lem",
}

WORD = re.compile(r"[A-Za-z][A-Za-z0-9_'?]*(?:-[A-Za-z0-9_'?]+)*")
HEAD = re.compile(r"^(\s*)((?:(?:abbrev|unfoldable|pub|data|record) )*)([A-Za-z][A-Za-z0-9_'?-]*)((?: *\(.*)?) *:(?!=)(.*)")
PARTS = {"suc", "cons", "nil", "append", "map", "take", "drop", "length"}


def files(ends):
    for folder, dirs, fs in os.walk("crates"):
        dirs[:] = sorted(d for d in dirs if d != "out")
        for f in sorted(fs):
            if f.endswith(ends):
                yield os.path.join(folder, f)


def read(path):
    with open(path, encoding="utf-8") as f:
        return f.read()


def declared():
    """Each own name, and whether it is the name of a definition (no lemma)."""
    names, words = {}, set()
    for path in files(".antt"):
        in_folder = re.search(r"/proofs/[^/]+/", path) is not None
        for line in read(path).split("\n"):
            m = HEAD.match(line)
            if not m or line.lstrip().startswith("--"):
                continue
            indent, marks, name, _, rest = m.groups()
            if re.match(r"\s*(goal|given)\.", rest) or (in_folder and "pub" in marks):
                continue
            if in_folder and indent:
                continue
            if indent and not in_folder and "pub" not in marks and not re.match(r"\s+[a-z]", indent + name):
                continue
            if name in ("let", "use"):
                continue
            names.setdefault(name, set()).add(path)
            if "/specs/" in path or "abbrev" in marks or "record" in marks or "data" in marks:
                words.add(name)
    return names, words


def snake(word):
    return re.sub(r"(?<=[a-z0-9])([A-Z])", lambda m: "_" + m.group(1).lower(), word)


def respelled(name, words):
    if name in BY_HAND:
        return BY_HAND[name]
    parts = [p if p[:1].isupper() and len(p) > 1 else snake(p).lower() for p in name.split("-")]
    snakes = {snake(w).replace("-", "_") for w in words} | PARTS
    for i in range(len(parts) - 1, 0, -1):
        left, right = "_".join(parts[:i]), "_".join(parts[i:])
        if left in snakes and right in PARTS:
            return left + "-" + right
    return "_".join(parts)


def renamings():
    names, words = declared()
    out = {}
    for name in sorted(names):
        if re.match(r"^[A-Z]", name):
            continue
        if re.search(r"[a-z0-9][A-Z]|-", name):
            new = respelled(name, words)
            if new != name:
                out[name] = new
    return out, names


def respell(text, table):
    def one(m):
        before = text[max(0, m.start() - 5) : m.start()]
        if re.search(r"(?<![A-Za-z0-9_'-])(c|l|goal|given)\.$", before):
            return m.group(0)
        return table.get(m.group(0), m.group(0))

    return WORD.sub(one, text)


def respell_antt(text, table):
    lines = []
    for line in text.split("\n"):
        code, dash, comment = line.partition("-- ") if line.lstrip().startswith("-- ") else (line, "", "")
        if dash:
            comment = WORD.sub(lambda m: table.get(m.group(0), m.group(0)) if re.search(r"[a-z0-9][A-Z]", m.group(0)) else m.group(0), comment)
            lines.append(code + dash + comment)
        else:
            lines.append(respell(code, table))
    return "\n".join(lines)


def respell_rt(text, table):
    pieces = re.split(r'("(?:[^"\\]|\\.)*"|//[^\n]*)', text)
    return "".join(p if i % 2 else respell(p, table) for i, p in enumerate(pieces))


def main():
    table, names = renamings()
    if "--list" in sys.argv:
        for old, new in table.items():
            print(old, new)
        return
    for path in files((".antt", ".rt")):
        old = read(path)
        new = respell_antt(old, table) if path.endswith(".antt") else respell_rt(old, table)
        if new != old:
            with open(path, "w", encoding="utf-8") as f:
                f.write(new)


main()
