#!/usr/bin/env python3
"""Brings this repository's own definitions, lemmas and ghost fields to today's spelling, once, after Rattle's port.py.

usage: python3 tools/respell.py [FOLDER]      FOLDER: the top of the checkout; none: the folder above this file

respell.tsv, beside this file, has a line for each name: the old spelling, a tab, the new one. A definition and a lemma are
in snake case, a type is in camel case, and a ghost field is a Rust identifier in snake case. A dash stays where a lemma is
named by its left side, as length-counted. The modules facts and inner of specs/ become Facts and Inner. Functions of src/, strings and comments keep their words; in pages only
what stands between backticks is turned.
"""
import os
import re
import sys

HERE = os.path.dirname(os.path.realpath(__file__))
NAME = re.compile(r"(?<![\w'\-])[^\W\d][\w'\-]*(?![\w'\-])")
MODULES = {"facts": "Facts", "inner": "Inner"}


def table():
    with open(os.path.join(HERE, "respell.tsv"), encoding="utf-8") as f:
        return dict(line.rstrip("\n").split("\t") for line in f if line.strip())


def turned(text, names):
    text = NAME.sub(lambda m: names.get(m.group(0), m.group(0)), text)
    return re.sub(r"\.specs\.(facts|inner)(?=[.;\s])", lambda m: ".specs." + MODULES[m.group(1)], text)


def in_ticks(text, names):
    return re.sub(r"`[^`\n]*`", lambda m: turned(m.group(0), names), text)


def line_of(line, names, mark):
    """A line of code, whose comment, from the mark on, is turned between backticks alone, and its strings not at all."""
    m = re.search(r"(^|\s)" + mark, line)
    code, comment = (line[: m.start()], line[m.start() :]) if m else (line, "")
    parts = re.split(r'("(?:[^"\\]|\\.)*")', code) if mark == "//" else [code]
    code = "".join(p if i % 2 else turned(p, names) for i, p in enumerate(parts))
    return code + in_ticks(comment, names)


def modules(text):
    return re.sub(r"(?m)^(pub mod |mod )(facts|inner)$", lambda m: m.group(1) + MODULES[m.group(2)], text)


def edit_line(line, names):
    if line.startswith("file:"):
        return re.sub(r"specs/(facts|inner)/", lambda m: f"specs/{MODULES[m.group(1)]}/", line)
    return line_of(line, names, "//") if line.startswith(("old:", "new:")) else line


def rewrite(path, names):
    with open(path, encoding="utf-8") as f:
        old = f.read()
    if path.endswith(".antt"):
        new = modules("".join(line_of(l, names, "--") for l in old.splitlines(True)))
    elif path.endswith(".rt"):
        new = "".join(line_of(l, names, "//") for l in old.splitlines(True))
    elif path.endswith(".edit"):
        new = "".join(edit_line(l, names) for l in old.splitlines(True))
    else:
        new = in_ticks(old, names)
    if new != old:
        with open(path, "w", encoding="utf-8") as f:
            f.write(new)
    return new != old


def files(top):
    for start in ("crates", "docs"):
        for folder, dirs, names in os.walk(os.path.join(top, start)):
            dirs[:] = sorted(d for d in dirs if d != "out")
            for n in sorted(names):
                if n.endswith((".antt", ".rt", ".edit", ".md")):
                    yield os.path.join(folder, n)
    yield os.path.join(top, "README.md")


def move_modules(top):
    moved = 0
    crates = os.path.join(top, "crates")
    for crate in sorted(os.listdir(crates)):
        for old, new in MODULES.items():
            for end in ("", ".antt"):
                a = os.path.join(crates, crate, "specs", old + end)
                if os.path.exists(a):
                    os.rename(a, os.path.join(crates, crate, "specs", new + end))
                    moved += 1
    return moved


def main():
    top = sys.argv[1] if len(sys.argv) > 1 else os.path.dirname(HERE)
    names = table()
    changed = sum(rewrite(p, names) for p in files(top))
    print(f"respell: {len(names)} names; {changed} files changed; {move_modules(top)} modules moved")


main()
