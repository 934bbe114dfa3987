#!/usr/bin/env python3
"""Brings the definitions and lemmas of this repository to today's spelling of names: words in snake case, types and modules in camel case.

usage: python3 tools/respell.py    at the top of the repository, once, after the kit's port.py

A name is parted at its dashes, which stay. A part in lower camel case, as linkCount, becomes snake case, link_count. Functions of src/, strings,
inputs and outputs have no such names. A definition may get the name of the function of src/ that computes it, as kind_of in the kit's own examples.
Names that another would be taken for are renamed by hand, in the table below.
It stops before it writes anything where two names of definitions, lemmas, fields or ghost members would fall together.
"""
import os
import re
import sys

# a lemma beside a definition of nearly its name, and one definition beside a lemma
BY_HAND = {
    "airtime-of": "airtime_of-micros",
    "margin-of": "margin_of-decibels",
    "readOne": "one_read",
}

NAME = re.compile(r"(?<![\w'`\u00b7])[A-Za-z_][A-Za-z0-9_']*(?:-[A-Za-z0-9_']+)*(?![\w'])")
CAMEL = re.compile(r"^[a-z][a-z0-9]*(?:[A-Z][a-z0-9]*)+'*$")
DEFINED = re.compile(r"^\s*(?:(?:abbrev|unfoldable|pub|data|record|ruleset)\s+)*([A-Za-z_][A-Za-z0-9_']*(?:-[A-Za-z0-9_']+)*)\s+:(?!\w)", re.M)
GHOST = re.compile(r"^\s*ghost\s+(\w+)\s*[:=]", re.M)
MARKED = re.compile(r"`([^`\n]+)`")


def snake(part):
    return re.sub(r"[A-Z]", lambda m: "_" + m.group().lower(), part) if CAMEL.match(part) else part


def respelled(name):
    return BY_HAND.get(name) or "-".join(snake(p) for p in name.split("-"))


def turn(text):
    return re.sub(r"(?<![\w'])[A-Za-z_][A-Za-z0-9_']*(?:-[A-Za-z0-9_']+)*", lambda m: respelled(m.group()), text)


def files(top):
    for folder, dirs, names in os.walk(os.path.join(top, "crates")):
        dirs[:] = sorted(d for d in dirs if d != "out")
        for n in sorted(names):
            if n.endswith((".rt", ".antt", ".edit")):
                yield os.path.join(folder, n), turn
    # documents name definitions between backquotes
    docs = [os.path.join(top, "README.md")] + [os.path.join(top, "docs", n) for n in sorted(os.listdir(os.path.join(top, "docs"))) if n.endswith(".md") and n != "PORT.md"]
    for d in docs:
        yield d, lambda text: MARKED.sub(lambda m: "`" + turn(m.group(1)) + "`", text)


def main():
    top = os.getcwd()
    if not os.path.exists(os.path.join(top, "crates.txt")):
        sys.exit("respell: run this at the top of the repository")
    names, everywhere, texts = set(), set(), []
    for path, how in files(top):
        with open(path, encoding="utf-8") as f:
            text = f.read()
        texts.append((path, text, how(text)))
        if path.endswith(".antt"):
            names |= set(DEFINED.findall(text))
        if path.endswith(".rt"):
            names |= set(GHOST.findall(text))
        everywhere |= set(re.findall(r"(?<![\w'])[A-Za-z_][A-Za-z0-9_']*(?:-[A-Za-z0-9_']+)*", text)) if path.endswith((".rt", ".antt")) else set()
    clash = {}
    for n in names | {n for n in everywhere if respelled(n) != n}:
        clash.setdefault(respelled(n), []).append(n)
    clash = {k: sorted(v) for k, v in clash.items() if len(v) > 1}
    if clash:
        for k, v in sorted(clash.items()):
            print(f"respell: {', '.join(v)} would all be {k}", file=sys.stderr)
        sys.exit(1)
    turned = sum(1 for _, old, new in texts if old != new)
    for path, old, new in texts:
        if old != new:
            with open(path, "w", encoding="utf-8") as f:
                f.write(new)
    print(f"respell: {sum(1 for n in everywhere if respelled(n) != n)} names in {turned} files")


if __name__ == "__main__":
    main()
