#!/usr/bin/env python3
"""Brings this repository's own definitions and lemmas to today's spelling: a word is in snake case (port of the older Rattle).

usage: tools/respell.py [--list] [FOLDER]     once, right after port.py; --list only prints the table

A name that specs/*.antt or proofs/*.antt declares and that begins with a small letter turns, in every .antt file, in the clauses
of every .rt file and in the texts of every .edit file: `dayOf` to `day_of`, `taken-back` to `taken_back`. Names of src/ stay, as do the
files that belong to one function's proof (goals, facts and steps there are named by Rattle).
"""
import os
import re
import sys

WORD = re.compile(r"[^\s(){}.;,@\"«»]+")
DECLARED = re.compile(r"(?m)^[ \t]*(?:abbrev |unfoldable |pub |data |record )*([^\s(){}.;,@\"«»]+)(?: \{[^\n]*)? :")


def plain(name):
    """The name in snake case, or None where it has that spelling."""
    if not re.match(r"^[a-z]", name):
        return None
    new = re.sub(r"(?<=[a-z0-9'])-(?=[a-z0-9])", "_", name)
    new = re.sub(r"(?<=[a-z0-9'])([A-Z])(?=[a-z0-9']|$|_|-)", lambda m: "_" + m.group(1).lower(), new)
    return new if new != name else None


def files(root, *ends):
    for folder, dirs, names in os.walk(os.path.join(root, "crates")):
        dirs[:] = sorted(d for d in dirs if d not in ("out", "data"))
        for name in sorted(names):
            if name.endswith(ends):
                yield os.path.join(folder, name)


def text_of(path):
    with open(path, encoding="utf-8") as f:
        return f.read()


def shared(path):
    """Whether the file declares names for other files: one of specs/, or right in proofs/."""
    return os.path.basename(os.path.dirname(path)) in ("specs", "proofs")


def table(root):
    """Old and new names. A lemma that would get a definition's name ends in `_lem`."""
    names = set()
    for path in files(root, ".antt"):
        if shared(path):
            names |= {m.group(1) for m in DECLARED.finditer(re.sub(r"--[^\n]*", "", text_of(path)))}
    rows = {name: plain(name) for name in names if plain(name)}
    taken = {new for old, new in rows.items() if "-" not in old} | (names - set(rows))
    for new in [new for old, new in rows.items() if "-" not in old and new in names]:
        rows[new] = new + "_lem"
    return {old: new + "_lem" * ("-" in old and new in taken) for old, new in rows.items()}


GHOST = re.compile(r"ghost use [^;]*;|(?:requires|ensures)\*?(?: \w+)? \{|ghost (?:\w+: )?\{|//[^\n]*")


def clauses(text):
    """Where the ghost text and the comments of a .rt file lie: pairs of start and end."""
    at = 0
    while m := GHOST.search(text, at):
        end = m.end()
        if m.group(0).endswith("{") and not m.group(0).startswith(("//", "ghost use")):
            depth = 1
            while depth:
                depth += {"{": 1, "}": -1}.get(text[end], 0)
                end += 1
        yield m.start(), end
        at = end


def turned(text, rows):
    return WORD.sub(lambda m: rows.get(m.group(0), m.group(0)), text)


def turned_code(text, rows):
    out, at = [], 0
    for start, end in clauses(text):
        out += [text[at:start], turned(text[start:end], rows)]
        at = end
    return "".join(out) + text[at:]


def main(argv):
    root = ([a for a in argv if not a.startswith("--")] or ["."])[0]
    rows = table(root)
    if "--list" in argv:
        print("\n".join(f"{old}\t{new}" for old, new in sorted(rows.items())))
        return
    for path in files(root, ".antt", ".edit", ".rt"):
        old = text_of(path)
        if path.endswith(".rt"):
            new = turned_code(old, rows)
        elif path.endswith(".edit"):
            new = "\n".join(turned(l, rows) if l.startswith(("old:", "new:")) else l for l in old.split("\n"))
        else:
            new = turned(old, rows)
        if new != old:
            with open(path, "w", encoding="utf-8") as f:
                f.write(new)


main(sys.argv[1:])
