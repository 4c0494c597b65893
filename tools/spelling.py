#!/usr/bin/env python3
"""Brings the definitions and lemmas of specs/ and proofs/ to one spelling: words in snake case, types and modules as they are.

usage: python3 tools/spelling.py            at the top of the repository, once, after the kit's port.py
       python3 tools/spelling.py --list     says what it would rename, and writes nothing

A name is renamed if a line of specs/ or proofs/ defines it, begins with a small letter, and has a capital or a dash in it.
Where two names fall together, the definition of specs/ has the plain one and the lemma ends in _lem.
Names that the toolchain makes (answers to goals, invariants, measures) keep theirs. Functions of src/, strings and comments stay.
"""

import os
import re
import sys

WORD = r"\w'\-"
SIGNATURE = re.compile(r"^\s*(?:(?:abbrev|unfoldable|pub)\s+)*([^\W\d_][\w'\-]*)\s*((?:[({].*?[)}]\s*)*):(?!:)\s*(.*)$")
CONSTRUCTOR = re.compile(r"^\s+\|?\s*([^\W\d_][\w'\-]*)\s*:")
MADE = re.compile(r"^(goal|need|given|choice)\.")
STARTS = re.compile(r"^(invariant-|decreases-|ghost-|returns|loop-|in-|in_|if-|bounds|slice_bounds|overflow|nonzero)")


def files(root):
    for folder, dirs, names in os.walk(os.path.join(root, "crates")):
        dirs[:] = sorted(d for d in dirs if d not in ("out", "must-fail", "data"))
        for name in sorted(names):
            if name.endswith((".antt", ".rt")):
                yield os.path.join(folder, name)


def snake(name):
    split = re.sub(r"(?<=[a-z0-9])([A-Z])", lambda m: "_" + m.group(1), name)
    return split.replace("-", "_").lower()


def defined(paths):
    """Each name that is defined, and whether a file of specs/ defines it."""
    found = {}
    for path in paths:
        if not path.endswith(".antt"):
            continue
        for line in open(path, encoding="utf-8"):
            if line.lstrip().startswith(("--", "use ", "pub use ", "module ")):
                continue
            m = SIGNATURE.match(line)
            if not m or MADE.match(m.group(3)) or STARTS.match(m.group(1)):
                continue
            if m.group(1)[0].islower():
                found[m.group(1)] = found.get(m.group(1), False) or "/specs/" in path
    return found


def split_comment(line, mark):
    at = line.find(mark)
    return (line, "") if at < 0 else (line[:at], line[at:])


def main():
    root = os.getcwd()
    paths = list(files(root))
    names = defined(paths)
    library = set()
    for path in paths:
        for line in open(path, encoding="utf-8"):
            m = re.match(r"(?:ghost )?use Rattle\.std\.[\w.]*\{(.*)\}", line)
            library |= set(re.split(r",\s*", m.group(1))) if m else set()
    taken = {}
    for name in sorted(names, key=lambda n: (not names[n], n)):
        taken.setdefault(snake(name), name)
    table = {}
    for name in names:
        new = snake(name)
        if taken[new] != name or new in library and new != name:
            print(f"look: {name} becomes {new}_lem, since {taken[new] if taken[new] != name else 'the library'} has the plain name")
            new += "_lem"
        if new != name:
            table[name] = new
    if "--list" in sys.argv:
        for old in sorted(table):
            print(old, table[old])
        return
    pattern = re.compile(r"(?<![%s])(%s)(?![%s])" % (WORD, "|".join(sorted(map(re.escape, table), key=len, reverse=True)), WORD))
    for path in paths:
        text = open(path, encoding="utf-8").read()
        antt = path.endswith(".antt")
        out, clause = [], False
        for line in text.splitlines(keepends=True):
            code, comment = split_comment(line, "--" if antt else "//")
            if not antt:
                clause = bool(re.match(r"\s*(pub\s+)?(ghost|ensures|requires|law)\b", code)) or (clause and not re.match(r"\s*[{}]\s*$", code))
            if antt or clause:
                code = pattern.sub(lambda m: table[m.group(1)], code)
            out.append(code + comment)
        if (new := "".join(out)) != text:
            open(path, "w", encoding="utf-8").write(new)


main()
