#!/usr/bin/env python3
"""Spells the repository's own definitions and lemmas as today's Rattle does: words in snake case.

usage: python3 tools/respell.py        at the top of the repository, once, after port.py

tools/respelled.tsv has each old name and its new one. Functions of src/, exported names, strings and the files that
programs read and write keep theirs. A definition in mixed case may take the name of the function that it defines; a
lemma that would have a definition's name ends in `_lem`. In comments and pages a name with a dash is respelled only
between backticks, since a plain word may look like it.
"""

import glob
import os
import re

HERE = os.path.dirname(os.path.realpath(__file__))
TOKEN = re.compile(r'"(?:[^"\\]|\\.)*"|[^\s(){}.;,@"«»\[\]\\`:]+')


def table():
    with open(os.path.join(HERE, "respelled.tsv"), encoding="utf-8") as rows:
        return dict(row.rstrip("\n").split("\t") for row in rows)


def respelled(text, names):
    return TOKEN.sub(lambda found: names.get(found.group(), found.group()), text)


def in_backticks(text, names):
    return re.sub(r"`[^`\n]*`", lambda found: respelled(found.group(), names), text)


def line_of(line, comment, names, mixed):
    """A line of a source: the code whole; in its comment mixed case everywhere, and dashes between backticks."""
    at = line.find(comment)
    if at < 0:
        return respelled(line, names)
    said = respelled(in_backticks(line[at:], names), mixed)
    return respelled(line[:at], names) + said


def turn(path, change):
    with open(path, encoding="utf-8", newline="") as file:
        old = file.read()
    new = change(old)
    if new != old:
        with open(path, "w", encoding="utf-8", newline="") as file:
            file.write(new)


def main():
    names = table()
    mixed = {old: new for old, new in names.items() if "-" not in old}
    by_line = lambda comment: lambda text: "\n".join(line_of(line, comment, names, mixed) for line in text.split("\n"))
    for path in sorted(glob.glob("crates/*/**/*.*", recursive=True)):
        if "/out/" in path:
            continue
        if path.endswith(".antt"):
            turn(path, by_line("-- "))
        elif path.endswith(".rt"):
            turn(path, by_line("// "))
        elif path.endswith(".edit"):
            turn(path, lambda text: respelled(text, names))
    for path in sorted(["README.md", *glob.glob("docs/**/*.md", recursive=True)]):
        turn(path, lambda text: in_backticks(text, names))


main()
