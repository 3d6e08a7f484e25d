#!/usr/bin/env python3
"""Brings the repository's own names in specs/, proofs/ and clauses to snake case, by the table tools/spelling.txt.

usage: tools/spell.py    (once, at the top, on what port.py left)

A line of the table is 'OLD NEW', or 'CRATE: OLD NEW' for one crate alone. In code a name is turned wherever it stands as a whole
word; in comments and in the pages only between backticks, or where it is written in camel case.
"""
import glob
import re

WORD = re.compile(r"(?<![\w'\-₀-₉])[A-Za-z_][\w'\-₀-₉]*")
TICKED = re.compile(r"`[^`\n]*`")


def table():
    for_all, by_crate = {}, {}
    for line in open("tools/spelling.txt"):
        line = line.split("#")[0].strip()
        if not line:
            continue
        crate, _, rest = line.rpartition(": ")
        old, new = rest.split()
        (by_crate.setdefault(crate, {}) if crate else for_all)[old] = new
    return for_all, by_crate


def turned(text, names, plain=lambda word: True):
    return WORD.sub(lambda m: names[m[0]] if m[0] in names and plain(m[0]) else m[0], text)


def camel(word):
    return re.search("[a-z0-9][A-Z]", word) is not None and "-" not in word


def comment(text, names):
    text = TICKED.sub(lambda m: turned(m[0], names), text)
    return turned(text, names, camel)


def source(text, names, mark):
    lines = []
    for line in text.split("\n"):
        code, sign, rest = line.partition(mark)
        lines.append(turned(code, names) + sign + comment(rest, names))
    return "\n".join(lines)


def main():
    for_all, by_crate = table()
    paths = [p for kind in ("specs", "proofs") for p in glob.glob(f"crates/*/{kind}/**/*.antt", recursive=True)]
    paths += glob.glob("crates/*/src/*.rt") + glob.glob("crates/*/must-fail/*.edit") + ["README.md"] + glob.glob("docs/*.md")
    for path in sorted(paths):
        names = dict(for_all)
        if path.startswith("crates/"):
            names.update(by_crate.get(path.split("/")[1], {}))
        text = open(path).read()
        if path.endswith(".md"):
            new = TICKED.sub(lambda m: turned(m[0], names), text)
        elif path.endswith(".edit"):
            new = "\n".join(turned(line, names) if line.startswith(("old:", "new:")) else line for line in text.split("\n"))
        else:
            new = source(text, names, "--" if path.endswith(".antt") else "//")
        if new != text:
            open(path, "w").write(new)


main()
