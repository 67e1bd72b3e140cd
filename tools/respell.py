#!/usr/bin/env python3
"""Turns this repository's own definitions and lemmas to snake case, by the table respelled.tsv beside this file (old name, tab, new name).

usage: python3 tools/respell.py     at the top of the repository, once, on what the kit's port.py left

Whole names turn in .antt files, in clauses and comments of .rt files, and in the lines 'old:' and 'new:' of must-fail edits. In comments of .antt and .rt files, and in Markdown,
only what stands between backticks turns, and names with a capital inside; in Python, strings. Functions of src/, exports, inputs and outputs have no name of the table.
"""

import os
import re
import sys

NAME = re.compile(r"[^\s(){}.;,@\"«»:`\[\]|/]+")
SPAN = re.compile(r"`[^`\n]+`")
PYTHON = re.compile(r"\"(?:[^\"\\\n]|\\.)*\"|'(?:[^'\\\n]|\\.)*'")


def table():
    with open(os.path.join(os.path.dirname(os.path.abspath(__file__)), "respelled.tsv"), encoding="utf-8") as f:
        return dict(line.rstrip("\n").split("\t") for line in f if line.strip())


def turner(names):
    def code(text):
        def one(m):
            bare = m[0].rstrip("'")
            return names.get(m[0]) or (names[bare] + m[0][len(bare) :] if bare in names else m[0])

        return NAME.sub(one, text)

    def prose(text):
        text = SPAN.sub(lambda m: code(m[0]), text)
        return NAME.sub(lambda m: names[m[0]] if m[0] in names and re.search("[a-z][A-Z]", m[0]) else m[0], text)

    return code, prose


def split_comments(text, mark, code, prose):
    out = []
    for line in text.split("\n"):
        m = re.search(rf"(?:^|\s){mark}.*$", line)
        at = m.start() if m else len(line)
        out.append(code(line[:at]) + prose(line[at:]))
    return "\n".join(out)


def main():
    code, prose = turner(table())
    for folder, dirs, files in os.walk("."):
        dirs[:] = sorted(d for d in dirs if d not in (".git", "out", "target", "tools"))
        for name in sorted(files):
            path = os.path.join(folder, name)
            inside = path.startswith("./crates/")
            if not (inside and name.endswith((".antt", ".rt", ".edit")) or name.endswith(".md") or name.endswith(".py")):
                continue
            with open(path, encoding="utf-8") as f:
                old = f.read()
            if name.endswith(".antt"):
                new = split_comments(old, "--", code, prose)
            elif name.endswith(".rt"):
                new = split_comments(old, "//", code, prose)
            elif name.endswith(".edit"):
                new = "\n".join(code(line) if line.startswith(("old: ", "new: ")) else prose(line) for line in old.split("\n"))
            elif name.endswith(".md"):
                new = SPAN.sub(lambda m: code(m[0]), old)
            else:
                new = PYTHON.sub(lambda m: code(m[0]), old)
            if new != old:
                with open(path, "w", encoding="utf-8") as f:
                    f.write(new)


if __name__ == "__main__":
    sys.exit(main())
