#!/usr/bin/env python3
"""Holds the table "Conditions on callers" of docs/STATEMENTS.md to the code: it names every function that another crate can call and that has a
`requires`, and every type that another crate can make and that has an invariant, and no other. Needs nothing but python3."""

import pathlib
import re
import sys

ROOT = pathlib.Path(__file__).resolve().parent.parent


def visible(path):
    """Whether another crate can name what is public in the file: a crate's root, or a module that the root makes public."""
    root = path.parent / "lib.rt"
    return path.name == "lib.rt" or (root.is_file() and re.search(rf"^pub mod {path.stem};", root.read_text(), re.M) is not None)


def with_conditions(path):
    """Functions, methods behind their type's name, that have a `requires`; and types with an invariant, which whoever makes one has to meet."""
    owner, name, asks, made = "", None, False, None
    for line in path.read_text().splitlines():
        begun = re.match(r"impl(?:<.*?>)? (\w+)(?:<.*?>)? \{", line)
        if begun:
            owner = begun.group(1) + "::"
        elif line == "}":
            owner, made = "" if name is None else owner, None
        struct = re.match(r"pub struct (\w+)", line)
        if struct:
            made = struct.group(1)
        if made is not None and re.match(r"\s+ghost \w+: \{", line):
            yield made
            made = None
        found = re.match(r'\s*pub (?:extern "C" )?fn (\w+)[(<]', line)
        if found:
            name, asks = owner + found.group(1), False
        if name is not None and line.strip().startswith("requires "):
            asks = True
        if name is not None and line.strip() == "{":
            if asks:
                yield name
            name = None


def main():
    asked = set()
    for path in sorted(ROOT.glob("crates/*/src/*.rt")):
        if not path.parts[-3].startswith("test_") and visible(path):
            asked.update(with_conditions(path))
    table = (ROOT / "docs/STATEMENTS.md").read_text().split("## Conditions on callers")[1].split("\n## ")[0]
    named = {name for row in table.splitlines() if row.startswith("| `") for name in re.findall(r"`([^`]+)`", row.split("|")[1])}
    named = {name for name in named if not (ROOT / "crates" / name).is_dir()}
    for name in sorted(asked - named):
        print(f"conditions: {name} asks something of its callers, and the table does not name it")
    for name in sorted(named - asked):
        print(f"conditions: the table names {name}, which asks nothing of another crate")
    if asked == named:
        print(f"conditions: the {len(asked)} functions and types that ask something of another crate are those of the table")
    sys.exit(asked != named)


main()
