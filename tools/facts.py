#!/usr/bin/env python3
"""Lists the facts that stand in the contracts of three functions or more, a line a fact, with the functions: the second way in which point 5 of
docs/DESIGN-PASS.md is counted. facts.py [FOLDER] [LEAST], a checkout, else this one, and how many functions, else 3. A fact is a part of a `requires` or
an `ensures` between signs of a product or an arrow. Needs nothing but python3."""

import collections
import pathlib
import re
import sys

FOLDER = pathlib.Path(sys.argv[1] if len(sys.argv) > 1 else pathlib.Path(__file__).resolve().parent.parent)
LEAST = int(sys.argv[2]) if len(sys.argv) > 2 else 3


def main():
    stands = collections.defaultdict(set)
    for path in sorted(FOLDER.glob("crates/*/src/**/*.rt")):
        name = "?"
        for line in path.read_text().splitlines():
            function = re.search(r"\bfn (\w+)", line)
            name = function.group(1) if function else name
            clause = re.match(r"\s*(requires|ensures)\s*(?:\w+ )?\{(.*)\}\s*$", line)
            for part in re.split(r"[×→]", clause.group(2)) if clause else []:
                stands[(clause.group(1), part.strip().strip("()").strip())].add(f"{path.parts[-3]}::{name}")
    for (kind, fact), functions in sorted(stands.items(), key=lambda item: (-len(item[1]), item[0])):
        if len(functions) >= LEAST:
            print(f"{len(functions)} {kind} {fact}: {' '.join(sorted(functions))}")


main()
