#!/usr/bin/env python3
"""undocumented.py [CRATE..]

Lists public functions of the crates that have no docstring: file, line and name, and their signature.
"""
import glob
import os
import re
import sys

TOP = os.path.dirname(os.path.dirname(os.path.abspath(__file__)))
FUNCTION = re.compile(r"\s*pub (?:const |unsafe )*fn (\w+)")
# What may stand between a docstring and its function.
BETWEEN = re.compile(r"\s*(#\[|//(?!/))")


def undocumented(file: str) -> list[tuple[int, str, str]]:
    """The lines, names and signatures of a file's public functions without a docstring."""
    with open(file, encoding="utf-8") as it:
        lines = it.read().splitlines()
    found = []
    for at, line in enumerate(lines):
        name = FUNCTION.match(line)
        if not name:
            continue
        above = at - 1
        while above >= 0 and BETWEEN.match(lines[above]):
            above -= 1
        if not lines[above].lstrip().startswith("///"):
            found.append((at + 1, name[1], line.strip()))
    return found


def main() -> None:
    for crate in sys.argv[1:] or sorted(os.listdir(os.path.join(TOP, "crates"))):
        for file in sorted(glob.glob(os.path.join(TOP, "crates", crate, "src", "**", "*.rt"), recursive=True)):
            for line, _, signature in undocumented(file):
                print(f"{os.path.relpath(file, TOP)}:{line}: {signature}")


if __name__ == "__main__":
    main()
