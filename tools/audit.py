#!/usr/bin/env python3
"""audit.py [--write]

Keeps what docs/audit.md shows of the code: the statement of `run` as it stands, and the definitions that it reaches with
their lines. Without --write it says whether the page is as the code is, and ends with 1 where it is not.
"""
import os
import re
import sys

from marks import between

TOP = os.path.dirname(os.path.dirname(os.path.abspath(__file__)))
PAGE = os.path.join(TOP, "docs", "audit.md")
STATEMENT = os.path.join("crates", "p4switch_run", "src", "program.rt")
USE = re.compile(r"(?:ghost )?(?:pub )?use Rattle\.(\w+)\.specs\.([\w.]+?)(?:\.\{| as |;|$)")
ROW = re.compile(r"\| `(\w+)` \| [^|]* \| [^|]* \| (.*) \|$")


def read(file: str) -> str:
    with open(os.path.join(TOP, file), encoding="utf-8") as it:
        return it.read()


def imports(text: str) -> list[tuple[str, str]]:
    """The definitions' files that a text uses, as pairs of a crate and a module."""
    return [(it[1], it[2]) for it in map(USE.match, map(str.strip, text.splitlines())) if it]


def count_lines(text: str) -> int:
    """Its lines without blank ones, comments and imports."""
    lines = (it.strip() for it in text.splitlines())
    return sum(1 for it in lines if it and not it.startswith(("--", "use ")))


def reached() -> dict[str, dict[str, int]]:
    """What the statement reaches of this repository's definitions, crate by crate: {crate: {file: lines}}."""
    found: dict[str, dict[str, int]] = {}
    todo = imports(read(STATEMENT))
    while todo:
        crate, module = todo.pop()
        file = os.path.join("crates", crate, "specs", module.replace(".", "/") + ".antt")
        if module in found.get(crate, {}) or not os.path.isfile(os.path.join(TOP, file)):
            continue
        text = read(file)
        found.setdefault(crate, {})[module] = count_lines(text)
        todo += imports(text)
    return found


def statement() -> list[str]:
    """The lines of `run` up to its body."""
    lines = read(STATEMENT).splitlines()
    first = next(place for place, it in enumerate(lines) if it.startswith("pub fn run<"))
    last = lines.index("{", first)
    return [f"    {it}".rstrip() for it in lines[first:last]]


def rows(page: str, found: dict[str, dict[str, int]]) -> list[str]:
    """The table's rows, in the page's order, with files and lines as they are now."""
    made = ["", "| Crate | Files in `specs/` | Lines | What they say |", "|---|---|---|---|"]
    told = {it[1]: it[2] for it in map(ROW.match, page.splitlines()) if it}
    for crate in [*told, *sorted(set(found) - set(told))]:
        if crate in found:
            named = ", ".join(sorted(found[crate]))
            made.append(f"| `{crate}` | {named} | {sum(found[crate].values()):,} | {told.get(crate, 'not told yet')} |")
    files = sum(len(it) for it in found.values())
    total = sum(sum(it.values()) for it in found.values())
    return made + [f"| all | {files} files | {total:,} | |", ""]


def refreshed(page: str) -> str:
    """The page as it is to be."""
    page = between(page, "statement", ["", *statement(), ""])
    return between(page, "reached", rows(page, reached()))


if __name__ == "__main__":
    with open(PAGE, encoding="utf-8") as it:
        old = it.read()
    new = refreshed(old)
    if new == old:
        sys.exit(0)
    if sys.argv[1:] != ["--write"]:
        sys.exit("docs/audit.md does not show the code as it is: tools/audit.py --write")
    with open(PAGE, "w", encoding="utf-8") as it:
        it.write(new)
