#!/usr/bin/env python3
"""gate.py [--write]

Keeps what docs/gate.md says of its own table: what the whole takes by layer, and the longest chain of crates of which each stands on
the one before. Without --write it says whether the page is so, and ends with 1 where it is not. With --write it also counts the lines
and the edits of each crate anew; its seconds are measured, and written by hand.
"""
import glob
import os
import re
import sys
from typing import NamedTuple

import layers
from marks import between

TOP = layers.TOP
PAGE = os.path.join(TOP, "docs", "gate.md")
ROW = re.compile(r"\| `(\w+)` \| ([\d,]+) \| ([\d,]+) \| ([\d,]+) \| ([\d,]+(?: tests)?) \| ([\d,]+)(\*?) \| (\d+) \|$")


class Row(NamedTuple):
    crate: str
    lines: tuple[int, int, int]
    functions: str
    seconds: int
    is_older: bool
    edits: int

    def text(self) -> str:
        older = "*" if self.is_older else ""
        cells = [f"`{self.crate}`", *(f"{it:,}" for it in self.lines), self.functions, f"{self.seconds:,}{older}", str(self.edits)]
        return "| " + " | ".join(cells) + " |"


def number(text: str) -> int:
    return int(text.replace(",", ""))


def rows(page: str) -> list[Row]:
    """The table of crates."""
    found = [match for match in map(ROW.fullmatch, page.splitlines()) if match]
    return [Row(it[1], (number(it[2]), number(it[3]), number(it[4])), it[5], number(it[6]), bool(it[7]), int(it[8])) for it in found]


def count_lines(crate: str, folder: str, ending: str) -> int:
    files = glob.glob(os.path.join(TOP, "crates", crate, folder, "**", "*" + ending), recursive=True)
    return sum(1 for file in files for _ in open(file, encoding="utf-8"))


def counted(row: Row) -> Row:
    """The row with its lines and its edits as they are."""
    lines = (count_lines(row.crate, "src", ".rt"), count_lines(row.crate, "specs", ".antt"), count_lines(row.crate, "proofs", ".antt"))
    edits = len(glob.glob(os.path.join(TOP, "crates", row.crate, "must-fail", "*.edit")))
    return row._replace(lines=lines, edits=edits)


def longest_chain(seconds: dict[str, int]) -> list[str]:
    """The chain of crates, lowest first, that takes the longest one after the other."""
    below = layers.dependencies()
    best: dict[str, tuple[int, list[str]]] = {}

    def chain(crate: str) -> tuple[int, list[str]]:
        if crate not in best:
            before, path = max((chain(it) for it in below[crate]), default=(0, []))
            best[crate] = before + seconds.get(crate, 0), [*path, crate]
        return best[crate]

    return max(chain(crate) for crate in below)[1]


def whole(table: list[Row]) -> list[str]:
    """What each layer takes, and all together without edits."""
    seconds = {it.crate: it.seconds for it in table}
    said = ["| Layer | Crates | Lines | Minutes of a processor |", "|---|---|---|---|"]
    for layer in layers.layers():
        lines = sum(sum(it.lines) for it in table if it.crate in layer.crates)
        minutes = sum(seconds.get(it, 0) for it in layer.crates) / 60
        said.append(f"| {layer.word} | {len(layer.crates)} | {lines:,} | {minutes:.0f} |")
    said.append(f"| all | {len(table)} | {sum(sum(it.lines) for it in table):,} | {sum(seconds.values()) / 60:.0f} |")
    return said


def chain_told(table: list[Row]) -> list[str]:
    seconds = {it.crate: it.seconds for it in table}
    said, after = ["| Crate | Seconds | There after, minutes |", "|---|---|---|"], 0
    for crate in longest_chain(seconds):
        after += seconds.get(crate, 0)
        said.append(f"| `{crate}` | {seconds.get(crate, 0):,} | {after / 60:.0f} |")
    return said


def with_sums(page: str, table: list[Row]) -> str:
    """The page with the whole, edits among it, and the longest chain in its first table."""
    seconds = {it.crate: it.seconds for it in table}
    edits = re.search(r"^\| of these the \d+ edits \| (\d+) \|", page, re.M)
    if not edits:
        raise ValueError("docs/gate.md does not say what the edits take")
    sums = {"the whole, minutes of a processor": round(sum(seconds.values()) / 60) + int(edits[1]),
            "the longest chain, minutes": round(sum(seconds.get(it, 0) for it in longest_chain(seconds)) / 60)}
    for what, minutes in sums.items():
        page = re.sub(rf"^\| {what} \| \w+ \|", f"| {what} | {minutes} |", page, flags=re.M)
    tried = sum(it.edits for it in table)
    return re.sub(r"^\| of these the \d+ edits", f"| of these the {tried} edits", page, flags=re.M)


def kept(page: str, counts_anew: bool) -> str:
    """The page as it should be."""
    table = rows(page)
    if counts_anew:
        table = [counted(it) for it in table]
        texts = {it.crate: it.text() for it in table}
        page = "\n".join(texts[match[1]] if (match := ROW.fullmatch(line)) else line for line in page.splitlines()) + "\n"
    named, crates = [it.crate for it in table], list(layers.dependencies())
    if sorted(named) != sorted(crates):
        raise ValueError(f"docs/gate.md and crates.txt do not name the same crates: {', '.join(sorted(set(named) ^ set(crates)))}")
    page = with_sums(page, table)
    return between(between(page, "the whole", whole(table)), "the longest chain", chain_told(table))


def main() -> None:
    with open(PAGE, encoding="utf-8") as it:
        page = it.read()
    try:
        due = kept(page, "--write" in sys.argv)
    except ValueError as error:
        sys.exit(f"gate.py: {error}")
    if "--write" in sys.argv:
        with open(PAGE, "w", encoding="utf-8") as it:
            it.write(due)
    elif page != due:
        sys.exit("docs/gate.md is not as its table is: tools/gate.py --write makes it so")


if __name__ == "__main__":
    main()
