#!/usr/bin/env python3
"""layers.py > SVG

Draws the crates by layer, the highest on top, of docs/map.txt, whose head says how its lines are written. It fails where a crate of
crates.txt is in no layer or in two, and where one stands on a crate of a higher layer.
"""
import html
import os
import re
import sys
from collections.abc import Iterator
from typing import NamedTuple

import picture

TOP = os.path.dirname(os.path.dirname(os.path.abspath(__file__)))
LINE = re.compile(r'(\w+) "([^"]+)": ([\w ]+)')
WIDTH, LEFT, NAMES, WIDEST = 1000, 12, 310, 92
ROW, FIRST, GAP = 18, 24, 8
TITLE = "The crates by layer: each stands on crates of its own layer and of those below."
STYLE = """
  .crate { font-family: ui-monospace, "DejaVu Sans Mono", monospace; font-size: 12px }
"""


class Layer(NamedTuple):
    word: str
    what: str
    crates: list[str]


def read(file: str) -> str:
    with open(os.path.join(TOP, file), encoding="utf-8") as it:
        return it.read()


def layers() -> list[Layer]:
    """The layers, lowest first."""
    found = []
    for line in read("docs/map.txt").splitlines():
        if line and not line.startswith("#"):
            match = LINE.fullmatch(line)
            if not match:
                raise ValueError(f"docs/map.txt: this line is not understood: {line}")
            found.append(Layer(match[1], match[2], match[3].split()))
    return found


def dependencies() -> dict[str, list[str]]:
    """What each crate of crates.txt stands on, of this repository."""
    lines = (line for line in read("crates.txt").splitlines() if line and not line.startswith("#"))
    named = {crate: below.split() for crate, _, below in (line.partition(":") for line in lines)}
    return {crate: [it for it in below if it in named] for crate, below in named.items()}


def flaws(found: list[Layer]) -> list[str]:
    """What is wrong with the layers."""
    place = {crate: number for number, layer in enumerate(found) for crate in layer.crates}
    all_of_them = [crate for layer in found for crate in layer.crates]
    below = dependencies()
    said = [f"{it} is in two layers" for it in sorted(set(all_of_them)) if all_of_them.count(it) > 1]
    said += [f"{it} is in no layer" for it in below if it not in place]
    said += [f"{it} is no crate of crates.txt" for it in place if it not in below]
    said += [f"{crate} stands on {it}, which is of a higher layer" for crate, names in below.items() for it in names
             if place.get(it, 0) > place.get(crate, len(found))]
    return said


def wrapped(crates: list[str]) -> list[str]:
    """The names in lines of at most so many characters."""
    lines: list[str] = []
    for crate in crates:
        if lines and len(lines[-1]) + len(crate) + 2 <= WIDEST:
            lines[-1] += "  " + crate
        else:
            lines.append(crate)
    return lines


def draw(found: list[Layer]) -> Iterator[str]:
    """The lines of the SVG."""
    top, parts = GAP, []
    for layer in reversed(found):
        lines = wrapped(layer.crates)
        height = max(2, len(lines)) * ROW + 12
        box = picture.Box(LEFT, top, WIDTH - 2 * LEFT, height, [])
        parts.append(picture.rectangle(box, "box"))
        parts.append(picture.text_at(LEFT + 14, top + FIRST - 2, layer.word, "title", "start"))
        parts.append(picture.text_at(LEFT + 14, top + FIRST + ROW - 3, layer.what, "label", "start"))
        first = top + FIRST - 2 + (ROW / 2 if len(lines) == 1 else 0)
        for number, line in enumerate(lines):
            spaced = html.escape(line).replace("  ", "&#160; ")
            parts.append(f'<text class="crate" x="{NAMES}" y="{first + ROW * number:g}">{spaced}</text>')
        top += height + GAP
    beginning = list(picture.head((WIDTH, top), html.escape(TITLE)))
    yield from (it.replace("</style>", STYLE + "</style>") for it in beginning)
    yield from parts
    yield "</svg>"


def main() -> None:
    found = layers()
    said = flaws(found)
    if said:
        sys.exit("\n".join(said))
    print("\n".join(draw(found)))


if __name__ == "__main__":
    main()
