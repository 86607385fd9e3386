#!/usr/bin/env python3
"""picture.py TEXT > SVG

Draws a picture of boxes and arrows of a text, whose head says how its lines are written. The drawing follows the
reader's choice of dark or light, and has no background of its own.
"""
import html
import shlex
import sys
from collections.abc import Iterable, Iterator
from typing import Union

Number = Union[int, float]

LINE, HEAD = 17, 24
STYLE = """
  text { font-family: system-ui, -apple-system, "Segoe UI", "DejaVu Sans", sans-serif; font-size: 12.5px; fill: #1f2328 }
  .title { font-weight: 600; font-size: 14px }
  .heading { font-weight: 600; font-size: 13px; fill: #57606a }
  .label { font-size: 12px; fill: #57606a }
  .panel { fill: none; stroke: #afb8c1; stroke-dasharray: 5 4 }
  .box { fill: #eef4fb; stroke: #3b6ea5; stroke-width: 1.3 }
  .arrow { fill: none; stroke: #57606a; stroke-width: 1.5 }
  .head { fill: #57606a }
  @media (prefers-color-scheme: dark) {
    text { fill: #e6edf3 }
    .heading, .label { fill: #9aa4af }
    .panel { stroke: #4b535d }
    .box { fill: #1b2a3d; stroke: #6ea8e0 }
    .arrow { stroke: #9aa4af }
    .head { fill: #9aa4af }
  }
"""


class Box:
    """A rectangle; `right` and `bottom` are its far sides."""

    def __init__(self, left: Union[int, str], top: Union[int, str], width: Union[int, str], height: Union[int, str],
                 texts: list[str]) -> None:
        self.left, self.top, self.width, self.height = (int(it) for it in (left, top, width, height))
        self.right, self.bottom = self.left + self.width, self.top + self.height
        self.middle = (self.left + self.right) / 2
        self.texts = texts


def rectangle(box: Box, kind: str) -> str:
    return f'<rect class="{kind}" x="{box.left}" y="{box.top}" width="{box.width}" height="{box.height}" rx="8"/>'


def text_at(x: Number, y: Number, text: str, kind: str = "", anchor: str = "middle") -> str:
    kind = f' class="{kind}"' if kind else ""
    return f'<text{kind} x="{x:g}" y="{y:g}" text-anchor="{anchor}">{html.escape(text)}</text>'


def draw_box(box: Box) -> Iterator[str]:
    yield rectangle(box, "box")
    first = box.top + (box.height - LINE * (len(box.texts) - 1)) / 2 + 5
    for number, text in enumerate(box.texts):
        yield text_at(box.middle, first + LINE * number, text, "" if number else "title")


def shared(low: int, high: int, other_low: int, other_high: int, at: float) -> float:
    """The place, so far along what two sides have in common."""
    low, high = max(low, other_low), min(high, other_high)
    if low >= high:
        raise ValueError("an arrow joins boxes that stand beside or below one another")
    return low + (high - low) * at


def draw_arrow(start: Box, end: Box, label: str, is_both: bool, at: float) -> Iterator[str]:
    marks = ' marker-end="url(#end)"' + (' marker-start="url(#start)"' if is_both else "")
    if max(start.left, end.left) < min(start.right, end.right):
        place = shared(start.left, start.right, end.left, end.right, at)
        first, to = (start.bottom + 3, end.top - 3) if start.bottom < end.top else (start.top - 3, end.bottom + 3)
        yield f'<path class="arrow" d="M{place:g} {first:g} V{to:g}"{marks}/>'
        if label:
            yield text_at(place + 8, (first + to) / 2 + 4, label, "label", "start")
        return
    place = shared(start.top, start.bottom, end.top, end.bottom, at)
    first, to = (start.right + 3, end.left - 3) if start.right < end.left else (start.left - 3, end.right + 3)
    yield f'<path class="arrow" d="M{first:g} {place:g} H{to:g}"{marks}/>'
    if label:
        yield text_at((first + to) / 2, place - 7, label, "label")


def head(size: tuple[int, int], title: str) -> Iterator[str]:
    yield f'<svg xmlns="http://www.w3.org/2000/svg" viewBox="0 0 {size[0]} {size[1]}" role="img" aria-label="{title}">'
    yield f"<title>{title}</title>"
    yield f"<style>{STYLE}</style>"
    yield "<defs>"
    for name, place, path in (("end", 8, "M0 0 L9 4.5 L0 9 Z"), ("start", 1, "M9 0 L0 4.5 L9 9 Z")):
        yield (f'<marker id="{name}" markerWidth="9" markerHeight="9" refX="{place}" refY="4.5" '
               f'orient="auto" markerUnits="userSpaceOnUse"><path class="head" d="{path}"/></marker>')
    yield "</defs>"


def draw(lines: Iterable[str]) -> Iterator[str]:
    """The lines of the SVG of a text's lines."""
    size, title = (0, 0), ""
    boxes: dict[str, Box] = {}
    parts: list[str] = []
    arrows: list[str] = []
    for number, line in enumerate(lines, 1):
        words = shlex.split(line, comments=True)
        match words:
            case []:
                pass
            case ["size", width, height]:
                size = int(width), int(height)
            case ["title", title]:
                pass
            case ["panel", left, top, width, height, text]:
                panel = Box(left, top, width, height, [])
                parts += [rectangle(panel, "panel"), text_at(panel.left + 14, panel.top + HEAD, text, "heading", "start")]
            case ["heading", x, y, text]:
                parts.append(text_at(int(x), int(y), text, "heading", "start"))
            case ["box", name, left, top, width, height, *texts]:
                boxes[name] = Box(left, top, width, height, texts)
                parts += draw_box(boxes[name])
            case ["arrow", start, end, *more] if start in boxes and end in boxes:
                at = next((float(it[3:]) for it in more if it.startswith("at=")), 0.5)
                label = next((it for it in more if it != "both" and not it.startswith("at=")), "")
                arrows += draw_arrow(boxes[start], boxes[end], label, "both" in more, at)
            case _:
                raise ValueError(f"line {number} is not understood: {line.strip()}")
    yield from head(size, html.escape(title))
    yield from [*parts, *arrows]
    yield "</svg>"


if __name__ == "__main__":
    if len(sys.argv) != 2:
        sys.exit("usage: tools/picture.py TEXT > SVG")
    with open(sys.argv[1], encoding="utf-8") as it:
        try:
            print("\n".join(draw(it)))
        except ValueError as error:
            sys.exit(f"picture.py: {sys.argv[1]}: {error}")
