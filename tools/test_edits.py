"""Each must-fail edit can be made, also those that the gate leaves out, and docs/edits.md tells of each and of no other."""
import glob
import os
import re
import unittest
from typing import Optional

TOP = os.path.dirname(os.path.dirname(os.path.abspath(__file__)))
PAGE = "docs/edits.md"


def read(file: str) -> str:
    with open(os.path.join(TOP, file), encoding="utf-8") as it:
        return it.read()


def edits(ending: str) -> dict[tuple[str, str], str]:
    """The crate and the name of each edit whose file ends so."""
    return {(it.split(os.sep)[-3], os.path.basename(it)[:-len(ending)]): it
            for it in glob.glob(os.path.join(TOP, "crates", "*", "must-fail", "*" + ending))}


def pairs(text: str) -> list[tuple[str, str, str]]:
    """What an edit replaces: the file, the text there and the text in its place."""
    file = ""
    old: Optional[str] = None
    found: list[tuple[str, str, str]] = []
    for line in text.splitlines():
        key, _, rest = line.partition(": ") if not line.startswith("new:") else ("new", ":", line[len("new:"):].removeprefix(" "))
        if key == "file":
            file = rest
        elif key == "old":
            old = rest
        elif key == "new" and old is not None:
            found.append((file, old, rest))
            old = None
    return found


def listed(heading: str) -> set[tuple[str, str]]:
    """The crate and the name of each edit in the table below a heading."""
    part = read(PAGE).split(f"\n## {heading}\n", 1)[1].split("\n## ", 1)[0]
    found, crate = set(), ""
    for named, edit in re.findall(r"^\| (?:`(\w+)`)? ?\| `(\w+)` \|", part, re.M):
        crate = named or crate
        found.add((crate, edit))
    return found


class Edits(unittest.TestCase):
    def test_each_can_be_made(self) -> None:
        for edit in [*edits(".edit").values(), *edits(".edit.md").values()]:
            changes = pairs(read(edit))
            with self.subTest(edit=os.path.relpath(edit, TOP)):
                self.assertTrue(changes)
            for file, old, new in changes:
                with self.subTest(edit=os.path.relpath(edit, TOP)):
                    text = read(os.path.join(os.path.dirname(os.path.dirname(edit)), file))
                    self.assertEqual(text.count(old), 1, f"{file} has not just once: {old}")
                    self.assertNotEqual(old, new)

    def test_names(self) -> None:
        """What stands in must-fail/ is an edit that the gate tries, or one that it leaves out."""
        for file in glob.glob(os.path.join(TOP, "crates", "*", "must-fail", "*")):
            self.assertTrue(file.endswith((".edit", ".edit.md")), file)

    def test_page(self) -> None:
        self.assertEqual(listed("Tried by the gate"), set(edits(".edit")))
        self.assertEqual(listed("Left out of the gate"), set(edits(".edit.md")))


if __name__ == "__main__":
    unittest.main()
