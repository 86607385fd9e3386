"""What the pages name is there: links, files, commands, options, crates, functions, and the figures that README quotes."""
import functools
import glob
import os
import re
import shlex
import shutil
import subprocess
import sys
import tempfile
import unittest

import layers

HERE = os.path.dirname(os.path.abspath(__file__))
TOP = os.path.dirname(HERE)
# README, and what a reader comes to from it.
PAGES = ["README.md", "CONTRIBUTING.md", "SECURITY.md", "CHANGELOG.md", "examples/README.md", "docs/quickstart.md",
         "docs/serving.md", "docs/glossary.md", "docs/audit.md", "docs/compare.md"]
# All pages, whose links and files are there.
ALL = sorted({*PAGES, *(os.path.relpath(it, TOP) for folder in ("docs", "examples")
                        for it in glob.glob(os.path.join(TOP, folder, "**", "*.md"), recursive=True))})
LONGEST_README, WIDEST_README = 150, 200
# Pages whose sentences have at most so many words.
LONGEST_SENTENCE = 30
SHORT = ["README.md", "docs/quickstart.md", "docs/serving.md", "docs/glossary.md", "docs/compare.md", "docs/proved.md", "docs/tested.md",
         "docs/measured.md", "docs/gate.md", "docs/audit.md", "docs/front.md", "docs/live.md", "docs/map.md", "docs/edits.md", "docs/DECISIONS.md", "SECURITY.md",
         "CONTRIBUTING.md", "examples/README.md"]
# Pages whose words of the code are there, and what in them is written like one and is none.
OF_THE_CODE = ["docs/DECISIONS.md", "docs/definitions.md", "docs/answers.md", "docs/proved.md", "docs/tested.md", "docs/map.md", "docs/glossary.md", "docs/audit.md", "docs/gate.md",
               "CONTRIBUTING.md"]
NO_WORDS = {":status", "HANDLES", "LICENSE"}
# What a path may begin with.
FOLDERS = ("bin", "bench", "crates", "docs", "examples", "tools", ".ci")
# Programs that are not of the project.
SYSTEM = {"apt-get", "cat", "rt"}
# What makes a file that is not there before: `> FILE`, or a text that the reader is asked to write.
MADE = re.compile(r"> (\S+)")
# How long a command may take, in seconds.
LIMIT = 120
PYTHON = "/usr/bin/python3"


@functools.cache
def read(file):
    with open(os.path.join(TOP, file), encoding="utf-8") as it:
        return it.read()


def exists(file):
    return bool(glob.glob(os.path.join(TOP, file)))


def quoted(text):
    """What stands in back quotes, outside of code."""
    return re.findall(r"`([^`\n]+)`", "\n".join(it for it in text.splitlines() if not it.startswith("    ")))


def anchors(text):
    """The anchors of a page's headings."""
    heads = re.findall(r"^#+ (.*)$", text, re.M)
    return {re.sub(r"[^\w\- ]", "", it.lower()).replace(" ", "-") for it in heads}


def code(text):
    """The blocks of code of a page: lists of lines, without what they are indented by."""
    blocks, block = [], []
    for line in [*text.splitlines(), "end"]:
        if line.startswith("    ") and line.strip():
            block.append(line.strip())
        elif block and line.strip():
            blocks.append(block)
            block = []
    return blocks


def commands(text):
    """The lines of code that are commands, one for each side of &&."""
    found = []
    for block in code(text):
        for line in block:
            if line.split()[0] in SYSTEM or line.split()[0].startswith(("bin/", "examples/", "tools/", ".ci/")):
                found += line.split(" && ")
    return found


def sentences(text):
    """The sentences of a page's prose and of the cells of its tables, in which a semicolon ends one too."""
    for line in text.splitlines():
        if line.startswith("    "):
            continue
        cells = line.split(" | ") if line.startswith("|") else [line]
        ends = r"(?<=[.!?])[*)]*\s+(?=[A-Z`*(\[0-9\"])" + (r"|;\s" if line.startswith("|") else "")
        for cell in cells:
            yield from re.split(ends, cell.strip("| "))


def words_of_code():
    """All words of the crates, the scripts and the examples."""
    found = set(re.findall(r"\w+", read("crates.txt")))
    for pattern in ("crates/*/src/*.rt", "crates/*/specs/**/*.antt", "tools/**/*.py", "bench/**/*.py", "bin/*", "examples/**/*.md"):
        for file in glob.glob(os.path.join(TOP, pattern), recursive=True):
            if os.path.isfile(file):
                found.update(re.findall(r"\w+", read(file)))
    for name in os.listdir(os.path.join(TOP, "tools")):
        found.update(re.findall(r"\w+", name))
    return found


def section(text, name):
    return text.split(f"\n## {name}\n", 1)[1].split("\n## ", 1)[0]


def figures(text):
    """The numbers of a text that say something: of two digits and more, or with a point."""
    return set(re.findall(r"(?<![\w.,^-])\d[\d,]*\.?\d*(?<![.,])(?![\w-])", text)) - set("0123456789")


class Pages(unittest.TestCase):
    def test_readme_is_short(self):
        lines = read("README.md").splitlines()
        self.assertLessEqual(len(lines), LONGEST_README)
        self.assertEqual([it for it in lines if len(it) > WIDEST_README], [])

    def test_links(self):
        for page in ALL:
            text = read(page)
            for link in re.findall(r"\]\(([^)\s]+)\)", text):
                with self.subTest(page=page, link=link):
                    if link.startswith("http"):
                        continue
                    file, _, anchor = link.partition("#")
                    aim = os.path.normpath(os.path.join(os.path.dirname(page), file)) if file else page
                    self.assertTrue(os.path.isfile(os.path.join(TOP, aim)), aim)
                    if anchor:
                        self.assertIn(anchor, anchors(read(aim)))

    def test_every_page_is_linked(self):
        linked = {os.path.normpath(os.path.join(os.path.dirname(page), link.partition("#")[0])) for page in PAGES
                  for link in re.findall(r"\]\(([^)\s]+)\)", read(page))}
        named = {it for page in PAGES for it in quoted(read(page))}
        for page in sorted(glob.glob(os.path.join(TOP, "docs", "*.md"))):
            name = os.path.relpath(page, TOP)
            with self.subTest(page=name):
                self.assertTrue(name in linked | named, f"no page that README leads to names {name}")

    def test_files(self):
        """What is written like a file, or like a path of the repository."""
        for page in ALL:
            for words in quoted(read(page)):
                word = words.split()[0].rstrip(":,;")
                if word.split("/")[0] not in FOLDERS or "/" not in word:
                    continue
                with self.subTest(page=page, file=word):
                    self.assertTrue(exists(word.replace("CRATE", "*").replace("FILE", "*").replace("NAME", "*")), word)

    def test_crates(self):
        """`name` of `crate`, and whatever has a crate's form and is said to be one."""
        for page in ALL:
            for names, crate in re.findall(r"((?:`[\w:]+`(?:, | and )?)+) of `(\w+)`", read(page)):
                with self.subTest(page=page, crate=crate):
                    folder = os.path.join(TOP, "crates", crate)
                    if not os.path.isdir(folder):
                        self.assertTrue(crate in named_in_code() or crate[0].isupper(), crate)
                        continue
                    text = "".join(read(it) for kind in ("src/*.rt", "specs/*.antt") for it in glob.glob(os.path.join(folder, kind)))
                    for name in re.findall(r"`([\w:]+)`", names):
                        path, _, last = name.rpartition("::")
                        form = rf"\b(fn|mod) {last}\b" if path and last.islower() else rf"\b{last}\b"
                        self.assertTrue(re.search(form, text), f"{crate} has no {name}")
        for crate in re.findall(r"`(\w+_(?:rows|tests))`", "".join(map(read, PAGES))):
            self.assertTrue(exists(f"crates/{crate}"), crate)

    def test_words_of_the_code(self):
        """What is written like a name of the code is one: no page speaks of code that is gone."""
        known = words_of_code() | NO_WORDS
        for page in OF_THE_CODE:
            for word in quoted(read(page)):
                if re.fullmatch(r"\w+(?:::\w+)*", word):
                    missing = [it for it in word.split("::") if it not in known and not it.isdigit()]
                    with self.subTest(page=page, word=word):
                        self.assertEqual(missing, [])

    def test_definitions(self):
        """docs/definitions.md names files of specs/ that are there, and words that stand in them."""
        for part in read("docs/definitions.md").split("\n## ")[1:]:
            crates, files = re.findall(r"`(\w+)`", part.splitlines()[0]), []
            for line in part.splitlines():
                cells = line.strip("|").split(" | ")
                if len(cells) != 4 and len(cells) != 3 or not line.startswith("| `") and not line.startswith("| | `"):
                    continue
                named = re.findall(r"`(\w+)`", cells[0])
                files = [f"crates/{crate}/specs/{file}.antt" for crate in [it for it in named if exists(f"crates/{it}")] or crates
                         for file in named if not exists(f"crates/{file}")] if named else files
                there = [it for it in files if exists(it)]
                with self.subTest(line=line[:100]):
                    self.assertTrue(there, line)
                    text = "".join(map(read, there))
                    for word in re.findall(r"`(\w+)`", cells[1]):
                        self.assertRegex(text, rf"(?<!\w){word}(?!\w)")

    def test_sentences(self):
        for page in SHORT:
            for sentence in sentences(read(page)):
                with self.subTest(page=page, sentence=sentence):
                    self.assertLessEqual(len(re.findall(r"[\w`]\S*", sentence)), LONGEST_SENTENCE)

    def test_numbers(self):
        """Each number of README stands on another page or in the code."""
        known = "".join(map(read, (it for it in ALL if it != "README.md"))) + limits_of_code()
        text = re.sub(r"`[^`]*`|\]\([^)]*\)", "", "\n".join(it for it in read("README.md").splitlines() if not it.startswith("    ")))
        for figure in sorted(figures(text)):
            forms = (figure, figure.replace(",", "_"), figure.replace(",", ""))
            with self.subTest(figure=figure):
                self.assertTrue(any(re.search(rf"(?<![\d.,_]){re.escape(it)}(?![\d_]|[.,]\d)", known) for it in forms), figure)

    def test_commands(self):
        """Each command is there, and so are the files that it reads."""
        for page in PAGES:
            text = read(page)
            made = set(MADE.findall(text)) | set(re.findall(r"Let this be `(\S+)`", text))
            for command in commands(text):
                with self.subTest(page=page, command=command):
                    words = shlex.split(command.split(" #")[0])
                    if words[0] not in SYSTEM:
                        self.assertTrue(os.access(os.path.join(TOP, words[0]), os.X_OK), words[0])
                    for word in words[1:]:
                        if "/" in word and word.split("/")[0] in FOLDERS:
                            self.assertTrue(exists(word), word)
                        elif word.endswith((".config", ".tape", ".report", ".scenario")):
                            self.assertIn(word, made)

    def test_options(self):
        """Each option that stands behind a command of the project is one that the command has."""
        for page in PAGES:
            text = read(page)
            for command in [*commands(text), *(it for it in quoted(text) if it.startswith("bin/"))]:
                words = command.split()
                for option in (it for it in words[1:] if it.startswith("--") and words[0].startswith("bin/")):
                    with self.subTest(page=page, command=command):
                        found = re.search(rf"{spelled(words[0], option)}(?![\w-])", sources_of(words[0]))
                        self.assertTrue(found, f"{words[0]} has no {option}")

    def test_figures(self):
        """What README says of times stands on the pages that it names, and its limits in pages or in the code."""
        text = read("README.md")
        measured, gate = read("docs/measured.md"), read("docs/gate.md")
        for figure in figures(section(text, "Performance")):
            with self.subTest(figure=figure):
                found = re.search(rf"(?<![\d.,]){re.escape(figure)}(?![\d]|[.,]\d)", measured)
                self.assertTrue(found, f"docs/measured.md has no {figure}")
        for figure in re.findall(r"(\d+) minutes", section(text, "Quickstart")):
            if figure not in ("2", "4"):
                with self.subTest(figure=figure):
                    self.assertRegex(gate, rf"(?m)^\| .*minutes.* \| {figure} \|")
        known = read("docs/formats.md") + read("docs/programs.md") + limits_of_code()
        for figure in figures(section(text, "Limits")):
            with self.subTest(figure=figure):
                self.assertTrue(figure in known or figure.replace(",", "_") in known or figure.replace(",", "") in known, figure)

    def test_toolchain(self):
        """The pages name one toolchain."""
        named = {it for page in PAGES for it in re.findall(r"rattle-kit-\w+ logic \w+", read(page))}
        self.assertEqual(len(named), 1, named)

    def test_audit(self):
        """docs/audit.md shows the statement and the definitions as the code has them."""
        self.assertEqual(told("audit.py"), "")
        self.assertNotIn("not told yet", read("docs/audit.md"))

    def test_pictures(self):
        """docs/picture.svg is drawn of docs/picture.txt, and docs/map.svg of docs/map.txt."""
        self.assertEqual(told("picture.py", os.path.join(TOP, "docs/picture.txt")), read("docs/picture.svg"))
        self.assertEqual(told("layers.py"), read("docs/map.svg"))

    def test_map(self):
        """docs/map.md has each crate with the word of its layer."""
        text = section(read("docs/map.md"), "The crates by layer, lowest first")
        found = re.findall(r"^\| (\w+) \| `(\w+)` \|", text, re.M)
        self.assertEqual(found, [(layer.word, crate) for layer in layers.layers() for crate in layer.crates])

    def test_gate(self):
        """docs/gate.md has each crate, and its sums and its longest chain are those of its table."""
        self.assertEqual(told("gate.py"), "")


def told(script, *words):
    """What a script of this folder prints, where it ends well."""
    ended = subprocess.run([sys.executable, "-B", os.path.join(HERE, script), *words], capture_output=True, check=False)
    if ended.returncode:
        raise AssertionError(f"{script}: {ended.stderr.decode()}")
    return ended.stdout.decode()


class Quickstart(unittest.TestCase):
    """The commands of the quickstart as they are given, on the built program, but for those that serve or prove."""

    def test_commands(self):
        program = os.environ.get("P4SWITCH") or os.path.join(TOP, "crates", "p4switch", "out", "p4switch")
        if not os.path.isfile(program):
            why = "the program has not been built, so the commands of the quickstart are not run: bin/p4switch or rt ci builds it"
            print(f"tools/test: {why}", flush=True)
            self.skipTest(why)
        if not has_packages():
            self.skipTest("python3-protobuf or python3-scapy is missing")
        with tempfile.TemporaryDirectory() as folder:
            for name in ("bin", "examples", "tools"):
                shutil.copytree(os.path.join(TOP, name), os.path.join(folder, name), symlinks=True)
            with open(os.path.join(folder, "bin", "p4switch"), "w", encoding="utf-8") as it:
                it.write(f'#!/bin/sh\nexec {shlex.quote(os.path.abspath(program))} "$@"\n')
            write_texts(folder, read("docs/quickstart.md"))
            ran = 0
            for command in commands(read("docs/quickstart.md")):
                if not is_tried(command):
                    continue
                with self.subTest(command=command):
                    ended = subprocess.run(["bash", "-c", command], cwd=folder, capture_output=True, timeout=LIMIT, check=False)
                    self.assertEqual(ended.returncode, 0, ended.stderr.decode())
                    ran += 1
        self.assertGreaterEqual(ran, 6)


def has_packages():
    """Whether the scripts of bin/ can run."""
    asked = [PYTHON, "-c", "import google.protobuf, scapy"]
    return os.path.exists(PYTHON) and subprocess.run(asked, stderr=subprocess.DEVNULL, check=False).returncode == 0


def is_tried(command):
    """Whether a command ends by itself, and neither connects to a switch nor proves anything."""
    words = command.split()
    return words[0] in ("bin/p4config", "bin/p4tape") or words[0] == "bin/p4switch" and words[1] in ("check", "replay")


def write_texts(folder, page):
    """The texts that the reader is asked to write: "Let this be `NAME`", and the code behind it."""
    for name, behind in re.findall(r"Let this be `(\S+)`.*?:\n\n(.*?)\n\n", page, re.S):
        with open(os.path.join(folder, name), "w", encoding="utf-8") as it:
            it.write("\n".join(line.strip() for line in behind.splitlines()) + "\n")


def spelled(command, option):
    """How an option stands in the sources of its command."""
    return {"bin/p4switch": option, "bin/p4ports": f'"{option[2:]}"'}.get(command, f'"{option}"')


@functools.cache
def sources_of(command):
    """The texts that have a command's options."""
    files = {"bin/p4switch": ["bin/p4switch", "docs/formats.md", "tools/switch_words.sh"], "bin/p4ports": ["tools/ports/*.c"]}
    found = [it for name in files.get(command, ["tools/p4tools/*.py"]) for it in glob.glob(os.path.join(TOP, name))]
    return "".join(map(read, found))


def limits_of_code():
    """The constants of the code."""
    files = glob.glob(os.path.join(TOP, "crates", "*", "src", "*.rt")) + glob.glob(os.path.join(TOP, "crates", "*", "specs", "*.antt"))
    return "\n".join(line for it in files for line in read(it).splitlines()
                     if re.match(r"\s*(pub )?(const|abbrev)\b|\s*\S+ = [\d_]+$|.*(<|≤|==) *\d", line))


def named_in_code():
    """Words of the code that may stand behind "of" and are no crate."""
    return {"config", "standard_metadata", "ethernet", "texts", "a"}


if __name__ == "__main__":
    unittest.main()
