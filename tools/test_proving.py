"""What bin/p4switch tells while crates are proved, by a command that only makes the marks of it, and while a preview is compiled."""
import contextlib
import io
import os
import subprocess
import sys
import tempfile
import unittest
from unittest import mock

import previewing
import proving

CRATES = """# the lowest
low:
mid: low serde_json
aside: low
high: mid low
app: high clap
"""
PROVE = """
for crate in low mid high; do mkdir -p ../$crate/out/rlib; touch ../$crate/out/rlib/stamp; sleep 0.7; done
"""


class Proving(unittest.TestCase):
    def setUp(self):
        room = tempfile.TemporaryDirectory()
        self.addCleanup(room.cleanup)
        self.top = room.name
        for name in ("low", "mid", "aside", "high", "app"):
            os.makedirs(os.path.join(self.top, "crates", name, "src"))
            self.write(f"crates/{name}/src/lib.rt")
        with open(os.path.join(self.top, "crates.txt"), "w", encoding="utf-8") as it:
            it.write(CRATES)

    def write(self, name):
        path = os.path.join(self.top, name)
        os.makedirs(os.path.dirname(path), exist_ok=True)
        with open(path, "w", encoding="utf-8"):
            pass
        return path

    def run_it(self, script):
        told = io.StringIO()
        with contextlib.redirect_stderr(told):
            status = proving.run(self.top, "app", ["bash", "-c", script])
        return status, told.getvalue().splitlines()

    def test_crates(self):
        crates = proving.read_crates(self.top)
        self.assertEqual(crates["mid"], ["low"])
        self.assertEqual(proving.below_each(crates)["app"], ["low", "mid", "high"])

    def test_each_is_told(self):
        status, told = self.run_it(PROVE)
        self.assertEqual(status, 0)
        self.assertIn("3 crates and the program are to be proved", told[0])
        self.assertEqual([it.split(" (")[0] for it in told[1:4]],
                         ["app: proved low", "app: proved mid", "app: proved high"])
        self.assertTrue(told[3].endswith("only the program itself left"))
        self.assertTrue(told[-1].startswith("app: proved and built in"))

    def test_what_is_kept_is_not_due(self):
        for name in ("low", "mid", "high"):
            self.write(f"crates/{name}/out/rlib/stamp")
        watch = proving.Watch(self.top, "app", proving.read_crates(self.top))
        self.assertEqual(watch.left, [])
        os.utime(self.write("crates/mid/src/more.rt"), (2 ** 32, 2 ** 32))
        watch = proving.Watch(self.top, "app", proving.read_crates(self.top))
        self.assertEqual(watch.left, ["mid", "high"])

    def test_a_crate_above_tells_of_those_below(self):
        watch = proving.Watch(self.top, "app", proving.read_crates(self.top))
        self.write("crates/mid/out/rlib/stamp")
        self.assertEqual(watch.look(), ["low", "mid"])
        self.assertEqual(watch.look(), [])
        self.assertEqual(watch.at(), "high")
        self.write("crates/high/out/rlib/stamp")
        self.assertEqual(watch.look(), ["high"])
        self.assertEqual(watch.at(), "the program")

    def test_what_it_is_at(self):
        watch = proving.Watch(self.top, "app", proving.read_crates(self.top))
        self.assertEqual(watch.at(), "the sources of all crates")
        os.makedirs(os.path.join(self.top, "crates/low/out/rlib"))
        self.assertEqual(watch.at(), "low")

    def test_failure_and_waiting(self):
        status, told = self.run_it("echo 'rt: low: waiting for another'; sleep 1; echo 'no proof'; exit 4")
        self.assertEqual(status, 4)
        self.assertIn("app: rt: low: waiting for another", told)
        self.assertIn("no proof", told)


@unittest.skipUnless(os.path.exists("/proc/self/task"), "there is no /proc")
class Previewing(unittest.TestCase):
    """What is told while a preview is compiled, of a process that only starts what `rt try` would."""

    def watched(self, script):
        room = tempfile.TemporaryDirectory()
        self.addCleanup(room.cleanup)
        for name in ("program", "ld-linux-x86-64"):
            os.symlink("/bin/sleep", os.path.join(room.name, name))
        process = subprocess.Popen(["bash", "-c", script], cwd=room.name)
        self.addCleanup(process.wait)
        self.addCleanup(process.kill)
        told = io.StringIO()
        with contextlib.redirect_stderr(told), mock.patch.object(previewing, "TELL", 0.2), mock.patch.object(previewing, "LOOK", 0.05):
            previewing.watch(process.pid)
        return told.getvalue().splitlines()

    def test_how_long_it_compiles(self):
        for program in ("program", "ld-linux-x86-64"):
            with self.subTest(program=program):
                told = self.watched(f"sleep 1; (exec ./{program} 5); true")
                self.assertTrue(told[0].startswith("p4switch: compiling for "), told)
                self.assertRegex(told[-1], r"^p4switch: compiled in \d+ s$")
                self.assertEqual(sum("compiled in" in it for it in told), 1)

    def test_it_ends_with_the_process(self):
        told = self.watched("sleep 1")
        self.assertTrue(told)
        self.assertTrue(all("compiling for" in it for it in told), told)

    def test_a_process_that_is_gone(self):
        process = subprocess.Popen([sys.executable, "-c", ""])
        process.wait()
        told = io.StringIO()
        with contextlib.redirect_stderr(told):
            previewing.watch(process.pid)
        self.assertEqual(told.getvalue(), "")
