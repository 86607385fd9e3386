"""The built program by `p4tape test`: the walks and the tests of stf/ come to what they expect, and the regression is
caught. P4SWITCH names another program than the one that is built in crates/p4switch."""
import os
import subprocess
import tempfile
import unittest

from test_commands import run
from test_scenarios import EXAMPLES
from test_stored import BUILDS, BUILT

HERE = os.path.dirname(os.path.abspath(__file__))
SCENARIOS = ["one-entry-one-packet", "batch-or-nothing", "backup-waits", "flood", "operator/routes", "laboratory/version-1",
             "laboratory/version-2", "paths/paths", "regression/version-1"]
STF = {"router": "router", "lab": "lab"}


def programs():
    """The programs that are tested: the one that P4SWITCH names, or those that are built."""
    if os.environ.get("P4SWITCH"):
        return [os.environ["P4SWITCH"]]
    return [it for it in (os.path.join(BUILT, name) for name in BUILDS) if os.path.isfile(it)]


class Switch(unittest.TestCase):
    @classmethod
    def setUpClass(cls):
        if not programs():
            why = "crates/p4switch/out/p4switch has not been built, so no scenario is tested on it: bin/p4switch builds it, or P4SWITCH names one"
            print(f"tools/test: {why}", flush=True)
            raise unittest.SkipTest(why)

    def test_scenarios(self):
        for program in programs():
            files = [it + ".scenario" for it in SCENARIOS]
            status, told, said = run("p4tape", "test", "--quiet", "--jobs", "2", "--switch", program, *files)
            self.assertEqual((status, said), (0, ""), told.decode())
            self.assertEqual(told.decode().count(": "), len(files) + 1)

    def test_stf(self):
        for program in programs():
            for name, of in STF.items():
                with self.subTest(name), tempfile.TemporaryDirectory() as folder:
                    out, files = os.path.join(folder, "a.scenario"), [os.path.join(EXAMPLES, "programs", of + it) for it in (".p4info.txt", ".json")]
                    run("p4tape", "from-stf", os.path.join(HERE, "stf", name + ".stf"), "--program", *files, "-o", out)
                    status, told, _ = run("p4tape", "test", "--switch", program, out)
                    self.assertEqual(status, 0, told.decode())
                    with open(out, encoding="utf-8") as it:
                        text = it.read()
                    with open(out, "w", encoding="utf-8") as it:
                        it.write(text.replace("expect port=3 ", "expect port=4 ", 1))
                    status, told, _ = run("p4tape", "test", "--switch", program, out)
                    self.assertEqual(status, 1, told.decode())

    def test_regression(self):
        """The change of the program is caught."""
        for program in programs():
            done = subprocess.run([os.path.join(EXAMPLES, "regression", "run")], env={**os.environ, "SWITCH": program},
                                  capture_output=True, check=False)
            self.assertEqual(done.returncode, 0, done.stdout.decode() + done.stderr.decode())
            self.assertIn(b"ether.src: expected 02:00:00:00:00:0a, left 02:00:00:00:00:02", done.stdout)
            self.assertIn(b"Exit status 1, and 14 test cases", done.stdout)


if __name__ == "__main__":
    unittest.main()
