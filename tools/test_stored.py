"""Stored runs of the built program p4switch: its words and its standard input, and the standard output and the status that
they must give, a folder a run. Each is made with every build of the program that stands there."""
import os
import subprocess
import unittest

HERE = os.path.dirname(os.path.abspath(__file__))
STORED = os.path.join(HERE, "stored")
BUILT = os.path.join(os.path.dirname(HERE), "crates", "p4switch", "out")
# As LLVM builds it, and as Rattle's own compiler does.
BUILDS = ("p4switch", "p4switch.by-rattle")
# How long a run may take, in seconds.
LIMIT = 120


def read(run, part):
    with open(os.path.join(STORED, run, part), "rb") as it:
        return it.read()


class Stored(unittest.TestCase):
    def check(self, program, run):
        words = os.fsdecode(read(run, "args")).splitlines()
        ended = subprocess.run([program, *words], input=read(run, "stdin"), capture_output=True, timeout=LIMIT, check=False)
        self.assertEqual((ended.returncode, ended.stdout), (int(read(run, "status")), read(run, "stdout")), ended.stderr)

    def test_each(self):
        programs = [os.path.join(BUILT, it) for it in BUILDS if os.path.isfile(os.path.join(BUILT, it))]
        if not programs:
            why = "crates/p4switch/out/p4switch has not been built, so its stored runs are not tested: bin/p4switch or rt ci builds it"
            print(f"tools/test: {why}", flush=True)
            self.skipTest(why)
        runs = sorted(os.listdir(STORED))
        self.assertTrue(runs)
        for program in programs:
            for run in runs:
                with self.subTest(program=os.path.basename(program), run=run):
                    self.check(program, run)


if __name__ == "__main__":
    unittest.main()
