"""Rows whose answers are computed here, over nothing of the switch, stand as they are computed."""
import os
import random
import subprocess
import sys
import unittest

import random_bytes
from p4tools.tape import read_tape

HERE = os.path.dirname(os.path.abspath(__file__))
CRATES = os.path.join(os.path.dirname(HERE), "crates")


def computed(script, *words):
    """What a script of tools/rows prints."""
    command = [sys.executable, "-B", os.path.join(HERE, "rows", script), *words]
    return subprocess.run(command, stdout=subprocess.PIPE, check=True).stdout.decode()


def stored(crate, name):
    with open(os.path.join(CRATES, crate, name), encoding="utf-8") as it:
        return it.read()


class Rows(unittest.TestCase):
    def test_each(self):
        for name in ("frame_rows", "update_rows"):
            with self.subTest(name):
                self.assertEqual(stored(name, "stdout"), computed(name + ".py"))

    def test_packets(self):
        """The runs whose tapes and reports packet_rows.py computes stand in switch_rows."""
        asked = [it for it in computed("packet_rows.py", "stdin").splitlines() if not it.startswith("#")]
        self.assertGreater(len(asked), 3)
        self.assertIn("\n" + "\n".join(asked) + "\n", stored("switch_rows", "stdin"))
        self.assertIn("\n" + computed("packet_rows.py", "stdout"), stored("switch_rows", "stdout"))

    def test_places(self):
        """The rows of packets that are copied, of one call that fails, of connections that are cut, and of tapes at the limits stand
        there, too."""
        for script in ("copy_rows.py", "fault_rows.py"):
            for name in ("stdin", "stdout"):
                with self.subTest(script, file=name):
                    self.assertIn("\n" + computed(script, name), stored("switch_rows", name))

    def test_grammar(self):
        """The grammar that random_bytes.py reads gives the stored answers to tapes, good and bad."""
        answers, judged = random_bytes.answers(), 0
        for name, words, tape, failing in random_bytes.rows():
            status, line = answers[name]
            if words[:1] == ["replay"] and not failing and status in (0, 1):
                judged += 1
                self.assertEqual(random_bytes.due(tape), (status, line), name)
        self.assertGreater(judged, 100)

    def test_read_tape(self):
        """The scripts take the tapes that the grammar takes, and no others."""
        chance, judged = random.Random(1), [0, 0]
        runs = [it for it in random_bytes.valid_runs() if len(it[1]) < 4096]
        ends = [b"\0" * 7 + b"\1", b"\0" * 6, b"\0\0\1\0\0\0\0", b"\0\0\0\0\0\0\1\0", b"\4\0\0\0\0\0\0" * 2 + b"\0" * 7]
        for number in range(2000):
            tape = random_bytes.changed_tape(chance, chance.choice(runs)[1])
            tape = tape[:-7] + ends[number // 10 % len(ends)] if number % 10 == 0 else tape
            is_tape = random_bytes.due(tape)[0] == 0
            judged[is_tape] += 1
            self.assertEqual(read_tape(tape)[1] is None, is_tape, tape.hex())
        self.assertGreater(min(judged), 200)


if __name__ == "__main__":
    unittest.main()
