"""Tests of p4c's simple test framework made into scenarios."""
import os
import unittest

from p4tools import stf
from p4tools.trouble import Trouble
from test_commands import run
from test_scenarios import EXAMPLES, bytes_of

HERE = os.path.dirname(os.path.abspath(__file__))
LEFT_OUT = ["clone sessions are not served", "registers are not served", "ipv4.dst is matched by a prefix, which 0x0a**00** is not",
            "no table is named ipv4_lnp; did you mean ipv4_lpm?", "a prefix has at most 32 bits", "route has 2 parameters",
            "no action is named rute; did you mean route?", "no entry was added as one", "only == is compared",
            "its bytes are not an even number of hex digits", "a port is missing", "only `remove all` is taken", "hello is no word of a test"]


def made(name, program):
    files = [os.path.join("programs", program + end) for end in (".p4info.txt", ".json")]
    return run("p4tape", "from-stf", os.path.join(HERE, "stf", name + ".stf"), "--program", *files)


def lines_of(data):
    """The lines of a scenario without the comment and the program's files, which differ by the folder."""
    return [it for it in data.decode().splitlines() if not it.startswith(("#", "config"))]


class Tests(unittest.TestCase):
    def test_router(self):
        status, data, said = made("router", "router")
        self.assertEqual((status, said), (0, ""))
        self.assertEqual(lines_of(data), lines_of(bytes_of(os.path.join(HERE, "stf", "router.scenario"))))

    def test_lab(self):
        status, data, said = made("lab", "lab")
        self.assertEqual((status, said), (0, ""))
        self.assertEqual([it for it in lines_of(data) if not it.startswith("packet")], [
            "queued", "strict", "arbitrate election=1", "expect OK",
            "insert acl priority=1 set_port(port=1)", "expect OK",
            "insert acl lab.a=0x10&&&0xf0 priority=6 set_port(port=2)", "expect OK",
            "insert acl lab.a=0x12&&&0xff priority=10 learn(port=3)", "expect OK",
            "insert acl lab.a=0x20&&&0xf0 priority=8 drop()", "expect OK",
            "expect port=3 12000000", "expect port=2 130*0001", "expect port=1 f0010003.."])

    def test_left_out(self):
        """What cannot be had is named with its line, and the status is 1."""
        status, data, said = made("left_out", "router")
        self.assertEqual(status, 1)
        told = said.splitlines()
        self.assertEqual(len(told), len(LEFT_OUT))
        for number, (line, why) in enumerate(zip(told, LEFT_OUT), 1):
            self.assertIn(f"left_out.stf:{number}: left out: ", line)
            self.assertIn(why, line)
        self.assertEqual(sum(it.startswith("# line ") for it in data.decode().splitlines()), len(LEFT_OUT))

    def test_output(self):
        """Files are named from the scenario's own folder."""
        import tempfile
        with tempfile.TemporaryDirectory() as folder:
            out = os.path.join(folder, "a.scenario")
            words = [os.path.join(HERE, "stf", "lab.stf"), "--program", "programs/lab.p4info.txt", "programs/lab.json", "-o", out]
            self.assertEqual(run("p4tape", "from-stf", *words), (0, b"", ""))
            status, data, said = run("p4tape", "make", out)
            self.assertEqual((status, data[:8], said), (0, b"P4TAPE1\n", ""))

    def test_wrong_files(self):
        program = ["--program", "programs/lab.p4info.txt", "programs/lab.json"]
        self.assertEqual(run("p4tape", "from-stf", "no.stf", *program)[0], 2)
        self.assertEqual(run("p4tape", "from-stf", os.path.join(HERE, "stf/lab.stf"), "--program", "no.txt", "no.json")[0], 2)

    def test_values(self):
        for word, width, wanted in (("0x12", 8, (0x12, 0xff)), ("0x1*", 8, (0x10, 0xf0)), ("0b1*", 2, (2, 2)), ("0o*7", 6, (7, 7)),
                                    ("10.0.0.0/8", 32, (10 << 24, 0xff000000)), ("1&&&3", 8, (1, 3)), ("0x1*", 16, (0x10, 0xfff0)),
                                    ("02:00:00:00:00:01", 48, (0x020000000001, (1 << 48) - 1)), ("1_000", 16, (1000, 0xffff))):
            with self.subTest(word):
                self.assertEqual(stf.masked(word, width), wanted)
        for word in ("x", "0x", "1*", "0x1/9"):
            with self.subTest(word), self.assertRaises(Trouble):
                stf.masked(word, 8)

    def test_multicast(self):
        """Groups of nodes become entries of the replication engine."""
        from p4tools.names import Names
        it = stf.Made(Names())
        for number, line in enumerate(["mc_mgrp_create 5", "mc_node_create 0 1 2", "mc_node_create 3 4", "mc_node_associate 5 0",
                                       "mc_node_associate 5 1", "mc_node_associate 6 0"], 1):
            it.take(number, line)
        self.assertEqual(it.lines, [
            "insert multicast 5 replicas 1, 2", "expect OK",
            "modify multicast 5 replicas 1, 2, 4:3", "expect OK", "# line 6 is left out: mc_node_associate 6 0"])

    def test_examples_are_there(self):
        self.assertTrue(os.path.isfile(os.path.join(EXAMPLES, "programs", "lab.json")))


if __name__ == "__main__":
    unittest.main()
