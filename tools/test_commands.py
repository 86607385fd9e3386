"""The two scripts as they are run: what they write, what they say, and their exit statuses."""
import json
import os
import subprocess
import tempfile
import unittest

from p4tools import packets
from p4tools.messages import Config, parse
from test_scenarios import EXAMPLES, bytes_of

BIN = os.path.join(EXAMPLES, "../bin")


def run(script, *words):
    """Status, standard output and standard error of a script, run among the examples."""
    done = subprocess.run(["/usr/bin/python3", "-B", os.path.join(BIN, script), *words], cwd=EXAMPLES,
                          capture_output=True, check=False)
    return done.returncode, done.stdout, done.stderr.decode()


class Scripts(unittest.TestCase):
    def test_config(self):
        for form in ("text", "wire"):
            status, data, said = run("p4config", "programs/lab.p4info.txt", "programs/lab.json", "--cookie", "7")
            self.assertEqual((status, said), (0, ""), form)
            config = parse(Config, data)
            self.assertEqual(config.cookie.cookie, 7)
            self.assertEqual([it.preamble.name for it in config.p4info.tables], ["acl", "ecmp"])
            self.assertEqual(config.p4_device_config, bytes_of("programs/lab.json"))
        status, data, said = run("p4config", "programs/lab.json", "programs/lab.json")
        self.assertEqual((status, data), (2, b""))
        self.assertIn("as a P4Info in text form", said)
        status, data, said = run("p4config", "programs/lab.p4info.txt", "programs/lab.p4info.txt")
        self.assertEqual((status, data), (2, b""))
        self.assertIn("is no JSON", said)

    def test_make_and_show(self):
        status, data, said = run("p4tape", "make", "operator/routes.scenario")
        self.assertEqual((status, data, said), (0, bytes_of("operator/routes.tape"), ""))
        status, data, said = run("p4tape", "show", "operator/routes.report", "--tape", "operator/routes.tape")
        self.assertEqual((status, data, said), (0, bytes_of("operator/routes.txt"), ""))
        with tempfile.TemporaryDirectory() as folder:
            status, data, _ = run("p4tape", "show", "operator/routes.tape", "--files", folder)
            with open(os.path.join(folder, "again.scenario"), "wb") as it:
                it.write(data)
            status, data, said = run("p4tape", "make", os.path.join(folder, "again.scenario"))
            self.assertEqual((status, data, said), (0, bytes_of("operator/routes.tape"), ""))

    def test_pcap(self):
        with tempfile.TemporaryDirectory() as folder:
            status, _, said = run("p4tape", "show", "operator/routes.report", "--pcap", folder, "--summary")
            self.assertEqual((status, len(said.splitlines())), (0, 4))
            self.assertEqual(sorted(os.listdir(folder)), [f"port-{it}.pcap" for it in (1, 3, 4, 5)])
            with open(os.path.join(folder, "port-5.pcap"), "rb") as it:
                left = packets.of_pcap(it.read(), "it")
        self.assertEqual([it.hex() for it in left], [
            "02000000000502000000000a080045000021000100003f11e7c5c0000201"
            "0a01c803c350c351000da15968656c6c6f"])

    def test_diff(self):
        sides = ["laboratory/version-1", "laboratory/version-2"]
        words = [f"{it}.report" for it in sides] + [it for side in sides for it in ("--tape", side + ".tape")]
        self.assertEqual(run("p4tape", "diff", *words), (1, bytes_of("laboratory/differences.txt"), ""))
        status, data, said = run("p4tape", "diff", words[0], words[0])
        self.assertEqual((status, data, said), (0, b"the reports are the same\n", ""))
        with tempfile.TemporaryDirectory() as folder:
            other = os.path.join(folder, "other.report")
            with open(other, "wb") as it:
                it.write(bytes_of(words[0]).replace(b"0a0808011a0210012200", b"0a0a08011a02100122021a00"))
            status, data, said = run("p4tape", "diff", words[0], other)
        self.assertEqual((status, data, said), (1, b"the reports say the same in words, and are not the same "
                                                   b"from line 2 on\n", ""))

    def test_wrong_files(self):
        for words, said in ((["show", "no.tape"], "no.tape is not read: No such file or directory"),
                            (["show", "README.md"], "README.md:1: '# Examples' is no line of a report; a report is what `bin/p4switch replay` writes"),
                            (["show", "operator/customer.pcap"], "neither a tape, which begins with P4TAPE1, nor a report"),
                            (["show", "operator/routes.scenario"], "is no line of a report"),
                            (["diff", "operator/routes.report", "operator/routes.tape"], "is no report"),
                            (["make", "no.scenario"], "no.scenario is not read"),
                            (["show", "operator/routes.report", "--summary", "--pcap", "README.md/x"], "README.md/x is no folder")):
            with self.subTest(words):
                status, data, told = run("p4tape", *words)
                self.assertEqual((status, data if "--pcap" not in words else b""), (2, b""))
                self.assertIn(said, told)
                self.assertTrue(all(it.startswith("p4tape: ") for it in told.splitlines()))

    def test_programs(self):
        """The JSONs of the examples are JSON, and the laboratory's second version has the first's tables."""
        tables = []
        for name in ("programs/router.json", "laboratory/version-2.json"):
            program = json.loads(bytes_of(name))
            tables.append(program["pipelines"][0]["tables"][0])
        self.assertEqual(tables[0], tables[1])
