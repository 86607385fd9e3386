"""tools/completion.bash, in a bash that is asked what it would offer."""
import contextlib
import io
import os
import shutil
import subprocess
import unittest
from unittest import mock

HERE = os.path.dirname(os.path.abspath(__file__))
BIN = os.path.join(os.path.dirname(HERE), "bin")
# COMP_WORDS as bash parts a line: at blanks and at each of = : ( as words of their own.
ASK = r"""
. "$1/completion.bash"
compopt() { :; }
shift
function=$1 COMP_LINE=$2
COMP_POINT=${#COMP_LINE}
shift 2
COMP_WORDS=("$@")
COMP_CWORD=$((${#COMP_WORDS[@]} - 1))
COMPREPLY=()
$function
printf '%s\n' "${COMPREPLY[@]}"
"""


@unittest.skipUnless(shutil.which("bash"), "bash is not there")
class Completion(unittest.TestCase):
    def offered(self, function, *words, line=None):
        """What is offered in place of the last word, sorted."""
        words = [os.path.join(BIN, words[0]), *words[1:]]
        line = line or " ".join(words)
        asked = subprocess.run(["bash", "-c", ASK, "ask", HERE, function, line, *words], capture_output=True, check=True, text=True)
        self.assertEqual(asked.stderr, "")
        return sorted(it for it in asked.stdout.split("\n") if it)

    def test_p4switch(self):
        self.assertEqual(self.offered("_p4switch", "p4switch", "s"), ["serve"])
        self.assertEqual(self.offered("_p4switch", "p4switch", "--pre"), ["--preview"])
        self.assertEqual(self.offered("_p4switch", "p4switch", "serve", "--p"), ["--packets", "--port"])
        self.assertEqual(self.offered("_p4switch", "p4switch", "--preview", "replay", "--l"), ["--lockstep"])
        self.assertEqual(self.offered("_p4switch", "p4switch", "serve", "--port", ""), [])

    def test_p4tape_and_p4config(self):
        for columns in ("40", "200"):
            with mock.patch.dict(os.environ, {"COLUMNS": columns}):
                self.assertEqual(self.offered("_p4tape", "p4tape", ""),
                                 ["--help", "diff", "from-pcap", "from-stf", "make", "page", "show", "test"])
        self.assertEqual(self.offered("_p4tape", "p4tape", "show", "--t"), ["--tape"])
        for command, option in (("test", "--junit"), ("page", "--names"), ("from-stf", "--program"), ("from-pcap", "--include")):
            self.assertIn(option, self.offered("_p4tape", "p4tape", command, "--"))
        self.assertEqual(self.offered("_p4config", "p4config", "--e"), ["--explain"])
        self.assertEqual(self.offered("_p4config", "p4config", BIN + "/p4s"), [BIN + "/p4switch"])
        self.assertIn("draw", self.offered("_p4config", "p4config", "d"))
        self.assertEqual(self.offered("_p4config", "p4config", "draw", "--p"), ["--packet"])
        self.assertEqual(self.offered("_p4config", "p4config", "draw", BIN + "/p4s"), [BIN + "/p4switch"])

    def test_p4front_p4ports_and_p4lab(self):
        self.assertEqual(self.offered("_p4_plain", "p4front", "--rec"), ["--record"])
        self.assertEqual(self.offered("_p4_plain", "p4ports", "--pc"), ["--pcap"])
        self.assertEqual(self.offered("_p4_plain", "p4lab", "--gr"), ["--grpc-server-addr"])

    def test_p4ctl(self):
        try:
            import grpc  # noqa: F401 (asked for alone)
        except ImportError:
            self.skipTest("p4ctl is not tested: apt-get install -y python3-grpcio")
        from standin import Standin
        from test_ctl import FIRST, ROUTER, ctl_main
        switch = Standin()
        self.addCleanup(switch.stop)
        place = ["127.0.0.1", ":", str(switch.port)]
        at = "--at " + "".join(place)
        with contextlib.redirect_stdout(io.StringIO()):
            self.assertEqual(ctl_main.p4ctl(["--at", "".join(place), ROUTER, FIRST]), 0)
        script = os.path.join(BIN, "p4ctl")
        for words, wanted in ((["ent"], ["entries"]), (["insert", "ipv"], ["ipv4_lpm"]), (["delete", "ipv4_lpm", "ds"], ["dst="]),
                              (["delete", "ipv4_lpm", "dst", "=", "1"], ["10.1.0.0/16"]), (["batch", "d"], ["dataplane_atomic"]),
                              (["insert", "ipv4_lpm", "r"], ["route("])):
            with self.subTest(words):
                line = f"{script} {at} " + " ".join(words).replace(" = ", "=")
                self.assertEqual(self.offered("_p4ctl", "p4ctl", "--at", *place, *words, line=line), wanted)
        self.assertEqual(self.offered("_p4ctl", "p4ctl", "--el"), ["--election"])


if __name__ == "__main__":
    unittest.main()
