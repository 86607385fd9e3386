"""What bin/p4switch says by itself: help and versions, which word is wrong, at which ports it listens, and which
are taken. The program is a stand-in here; where the built one is there, the words that it refuses are those that
the script calls wrong."""
import os
import shutil
import socket
import subprocess
import tempfile
import time
import unittest

import built

TOP = os.path.dirname(os.path.dirname(os.path.abspath(__file__)))
# Refuses what is marked so, serves at the ports of its words, or writes its words.
PROGRAM = """#!/usr/bin/python3
import os, socket, sys, time
words = sys.argv[1:]
if os.environ.get("REFUSE"):
    print("p4switch: words refused", file=sys.stderr)
    sys.exit(2)
if words[:1] != ["serve"]:
    print(*words)
    sys.exit(5)
value = dict(zip(words[1::2], words[2::2]))
link, packets = socket.socket(), socket.socket(socket.AF_INET, socket.SOCK_DGRAM)
try:
    time.sleep(0.3)
    link.bind(("127.0.0.1", int(value["--port"])))
    link.listen()
    packets.bind(("127.0.0.1", int(value.get("--packets", 9000))))
except OSError:
    print("p4switch: net fault", file=sys.stderr)
    sys.exit(7)
time.sleep(60)
"""
# Words, and what is said to be wrong with them.
WRONG = {
    "relay": "there is no command relay", "--lockstep": "a command stands first, and --lockstep is none",
    "check now": "check takes no words, and now is one", "replay --lockstp": "replay has no option --lockstp",
    "replay --port 5": "replay has no option --port", "replay tape": "replay has no option tape",
    "replay --lockstep --lockstep": "--lockstep is given twice", "replay --cpu 511": "--cpu takes a number from 1 to 510, and 511 is none",
    "replay --rows 1023": "--rows takes a number from 1024 to 262144, and 1023 is none",
    "replay --device 0": "--device takes a number from 1 to 9999999999999999999, and 0 is none",
    "serve": "serve needs --port N", "serve --port": "--port needs a number", "serve --port 0": "--port takes a number from 1 to 65535, and 0 is none",
    "serve --port 09559": "--port takes a number from 1 to 65535, and 09559 is none", "serve --port=9559": "--port=9559 is written --port 9559",
    "serve --port 9559 --port 9560": "--port is given twice", "serve --port 9559 --workers 17": "--workers takes a number from 1 to 16, and 17 is none",
    "serve --port 9559 --packets 65535": "--packets takes a number from 1 to 65534, and 65535 is none",
    "serve --port 9559 --lockstep": "serve has no option --lockstep", "serve --port +5": "and +5 is none",
    "gen": "gen needs a number", "gen 0": "gen takes a number from 1 to 64, and 0 is none", "gen 65": "and 65 is none", "gen 01": "and 01 is none",
    "gen 1 --bridge": "gen takes one number, and --bridge stands behind it",
}
RIGHT = ["check", "gen 1", "replay", "replay --lockstep --bridge --device 9999999999999999999 --cpu 510 --rows 262144", "replay --rows 1024"]


class Case(unittest.TestCase):
    """A copy of the script beside a stand-in of the program."""

    def setUp(self):
        folder = tempfile.TemporaryDirectory()
        self.addCleanup(folder.cleanup)
        self.top = folder.name
        for part in ("bin/p4switch", "tools/switch_words.sh"):
            os.makedirs(os.path.dirname(os.path.join(self.top, part)), exist_ok=True)
            shutil.copy(os.path.join(TOP, part), os.path.join(self.top, part))
        for part in ("crates/p4switch/src", "crates/p4switch/specs", "crates/p4switch/out"):
            os.makedirs(os.path.join(self.top, part))
        with open(os.path.join(self.top, "crates.txt"), "w", encoding="utf-8"):
            pass
        self.program = os.path.join(self.top, "crates/p4switch/out/p4switch")
        with open(self.program, "w", encoding="utf-8") as it:
            it.write(PROGRAM)
        os.chmod(self.program, 0o755)

    def run_it(self, *words, **more):
        """Status, standard output and standard error of the script."""
        ended = subprocess.run([os.path.join(self.top, "bin/p4switch"), *words], capture_output=True, text=True, check=False,
                               stdin=subprocess.DEVNULL, timeout=60, env={**os.environ, **more})
        return ended.returncode, ended.stdout, ended.stderr


class Words(Case):
    def test_help(self):
        for word in ("--help", "-h", "help"):
            status, out, said = self.run_it(word)
            self.assertEqual((status, said), (0, ""))
            for wanted in ("p4switch serve --port N", "p4switch replay", "p4switch check", "p4switch gen N", "docs/formats.md", "README.md"):
                self.assertIn(wanted, out)
        # Without words the status is the program's own for words that it refuses.
        status, nothing, said = self.run_it()
        self.assertEqual((status, nothing, said), (2, "", out))

    def test_version(self):
        status, out, said = self.run_it("--version")
        self.assertEqual((status, said), (0, ""))
        self.assertRegex(out, r"^p4switch .*, P4Runtime 1\.3\.0\ntoolchain: .*\nprogram: crates/p4switch/out/p4switch\n$")

    def test_wrong_words(self):
        for words, wanted in WRONG.items():
            with self.subTest(words):
                status, out, said = self.run_it(*words.split(), REFUSE="1")
                self.assertEqual((status, out), (2, ""))
                lines = said.splitlines()
                self.assertEqual(lines[0], "p4switch: words refused")
                self.assertTrue(lines[1].startswith("p4switch: ") and wanted in lines[1], lines)
                self.assertTrue(lines[2].startswith("usage: p4switch "), lines)

    def test_the_status_is_the_programs(self):
        for words in (*RIGHT, "check now", "gen 65"):
            status, out, said = self.run_it(*words.split())
            self.assertEqual((status, out, said), (5, words + "\n", ""))

    def test_wrong_words_are_refused_before_anything_is_built(self):
        os.remove(self.program)
        for before in ([], ["--preview"]):
            status, out, said = self.run_it(*before, "replay", "--lockstp")
            self.assertEqual((status, out), (2, ""))
            self.assertEqual(said.splitlines()[:2], ["p4switch: words refused", "p4switch: replay has no option --lockstp"])

    def test_built(self):
        """The built program refuses just what is wrong here."""
        program = built.program()
        for words in WRONG:
            ended = subprocess.run([program, *words.split()], capture_output=True, check=False, stdin=subprocess.DEVNULL, timeout=60)
            self.assertEqual((words, ended.returncode, ended.stderr), (words, 2, b"p4switch: words refused\n"))
        for words in RIGHT:
            ended = subprocess.run([program, *words.split()], capture_output=True, check=False, stdin=subprocess.DEVNULL, timeout=60)
            self.assertNotEqual((words, ended.returncode), (words, 2))


@unittest.skipUnless(os.path.exists("/proc/net/tcp"), "there is no /proc/net")
class Ports(Case):
    def serve(self, port, packets):
        process = subprocess.Popen([os.path.join(self.top, "bin/p4switch"), "serve", "--port", str(port), "--packets", str(packets)],
                                   stdout=subprocess.DEVNULL, stderr=subprocess.PIPE, text=True, stdin=subprocess.DEVNULL)
        self.addCleanup(process.stderr.close)
        self.addCleanup(process.wait)
        self.addCleanup(process.kill)
        return process

    def test_it_says_where_it_listens(self):
        port, packets = built.free_port(socket.SOCK_STREAM), built.free_port(socket.SOCK_DGRAM, 2)
        process = self.serve(port, packets)
        said = process.stderr.readline()
        # It does by then.
        socket.create_connection(("127.0.0.1", port)).close()
        self.assertEqual(said, f"p4switch: controllers are served at TCP port {port} of 127.0.0.1; packets come in at UDP port "
                               f"{packets} and leave to UDP port {packets + 1}\n")
        process.terminate()
        self.assertEqual(process.wait(20), -15)

    def test_a_port_that_is_taken_is_named(self):
        port, packets = built.free_port(socket.SOCK_STREAM), built.free_port(socket.SOCK_DGRAM, 2)
        with socket.socket() as tcp, socket.socket(socket.AF_INET, socket.SOCK_DGRAM) as udp:
            tcp.bind(("127.0.0.1", port))
            tcp.listen()
            process = self.serve(port, packets)
            said = process.stderr.read()
            self.assertEqual(process.wait(20), 7)
            self.assertRegex(said, rf"^p4switch: TCP port {port} is taken by process {os.getpid()} \(\S+\)\np4switch: net fault\n$")
            udp.bind(("127.0.0.1", packets))
            process = self.serve(built.free_port(socket.SOCK_STREAM), packets)
            said = process.stderr.read()
            self.assertEqual(process.wait(20), 7)
            self.assertIn(f"p4switch: UDP port {packets} is taken by process {os.getpid()} ", said)

    def test_what_ends_before_it_listens_says_nothing(self):
        with open(self.program, "w", encoding="utf-8") as it:
            it.write("#!/bin/sh\nexit 3\n")
        process = self.serve(built.free_port(socket.SOCK_STREAM), built.free_port(socket.SOCK_DGRAM, 2))
        began = time.monotonic()
        self.assertEqual(process.stderr.read(), "")
        self.assertEqual(process.wait(20), 3)
        self.assertLess(time.monotonic() - began, 20)


if __name__ == "__main__":
    unittest.main()
