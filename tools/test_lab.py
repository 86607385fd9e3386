"""bin/p4lab: its words, what it starts and takes down, with a switch that only listens; and that it loads a program into the
built switch, where that stands (crates/p4switch/out, or what SWITCH names)."""
import os
import shlex
import signal
import socket
import subprocess
import sys
import tempfile
import unittest

from p4tools import lab

HERE = os.path.dirname(os.path.abspath(__file__))
TOP = os.path.dirname(HERE)
PROGRAM = os.path.join(TOP, "bin/p4lab")
BUILT = os.path.join(TOP, "crates/p4switch/out/p4switch")
ROUTER = os.path.join(TOP, "examples/programs/router.json")
LIMIT = 600
# Listens at the port of `serve --port N ..`, for so many seconds behind the first link, and says its words and its process.
LISTENS = """
import os, socket, sys, time
server = socket.create_server(("127.0.0.1", int(sys.argv[sys.argv.index("--port") + 1])))
print("words", *sys.argv[1:], flush=True)
print("process", os.getpid(), flush=True)
server.accept()
time.sleep(%d)
"""


# Stands in place of a switch with its UDP port alone, and says how long its queue is once a line comes.
QUEUE = """
import socket, sys
made = socket.socket(socket.AF_INET, socket.SOCK_DGRAM)
made.bind(("127.0.0.1", int(sys.argv[1])))
for _ in range(2):
    print(made.getsockopt(socket.SOL_SOCKET, socket.SO_RCVBUF), flush=True)
    sys.stdin.readline()
"""


def free_port():
    with socket.socket() as it:
        it.bind(("127.0.0.1", 0))
        return it.getsockname()[1]


def free_pair():
    """A UDP port of 127.0.0.1 that is free as the one above it is."""
    while True:
        with socket.socket(socket.AF_INET, socket.SOCK_DGRAM) as one, socket.socket(socket.AF_INET, socket.SOCK_DGRAM) as other:
            try:
                one.bind(("127.0.0.1", 0))
                other.bind(("127.0.0.1", one.getsockname()[1] + 1))
                return one.getsockname()[1]
            except (OSError, OverflowError):
                continue


def listening(seconds=LIMIT):
    """What SWITCH names for a switch that only listens."""
    return shlex.join([sys.executable, "-c", LISTENS % seconds])


class Lab(unittest.TestCase):
    def setUp(self):
        self.port, self.packets = free_port(), free_pair()

    def start(self, switch, *words):
        words = [PROGRAM, "--grpc-server-addr", f"127.0.0.1:{self.port}", "--packets", str(self.packets), *words]
        made = subprocess.Popen(words, env={**os.environ, "SWITCH": switch}, stdout=subprocess.PIPE, stderr=subprocess.PIPE,
                                text=True)
        for it in (made.stdout.close, made.stderr.close, made.wait, made.kill):
            self.addCleanup(it)
        return made

    def refused(self, said, *words):
        made = self.start("false", *words)
        told = made.communicate(timeout=LIMIT)[1]
        self.assertEqual(made.returncode, 2, told)
        self.assertIn(said, told)

    def test_words(self):
        self.refused("no interface is named nosuch0", "-i", "1@nosuch0")
        self.refused("-i lo: write PORT@INTERFACE", "-i", "lo")
        self.refused("port 9 is the switch's CPU port", "--cpu-port", "9", "-i", "9@lo")
        self.refused("write a number from 1 to", "--device-id", "0")
        self.refused("write a number from 1 to 16, not 17", "--workers", "17")
        self.refused("the switch listens at 127.0.0.1 alone: write 127.0.0.1:PORT, not 10.0.0.1:9559",
                     "--grpc-server-addr", "10.0.0.1:9559")
        self.refused("unrecognized arguments: --no-such", "--no-such")
        self.refused("there is no P4Info nosuch.p4info.txt beside nosuch.json; --p4info names it", "nosuch.json")
        self.refused("is no P4Info", ROUTER, "--p4info", os.path.join(TOP, "examples/operator/customer.pcap"))
        self.refused("leave one of them out", "--no-p4", ROUTER)
        self.refused("--pcap captures at interfaces, and none is joined", "--pcap", "captures")

    def test_a_port_is_taken(self):
        with socket.create_server(("127.0.0.1", self.port)):
            self.refused(f"TCP port {self.port} of 127.0.0.1 cannot be had: Address already in use; --grpc-server-addr")

    def test_started_and_taken_down(self):
        with tempfile.TemporaryDirectory() as folder:
            log = os.path.join(folder, "log")
            made = self.start(listening(), "--log-file", log, "--thrift-port", "9090", "--log-console", "--no-p4", "--",
                              "--device-id=7", "--cpu-port", "300")
            self.assertEqual(made.stdout.readline(),
                             f"p4lab: device 7 serves at 127.0.0.1:{self.port}, program none yet, interfaces none; Ctrl-C ends it\n")
            made.send_signal(signal.SIGINT)
            self.assertEqual(made.wait(LIMIT), 0)
            self.assertEqual([it.split(" is ")[0] for it in made.stderr.read().splitlines()],
                             ["p4lab: note: --thrift-port", "p4lab: note: --log-console"])
            with open(log, encoding="utf-8") as it:
                words, process = it.read().splitlines()
        self.assertEqual(words, f"words serve --port {self.port} --packets {self.packets} --workers 1 --device 7 --cpu 300 "
                                "--rows 16384")
        self.assertFalse(os.path.exists(f"/proc/{process.split()[1]}"), "the switch is still there")

    def test_queue(self):
        """The queue of a switch's UDP port is made longer from outside of it, where the system lets it."""
        made = subprocess.Popen([sys.executable, "-c", QUEUE, str(self.packets)], stdin=subprocess.PIPE, stdout=subprocess.PIPE,
                                text=True, start_new_session=True)
        for it in (made.stdin.close, made.stdout.close, made.wait, made.kill):
            self.addCleanup(it)
        before, found = int(made.stdout.readline()), lab.widen_queue(made.pid, self.packets)
        made.stdin.write("\n")
        made.stdin.flush()
        behind = int(made.stdout.readline())
        self.assertEqual(lab.widen_queue(os.getsid(0), self.packets), 0)
        self.assertEqual(behind, found or before)
        if os.geteuid() == 0:
            self.assertGreaterEqual(found, lab.QUEUE)

    def test_a_switch_that_ends(self):
        made = self.start("false")
        self.assertIn("the switch does not serve, its status is 1", made.communicate(timeout=LIMIT)[1])
        self.assertEqual(made.returncode, 1)
        made = self.start(listening(1))
        self.assertIn("the switch ended by itself, with status 0", made.communicate(timeout=LIMIT)[1])
        self.assertEqual(made.returncode, 1)

    def test_program(self):
        """The built switch takes a program, and refuses one whose P4Info is another's."""
        switch = os.environ.get("SWITCH") or (BUILT if os.path.isfile(BUILT) else None)
        why = None if switch else "crates/p4switch/out/p4switch has not been built: bin/p4switch or rt ci builds it"
        try:
            import grpc  # noqa: F401
        except ImportError:
            why = "python3-grpcio is missing: apt-get install -y python3-grpcio"
        if why:
            print(f"tools/test: that bin/p4lab loads a program is not tested: {why}", flush=True)
            self.skipTest(why)
        made = self.start(switch, ROUTER)
        self.assertIn(f"serves at 127.0.0.1:{self.port}, program {ROUTER}", made.stdout.readline())
        made.terminate()
        self.assertEqual(made.wait(LIMIT), 0)
        made = self.start(switch, ROUTER, "--p4info", os.path.join(TOP, "examples/programs/lab.p4info.txt"))
        self.assertIn("the switch does not take the program: INVALID_ARGUMENT, rule L10 of docs/programs.md",
                      made.communicate(timeout=LIMIT)[1])
        self.assertEqual(made.returncode, 1)


if __name__ == "__main__":
    unittest.main()
