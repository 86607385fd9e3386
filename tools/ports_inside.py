"""bin/p4ports between interfaces and a switch that stands here in Python. It runs in a network namespace of its own, which
test_ports makes; the hosts are in namespaces of their own, where a test needs their stacks."""
import io
import os
import re
import signal
import socket
import subprocess
import sys
import tempfile
import threading
import time
import unittest

from scapy.utils import RawPcapReader

from test_lab import listening

HERE = os.path.dirname(os.path.abspath(__file__))
PROGRAM = os.path.join(HERE, "../bin/p4ports")
PATIENCE = 120
# Python has no name for it.
SO_RCVBUFFORCE = 33
HEAD = bytes.fromhex("020000000002" "020000000001" "88b5")
SERVER = """
import hashlib, socket
server = socket.create_server(("10.0.0.2", 5001))
print("ready", flush=True)
link, found = server.accept()[0], hashlib.sha256()
while data := link.recv(1 << 16):
    found.update(data)
link.sendall(found.digest())
"""
CLIENT = """
import hashlib, os, socket
data = os.urandom(%d)
link = socket.create_connection(("10.0.0.2", 5001), timeout=120)
link.sendall(data)
link.shutdown(socket.SHUT_WR)
found = b""
while len(found) < 32:
    more = link.recv(32)
    assert more, "the link ended"
    found += more
assert found == hashlib.sha256(data).digest(), "other bytes came"
"""


def do(*words):
    subprocess.run(words, check=True)


def widen(made, size):
    """Makes the queue of a socket so long. In a namespace of its own this process may have more than the system gives to all."""
    try:
        made.setsockopt(socket.SOL_SOCKET, SO_RCVBUFFORCE, size)
    except PermissionError:
        made.setsockopt(socket.SOL_SOCKET, socket.SO_RCVBUF, size)


def ones_sum(data):
    """The sum of RFC 1071, not complemented: 0xffff of bytes that bear their checksum."""
    data += bytes(len(data) % 2)
    total = sum(int.from_bytes(data[at:at + 2], "big") for at in range(0, len(data), 2))
    while total >> 16:
        total = (total & 0xFFFF) + (total >> 16)
    return total


def has_true_sums(frame):
    """Whether the sums of a frame of TCP or UDP over IPv4 are true."""
    ip = frame[14:]
    size = int.from_bytes(ip[2:4], "big")
    head = 4 * (ip[0] & 15)
    pseudo = ip[12:20] + bytes([0, ip[9]]) + (size - head).to_bytes(2, "big")
    return ones_sum(ip[:head]) == 0xFFFF and ones_sum(pseudo + ip[head:size]) == 0xFFFF


def wait_taken():
    """Waits until p4ports has taken all that came to its interfaces: its sockets, of protocol 3, have no bytes waiting."""
    until = time.monotonic() + PATIENCE
    while time.monotonic() < until:
        with open("/proc/net/packet", encoding="ascii") as it:
            rows = [line.split() for line in it.read().splitlines()[1:]]
        if all(row[6] == "0" for row in rows if row[3] == "0003"):
            return
        time.sleep(0.02)
    raise AssertionError("p4ports took no more frames")


class Ports:
    """bin/p4ports with its words, and the switch's two UDP sockets as one."""

    def __init__(self, *words, packets=9000):
        self.packets = packets
        self.outputs = ("127.0.0.1", packets + 1)
        self.listen()
        self.process = subprocess.Popen([PROGRAM, "--packets", str(packets), *words], stdout=subprocess.PIPE, text=True)
        assert self.process.stdout.readline().startswith("p4ports: "), "p4ports did not start"

    def listen(self):
        self.switch = socket.socket(socket.AF_INET, socket.SOCK_DGRAM)
        widen(self.switch, 1 << 22)
        self.switch.bind(("127.0.0.1", self.packets))
        self.switch.settimeout(PATIENCE)

    def take(self):
        """The port and the frame of the next datagram."""
        data = self.switch.recv(65536)
        return int.from_bytes(data[:2], "big"), data[2:]

    def put(self, port, frame):
        self.switch.sendto(port.to_bytes(2, "big") + frame, self.outputs)

    def asked(self, count):
        """The next lines that are told on USR1, so many."""
        self.process.send_signal(signal.SIGUSR1)
        return [self.process.stdout.readline().rstrip() for _ in range(count)]

    def end(self, is_last=True):
        """Ends it, and gives what it told; the switch ends too, where this is the last that is asked."""
        self.process.send_signal(signal.SIGTERM)
        told = self.process.communicate(timeout=PATIENCE)[0].splitlines()
        if is_last:
            self.switch.close()
        assert self.process.returncode == 0, self.process.returncode
        return told


class Inside(unittest.TestCase):
    def setUp(self):
        for near, far in (("a0", "a1"), ("b0", "b1")):
            do("ip", "link", "add", near, "mtu", "9300", "type", "veth", "peer", "name", far, "mtu", "9300")
            self.addCleanup(subprocess.run, ["ip", "link", "del", near], check=False, stderr=subprocess.DEVNULL)
            for it in (near, far):
                do("ip", "link", "set", it, "up")

    def peer(self, name):
        """A socket at the far end of a veth."""
        made = socket.socket(socket.AF_PACKET, socket.SOCK_RAW, socket.htons(0x88B5))
        made.bind((name, 0x88B5))
        made.settimeout(PATIENCE)
        self.addCleanup(made.close)
        return made

    def start(self, *words, **given):
        ports = Ports(*words, **given)
        for it in (ports.process.stdout.close, ports.process.wait, ports.process.kill):
            self.addCleanup(it)
        self.addCleanup(lambda: ports.switch.close())
        return ports

    def test_both_ways(self):
        """Frames come with their port, and go out by the interface of theirs, in order, and no way back."""
        ports = self.start("-i", "7@a0", "-i", "258@b0", packets=9100)
        one, other = self.peer("a1"), self.peer("b1")
        self.peer("a0").send(HEAD + b"by another program, out of the near end")
        self.assertEqual(one.recv(9999)[14:16], b"by")
        sent = [HEAD + it.to_bytes(2, "big") + bytes(it % 7 * (it % 5)) for it in range(400)]
        for it in sent:
            one.send(it)
        self.assertEqual([ports.take() for _ in sent], [(7, it) for it in sent])
        other.send(HEAD + b"the other")
        self.assertEqual(ports.take(), (258, HEAD + b"the other"))
        for number in range(200):
            ports.put(258 if number % 2 else 7, HEAD + number.to_bytes(2, "big"))
        self.assertEqual([one.recv(9999) for _ in range(100)], [HEAD + it.to_bytes(2, "big") for it in range(0, 200, 2)])
        self.assertEqual([other.recv(9999) for _ in range(100)], [HEAD + it.to_bytes(2, "big") for it in range(1, 200, 2)])
        wanted = [f"port 7 a0: in 400 packets {sum(map(len, sent))} bytes 0 dropped, out 100 packets 1600 bytes 0 dropped",
                  "port 258 b0: in 1 packets 23 bytes 0 dropped, out 100 packets 1600 bytes 0 dropped"]
        self.assertEqual(ports.asked(2), wanted)
        self.assertEqual(ports.end(), wanted)

    def test_drops(self):
        """What is too long, too short, or of no port is counted, and loses nothing else."""
        do("ip", "link", "set", "b0", "mtu", "1500")
        ports = self.start("-i", "1@a0", "-i", "2@b0")
        one, other = self.peer("a1"), self.peer("b1")
        one.send(HEAD + bytes(9217 - len(HEAD)))
        one.send(HEAD + bytes(9216 - len(HEAD)))
        self.assertEqual(ports.take(), (1, HEAD + bytes(9216 - len(HEAD))))
        for port, frame in ((511, HEAD), (3, HEAD), (65535, HEAD), (1, HEAD[:13]), (2, HEAD + bytes(1501)), (2, HEAD)):
            ports.put(port, frame)
        ports.switch.sendto(b"\0", ports.outputs)
        self.assertEqual(other.recv(9999), HEAD)
        ports.put(1, HEAD + b"last")
        self.assertEqual(one.recv(9999), HEAD + b"last")
        self.assertEqual(ports.end(), [
            "port 1 a0: in 1 packets 9216 bytes 1 dropped, out 1 packets 18 bytes 1 dropped",
            "port 1 a0: dropped in 1: longer than 9216 bytes",
            "port 1 a0: dropped out 1: shorter than 14 bytes",
            "port 2 b0: in 0 packets 0 bytes 0 dropped, out 1 packets 14 bytes 1 dropped",
            "port 2 b0: dropped out 1: longer than the interface's MTU",
            "of the switch: dropped 1: of a port without an interface",
            "of the switch: dropped 2: of a port above 510",
            "of the switch: dropped 1: shorter than two bytes"])

    def test_an_interface_goes(self):
        """A port whose interface is taken away leaves the others as they are."""
        ports = self.start("-i", "1@a0", "-i", "2@b0")
        do("ip", "link", "del", "b0")
        one = self.peer("a1")
        ports.put(2, HEAD)
        ports.put(1, HEAD + b"there")
        self.assertEqual(one.recv(9999), HEAD + b"there")
        one.send(HEAD + b"back")
        self.assertEqual(ports.take(), (1, HEAD + b"back"))
        self.assertIn("port 2 b0: dropped out 1: not taken by the interface", ports.end())

    def test_no_switch(self):
        """Without a switch each frame is counted as dropped; the first behind the switch's start is carried."""
        ports = self.start("-i", "1@a0")
        ports.switch.close()
        one = self.peer("a1")
        for _ in range(70):
            one.send(HEAD)
        wait_taken()
        told = ports.asked(2)
        self.assertEqual(told, ["port 1 a0: in 0 packets 0 bytes 70 dropped, out 0 packets 0 bytes 0 dropped",
                                "port 1 a0: dropped in 70: not taken by the switch's UDP port"])
        ports.listen()
        one.send(HEAD + b"first")
        self.assertEqual(ports.take(), (1, HEAD + b"first"))
        self.assertIn("port 1 a0: dropped in 70: not taken by the switch's UDP port", ports.end())

    def test_full_queue(self):
        """What found no room in the switch's queue is told, to the packet."""
        ports = self.start("-i", "1@a0")
        ports.switch.setsockopt(socket.SOL_SOCKET, socket.SO_RCVBUF, 1 << 16)
        one, sizes = self.peer("a1"), (46, 46, 46, 20, 400, 46)
        for number in range(1200):
            one.send(HEAD + bytes(sizes[number % len(sizes)]))
        wait_taken()
        told = ports.end(False)
        self.assertIn("in 1200 packets", told[0])
        dropped = int(re.fullmatch(r"UDP port 9000: dropped (\d+): its queue was full", told[1])[1])
        ports.switch.settimeout(0.2)
        found = 0
        with self.assertRaises(TimeoutError):
            while ports.take():
                found += 1
        self.assertGreater(found, 0)
        self.assertEqual(found + dropped, 1200)

    def hosts(self):
        """Two hosts in namespaces of their own, each with one end of a veth: 10.0.0.1 and 10.0.0.2."""
        made = []
        for number, end in enumerate(("a1", "b1"), 1):
            host = subprocess.Popen(["unshare", "--net", "sleep", "600"])
            self.addCleanup(host.wait)
            self.addCleanup(host.kill)
            made.append(["nsenter", f"--net=/proc/{host.pid}/ns/net"])
            while os.stat(f"/proc/{host.pid}/ns/net").st_ino == os.stat("/proc/self/ns/net").st_ino:
                time.sleep(0.01)
            do("ip", "link", "set", end, "netns", str(host.pid))
            for words in (f"link set {end} mtu 1500 up", f"addr add 10.0.0.{number}/24 dev {end}"):
                do(*made[-1], "ip", *words.split())
        return made

    def wire(self, ports, seen):
        """The switch as a wire between ports 1 and 2, until it is closed."""
        try:
            while True:
                port, frame = ports.take()
                seen.append(frame)
                ports.put(3 - port, frame)
        except OSError:
            return

    def test_tcp(self):
        """Bytes go by TCP between hosts whose cards are said to cut and to sum: what the switch is given is cut and summed."""
        with tempfile.TemporaryDirectory() as folder:
            ports, seen = self.start("-i", "1@a0", "-i", "2@b0", "--pcap", folder), []
            one, other = self.hosts()
            wire = threading.Thread(target=self.wire, args=(ports, seen), daemon=True)
            wire.start()
            server = subprocess.Popen([*other, sys.executable, "-c", SERVER], stdout=subprocess.PIPE, text=True)
            self.addCleanup(server.stdout.close)
            self.addCleanup(server.kill)
            self.assertEqual(server.stdout.readline(), "ready\n")
            do(*one, sys.executable, "-c", CLIENT % 600_000)
            self.assertEqual(server.wait(PATIENCE), 0)
            told = ports.end()
            self.captured(folder, seen, told)

    def captured(self, folder, seen, told):
        """The captures have what the switch was given, and as many frames as were counted."""
        of_tcp = [it for it in seen if it[12:14] == b"\x08\x00" and it[23] == 6]
        self.assertGreater(len(of_tcp), 400)
        self.assertLessEqual(max(map(len, of_tcp)), 1514)
        self.assertEqual([it.hex() for it in of_tcp if not has_true_sums(it)], [])
        for number, line in enumerate(told[:2], 1):
            counts = re.findall(r"(?:in|out) (\d+) packets \d+ bytes 0 dropped", line)
            self.assertEqual(len(counts), 2, line)
            for way, count in zip(("in", "out"), counts):
                with open(os.path.join(folder, f"{number}-{way}.pcap"), "rb") as it:
                    reader = RawPcapReader(io.BytesIO(it.read()))
                found = list(reader)
                self.assertTrue(reader.nano)
                self.assertEqual(len(found), int(count), (number, way))
                moments = [meta.sec + meta.usec / 1e9 for _, meta in found]
                self.assertTrue(all(abs(it - time.time()) < 600 for it in moments))
                if way == "in":
                    self.assertTrue({data for data, _ in found} <= set(seen))

    def test_lab(self):
        """bin/p4lab joins interfaces to a switch that only listens; on USR1 and at the end it tells what passed."""
        words = [os.path.join(HERE, "../bin/p4lab"), "-i", "1@a0", "--interface", "2@b0", "--packets", "9200"]
        lab = subprocess.Popen(words, env={**os.environ, "SWITCH": listening()}, stdout=subprocess.PIPE, stderr=subprocess.PIPE,
                               text=True)
        for it in (lab.stdout.close, lab.stderr.close, lab.wait, lab.kill):
            self.addCleanup(it)
        self.assertIn("interfaces 1@a0 2@b0; Ctrl-C ends it", lab.stdout.readline())
        switch = socket.socket(socket.AF_INET, socket.SOCK_DGRAM)
        self.addCleanup(switch.close)
        switch.bind(("127.0.0.1", 9200))
        other = self.peer("b1")
        switch.sendto(b"\0\2" + HEAD, ("127.0.0.1", 9201))
        self.assertEqual(other.recv(9999), HEAD)
        lab.send_signal(signal.SIGUSR1)
        told = [lab.stderr.readline() for _ in range(5)]
        self.assertIn("port 2 b0: in 0 packets 0 bytes 0 dropped, out 1 packets 14 bytes 0 dropped\n", told)
        lab.send_signal(signal.SIGINT)
        self.assertEqual(lab.wait(PATIENCE), 0)
        self.assertIn("port 2 b0: in 0 packets 0 bytes 0 dropped, out 1 packets 14 bytes 0 dropped\n", lab.stderr.read())

    def test_tags(self):
        """A VLAN tag, which the system takes out of a frame and keeps beside it, stands in it when the switch is given it."""
        folder = tempfile.TemporaryDirectory()
        self.addCleanup(folder.cleanup)
        ports = self.start("-i", "1@a0", "--pcap", folder.name)
        made, tagged = self.peer("a1"), []
        for tag in ("81000007", "88a8e123"):
            tagged.append(HEAD[:12] + bytes.fromhex(tag) + HEAD[12:] + b"tagged")
            made.send(tagged[-1])
            self.assertEqual(ports.take(), (1, tagged[-1]))
        # The capture is there while it runs.
        capture, until = os.path.join(folder.name, "1-in.pcap"), time.monotonic() + PATIENCE
        while os.path.getsize(capture) < 24 + 32 + sum(map(len, tagged)) and time.monotonic() < until:
            time.sleep(0.02)
        with open(capture, "rb") as it:
            self.assertEqual([data for data, _ in RawPcapReader(io.BytesIO(it.read()))], tagged)
        ports.put(1, HEAD + b"plain")
        self.assertEqual(made.recv(9999), HEAD + b"plain")
        ports.end()


if __name__ == "__main__":
    do("ip", "link", "set", "lo", "up")
    with open("/proc/sys/net/ipv6/conf/all/disable_ipv6", "w", encoding="ascii") as it:
        it.write("1")
    with open("/proc/sys/net/ipv6/conf/default/disable_ipv6", "w", encoding="ascii") as it:
        it.write("1")
    unittest.main(argv=[sys.argv[0], "-q", *sys.argv[1:]])
