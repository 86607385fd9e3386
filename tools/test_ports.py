"""bin/p4ports: its C compiles without a warning, its words are refused by name, and what it makes of frames is what scapy
makes of them. How it carries frames is tested in a network namespace (ports_inside), where one can be made."""
import ctypes
import os
import shutil
import subprocess
import sys
import tempfile
import unittest

HERE = os.path.dirname(os.path.abspath(__file__))
SOURCES = os.path.join(HERE, "ports")
PROGRAM = os.path.join(HERE, "../bin/p4ports")
CHECKS = ["-O2", "-Wall", "-Wextra", "-Werror"]
LIMIT = 900
LONGEST = 9216


def lacks(why):
    """Says why something is not tested, and skips it."""
    print(f"tools/test: bin/p4ports is not tested in full: {why}", flush=True)
    raise unittest.SkipTest(why)


def need_compiler():
    if not shutil.which("cc"):
        lacks("cc is missing: apt-get install -y gcc libc6-dev")


class Words(unittest.TestCase):
    """What is refused before any interface is opened, with no right of any kind."""

    @classmethod
    def setUpClass(cls):
        need_compiler()

    def refused(self, said, *words):
        done = subprocess.run([PROGRAM, *words], capture_output=True, text=True, timeout=LIMIT, check=False)
        self.assertEqual((done.returncode, done.stdout), (2, ""), done.stderr)
        self.assertIn(said, done.stderr)

    def test_no_warning(self):
        with tempfile.TemporaryDirectory() as folder:
            sources = [os.path.join(SOURCES, it) for it in os.listdir(SOURCES) if it.endswith(".c")]
            done = subprocess.run(["cc", *CHECKS, "-o", os.path.join(folder, "p4ports"), *sources],
                                  capture_output=True, text=True, timeout=LIMIT, check=False)
        self.assertEqual((done.returncode, done.stderr), (0, ""))

    def test_refused(self):
        self.refused("no interface is named; write -i PORT@INTERFACE")
        for word in ("veth1", "@veth1", "1@", ""):
            self.refused(f"-i {word}: write PORT@INTERFACE, as 1@veth1", "-i", word)
        for word in ("511@veth1", "-1@veth1", "one@veth1", "0x1@veth1", "99999999999@veth1"):
            self.refused(f"-i {word}: a port of the switch is a number from 0 to 510", "-i", word)
        self.refused("-i 1@veth2: port 1 has the interface veth1 already", "-i", "1@veth1", "-i", "1@veth2")
        self.refused("-i 2@veth1: veth1 is joined to port 1 already", "-i", "1@veth1", "--interface", "2@veth1")
        self.refused("-i 255@veth1: port 255 is the switch's CPU port", "-i", "255@veth1")
        self.refused("-i 9@veth1: port 9 is the switch's CPU port", "--cpu", "9", "-i", "9@veth1")
        self.refused("--cpu 0: write a number from 1 to 510", "--cpu", "0")
        for word in ("0", "65535", "9000a", ""):
            self.refused(f"--packets {word}: write a number from 1 to 65534", "--packets", word)
        self.refused("veth1 is not expected", "-i", "1@veth1", "veth1")
        self.refused("unrecognized option '--port'", "--port", "1")

    def test_interfaces(self):
        self.refused("-i 1@nosuch0: no interface is named nosuch0; there are: ", "-i", "1@nosuch0")
        long = "longer-than-names-are"
        self.refused(f"no interface is named {long}", "-i", f"1@{long}")
        self.refused("lo is no Ethernet interface", "-i", "1@lo")


class Cut(ctypes.Structure):
    _fields_ = [("frame", ctypes.c_char_p), ("length", ctypes.c_size_t), ("network", ctypes.c_size_t),
                ("transport", ctypes.c_size_t), ("header", ctypes.c_size_t), ("size", ctypes.c_size_t),
                ("done", ctypes.c_size_t), ("is_ipv6", ctypes.c_bool)]


class Frames(unittest.TestCase):
    """The functions of frames.c, by themselves."""

    @classmethod
    def setUpClass(cls):
        need_compiler()
        folder = tempfile.TemporaryDirectory()
        cls.addClassCleanup(folder.cleanup)
        path = os.path.join(folder.name, "frames.so")
        subprocess.run(["cc", *CHECKS, "-shared", "-fPIC", "-o", path, os.path.join(SOURCES, "frames.c")],
                       check=True, timeout=LIMIT)
        cls.frames = ctypes.CDLL(path)
        cls.frames.next_segment.restype = ctypes.c_size_t
        cls.frames.put_tag.restype = ctypes.c_void_p
        for name in ("complete_sum", "begin_cut"):
            getattr(cls.frames, name).restype = ctypes.c_bool

    def completed(self, frame, start, offset):
        """The frame with its sum, or None where it is refused."""
        room = ctypes.create_string_buffer(frame, len(frame))
        sizes = [ctypes.c_size_t(it) for it in (len(frame), start, offset)]
        return room.raw if self.frames.complete_sum(room, *sizes) else None

    def cut(self, frame, transport, size):
        """The segments of a frame, or None where it is refused."""
        cut, room, found = Cut(), ctypes.create_string_buffer(LONGEST), []
        sizes = [ctypes.c_size_t(it) for it in (len(frame), transport, size)]
        if not self.frames.begin_cut(ctypes.byref(cut), frame, *sizes):
            return None
        while length := self.frames.next_segment(ctypes.byref(cut), room):
            found.append(room.raw[:length])
        return found

    def test_tag(self):
        frame = bytes(range(1, 61))
        room = ctypes.create_string_buffer(bytes(4) + frame, 4 + len(frame))
        at = self.frames.put_tag(ctypes.byref(room, 4), ctypes.c_uint16(0x8100), ctypes.c_uint16(0x6123))
        self.assertEqual(at, ctypes.addressof(room))
        self.assertEqual(room.raw, frame[:12] + bytes.fromhex("81006123") + frame[12:])

    def test_sums(self):
        from scapy.all import IP, TCP, UDP, Ether, IPv6
        for kind, network, offset in ((TCP, IP, 16), (UDP, IP, 6), (TCP, IPv6, 16), (UDP, IPv6, 6)):
            for data in (b"", b"x", b"some data", bytes(range(256)) * 5 + b"!"):
                frame = bytes(Ether(dst="02:00:00:00:00:02", src="02:00:00:00:00:01") / network() / kind() / data)
                start = 34 if network is IP else 54
                at = start + offset
                pseudo = self.pseudo(frame, network is IP, start)
                left = frame[:at] + pseudo.to_bytes(2, "big") + frame[at + 2:]
                self.assertEqual(self.completed(left, start, offset), frame, (kind, network, data))
        self.assertIsNone(self.completed(bytes(60), 58, 1))
        self.assertIsNone(self.completed(bytes(60), 65535, 65535))
        # A sum of nothing but ones is written as such, since 0 means that UDP has none.
        self.assertEqual(self.completed(b"\xff" * 4, 0, 0)[:2], b"\xff\xff")

    def pseudo(self, frame, is_ipv4, start):
        """The sum of the pseudo header, as a sender leaves it in the place of the sum."""
        addresses = frame[26:34] if is_ipv4 else frame[22:54]
        kind = frame[23] if is_ipv4 else frame[20]
        data = addresses + kind.to_bytes(2, "big") + (len(frame) - start).to_bytes(2, "big")
        total = sum(int.from_bytes(data[at:at + 2], "big") for at in range(0, len(data), 2))
        while total >> 16:
            total = (total & 0xFFFF) + (total >> 16)
        return total

    def test_segments(self):
        from scapy.all import IP, TCP, Dot1Q, Ether, IPv6
        data = bytes(it * 7 & 255 for it in range(40_001))
        options = [("NOP", None), ("NOP", None), ("Timestamp", (5, 6))]
        for tagged in (False, True):
            for network, head in ((IP, 20), (IPv6, 40)):
                def made(seq, flags, number, some):
                    ip = IP(id=number, src="10.0.0.1", dst="10.0.0.2") if network is IP else IPv6(src="fd00::1", dst="fd00::2")
                    link = Ether(dst="02:00:00:00:00:02", src="02:00:00:00:00:01")
                    tcp = TCP(sport=1, dport=2, seq=seq, ack=9, flags=flags, options=options)
                    return bytes((link / Dot1Q(vlan=9) if tagged else link) / ip / tcp / some)
                first, size = 0xFFFFF000, 1448
                wanted = [made(first + at & 0xFFFFFFFF, self.flags(at, len(data) - at <= size), 0xFFFE + at // size & 0xFFFF,
                               data[at:at + size]) for at in range(0, len(data), size)]
                whole = made(first, "CAPF", 0xFFFE, data)
                found = self.cut(whole, 14 + 4 * tagged + head, size)
                self.assertEqual(found, wanted, (network, tagged))

    def flags(self, at, is_last):
        return ("C" if at == 0 else "") + "A" + ("PF" if is_last else "")

    def test_not_cut(self):
        """What is no TCP over IP, or has lengths that cannot be, is refused."""
        from scapy.all import ARP, IP, TCP, UDP, Ether
        good = bytes(Ether(dst="02:00:00:00:00:02") / IP() / TCP() / bytes(3000))
        self.assertEqual(len(self.cut(good, 34, 1000)), 3)
        self.assertIsNone(self.cut(good, 34, 0))
        self.assertIsNone(self.cut(good, 33, 1000))
        self.assertIsNone(self.cut(good, len(good) - 19, 1000))
        self.assertIsNone(self.cut(good, 34, LONGEST))
        self.assertIsNone(self.cut(good[:46] + b"\x40" + good[47:], 34, 1000))
        self.assertIsNone(self.cut(good[:46] + b"\xf0" + good[47:60], 34, 1000))
        self.assertIsNone(self.cut(bytes(Ether(dst="02:00:00:00:00:02") / IP() / UDP() / bytes(3000)), 34, 1000))
        self.assertIsNone(self.cut(bytes(Ether(dst="02:00:00:00:00:02") / ARP() / bytes(3000)), 34, 1000))
        self.assertIsNone(self.cut(bytes(13), 0, 1000))


class Carried(unittest.TestCase):
    def test_inside(self):
        """ports_inside, in a network namespace of its own."""
        need_compiler()
        lacking = [it for it in ("unshare", "nsenter", "ip") if not shutil.which(it)]
        if lacking:
            lacks(f"{lacking[0]} is missing: apt-get install -y util-linux iproute2")
        inside = ["unshare", "--net"] if os.geteuid() == 0 else ["unshare", "--user", "--map-root-user", "--net"]
        tried = subprocess.run([*inside, "ip", "link", "add", "a0", "type", "veth", "peer", "name", "a1"],
                               capture_output=True, text=True, timeout=LIMIT, check=False)
        if tried.returncode:
            lacks(f"no network namespace with a veth can be made here: {tried.stderr.strip()}")
        done = subprocess.run([*inside, sys.executable, "-B", os.path.join(HERE, "ports_inside.py")],
                              capture_output=True, text=True, timeout=LIMIT, check=False)
        self.assertEqual(done.returncode, 0, done.stdout + done.stderr)


if __name__ == "__main__":
    unittest.main()
