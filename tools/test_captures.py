"""Captures of several ports joined into a scenario."""
import os
import struct
import tempfile
import unittest

from test_commands import run

FRAME = bytes.fromhex("000000000002" "000000000001" "0800")


def pcap(path, packets, nano=False, cut=0):
    """Writes a pcap file of pairs of a time in nanoseconds and bytes; `cut` bytes of each are said to be left out."""
    with open(path, "wb") as it:
        it.write(struct.pack("<IHHiIII", 0xa1b23c4d if nano else 0xa1b2c3d4, 2, 4, 0, 0, 65535, 1))
        for time, data in packets:
            part = time % 1_000_000_000
            it.write(struct.pack("<IIII", time // 1_000_000_000, part if nano else part // 1000, len(data), len(data) + cut) + data)


def pcapng(path, packets):
    """Writes a pcapng file of such pairs, in microseconds."""
    with open(path, "wb") as it:
        it.write(struct.pack("<IIIHHqI", 0x0a0d0d0a, 28, 0x1a2b3c4d, 1, 0, -1, 28) + struct.pack("<IIHHII", 1, 20, 1, 0, 65535, 20))
        for time, data in packets:
            whole = data + b"\0" * (-len(data) % 4)
            size, time = 32 + len(whole), time // 1000
            it.write(struct.pack("<IIIIIII", 6, size, 0, time >> 32, time & 0xffffffff, len(data), len(data)) + whole + struct.pack("<I", size))


class Captures(unittest.TestCase):
    def setUp(self):
        folder = tempfile.TemporaryDirectory()
        self.addCleanup(folder.cleanup)
        self.folder = folder.name
        second = 1_700_000_000 * 1_000_000_000
        pcap(self.path("one.pcap"), [(second, FRAME + b"\1"), (second + 5000, FRAME + b"\3")])
        pcap(self.path("two.pcap"), [(second + 1001, FRAME + b"\2")], nano=True)
        pcapng(self.path("three.pcapng"), [(second + 1000, FRAME + b"\5"), (second + 6000, FRAME + b"\4")])
        pcap(self.path("left.pcap"), [(second + 2000, FRAME + b"\1")])
        pcap(self.path("cut.pcap"), [(second + 9000, FRAME)], cut=8)
        pcap(self.path("none.pcap"), [])
        with open(self.path("setup.scenario"), "w", encoding="utf-8") as it:
            it.write("arbitrate election=1\n")

    def path(self, name):
        return os.path.join(self.folder, name)

    def lines(self, *words):
        status, data, said = run("p4tape", "from-pcap", *words)
        self.assertEqual(status, 0, said)
        return [it.partition("  #")[0] for it in data.decode().splitlines()][1:], said

    def test_joined_by_time(self):
        lines, said = self.lines(*[f"{port}={self.path(name)}" for port, name in ((1, "one.pcap"), (2, "two.pcap"), (3, "three.pcapng"))])
        frame = FRAME.hex()
        self.assertEqual(lines, [f"packet port=1 {frame}01", f"packet port=3 {frame}05", f"packet port=2 {frame}02",
                                 f"packet port=1 {frame}03", f"packet port=3 {frame}04"])
        self.assertEqual(said, "")

    def test_what_left(self):
        out = self.path("out.scenario")
        words = [f"1={self.path('one.pcap')}", "--expect", f"4={self.path('left.pcap')}", "--expect", f"5={self.path('cut.pcap')}",
                 "--include", self.path("setup.scenario"), "-o", out]
        status, data, said = run("p4tape", "from-pcap", *words)
        self.assertEqual((status, data), (0, b""))
        self.assertIn("cut.pcap has 1 packets that the capture cut off; what is expected is how they begin", said)
        with open(out, encoding="utf-8") as it:
            lines = [line.partition("  #")[0] for line in it.read().splitlines()][1:]
        frame = FRAME.hex()
        self.assertEqual([it for it in lines if not it.startswith("include")], [
            "queued", "strict", f"packet port=1 {frame}01", f"expect port=4 {frame}01", f"packet port=1 {frame}03", f"expect port=5 {frame}.."])
        report_of = self.path("a.report")
        for left, status in ((f"4:{frame}01 - - -\npacket w0 2 1 sent 5:{frame}aabb", 0), (f"5:{frame} - - -\npacket w0 2 1 sent 5:{frame}", 1)):
            with open(report_of, "w", encoding="utf-8") as it:
                it.write(f"step 1 0 1 arbitrate 0\nreply 0 1 1 0 -\npacket w0 1 1 sent {left} - - -\nend 1 2\n")
            self.assertEqual(run("p4tape", "test", out, "--report", report_of)[0], status)

    def test_wrong_words(self):
        for words, said in ((["one.pcap"], "write PORT=FILE"), (["511=one.pcap"], "with a port from 0 to 510"),
                            (["1=no.pcap"], "no.pcap is not read"), ([f"1={self.path('setup.scenario')}"], "is no pcap file")):
            with self.subTest(words):
                status, _, told = run("p4tape", "from-pcap", *words)
                self.assertEqual(status, 2)
                self.assertIn(said, told)
        self.assertIn("none.pcap has no packet", self.lines(f"1={self.path('none.pcap')}")[1])


if __name__ == "__main__":
    unittest.main()
