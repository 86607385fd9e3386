"""Tapes shown give the same tapes again; reports in words, and what two of them differ in."""
import random
import unittest

from p4tools import difference, spell, tape, told
from p4tools.names import Names, read_info
from p4tools.report import read_reports
from p4tools.scenario import Maker
from p4tools.trouble import Trouble
from test_scenarios import MADE, bytes_of

BRIDGE = Names(read_info(bytes_of("programs/bridge.p4info.txt"), "bridge")[0])


def shown(data, names=None):
    """The lines of a tape, and the tape that they make."""
    lines, wrong, files, _ = spell.lines_of(data, names)
    lines = [line for _, line in lines]
    maker = Maker(files.__getitem__, names)
    return lines, wrong, tape.write_tape([it for line in lines for it in maker.take(line)])


class Tapes(unittest.TestCase):
    def test_examples(self):
        for name in MADE:
            for names in (None, BRIDGE):
                with self.subTest(name, names=names is not None):
                    data = bytes_of(name + ".tape")
                    lines, wrong, made = shown(data, names)
                    self.assertIsNone(wrong)
                    self.assertEqual(made, data)
                    if names or "/" in name:
                        self.assertFalse([it for it in lines if " raw " in it])

    def test_any_messages(self):
        """Messages that are a byte away from good ones, and bytes at random."""
        dice = random.Random(1)
        records = []
        for record in tape.read_tape(bytes_of("operator/routes.tape"))[0]:
            if record.kind == tape.CALL:
                for _ in range(20):
                    payload = bytearray(record.payload)
                    payload[dice.randrange(1, len(payload))] = dice.randrange(256)
                    records.append(record._replace(payload=bytes(payload)))
                records.append(record)
        for _ in range(300):
            payload = bytes([dice.randrange(1, 7)]) + dice.randbytes(dice.randrange(12))
            records.append(tape.Record(tape.CALL, dice.randrange(3), payload))
        data = tape.write_tape(records)
        self.assertEqual(shown(data)[1:], (None, data))
        self.assertEqual(shown(data, BRIDGE)[1:], (None, data))

    def test_multicast(self):
        """A multicast group is shown in the words that make it; an entry of the replication engine without a group has none."""
        lines = ["c0 insert multicast 7 replicas 1, 2, 3:5", "c0 modify multicast 65535", "c0 delete multicast 7",
                 "c0 read multicast *", "c0 read multicast 7"]
        made = [it for line in lines for it in Maker(None).take(line)]
        self.assertEqual(made[0].payload.hex(), "01" "0801" "1a021001" "2218" "0801" "1214" "4a12" "0a10" "0807" "12020801"
                         "12020802" "120408031005")
        self.assertEqual(shown(tape.write_tape(made)), (lines, None, tape.write_tape(made)))
        bare = tape.write_tape([tape.Record(tape.CALL, 0, bytes.fromhex("01" "2206" "0801" "1202" "4a00"))])
        lines, wrong, again = shown(bare)
        self.assertEqual((lines[1:], wrong, again), (["c0 raw write 2206080112024a00"], None, bare))

    def test_no_tapes(self):
        data = bytes_of("one-entry-one-packet.tape")
        for bad, said in ((data[:-1], "breaks off"), (data + b"\0", "behind the end record"), (b"", "no tape"),
                          (data[:8] + b"\x06" + data[9:], "no record of kind 6")):
            with self.subTest(said):
                self.assertIn(said, spell.lines_of(bad)[1])


def told_of(name, side=None):
    text = bytes_of(name + ".report").decode()
    beside = told.Beside(bytes_of(name + ".tape") if side is None else side)
    return read_reports(text, name)[0], beside


class Reports(unittest.TestCase):
    def test_walks(self):
        for name in ("operator/routes", "paths/paths"):
            with self.subTest(name):
                lines = "\n".join(told.tell(*told_of(name))) + "\n"
                self.assertEqual(lines, bytes_of(name + ".txt").decode())

    def test_summary(self):
        self.assertEqual(list(told.summary(told_of("operator/routes")[0])), [
            "10 calls, 8 steps: 9 OK, 1 UNKNOWN", "12 packets: 12 sent, 0 dropped", "port 1: 3 packets, 141 bytes",
            "port 3: 6 packets, 282 bytes", "port 4: 2 packets, 94 bytes", "port 5: 1 packet, 47 bytes"])

    def test_laboratory(self):
        pairs = [told_of("laboratory/version-1"), told_of("laboratory/version-2")]
        lines = "\n".join(difference.differences(*zip(*pairs))) + "\n"
        self.assertEqual(lines, bytes_of("laboratory/differences.txt").decode())

    def test_no_difference(self):
        for name in ("operator/routes", "laboratory/version-1"):
            pairs = [told_of(name), told_of(name)]
            self.assertEqual(list(difference.differences(*zip(*pairs))), [])

    def test_a_step_more(self):
        """A call that makes no step in B is told once, and not with each later packet."""
        one = "step 1 0 1 change 1\nreply 0 1 1 0 .\nstep 2 0 2 change 1\nreply 0 2 2 0 .\n"
        other = "reply 0 1 0 7 0807\nstep 1 0 2 change 1\nreply 0 2 1 0 .\n"
        packet = "packet w0 1 %d drop1 - - - -\nend %d 1"
        reports = [read_reports(text + packet % (steps, steps), "it")[0] for text, steps in ((one, 2), (other, 1))]
        self.assertEqual(list(difference.differences(reports, [told.Beside(), told.Beside()])), [
            "c0 call 1", "    A: c0 call 1: OK, change", "    B: c0 call 1: PERMISSION_DENIED",
            "end", "    A: 2 steps, 1 packet", "    B: 1 step, 1 packet"])

    def test_without_the_tape(self):
        one = read_reports(bytes_of("operator/routes.report").decode(), "it")[0]
        lines = list(told.tell(one, told.Beside()))
        self.assertIn("c0 call 8: OK, step 8 batch of 3", lines)
        self.assertIn("    update 3: NOT_FOUND, rule U10: it is not there", lines)
        self.assertIn("    hit 0x02000002 entry 5", lines)

    def test_batch_or_nothing(self):
        text = "\n".join([
            "reply 0 1 0 2 08021a250a1f747970652e676f6f676c65617069732e636f6d2f70342e76312e4572726f721202080a"
            "1a250a1f747970652e676f6f676c65617069732e636f6d2f70342e76312e4572726f721202080a"
            "1a310a1f747970652e676f6f676c65617069732e636f6d2f70342e76312e4572726f72120e08051a087034737769746368200a",
            "step 1 0 2 batch 2", "reply 0 2 1 0 .", "packet w0 1 0 drop1 - - - -",
            "packet w0 2 1 sent 2:0000000000020000000000010800 - - 33554433:1", "end 1 2"])
        beside = told.Beside(bytes_of("batch-or-nothing.tape"), BRIDGE)
        frame = "00:00:00:00:00:01 > 00:00:00:00:00:02 (IPv4), 14 bytes"
        self.assertEqual(list(told.tell(read_reports(text, "it")[0], beside)), [
            "c0 call 1 batch rollback_on_error of 3 updates: UNKNOWN",
            "    insert bridge eth.dst=00:00:00:00:00:02 forward(port=2): ABORTED",
            "    insert bridge eth.dst=00:00:00:00:00:03 forward(port=3): ABORTED",
            "    delete bridge eth.dst=00:00:00:00:00:09: NOT_FOUND, rule U10: it is not there",
            f"w0 packet 1 at port 1 after step 0: {frame}",
            "    dropped by the program",
            "c0 call 2 batch rollback_on_error of 2 updates: OK, step 1 batch of 2",
            "    insert bridge eth.dst=00:00:00:00:00:02 forward(port=2): OK",
            "    insert bridge eth.dst=00:00:00:00:00:03 forward(port=3): OK",
            f"w0 packet 2 at port 1 after step 1: {frame}",
            "    sent to port 2 unchanged",
            "    hit bridge eth.dst=00:00:00:00:00:02",
            "end: 1 step, 2 packets"])

    def test_backup_waits(self):
        text = "\n".join([
            "step 1 0 1 arbitrate 0", "notice 0 0a0808011a0210052200", "reply 0 1 1 0 -", "step 2 1 1 arbitrate 0",
            "notice 1 0a0a08011a02100522020806", "reply 1 1 2 0 -", "step 3 0 2 leave 0",
            "notice 1 0a0a08011a02100522020805", "reply 0 2 3 0 -", "reply 1 2 3 7 0807", "step 4 1 3 arbitrate 0",
            "notice 1 0a0808011a0210062200", "reply 1 3 4 0 -", "end 4 0"])
        lines = list(told.tell(read_reports(text, "it")[0], told.Beside(bytes_of("backup-waits.tape"))))
        self.assertIn("    c1 is told: device 1, greatest election id 5: there is no primary", lines)
        self.assertIn("c1 call 2 batch continue_on_error of 0 updates: PERMISSION_DENIED "
                      "(the election id is not that of the role's primary)", lines)

    def test_other_lines(self):
        text = ("notice 1 321508071a08703473776974636820012a050a030a01aa\nreply 1 1 0 0 -\nsent 2 0011\n"
                "packet w1 1 0 drop2 - - - -\npacket w1 2 0 sent - 0:0a0e0000000000020000000000010800 - -\n"
                "packet w1 3 0 sent 4:aa - 385875969:2a0a0a030a01aa0a030a0105 @7\ncell 7 301989889 3 1 40\nend 0 3")
        lines = list(told.tell(read_reports(text, "it")[0], told.Beside()))
        for line in ("    c1 is told: packet_out 1 bytes aa is refused: PERMISSION_DENIED, rule P1: "
                     "the sender is not the primary of its role", "c2 was sent 2 bytes",
                     "    dropped: there is no program", "    sent to port 4: 1 bytes aa",
                     "    sent to c0: packet_in 00:00:00:00:00:01 > 00:00:00:00:00:02 (IPv4), 14 bytes",
                     "    digest 0x17000001: 0xaa, 0x05", "    hit counter cell 7",
                     "0x12000001 index 3: 1 packet, 40 bytes"):
            self.assertIn(line, lines)

    def test_no_reports(self):
        for text in ("", "end 1", "reply 0 1 0 0 .", "hello\nend 0 0", "packet w0 1 0 lost - - - -\nend 0 1",
                     "reply 0 1 0 0 0g\nend 0 0", "packet w0 1 0 sent 2 - - -\nend 0 1"):
            with self.subTest(text), self.assertRaises(Trouble):
                read_reports(text, "it")
        self.assertEqual([it.device for it in read_reports("device 1\nend 0 0\ndevice 2\nend 1 1", "it")], [1, 2])
