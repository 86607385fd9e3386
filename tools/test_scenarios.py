"""Scenarios made into tapes, and what is said of wrong lines."""
import os
import tempfile
import unittest

from p4tools import tape
from p4tools.scenario import Maker, make
from p4tools.trouble import Trouble

EXAMPLES = os.path.join(os.path.dirname(os.path.abspath(__file__)), "../examples")
MADE = ["one-entry-one-packet", "batch-or-nothing", "backup-waits", "flood", "grpc-client", "operator/routes",
        "laboratory/version-1", "laboratory/version-2", "paths/paths"]


def bytes_of(name):
    with open(os.path.join(EXAMPLES, name), "rb") as it:
        return it.read()


class Made(unittest.TestCase):
    def test_examples(self):
        for name in MADE:
            with self.subTest(name):
                notes = []
                records = make(os.path.join(EXAMPLES, name + ".scenario"), notes.append)
                self.assertEqual(tape.write_tape(records), bytes_of(name + ".tape"))
                self.assertEqual(notes, [])

    def test_records(self):
        maker = Maker(None)
        lines = ["w3 packet port=510 times=2 0a0B 0c", "w3 packet port=0 .", "c31 bytes 505249", "c2 capabilities",
                 "c2 raw write 08", "w0 meet c2 call=2", "c2 leave", "", "# nothing"]
        made = [it for line in lines for it in maker.take(line)]
        self.assertEqual(tape.write_tape(made)[8:].hex(" ", 200), "".join([
            "02000300000005" "01fe0a0b0c" * 2, "02000300000002" "0000", "03001f00000003" "505249",
            "01000200000001" "06", "01000200000002" "0108", "05000000000006" "000200000002",
            "04000200000000", "00000000000000"]))
        self.assertEqual(tape.read_tape(tape.write_tape(made)), (made, None))


WRONG = {
    "insert ipv4_lpn dst=10.0.0.0/8 drop()": "no table is named ipv4_lpn; did you mean ipv4_lpm?",
    "insert ipv4_lpm dts=10.0.0.0/8 drop()": "no match field of ipv4_lpm is named dts; there are: ipv4.dst",
    "insert ipv4_lpm dst=10.0.0.0/8 rute(port=1)": "no action is named rute; did you mean route?",
    "insert ipv4_lpm dst=10.0.0.0/8 route(prt=1)": "no parameter of route is named prt; did you mean port?",
    "insert ipv4_lpm dst=10.0.0.0&&&0xff drop()": "ipv4.dst is matched lpm: write ipv4.dst=VALUE/LENGTH",
    "insert ipv4_lpm dst=ten drop()": "ten is no value",
    "insert": "insert what?",
    "insrt ipv4_lpm": "no line begins with insrt; did you mean insert?",
    "w1 insert ipv4_lpm dst=10.0.0.0/8 drop()": "write c1 in place of w1",
    "c1 packet port=1 00": "write w1 in place of c1",
    "packet port=511 00": "a packet enters at a port from 0 to 510",
    "packet port=1 0": "not an even number of hex digits",
    "c32 capabilities": "there is no controller lane c32",
    "meet c0 call=9": "c0 has 2 calls before this line, so call 9 can't be met here",
    "meet c0": "write meet cN call=N",
    "arbitrate": "an election id is missing",
    "get everything": "write get with one of all, cookie_only",
    "read counter_entry hits": "no counter is named hits, and the P4Info has no counter",
    "packet_out port=1 00": "no controller header is named packet_out",
    "end": "no line begins with end",
    "insert ipv4_lpm f(": "a parenthesis is not closed",
    "insert multicast": "a name is missing; write multicast GROUP replicas 1, 2, 3:5",
    "insert multicast all replicas 1": "a multicast group takes a number, and all is none",
    "insert multicast 7 replicas 1 2": "the port of a replica takes a number, and 1 2 is none",
    "insert multicast 7 replicas 1, 2:": "the instance of a replica takes a number, and nothing is none",
    "insert multicast 7 replicas=1": "replicas=1 is not expected here; write multicast GROUP replicas 1, 2, 3:5",
}
NOTED = {
    "insert ipv4_lpm dst=10.0.0.1/8 drop()": "ipv4.dst has bits behind its prefix",
    "insert ipv4_lpm dst=10.0.0.0/0 drop()": "to match all, leave the field out",
    "insert ipv4_lpm dst=10.0.0.0/8 route(port=512, mac=1)": "port has 9 bits, and the value has more",
    "insert ipv4_lpm dst=10.0.0.0/8 route(port=1)": "the action is to be written route(port=VALUE, mac=VALUE)",
    "insert ipv4_lpm dst=10.0.0.0/8": "an entry that is inserted needs an action",
    "insert ipv4_lpm dst=10.0.0.0/8 drop() priority=1": "an entry of ipv4_lpm has no priority",
    "insert ipv4_lpm default drop()": "a default action is always there",
    "insert acl a=0x0f&&&0xf0 drop()": "lab.a has bits outside of its mask",
    "insert acl a=0&&&0 drop() priority=1": "the mask of lab.a is 0",
    "insert acl a=1 drop()": "each entry of acl needs priority=N above 0",
    "insert acl a=0x100 drop() priority=1": "lab.a has 8 bits, and the value has more",
    "insert ecmp member_id=1": "lab.b is exact, so each entry of ecmp needs lab.b=VALUE",
    "insert multicast 0 replicas 1": "a multicast group has an id from 1 to 65535",
    "delete multicast 65536": "a multicast group has an id from 1 to 65535",
    "modify multicast 7 replicas 510, 511": "a replica has a port up to 510 and an instance up to 65535",
    "insert multicast 7 replicas 1:65536": "a replica has a port up to 510 and an instance up to 65535",
    "insert multicast 7 replicas 1, 2, 1:0": "no two replicas have the same port and instance",
    "insert multicast 7 replicas " + ", ".join(map(str, range(33))): "a multicast group has at most 32 replicas",
}


class Wrong(unittest.TestCase):
    def setUp(self):
        self.folder = tempfile.TemporaryDirectory()
        self.addCleanup(self.folder.cleanup)
        self.notes = []

    def made(self, *lines):
        path = os.path.join(self.folder.name, "a.scenario")
        with open(path, "w", encoding="utf-8") as it:
            it.write("\n".join(lines))
        return make(path, self.notes.append)

    def router(self, *lines):
        programs = os.path.join(EXAMPLES, "programs")
        return self.made("arbitrate election=1",
                         f"config verify_and_commit {programs}/router.p4info.txt {programs}/router.json", *lines)

    def test_wrong_lines(self):
        for line, said in WRONG.items():
            with self.subTest(line), self.assertRaises(Trouble) as caught:
                self.router(line)
            self.assertIn(f"a.scenario:3: ", str(caught.exception))
            self.assertIn(said, str(caught.exception))

    def test_all_are_told(self):
        with self.assertRaises(Trouble) as caught:
            self.router(*WRONG)
        self.assertEqual(len(str(caught.exception).split("\n")), 20)

    def test_files(self):
        for line, said in {"config verify_and_commit no.p4info.txt no.json": "no.p4info.txt is not read",
                           "config commti a b": "a config is for verify, verify_and_save",
                           "include no.scenario": "no.scenario is not read",
                           "include a.scenario": "includes itself",
                           "pcap port=1 a.scenario": "a.scenario is no pcap file",
                           "config verify_and_commit a.scenario": "a.scenario is no config"}.items():
            with self.subTest(line), self.assertRaises(Trouble) as caught:
                self.made(line)
            self.assertIn(said, str(caught.exception))

    def test_batch(self):
        with self.assertRaisesRegex(Trouble, "a batch has no `end`"):
            self.router("batch", "insert ipv4_lpm dst=10.0.0.0/8 drop()")
        with self.assertRaises(Trouble) as caught:
            self.router("batch atomic", "insert ipv4_lpm dst=10.0.0.0/8 drop()", "packet port=1 00", "end")
        self.assertEqual([it.split(": ")[0][-1] for it in str(caught.exception).split("\n")], ["3", "5"])

    def test_notes(self):
        programs = os.path.join(EXAMPLES, "programs")
        for line, said in NOTED.items():
            with self.subTest(line):
                self.notes = []
                names = "router" if "ipv4_lpm" in line else "lab"
                self.assertEqual(len(self.made(f"names {programs}/{names}.p4info.txt", line)), 1)
                self.assertIn(said, "\n".join(self.notes))
                self.assertIn("a.scenario:2: note: ", self.notes[0])
