"""Expectations of scenarios: each kind met and not met, what is told of them, wrong lines, updates, JUnit."""
import os
import shutil
import subprocess
import tempfile
import unittest
from xml.etree import ElementTree

from p4tools import expect, suite
from p4tools.junit import junit_of
from p4tools.report import read_reports
from p4tools.trouble import Trouble
from test_commands import run
from test_scenarios import EXAMPLES, bytes_of

HERE = os.path.dirname(os.path.abspath(__file__))
SCHEMA = os.path.join(HERE, "junit.xsd")
WALKS = ["operator/routes", "paths/paths", "laboratory/version-1", "laboratory/version-2"]

# Of the operator's walk: lines behind its first two packets (to 10.1.2.3 and 10.1.200.3, both by 10.1.0.0/16 to port 3), and
# what is told where they are not met.
OF_PACKETS = {
    "expect port=3": None,
    "expect port=3 times=2": None,
    "expect port=3 times=3": "2 of 3 came",
    "expect port=4": "left at port 3, not at port 4",
    "expect port=3 ip.dst=10.1.200.3": None,
    "expect port=3 ip.dst=10.1.2.3 ip.ttl=63 udp.dport=0xc351 ether.type=IPv4 length=47": None,
    "expect port=3 ip.ttl=62": "ip.ttl: expected 62, left 63",
    "expect port=3 ip.dst=10.1.2.4": "ip.dst: expected 10.1.2.4, left 10.1.2.3",
    "expect port=3 tcp.dport=80": "tcp.dport: expected 80, left no such layer",
    "expect port=3 length=48": "length: expected 48 bytes, left 47",
    "w0 expect port=3": None,
    "w1 expect port=3": "nothing more left at port 3",
    "expect port=3 02000000000302000000000a080045000021000100003f11adc6c00002010a010203c350c351000d675a68656c6c6f": None,
    "expect port=3 02000000000302000000000a0800 4500002100010000 **11 **** c0000201 0a01**03..": None,
    "expect port=3 02000000000302000000000a080045000021000100003e11adc6c00002010a010203c350c351000d675a68656c6c6f":
        "IP.ttl: expected 62, left 63",
    "expect port=3 0200": "expected 2 bytes, left 47",
    "expect port=3 0201..": "Ethernet.dst: expected 02:01:00:00:00:03, left 02:00:00:00:00:03",
    "expect none": "left at port 3",
    "expect none port=1": None,
    "expect none port=3": "left at port 3",
    "expect drop": "left at port 3",
    "expect packet-in": "left at port 3, not to a controller"}
# Behind its batch with a mistake (call 9, three updates, the last of which deletes what is not there).
OF_ANSWERS = {
    "expect UNKNOWN": None,
    "expect NOT_FOUND": None,
    "expect NOT_FOUND rule=U10 update=3 steps=0": None,
    "expect ABORTED update=1": None,
    "expect OK": "c0 call 9 batch dataplane_atomic of 3 updates: UNKNOWN",
    "expect NOT_FOUND rule=U3": "NOT_FOUND, rule U10: it is not there",
    "expect NOT_FOUND update=1": "ABORTED",
    "expect ABORTED update=3": "NOT_FOUND",
    "expect ALREADY_EXISTS rule=U10": "NOT_FOUND, rule U10",
    "expect NOT_FOUND steps=1": "steps: expected 1, made 0",
    "c0 expect UNKNOWN": None}
# Behind its Read of all routes.
OF_READS = {
    "expect read ipv4_lpm dst=10.0.0.0/8 route(port=1, mac=02:00:00:00:00:01)": None,
    "expect read ipv4_lpm dst=10.0.0.0/8": None,
    "expect read ipv4_lpm dst=bytes:000a000000/8": None,
    "expect read entities=2": None,
    "expect read entities=3": "entities: expected 3, read 2",
    "expect read ipv4_lpm dst=10.0.0.0/8 route(port=2, mac=02:00:00:00:00:01)": "route(port=1, mac=02:00:00:00:00:01)",
    "expect read ipv4_lpm dst=10.0.0.0/9": "no such entity was read",
    "expect counter ipv4_lpm dst=10.1.0.0/16 packets=4 bytes=188": None,
    "expect counter ipv4_lpm dst=10.1.0.0/16 packets=5": "packets: expected 5, counted 4",
    "expect counter ipv4_lpm dst=10.1.0.0/16 packets=4 bytes=189": "bytes: expected 189, counted 188",
    "expect counter ipv4_lpm dst=10.1.0.0/17 packets=2": "no entry with this key is counted at the end",
    "expect drop": "left at port 3"}
WRONG = {
    "expect": "expect what? write expect port=N",
    "expect lost": "lost is nothing that can be expected",
    "expect not_found": "did you mean NOT_FOUND",
    "expect port=511 00": "a packet leaves at a port from 0 to 510",
    "expect port=1 0": "not an even number of hex digits",
    "expect port=1 0g": "neither hex digits, with * for any digit, nor a field",
    "expect port=1 ipp.ttl=1": "scapy knows no layer ipp; did you mean",
    "expect port=1 ip.tttl=1": "scapy's layer IP has no field tttl",
    "expect port=1 ip.dst=ten": "ten is no value of ip.dst",
    "expect port=1 00 ip.ttl=1": "hex digits or fields, not both",
    "expect port=1 times=0": "that nothing leaves is `expect none`",
    "expect drop reason=5": "a reason is 1 (the program)",
    "expect none 00": "00 is not expected here",
    "expect packet-in port=1": "the program has no header packet_in",
    "c1 expect OK": "no call stands before this line",
    "w0 expect OK": "write c0 in place of w0",
    "expect OK rule=U1": "what is OK broke no rule",
    "expect NOT_FOUND rule=R1": "R1 is no rule that an answer names",
    "expect counter ipv4_lpm dst=10.0.0.0/8": "a name and a figure are needed",
    "expect counter ipv4_lmp dst=10.0.0.0/8 packets=1": "did you mean ipv4_lpm?",
    "expect read": "write expect read ENTITY",
    "queued": "queued stands before all packets",
    "start cpu=0": "cpu is 1 to 510",
    "start bridge on": "on is not expected here",
    "strict at=1": "at=1 is not expected here"}


def tested(text, report_of=None, folder=None):
    """The result of a scenario's text by a stored report or a report's text; its files are those of a walk."""
    with tempfile.TemporaryDirectory() as made:
        names = os.path.join(EXAMPLES, folder or "operator")
        for name in os.listdir(names):
            if os.path.isfile(os.path.join(names, name)):
                shutil.copy(os.path.join(names, name), made)
        file, stored = os.path.join(made, "a.scenario"), os.path.join(made, "a.report")
        with open(file, "w", encoding="utf-8") as it:
            it.write(text.replace("../programs", os.path.join(EXAMPLES, "programs")))
        with open(stored, "w", encoding="utf-8") as it:
            it.write(report_of or bytes_of("operator/routes.report").decode())
        return suite.tested(file, suite.Switch([], 1, stored, True))


def plain(name):
    """The lines of a walk's scenario without what it expects."""
    lines = bytes_of(name).decode().splitlines()
    return [it for it in lines if not it.startswith(("expect", "strict"))]


class Kinds(unittest.TestCase):
    def check(self, line, said, verdicts):
        one = verdicts[0]
        self.assertEqual(one.text, line)
        self.assertEqual(one.is_met, said is None, one.lines)
        if said is None:
            self.assertEqual(one.lines, [])
        else:
            self.assertIn(said, "\n".join(one.lines))

    def behind(self, line_before, line, nth=1):
        lines = plain("operator/routes.scenario")
        at = [number for number, it in enumerate(lines) if it == line_before][nth - 1]
        result = tested("\n".join(lines[:at + 1] + [line] + lines[at + 1:]))
        self.assertEqual(result.wrong, "")
        return result.verdicts

    def test_packets(self):
        for line, said in OF_PACKETS.items():
            with self.subTest(line):
                self.check(" ".join(line.split()), said, self.behind("pcap port=2 customer.pcap", line))

    def test_answers(self):
        for line, said in OF_ANSWERS.items():
            with self.subTest(line):
                self.check(line, said, self.behind("end", line, 2))

    def test_reads(self):
        for line, said in OF_READS.items():
            with self.subTest(line):
                self.check(line, said, self.behind("read ipv4_lpm", line))

    def test_what_is_told(self):
        """A packet that is not as expected is told as `show` tells it: what left, field by field, and what it hit."""
        lines = self.behind("pcap port=2 customer.pcap", "expect port=3 ip.ttl=62")[0].lines
        self.assertEqual(lines, [
            "ip.ttl: expected 62, left 63",
            "w0 packet 1 at port 2 after step 4: Ether / IP / UDP 192.0.2.1:50000 > 10.1.2.3:50001 / Raw, 47 bytes",
            "    sent to port 3 with Ethernet.dst 02:00:00:00:00:03, Ethernet.src 02:00:00:00:00:0a, IP.ttl 63, IP.chksum 0xadc6",
            "    hit ipv4_lpm ipv4.dst=10.1.0.0/16"])

    def test_order(self):
        """What leaves at a port is expected in its order."""
        first, second = "expect port=3 ip.dst=10.1.2.3", "expect port=3 ip.dst=10.1.200.3"
        for lines, met in (((first, second), [True, True]), ((second, first), [True, False])):
            with self.subTest(lines):
                self.assertEqual([it.is_met for it in self.behind("pcap port=2 customer.pcap", "\n".join(lines))], met)

    def test_only_the_lines_above(self):
        """An expectation speaks of the packets of the lines above it, not of earlier ones."""
        self.assertFalse(self.behind("pcap port=2 customer.pcap", "expect port=3", 2)[0].is_met)
        self.assertTrue(self.behind("pcap port=2 customer.pcap", "expect port=1 times=2", 2)[0].is_met)


CONTROLLERS = """start bridge cpu=64
names ../programs/bridge.p4info.txt
insert bridge dst=00:00:00:00:00:02 forward(port=64)
packet port=1 000000000002 000000000001 0800
{}
packet_out 000000000003 000000000001 0800
{}
"""
# (the first packet to c0, the second, of a packet-out, dropped)
TO_C0 = ("step 1 0 1 change 1\nreply 0 1 1 0 .\nreply 0 2 1 0 -\npacket w0 1 1 sent - 0:0a0e0000000000020000000000010800 - 33554433:1\n"
         "packet c0 1 1 drop1 - - - -\nend 1 2\n")
REFUSED = ("step 1 0 1 change 1\nreply 0 1 1 0 .\nnotice 0 321508071a08703473776974636820012a050a030a01aa\nreply 0 2 1 0 -\n"
           "packet w0 1 1 drop1 - - - -\nend 1 1\n")
NOBODY = TO_C0.replace("sent - 0:", "sent - -:")


class Controllers(unittest.TestCase):
    def check(self, report_of, above, below, met, said=()):
        result = tested(CONTROLLERS.format(above, below), report_of)
        self.assertEqual((result.wrong, [it.is_met for it in result.verdicts]), ("", met))
        told = "\n".join(line for it in result.verdicts for line in it.lines)
        for text in said:
            self.assertIn(text, told)

    def test_packet_in(self):
        self.check(TO_C0, "expect packet-in 000000000002 000000000001 0800\nexpect none port=1", "expect drop reason=1\nexpect OK",
                   [True] * 4)
        self.check(TO_C0, "c0 expect packet-in ether.dst=00:00:00:00:00:02", "c0 expect drop", [True, True])
        self.check(TO_C0, "expect packet-in 000000000004 000000000001 0800\nexpect none", "expect drop reason=2",
                   [False, False, False], ["Ethernet.dst: expected 00:00:00:00:00:04, left 00:00:00:00:00:02", "went to c0",
                                           "nothing more was dropped"])
        self.check(TO_C0, "expect port=64", "expect packet-in", [False, False],
                   ["went to a controller, not to port 64", "nothing more went to a controller"])
        self.check(TO_C0, "c1 expect packet-in", "", [False], ["went to c0"])

    def test_no_primary(self):
        self.check(NOBODY, "expect packet-in", "", [False], ["went to no controller: there is no primary"])

    def test_a_packet_out_that_is_refused(self):
        self.check(REFUSED, "expect drop", "expect PERMISSION_DENIED rule=P1", [True, True])
        self.check(REFUSED, "", "expect OK\nexpect PERMISSION_DENIED rule=P2\nc0 expect drop", [False, False, False],
                   ["rule P1: the sender is not the primary of its role", "nothing more was dropped"])
        self.check(REFUSED, "expect drop", "expect drop", [True, False], ["the packet was refused, or none stands before this line"])

    def test_strict(self):
        for report_of, above, met in ((TO_C0, "expect packet-in", [True, True]), (TO_C0, "", [False]), (NOBODY, "", [False]),
                                      (REFUSED, "", [True])):
            with self.subTest(above=above):
                result = tested("strict\n" + CONTROLLERS.format(above, ""), report_of)
                self.assertEqual([it.is_met for it in result.verdicts], met)
                self.assertEqual(result.verdicts[-1].text, "strict")


PORTS = """names ../programs/bridge.p4info.txt
{}
packet port=1 aa
packet port=1 bb
get
packet port=1 cc
{}
"""
LEFT = ("reply 0 1 0 9 08091200\npacket w0 1 0 sent 4:aa - - -\npacket w0 2 0 sent 4:bb,5:bb - - -\n"
        "packet w0 3 0 sent 4:cc - - -\nend 0 3\n")


class Queues(unittest.TestCase):
    def check(self, above, below, met):
        result = tested(PORTS.format(above, below), LEFT)
        self.assertEqual((result.wrong, [it.is_met for it in result.verdicts]), ("", met))
        return result.verdicts

    def test_queued(self):
        """By ports, whichever packet it came of, also where the line stands before the packet."""
        self.check("queued\nexpect port=4 aa", "expect port=4 bb\nexpect port=4 cc\nexpect port=5 bb", [True] * 4)
        self.check("queued\nexpect port=4 bb", "expect port=4 aa", [True, False])
        self.check("", "expect port=4 bb", [False])

    def test_strict_but_at_a_port(self):
        self.check("queued\nstrict except=4", "expect port=5", [True, True])
        self.check("queued\nstrict except=5", "expect port=4 times=2", [True, False])
        told = self.check("strict", "expect port=4 cc", [True, False])[1].lines
        self.assertEqual(sum(" and was not expected" in it for it in told), 3)

    def test_cells(self):
        """A counter's cell without a line counted nothing."""
        info = b'counters { preamble { id: 301989889 name: "c" } size: 8 }'
        with tempfile.TemporaryDirectory() as folder:
            for name, data in (("p4info.txt", info), ("a.report", b"reply 0 1 0 0 .\ncell 7 301989889 3 2 40\nend 0 0\n"),
                               ("a.scenario", b"names p4info.txt\ncapabilities\nexpect counter c index=3 packets=2 bytes=40\n"
                                b"expect counter c index=4 packets=0\nexpect counter c index=4 packets=1\nexpect counter c index=3 bytes=41\n")):
                with open(os.path.join(folder, name), "wb") as it:
                    it.write(data)
            result = suite.tested(os.path.join(folder, "a.scenario"), suite.Switch([], 1, os.path.join(folder, "a.report"), True))
        self.assertEqual((result.wrong, [it.is_met for it in result.verdicts]), ("", [True, True, False, False]))


class WrongLines(unittest.TestCase):
    def test_each(self):
        lines = plain("operator/routes.scenario")
        for line, said in WRONG.items():
            with self.subTest(line):
                self.assertIn(said, tested("\n".join(lines + [line])).wrong)

    def test_before_all(self):
        for line in ("expect port=1 00", "expect OK", "expect drop"):
            self.assertIn("an expectation stands behind what it speaks of", tested(line).wrong)

    def test_nothing_is_expected(self):
        self.assertIn("nothing is expected", tested("capabilities", "reply 0 1 0 0 .\nend 0 0\n").wrong)

    def test_another_report(self):
        self.assertIn("it is not the report of this scenario", tested("capabilities\nexpect OK", "end 0 0\n").wrong)

    def test_lines_make_no_records(self):
        watch = expect.Watch()
        watch.begin(["bridge", "rows=1024"])
        self.assertEqual(watch.start, ["--bridge", "--rows", "1024"])
        with self.assertRaises(Trouble):
            watch.expect(None, ["OK"], None)


class Suites(unittest.TestCase):
    def setUp(self):
        folder = tempfile.TemporaryDirectory()
        self.addCleanup(folder.cleanup)
        self.folder = folder.name

    def file(self, name, text):
        path = os.path.join(self.folder, name)
        with open(path, "w", encoding="utf-8") as it:
            it.write(text)
        return path

    def test_walks(self):
        """The walks come to what they expect, by their stored reports."""
        for name in WALKS:
            with self.subTest(name):
                status, told, said = run("p4tape", "test", "--quiet", name + ".scenario", "--report", name + ".report")
                self.assertEqual((status, said), (0, ""))
                self.assertIn("all met", told.decode())

    def test_statuses(self):
        """0 where all is met, 1 where something is not, 2 where a file is wrong; each line is told with its place."""
        report_of = self.file("a.report", "reply 0 1 0 0 0a05312e332e30\nend 0 0\n")
        for text, wanted, said in (("capabilities\nexpect OK\n", 0, "a.scenario:2: met: expect OK"),
                                   ("capabilities\nexpect UNKNOWN # no\n", 1, "a.scenario:2: not met: expect UNKNOWN"),
                                   ("capabilities\nexpect nothing\n", 2, "a.scenario:2: nothing is nothing that can be expected")):
            file = self.file("a.scenario", text)
            status, told, _ = run("p4tape", "test", file, "--report", report_of)
            self.assertEqual(status, wanted)
            self.assertIn(said, told.decode())
        self.assertEqual(run("p4tape", "test", file, "--switch", "/no/such/program")[0], 2)

    def test_update(self):
        """What was not met is written anew in its own manner, and is met then."""
        lines = ["strict"] + plain("operator/routes.scenario")
        places = [number for number, it in enumerate(lines) if it.startswith("pcap")]
        for at, added in reversed(list(zip(places, (
                ["expect port=3 ip.ttl=62 ip.dst=10.1.2.3  # the first"], ["expect port=1 times=3"], [],
                ["expect port=5 02000000000*..", "expect none"], ["  expect drop", "expect OK steps=2"], ["expect OK"])))):
            lines[at + 1:at + 1] = added
        lines += ["expect read entities=7", "expect counter ipv4_lpm dst=10.0.0.0/8 packets=1", "expect packet-in"]
        text = "\n".join(lines).replace("../programs", os.path.join(EXAMPLES, "programs")).replace(
            "customer.pcap", os.path.join(EXAMPLES, "operator/customer.pcap")) + "\n"
        file, report_of = self.file("a.scenario", text), os.path.join(EXAMPLES, "operator/routes.report")
        self.assertEqual(run("p4tape", "test", file, "--report", report_of)[0], 1)
        self.assertEqual(run("p4tape", "test", "--update", file, "--report", report_of)[0], 0)
        with open(file, encoding="utf-8") as it:
            made = it.read().splitlines()
        for line in ("expect port=3 ip.ttl=63 ip.dst=10.1.2.3  # the first", "expect port=1 times=2", "expect read entities=2",
                     "expect OK steps=1", "expect NOT_FOUND rule=U10 update=3", "expect counter ipv4_lpm dst=10.0.0.0/8 packets=3",
                     "expect port=5 02000000000*.."):
            self.assertIn(line, made)
        self.assertEqual([it for it in made if not it.lstrip().startswith("expect")],
                         [it for it in text.splitlines() if not it.lstrip().startswith("expect")])
        self.assertEqual(run("p4tape", "test", file, "--report", report_of)[0], 0)

    def test_junit(self):
        """A suite's XML has a case for each expectation, and is of the schema."""
        results = [suite.tested(self.file("a.scenario", text), suite.Switch([], 1, self.file("a.report", "reply 0 1 0 0 .\nend 0 0\n"), True))
                   for text in ("capabilities\nexpect OK\nexpect UNKNOWN\n", "capabilities\nexpect \x01\n")]
        text = junit_of(results)
        top = ElementTree.fromstring(text.encode())
        self.assertEqual([(it.get("tests"), it.get("failures"), it.get("errors")) for it in top], [("2", "1", "0"), ("1", "0", "1")])
        self.assertEqual([it.tag for it in top.iter() if it.tag in ("failure", "error")], ["failure", "error"])
        self.assertIn("c0 call 1", top.find(".//failure").text)
        self.check_schema(text)
        with self.assertRaises(AssertionError):
            self.check_schema(text.replace("testcase", "testcases"))

    def check_schema(self, text):
        file = self.file("a.xml", text)
        if not shutil.which("xmllint"):
            why = "JUnit XML is not held against its schema: apt-get install -y libxml2-utils"
            print(f"tools/test: {why}", flush=True)
            self.skipTest(why)
        done = subprocess.run(["xmllint", "--noout", "--schema", SCHEMA, file], capture_output=True, check=False)
        self.assertEqual(done.returncode, 0, done.stderr.decode())

    def test_stored_reports_are_read(self):
        for name in WALKS:
            self.assertEqual(len(read_reports(bytes_of(name + ".report").decode(), name)), 1)


if __name__ == "__main__":
    unittest.main()
