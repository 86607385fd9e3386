"""bin/p4ctl on the built program, where it is there: each kind of line, a refusal of each rule in words, and
scenarios played as their reports have them."""
import contextlib
import io
import os
import re
import socket
import struct
import threading
import unittest
from unittest import mock

import built
from test_ctl import FIRST, LAB, PROGRAMS, ROUTE, ROUTER
from test_scenarios import EXAMPLES, bytes_of

from p4tools import ctl_main
from p4tools import messages as p4

BRIDGE = f"config verify_and_commit {PROGRAMS}/bridge.p4info.txt {PROGRAMS}/bridge.json"
FLOOD = f"config verify_and_commit {PROGRAMS}/flood.p4info.txt {PROGRAMS}/flood.json"
# An Ethernet frame with an IPv4 packet to 10.1.2.3, whose checksum the router does not ask for.
PACKET = "020000000001" "020000000002" "0800" "4500001c00000000401100000a0000010a010203" "0001000200080000"


class Case(unittest.TestCase):
    """A switch that serves, and p4ctl run on it."""

    def setUp(self):
        self.switch = built.Switch()
        self.addCleanup(self.switch.end)

    def run_it(self, *words):
        """Status, standard output and standard error of p4ctl."""
        out, said = io.StringIO(), io.StringIO()
        with contextlib.redirect_stdout(out), contextlib.redirect_stderr(said), mock.patch("sys.stdin", io.StringIO()):
            status = ctl_main.p4ctl(["--at", f"127.0.0.1:{self.switch.port}", "--packets", str(self.switch.packets), *words])
        return status, out.getvalue(), said.getvalue()

    def told(self, *words):
        """The lines of standard output of a run that is to end well."""
        status, out, said = self.run_it(*words)
        self.assertEqual((status, said), (0, ""), out)
        return out.splitlines()

    def refused(self, *lines, rule="", to_do=""):
        """The last of the lines is refused, by what is told of it."""
        status, _, said = self.run_it(*lines)
        self.assertEqual(status, 1, said)
        self.assertIn(rule, said)
        self.assertIn(to_do, said)


class Lines(Case):
    def test_looking_and_changing(self):
        self.assertEqual(self.told("capabilities"), ["capabilities: OK", "    P4Runtime 1.3.0"])
        self.assertEqual(self.told(ROUTER), ["config verify_and_commit: tables ipv4_lpm: OK"])
        self.assertEqual(self.told("insert", "ipv4_lpm", "dst=10.1.0.0/16", ROUTE),
                         ["insert ipv4_lpm ipv4.dst=10.1.0.0/16 route(port=3, mac=02:00:00:00:00:03): OK"])
        self.told("insert ipv4_lpm dst=10.2.0.0/16 drop()", "modify ipv4_lpm dst=10.2.0.0/16 route(port=7, mac=1)",
                  "batch dataplane_atomic", "delete ipv4_lpm dst=10.2.0.0/16", "insert ipv4_lpm dst=10.3.0.0/16 drop()", "end",
                  "modify ipv4_lpm default route(port=9, mac=9)")
        self.assertEqual(self.told("entries"), [
            "# ipv4_lpm: 2 entries",
            "ipv4_lpm ipv4.dst=10.1.0.0/16 route(port=3, mac=02:00:00:00:00:03)  # 0 packets, 0 bytes",
            "ipv4_lpm ipv4.dst=10.3.0.0/16 drop()  # 0 packets, 0 bytes",
            "ipv4_lpm default route(port=9, mac=00:00:00:00:00:09)"])
        self.assertEqual(self.told("read ipv4_lpm dst=10.3.0.0/16"), ["read ipv4_lpm ipv4.dst=10.3.0.0/16: OK",
                                                                     "    ipv4_lpm ipv4.dst=10.3.0.0/16 drop()"])
        self.assertEqual(self.told("ports ")[2:], ["port 3: named by 1 of ipv4_lpm", "port 9: named by 1 of ipv4_lpm default"])
        self.assertEqual(self.told("get cookie_only")[0], "get cookie_only: OK")
        self.assertIn("table ipv4_lpm (0x02000002): room for 8,192 entries, counted by ipv4_lpm_hits", self.told("program ids"))

    def test_saved_and_committed(self):
        self.told(ROUTER, FIRST)
        saved = LAB.replace("verify_and_commit", "verify_and_save")
        self.told(saved, "insert acl a=0x10&&&0xf0 set_port(port=4) priority=1")
        # Controllers see the program that is saved.
        self.assertEqual(self.told("entries acl")[1], "acl lab.a=0x10&&&0xf0 set_port(port=4) priority=1")
        self.told("config commit", "config verify " + saved.partition("save ")[2])
        self.assertEqual(self.told("entries")[1], "acl lab.a=0x10&&&0xf0 set_port(port=4) priority=1")

    def test_packets_and_counts(self):
        with socket.socket(socket.AF_INET, socket.SOCK_DGRAM) as left:
            left.bind(("127.0.0.1", self.switch.packets + 1))
            left.settimeout(20)
            self.told(ROUTER, FIRST, "packet port=1 " + PACKET, "packet_out " + PACKET)
            for _ in range(2):
                data = left.recv(65536)
                self.assertEqual((data[:2].hex(), data[2:8].hex()), ("0003", "020000000003"))
        self.assertEqual(self.told("counters ipv4_lpm"), [f"ipv4_lpm ipv4.dst=10.1.0.0/16: 2 packets, {len(PACKET)} bytes"])
        head, row = [it.split() for it in self.told("watch --once")]
        self.assertEqual((head[0], row), ("entry", f"ipv4_lpm ipv4.dst=10.1.0.0/16 0 0 2 {len(PACKET)}".split()))

    def test_multicast(self):
        """A group as its own line says it, what is shown of it, and a packet to it."""
        frame = "ffffffffffff" "020000000002" "0800"
        self.assertEqual(self.told(FLOOD, "multicast 7 replicas 1, 2, 3:5", "insert bridge dst=ff:ff:ff:ff:ff:ff flood(group=7)")[1:], [
            "insert multicast 7 replicas 1, 2, 3:5: OK", "insert bridge eth.dst=ff:ff:ff:ff:ff:ff flood(group=7): OK"])
        self.assertEqual(self.told("groups"), ["multicast 7 replicas 1, 2, 3:5"])
        self.assertEqual(self.told("ports ")[2:], [f"port {port}: named by 1 of multicast group 7" for port in (1, 2, 3)])
        with socket.socket(socket.AF_INET, socket.SOCK_DGRAM) as left:
            left.bind(("127.0.0.1", self.switch.packets + 1))
            left.settimeout(20)
            self.told("packet port=9 " + frame)
            self.assertEqual([left.recv(65536).hex() for _ in range(3)], [f"{port:04x}{frame}" for port in (1, 2, 3)])
        self.told("multicast modify 7", "multicast delete 7")
        self.assertEqual(self.told("groups"), ["# no members, no groups, no digest entries and no multicast groups"])

    def test_listen(self):
        self.told(ROUTER, "insert ipv4_lpm dst=10.1.0.0/16 route(port=255, mac=02:00:00:00:00:03)")
        sender = threading.Timer(2, lambda: self.send(1, bytes.fromhex(PACKET)))
        sender.start()
        told = self.told("listen count=1 seconds=30")
        sender.join()
        self.assertEqual(told[0], "primary of role 0 with election id 1: what the program sends to a controller comes here")
        self.assertEqual(told[1], f"packet_in Ether / IP / UDP 10.0.0.1:1 > 10.1.2.3:2, {len(PACKET) // 2} bytes")

    def test_listen_to_digests(self):
        self.told(LAB, "insert acl a=0&&&0x80 learn(port=3) priority=1", 
                  "insert digest_entry seen max_list_size=1")
        sender = threading.Timer(2, lambda: self.send(1, bytes.fromhex("01020300")))
        sender.start()
        told = self.told("listen count=1 seconds=30")
        sender.join()
        self.assertRegex(told[1], r"^digest seen, list \d+: 0x0?1, 0x0?2$")

    def send(self, port, packet):
        with socket.socket(socket.AF_INET, socket.SOCK_DGRAM) as it:
            it.sendto(struct.pack(">H", port) + packet, ("127.0.0.1", self.switch.packets))


class Refusals(Case):
    """Of each rule one, with its words and what to do."""

    def test_updates(self):
        self.told(ROUTER, FIRST)
        entry = "insert ipv4_lpm dst=10.9.0.0/16 "
        for line, rule, to_do in (
                (entry + "drop() idle_timeout_ns=5", "UNIMPLEMENTED, rule U2", "leave it out"),
                ("multicast 7 replicas 1, 1", "INVALID_ARGUMENT, rule U9", "same port and instance"),
                ("delete 0x02000009", "NOT_FOUND, rule U3", "`program ids`"),
                ("insert ipv4_lpm default drop()", "INVALID_ARGUMENT, rule U5", "modify alone"),
                ("insert ipv4_lpm dst=10.0.0.0/0 drop()", "INVALID_ARGUMENT, rule U6", "leave the field out"),
                ("insert ipv4_lpm dst=0x100000000/32 drop()", "OUT_OF_RANGE, rule U7", "ipv4.dst has 32 bits"),
                ("insert ipv4_lpm dst=10.1.0.1/16 drop()", "INVALID_ARGUMENT, rule U8", "bits behind its prefix"),
                (entry + "route(port=1)", "INVALID_ARGUMENT, rule U9", "route(port=VALUE, mac=VALUE)"),
                (entry + "route(port=512, mac=1)", "OUT_OF_RANGE, rule U9", "port has 9 bits"),
                (FIRST, "ALREADY_EXISTS, rule U10", "change it by modify"),
                ("delete ipv4_lpm dst=10.9.0.0/16", "NOT_FOUND, rule U10", "`entries`")):
            with self.subTest(line):
                self.refused(line, rule=rule, to_do=to_do)
        self.assertEqual(len(self.told("entries")), 3)
        request = p4.WriteRequest(device_id=1)
        request.updates.add()
        p4.set_number(request.election_id, 1)
        self.refused("arbitrate election=1", "raw write " + request.SerializeToString().hex(), rule="INVALID_ARGUMENT, rule U1",
                     to_do="insert, modify or delete")

    def test_members_and_room(self):
        self.told(LAB, "insert action_profile_member ecmp_paths member_id=1 set_port(port=1)",
                  "insert action_profile_group ecmp_paths group_id=1 members=1*1")
        for line, to_do in (("delete action_profile_member ecmp_paths member_id=1", "take it out of the groups and entries"),
                            ("insert action_profile_group ecmp_paths group_id=2 members=9*1", "insert its members first"),
                            ("insert ecmp b=1 member_id=9", "insert the member first"),
                            ("insert ecmp b=1 oneshot(set_port(port=1)*1)", "has no one-shot sets")):
            with self.subTest(line):
                self.refused(line, rule="FAILED_PRECONDITION, rule U11", to_do=to_do)
        self.refused("arbitrate election=1 role=7 ids=acl", "insert ecmp b=1 member_id=1", rule="PERMISSION_DENIED, rule U4",
                     to_do="name it among the ids of the role")
        self.told(BRIDGE, *[f"insert bridge dst={it} drop()" for it in range(4)])
        self.refused("insert bridge dst=4 drop()", rule="RESOURCE_EXHAUSTED, rule U12", to_do="bridge has room for 4 entries")

    def test_configs(self):
        self.refused("config commit", rule="FAILED_PRECONDITION (no program is saved", to_do="verify_and_save")
        self.refused("config verify_and_commit", rule="INVALID_ARGUMENT", to_do="commit takes no files")
        self.refused(f"config reconcile_and_commit {PROGRAMS}/lab.p4info.txt {PROGRAMS}/lab.json", rule="UNIMPLEMENTED",
                     to_do="use verify_and_commit")
        self.refused(f"config verify_and_commit {PROGRAMS}/router.p4info.txt {PROGRAMS}/lab.json", rule="INVALID_ARGUMENT, rule L10: "
                     "a table of the P4Info is not in the JSON", to_do="p4config --explain")
        status, _, said = self.run_it("insert 0x02000002 0x01000002()")
        self.assertEqual((status, "action" in said), (2, True))
        self.refused("delete 0x02000002", rule="FAILED_PRECONDITION (there is no program)", to_do="config verify_and_commit")
        self.refused("read 0x02000002", rule="FAILED_PRECONDITION (there is no program)", to_do="config verify_and_commit")

    def test_arbitration(self):
        for lines, rule, to_do in (
                (["arbitrate election=1 device=2"], "NOT_FOUND (no such device)", "--device N"),
                (["arbitrate election=1", "arbitrate election=1 role=7"], "FAILED_PRECONDITION (the session has another role)", "leave first"),
                (["arbitrate election=2 ids=7"], "INVALID_ARGUMENT", "a list of ids is for a role other than 0"),
                (["c0 arbitrate election=5", "c1 arbitrate election=5"], "INVALID_ARGUMENT", "use a greater election id")):
            with self.subTest(lines[-1]):
                self.refused(*lines, rule=rule, to_do=to_do)
        self.refused("--election", "3", ROUTER, rule="election id 5 was seen for role 0: use 5 or more (--election 5)")
        self.refused("c0 arbitrate election=6", "as election=7", LAB, rule="PERMISSION_DENIED", to_do="arbitrate with a greater")

    def test_packets(self):
        self.refused("packet_out 00", rule="FAILED_PRECONDITION, rule P2: there is no program", to_do="config verify_and_commit")
        self.told(ROUTER)
        self.refused("packet_out " + "00" * 9217, rule="INVALID_ARGUMENT, rule P4", to_do="9,216 bytes")
        self.refused("c0 arbitrate election=5", "c1 arbitrate election=3", "c1 packet_out 00", rule="PERMISSION_DENIED, rule P1",
                     to_do="greater election id")
        request = p4.StreamRequest()
        request.packet.metadata.add(metadata_id=1, value=b"\1")
        self.refused("arbitrate election=6", "raw stream " + request.SerializeToString().hex(), rule="INVALID_ARGUMENT, rule P3",
                     to_do="header packet_out")

    def test_a_batch_of_4096(self):
        """All details come, more than a client takes by default."""
        self.told(ROUTER)
        lines = ["delete ipv4_lpm dst=10.0.0.0/8"] * 4096
        with mock.patch("sys.stdin", io.StringIO("\n".join(["batch", *lines, "end"]))):
            status, _, said = self._input()
        self.assertEqual((status, said.count("rule U10: it is not there")), (1, 4096))
        with mock.patch("sys.stdin", io.StringIO("\n".join(["batch", *lines, lines[0], "end"]))):
            status, _, said = self._input()
        self.assertEqual(status, 1)
        self.assertIn("RESOURCE_EXHAUSTED (more than 4,096 updates)", said)

    def _input(self):
        out, said = io.StringIO(), io.StringIO()
        with contextlib.redirect_stdout(out), contextlib.redirect_stderr(said):
            status = ctl_main.p4ctl(["--at", f"127.0.0.1:{self.switch.port}", "-"])
        return status, out.getvalue(), said.getvalue()


class Played(Case):
    """A scenario's calls are answered as its report in words has them."""

    def test_play(self):
        for name in ("operator/routes", "paths/paths"):
            with self.subTest(name):
                _, out, said = self.run_it("play", os.path.join(EXAMPLES, name + ".scenario"))
                self.assertEqual(said, "")
                told = bytes_of(name + ".txt").decode().splitlines()
                wanted = [re.sub(r", step \d+ .*", "", it.partition(" ")[2].partition(" ")[2].partition(" ")[2])
                          for it in told if re.match(r"c0 call \d+ ", it)]
                calls = [it for it in out.splitlines() if it and not it.startswith((" ", "#", "at port")) and "refused" not in it]
                # (one update that is refused is told in one line)
                calls = [re.sub(r": [A-Z_]+, rule U.*", ": UNKNOWN", it) for it in calls]
                self.assertEqual(calls, wanted)


if __name__ == "__main__":
    unittest.main()
