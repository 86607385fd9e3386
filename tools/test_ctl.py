"""bin/p4ctl, run in this process against a stand-in of the switch: what it sends is what a scenario makes of the
same lines, and each refusal is told in words."""
import contextlib
import io
import os
import tempfile
import threading
import time
import unittest
from unittest import mock

try:
    import grpc  # noqa: F401 (asked for alone)
except ImportError:
    raise unittest.SkipTest("p4ctl is not tested: apt-get install -y python3-grpcio") from None

from p4tools import ctl_lines, ctl_main, rules
from p4tools import messages as p4
from p4tools.ctl_complete import candidates
from p4tools.entities import read_entity
from p4tools.names import Names, read_info
from p4tools.scenario import make
from p4tools.words import cut
from standin import Standin, error_of
from test_scenarios import EXAMPLES, NOTED, WRONG, bytes_of

PROGRAMS = os.path.join(EXAMPLES, "programs")
ROUTER = f"config verify_and_commit {PROGRAMS}/router.p4info.txt {PROGRAMS}/router.json"
LAB = f"config verify_and_commit {PROGRAMS}/lab.p4info.txt {PROGRAMS}/lab.json"
ROUTE = "route(port=3, mac=02:00:00:00:00:03)"
FIRST = "insert ipv4_lpm dst=10.1.0.0/16 " + ROUTE


def names_of(program):
    return Names(read_info(bytes_of(f"programs/{program}.p4info.txt"), program)[0])


class Case(unittest.TestCase):
    """A stand-in, and p4ctl run on it."""

    def setUp(self):
        self.switch = Standin()
        self.addCleanup(self.switch.stop)

    def run_it(self, *words, given=None, at=None):
        """Status, standard output and standard error of p4ctl."""
        out, said = io.StringIO(), io.StringIO()
        stdin = io.StringIO(given if given is not None else "")
        with contextlib.redirect_stdout(out), contextlib.redirect_stderr(said), mock.patch("sys.stdin", stdin):
            status = ctl_main.p4ctl(["--at", at or f"127.0.0.1:{self.switch.port}", *words])
        return status, out.getvalue(), said.getvalue()

    def told(self, *words, **more):
        """The lines of standard output of a run that is to end well."""
        status, out, said = self.run_it(*words, **more)
        self.assertEqual((status, said), (0, ""), out)
        return out.splitlines()

    def router(self, *lines):
        self.told(ROUTER, *lines)


def made_of(*lines):
    """The records that a scenario makes of lines."""
    with tempfile.TemporaryDirectory() as folder:
        path = os.path.join(folder, "a.scenario")
        with open(path, "w", encoding="utf-8") as it:
            it.write("\n".join(lines))
        return make(path, lambda text: None)


class Sent(Case):
    """One parser of lines: the calls are those that bin/p4tape makes."""

    def test_calls_are_those_of_a_scenario(self):
        lines = [ROUTER, FIRST, "modify ipv4_lpm dst=10.1.0.0/16 drop()", "batch dataplane_atomic",
                 "insert ipv4_lpm dst=10.2.0.0/16 drop()", "delete ipv4_lpm dst=10.1.0.0/16", "end",
                 "read ipv4_lpm", "read", "ipv4_lpm dst=10.2.0.0/16", "direct_counter_entry *", "end",
                 "modify ipv4_lpm default drop()", "get cookie_only", "capabilities", "config commit"]
        self.told("-", given="\n".join(lines))
        made = made_of(*lines)
        for method in ("write", "set", "read"):
            self.assertEqual(self.switch.calls(method), [it for it in made if it.method() == method])
        self.assertIn(made_of("get cookie_only")[0], self.switch.calls("get"))
        self.assertEqual(len(self.switch.calls("capabilities")), 1)

    def test_multicast(self):
        """It is an update of a multicast group, by its own word."""
        self.router("multicast 7 replicas 1, 2, 3:5", "c0 multicast modify 7 replicas 2", "multicast delete 7")
        made = made_of("insert multicast 7 replicas 1, 2, 3:5", "modify multicast 7 replicas 2", "delete multicast 7")
        sent = [p4.parse(p4.WriteRequest, it.message()).updates[0] for it in self.switch.calls("write")]
        self.assertEqual(sent, [p4.parse(p4.WriteRequest, it.message()).updates[0] for it in made])

    def test_stream(self):
        self.told(LAB, "packet_out 00070001", "digest_ack seen list_id=4")
        asked = made_of("names " + f"{PROGRAMS}/lab.p4info.txt", "packet_out 00070001", "digest_ack seen list_id=4")
        for record in asked:
            self.assertIn(record, self.switch.calls("stream"))

    def test_arguments_are_words_or_lines(self):
        for words, lines in ((["insert", "ipv4_lpm", "dst=10.1.0.0/16", ROUTE], [FIRST]),
                             ([FIRST, "entries"], [FIRST, "entries"]),
                             (["batch", "dataplane_atomic", FIRST, "end"], ["batch dataplane_atomic", FIRST, "end"]),
                             (["c1 leave"], ["c1 leave"])):
            self.assertEqual(ctl_lines.lines_of(words), lines)

    def test_packets(self):
        import socket
        with socket.socket(socket.AF_INET, socket.SOCK_DGRAM) as it:
            it.bind(("127.0.0.1", 0))
            it.settimeout(10)
            port = str(it.getsockname()[1])
            told = self.told("--packets", port, f"pcap port=2 {EXAMPLES}/operator/customer.pcap", "packet port=510 times=2 0a0b")
            self.assertEqual(told, [f"at port 2: 2 packets, sent to UDP port {port}", f"at port 510: 2 packets, sent to UDP port {port}"])
            came = [it.recv(65536) for _ in range(4)]
        self.assertEqual([data[:2].hex() for data in came], ["0002", "0002", "01fe", "01fe"])
        self.assertEqual(came[2][2:].hex(), "0a0b")
        self.assertEqual(self.switch.log, [])

    def test_play(self):
        status, out, said = self.run_it("play", os.path.join(EXAMPLES, "batch-or-nothing.scenario"))
        made = make(os.path.join(EXAMPLES, "batch-or-nothing.scenario"), lambda text: None)
        self.assertEqual((status, said), (1, ""))
        for method in ("write", "read"):
            self.assertEqual(self.switch.calls(method), [it._replace(lane=0) for it in made
                                                         if it.kind == 1 and it.method() == method])
        self.assertIn("batch-or-nothing.scenario:", out)

    def test_play_raises_election_ids(self):
        self.told("arbitrate election=9")
        status, out, _ = self.run_it("play", os.path.join(EXAMPLES, "operator/routes.scenario"))
        self.assertIn("election id 9 was seen for role 0: use 9 or more (--election 9)", out)
        status, out, _ = self.run_it("--election", "9", "play", os.path.join(EXAMPLES, "operator/routes.scenario"))
        self.assertEqual(status, 1)
        self.assertEqual(out.splitlines()[-1], "# 10 calls, 12 packets, 1 refused")
        self.assertIn("routes.scenario:43: refused\nbatch dataplane_atomic of 3 updates: UNKNOWN", out)
        self.assertEqual(p4.number_of(p4.parse(p4.WriteRequest, self.switch.calls("write")[-1].message()).election_id), 9)


class Arbitration(Case):
    """Who is primary, and whose election id is to be passed."""

    def test_the_greatest_is_taken_where_nobody_is_primary(self):
        self.told("arbitrate election=7")
        self.router(FIRST)
        self.assertEqual(p4.number_of(p4.parse(p4.WriteRequest, self.switch.calls("write")[0].message()).election_id), 7)
        self.assertEqual(self.switch.greatest, 7)

    def test_looking_arbitrates_not(self):
        self.router(FIRST)
        before = len(self.switch.calls("stream"))
        self.told("program", "entries ipv4_lpm", "groups ", "counters ipv4_lpm", "watch --once", "ports ", "read ipv4_lpm", "get all")
        self.assertEqual(len(self.switch.calls("stream")), before)

    def test_another_is_primary(self):
        from p4tools.ctl import Options, Session
        other = Session(Options(f"127.0.0.1:{self.switch.port}", election=5))
        self.addCleanup(other.close)
        list(other.take(ROUTER))
        status, out, said = self.run_it(FIRST)
        self.assertEqual((status, out, said), (1, "", "another controller is primary of role 0 with election id 5: "
                                                     "--election 6 or more takes its place\n"))
        status, _, said = self.run_it("--election", "3", FIRST)
        self.assertEqual((status, said), (1, "another controller is primary of role 0 with election id 5: "
                                             "--election 6 or more takes its place\n"))
        self.assertEqual(self.switch.calls("write"), [])
        self.told("--election", "6", FIRST)
        self.assertEqual(len(self.switch.calls("write")), 1)

    def test_a_lower_id(self):
        self.told("arbitrate election=5")
        status, out, said = self.run_it("--election", "3", ROUTER)
        self.assertEqual((status, out, said), (1, "", "election id 5 was seen for role 0: use 5 or more (--election 5)\n"))

    def test_refused_arbitration(self):
        for code, reason, to_do in ((5, "no such device", "--device N"), (9, "the session has another role", "leave first"),
                                    (3, "another session of the role bears this election id", "greater election id"),
                                    (8, "too many sessions or roles", "32 sessions and 64 roles")):
            with self.subTest(code):
                self.switch.refusal["stream"] = (code, "")
                status, out, said = self.run_it("arbitrate election=1")
                self.assertEqual((status, out), (1, ""))
                self.assertIn(reason, said)
                self.assertIn(to_do, said)


# An update for each rule of a Write, what is told of it, and what to do about it.
UPDATES = {
    1: (3, FIRST, "no kind of update", "begin the line with insert"),
    2: (12, FIRST, "is not served", "leave it out"),
    3: (5, "delete 0x02000009", "there is no such object", "`program ids`"),
    4: (7, FIRST, "not among the ids of the role", "name it among the ids"),
    5: (3, "modify ipv4_lpm default drop()", "constant", "only another program changes it"),
    6: (3, "insert ipv4_lpm dst=10.0.0.0/0 drop()", "malformed", "to match all, leave the field out"),
    7: (11, "insert ipv4_lpm dst=0x100000000/32 drop()", "wider than its field", "ipv4.dst has 32 bits, and the value has more"),
    8: (3, "insert ipv4_lpm dst=10.1.0.1/16 drop()", "bits outside of mask or prefix", "ipv4.dst has bits behind its prefix"),
    9: (3, "insert ipv4_lpm dst=10.1.0.0/16 route(port=1)", "does not fit", "route(port=VALUE, mac=VALUE)"),
    10: (6, FIRST, "it is there already", "change it by modify"),
    11: (9, "delete action_profile_member 0x11000001 member_id=3", "in use", "take it out of the groups and entries"),
    12: (8, FIRST, "there is no room", "ipv4_lpm has room for 8,192 entries"),
}
WHOLE = {
    ("write", 9): (FIRST, "there is no program", "config verify_and_commit"),
    ("write", 8): (FIRST, "more than 4,096 updates", "at most 4,096 updates"),
    ("write", 7): (FIRST, "not that of the role's primary", "--election"),
    ("write", 5): (FIRST, "no such device", "--device N"),
    ("write", 14): (FIRST, "UNAVAILABLE", "found no memory"),
    ("set", 5): (ROUTER, "no such device", "--device N"),
    ("set", 7): (ROUTER, "not that of the role's primary", "without a list of ids"),
    ("set", 3): (ROUTER, "do not go together", "commit takes no files"),
    ("set", 9): (ROUTER, "no program is saved", "verify_and_save"),
    ("set", 8): (ROUTER, "no room for its counters", "fewer or smaller counters"),
    ("set", 12): (ROUTER, "this action is not served", "use verify_and_commit"),
    ("read", 9): ("read ipv4_lpm", "there is no program", "config verify_and_commit"),
    ("read", 5): ("read ipv4_lpm", "no such object", "`program ids`"),
}


class Refused(Case):
    """Each refusal is told in words: the update, the rule, what to do. Nothing else is lost."""

    def test_each_rule_of_an_update(self):
        self.router()
        self.assertEqual(sorted(UPDATES), sorted({*rules.UPDATE, 10}))
        for rule, (code, line, reason, to_do) in UPDATES.items():
            with self.subTest(rule):
                self.switch.errors = [error_of(code, rule)]
                status, out, said = self.run_it(line)
                self.assertEqual((status, out), (1, ""))
                head, *more = said.splitlines()
                self.assertIn(f": {p4.code_name(code)}, rule U{rule}: ", head)
                self.assertIn(reason, head)
                self.assertIn(to_do, "\n".join(more))

    def test_each_call_that_is_refused_whole(self):
        self.router()
        for (method, code), (line, reason, to_do) in WHOLE.items():
            with self.subTest(method=method, code=code):
                self.switch.refusal[method] = (code, "")
                status, out, said = self.run_it(line)
                self.assertEqual((status, out), (1, ""))
                self.assertIn(p4.code_name(code), said)
                self.assertIn(reason, said)
                self.assertIn(to_do, said)

    def test_each_rule_of_a_config(self):
        for rule, reason in rules.CONFIG.items():
            with self.subTest(rule):
                self.switch.refusal["set"] = (3, rule)
                status, _, said = self.run_it(ROUTER)
                self.assertEqual(status, 1)
                self.assertEqual(said.splitlines(), [f"config verify_and_commit: tables ipv4_lpm: INVALID_ARGUMENT, rule {rule}: {reason}",
                                                     f"    {rules.TO_DO_CONFIG}"])

    def test_each_rule_of_a_packet(self):
        self.router()
        for rule, reason in rules.PACKET_OUT.items():
            with self.subTest(rule):
                self.switch.packet_error = (3, rule)
                status, out, said = self.run_it("packet_out 0a")
                self.assertEqual((status, out), (1, ""))
                self.assertEqual(said.splitlines(), [f"packet_out 1 bytes 0a is refused: INVALID_ARGUMENT, rule P{rule}: {reason}",
                                                     f"    {rules.TO_DO_PACKET_OUT[rule]}"])
        self.told("packet_out 0a", "packet_out 0b")

    def test_batch(self):
        self.router(FIRST)
        status, out, said = self.run_it("batch dataplane_atomic", "delete ipv4_lpm dst=10.1.0.0/16",
                                        "delete ipv4_lpm dst=10.9.0.0/16", "end")
        self.assertEqual((status, out), (1, ""))
        self.assertEqual(said.splitlines(), [
            "p4ctl: line 4: refused", "batch dataplane_atomic of 2 updates: UNKNOWN",
            "    delete ipv4_lpm ipv4.dst=10.1.0.0/16: ABORTED",
            "    delete ipv4_lpm ipv4.dst=10.9.0.0/16: NOT_FOUND, rule U10: it is not there",
            "        `entries` and `groups` list what is there", "    nothing of the batch was done"])
        self.assertEqual(len(self.switch.entries), 1)

    def test_a_long_batch_tells_what_was_refused(self):
        self.router()
        lines = [f"insert ipv4_lpm dst=10.{it}.0.0/16 drop()" for it in range(30)]
        status, _, said = self.run_it("-", given="\n".join(["batch dataplane_atomic", *lines, lines[0], "end"]))
        self.assertEqual(status, 1)
        self.assertEqual(said.splitlines()[2:], [
            "    insert ipv4_lpm ipv4.dst=10.0.0.0/16 drop(): ALREADY_EXISTS, rule U10: it is there already",
            "        change it by modify, or delete it first", "    and 30 more updates: OK or ABORTED",
            "    nothing of the batch was done"])

    def test_input_stops_at_the_first_refusal(self):
        lines = [ROUTER, FIRST, "# nothing", FIRST, "insert ipv4_lpm dst=10.2.0.0/16 drop()"]
        status, _, said = self.run_it("-", given="\n".join(lines))
        self.assertEqual(status, 1)
        self.assertEqual(said.splitlines()[0], "p4ctl: line 4: refused")
        self.assertEqual(len(self.switch.entries), 1)

    def test_names_of_a_config_that_is_refused_are_not_taken(self):
        self.router()
        self.switch.refusal["set"] = (3, "L7")
        from p4tools.ctl import Options, Session
        from p4tools.ctl import Refused as Refusal
        session = Session(Options(f"127.0.0.1:{self.switch.port}"))
        self.addCleanup(session.close)
        with self.assertRaises(Refusal):
            list(ctl_lines.take(session, LAB))
        self.assertEqual(list(ctl_lines.take(session, FIRST))[0].rpartition(": ")[2], "OK")


class Worded(Refused):
    """The same where each refusal has its words, as behind `bin/p4front --words`."""

    def setUp(self):
        super().setUp()
        self.switch.has_words = True


class Wrong(Case):
    """A wrong line is told with its place and the nearest names, and is not sent."""

    def test_wrong_lines(self):
        self.router()
        before = len(self.switch.calls("write", "set", "stream"))
        spared = ("c1 packet", "w1 insert", "c32", "meet", "end", "read counter_entry", "arbitrate", "packet_out port")
        lines = {line: said for line, said in WRONG.items() if not line.startswith(spared)}
        self.assertGreater(len(lines), 10)
        for line, wanted in lines.items():
            with self.subTest(line):
                status, out, said = self.run_it("-", given="\n\n" + line)
                self.assertEqual((status, out), (2, ""))
                self.assertTrue(said.startswith("p4ctl: line 3: "), said)
                self.assertIn(wanted, said)
        self.assertEqual(len(self.switch.calls("write", "set", "stream")), before)

    def test_own_lines(self):
        self.router()
        for line, wanted in {"entires": "did you mean entries?", "entries ipv4_lpn": "did you mean ipv4_lpm?",
                             "program id": "write program, or program ids", "watch --twice": "no table is named --twice",
                             "watch a b": "write watch", "groups x": "write groups", "help insrt": "did you mean insert?",
                             "play": "write play FILE", "play no.scenario": "no.scenario is not read",
                             "listen for=1": "write listen", "meet c0 call=1": "there is nothing to meet",
                             "multicast": "write multicast", "zzz": "`help` lists them", "c32 get": "c0 to c31",
                             "w0 meet c0 call=1": "there is nothing to meet", "expect OK": "bin/p4tape test FILE",
                             "c0 expect drop": "bin/p4tape test FILE", "strict ": "bin/p4tape test FILE",
                             "start bridge": "runs already", "c1 program": "leave c1 out"}.items():
            with self.subTest(line):
                status, out, said = self.run_it(line.split()[0], *line.split()[1:])
                self.assertEqual((status, out), (2, ""))
                self.assertIn(wanted, said)

    def test_no_end(self):
        self.router()
        status, _, said = self.run_it("-", given="batch\n" + FIRST)
        self.assertEqual((status, said), (2, "p4ctl: a batch has no `end`\n"))
        self.assertEqual(self.switch.calls("write"), [])

    def test_no_switch(self):
        self.switch.stop()
        status, out, said = self.run_it("program")
        self.assertEqual((status, out), (3, ""))
        self.assertIn(f"no switch answers at 127.0.0.1:{self.switch.port}", said)
        self.assertIn("bin/p4switch serve --port", said)

    def test_words(self):
        for words, wanted in ((["--at", "here"], "is no place of a switch"), (["--election", "0"], "--election is 1 or more"),
                              (["--packets", "0"], "is a UDP port"), (["--cert", "a"], "--cert and --key go together")):
            status, _, said = self.run_it(*words, "program")
            self.assertEqual(status, 2)
            self.assertIn(wanted, said)

    def test_no_program(self):
        for line in ("program", "entries", "counters", "groups", "ports", "watch"):
            status, _, said = self.run_it(line)
            self.assertEqual(status, 2, line)
            self.assertIn("the switch has no program; load one: config verify_and_commit P4INFO JSON", said)

    def test_notes_are_not_told_of_what_is_taken(self):
        """What would be refused is said with the refusal, and not beforehand."""
        for line, wanted in NOTED.items():
            with self.subTest(line):
                self.told(ROUTER if "ipv4_lpm" in line else LAB)
                self.switch.errors = [error_of(3, 8)]
                status, _, said = self.run_it(line)
                self.assertEqual(status, 1)
                self.assertEqual(said.count(wanted), 1)


class Looks(Case):
    """What is shown of a switch."""

    def test_program(self):
        self.told(f"{LAB} cookie=7")
        self.assertEqual(self.told("program ids"), [
            "cookie 7", "table acl (0x02000011): room for 8 entries", "    key lab.a (field 1): ternary, 8 bits",
            "    action set_port (0x01000011)(port: 9 bits)", "    action learn (0x01000012)(port: 9 bits)",
            "    action drop (0x01000002)()", "table ecmp (0x02000012): room for 8 entries, by ecmp_paths",
            "    key lab.b (field 1): exact, 8 bits", "    action set_port (0x01000011)(port: 9 bits)",
            "action profile ecmp_paths (0x11000001): members and groups, room for 16, groups of 16 by weight, of ecmp",
            "digest seen (0x17000001)"])

    def test_entries_and_counts(self):
        self.router(FIRST, "insert ipv4_lpm dst=10.2.0.0/16 drop()", "modify ipv4_lpm default drop()")
        match = next(iter(self.switch.entries.values())).match[0].SerializeToString()
        self.switch.counts[match] = (1, 1234567)
        self.assertEqual(self.told("entries"), [
            "# ipv4_lpm: 2 entries",
            "ipv4_lpm ipv4.dst=10.1.0.0/16 route(port=3, mac=02:00:00:00:00:03)  # 1 packet, 1,234,567 bytes",
            "ipv4_lpm ipv4.dst=10.2.0.0/16 drop()  # 0 packets, 0 bytes", "ipv4_lpm default drop()"])
        self.assertEqual(self.told("counters ipv4_lpm"), ["ipv4_lpm ipv4.dst=10.1.0.0/16: 1 packet, 1,234,567 bytes",
                                                          "ipv4_lpm ipv4.dst=10.2.0.0/16: 0 packets, 0 bytes"])
        self.assertEqual(self.told("--packets", "9100", "ports")[2:], ["port 3: named by 1 of ipv4_lpm"])
        self.assertIn("leave to UDP port 9101", self.told("--packets", "9100", "ports")[0])

    def test_entries_can_be_sent_again(self):
        """What `entries` shows are the words of an entity."""
        self.router(FIRST)
        shown = self.told("entries")[1]
        self.assertEqual(read_entity(cut(shown), names_of("router")).table_entry, next(iter(self.switch.entries.values())))

    def test_groups(self):
        self.told(LAB)
        self.assertEqual(self.told("groups"), ["# no members, no groups, no digest entries and no multicast groups"])
        words = ["action_profile_member ecmp_paths member_id=1 set_port(port=4)",
                 "action_profile_group ecmp_paths group_id=1 members=1*3", "digest_entry seen max_list_size=7",
                 "multicast 7 replicas 1, 4, 1:5", "multicast 8"]
        self.switch.others = [read_entity(cut(it), names_of("lab")) for it in words]
        self.assertEqual(self.told("groups"), words)
        self.assertEqual(self.told("ports")[2:], ["port 1: named by 2 of multicast group 7",
                                                  "port 4: named by 1 of ecmp_paths, 1 of multicast group 7"])

    def test_watch(self):
        import json
        from p4tools import watch
        self.router(FIRST)
        match = next(iter(self.switch.entries.values())).match[0].SerializeToString()
        self.switch.counts[match] = (10, 1000)

        def sleep(seconds):
            self.assertEqual(seconds, 1)
            self.switch.counts[match] = (30, 5000)
        moments = iter((100.0, 102.0, 200.0, 202.0))
        with mock.patch.object(watch.time, "sleep", sleep), mock.patch.object(watch.time, "monotonic", lambda: next(moments)):
            self.assertEqual([it.split() for it in self.told("watch --once")],
                             ["entry or cell packets/s bytes/s packets bytes".split(),
                              "ipv4_lpm ipv4.dst=10.1.0.0/16 10 2,000 30 5,000".split()])
            self.switch.counts[match] = (10, 1000)
            found = json.loads(self.told("watch ipv4_lpm --once --json")[0])
        self.assertEqual(found, {"seconds": 2.0, "counts": [
            {"kind": "entry", "name": "ipv4_lpm", "key": "ipv4.dst=10.1.0.0/16", "packets_per_second": 10.0,
             "bytes_per_second": 2000.0, "packets": 30, "bytes": 5000}]})

    def test_the_screen_has_the_busiest(self):
        from types import SimpleNamespace
        from p4tools.looks import Count
        from p4tools.watch import Rate, screen
        found = [Rate(Count("entry", "t", f"dst={it}", SimpleNamespace(packet_count=it, byte_count=0)), None, 1)
                 for it in range(50)]
        lines = screen(found, SimpleNamespace(lines=13, columns=60)).split("\x1b[K\n")
        self.assertEqual([it.split()[1] for it in lines[1:11]], [f"dst={it}" for it in range(40, 50)])
        self.assertEqual(lines[11], "and 40 less busy")

    def test_listen(self):
        self.told(LAB)
        heard = p4.StreamResponse()
        heard.digest.digest_id, heard.digest.list_id = 0x17000001, 4
        heard.digest.data.add().bitstring = b"\x09"
        packet, idle, other = p4.StreamResponse(), p4.StreamResponse(), p4.StreamResponse()
        packet.packet.payload = b"\x0a\x0b"
        entry = idle.idle_timeout_notification.table_entry.add()
        entry.CopyFrom(read_entity(cut("acl a=0x10&&&0xf0 priority=3"), names_of("lab")).table_entry)
        p4.set_number(other.arbitration.election_id, 12)
        other.arbitration.device_id, other.arbitration.status.code = 1, 6

        def tell():
            while self.switch.primary() is None:
                time.sleep(0.05)
            for it in (packet, heard, idle, other):
                self.switch.tell(it)
        teller = threading.Timer(0.2, tell)
        teller.start()
        told = self.told("listen count=4")
        teller.join()
        self.assertEqual(told[1:], ["packet_in 2 bytes 0a0b", "digest seen, list 4: 0x09",
                                    "idle timeout: acl lab.a=0x10&&&0xf0 priority=3",
                                    "device 1, greatest election id 12: another is primary"])
        acknowledged = p4.StreamRequest()
        acknowledged.digest_ack.digest_id, acknowledged.digest_ack.list_id = 0x17000001, 4
        self.assertIn(acknowledged.SerializeToString(), [it.message() for it in self.switch.calls("stream")])

    def test_help(self):
        """Every line has help, and each example is a line."""
        self.assertEqual(len(self.told("help")), len(ctl_lines.HELP))
        for verb, (form, _, example) in ctl_lines.HELP.items():
            self.assertTrue(form.startswith(verb))
            self.assertEqual(example.split()[0], verb)
            self.assertEqual(self.told("help", verb)[0], form)
        self.assertTrue(any("oneshot" in it for it in self.told("help entities")))


class Completion(unittest.TestCase):
    """What may come next in a line."""

    def test_candidates(self):
        names = names_of("router")
        lab = names_of("lab")
        stored = [read_entity(cut("ipv4_lpm dst=10.1.0.0/16 drop()"), names).table_entry]
        for text, wanted, known in (
                ("ent", ["entries "], names), ("insert ipv", ["ipv4_lpm "], names),
                ("insert ipv4_lpm d", ["dst=", "drop() "], names), ("insert ipv4_lpm dst=10.1.0.0/16 r", ["route("], names),
                ("insert ipv4_lpm dst=10.1.0.0/16 route(", ["port=", "mac="], names),
                ("insert ipv4_lpm dst=10.1.0.0/16 route(port=3, ", ["mac="], names),
                ("delete ipv4_lpm dst=", ["dst=10.1.0.0/16 "], names), ("delete ipv4_lpm dst=11", [], names),
                ("entries ", ["ipv4_lpm "], names), ("batch d", ["dataplane_atomic"], names),
                ("config verify_and_c", ["verify_and_commit "], names), ("insert action_profile_group ", ["ecmp_paths "], lab),
                ("insert ecmp b=7 g", ["group_id="], lab), ("insert acl a=1 p", ["priority="], lab),
                ("insert acl lab.a=1 a", [], lab), ("modify acl de", ["default "], lab), ("digest_ack ", ["seen "], lab)):
            with self.subTest(text):
                self.assertEqual(candidates(text, known, lambda table: stored), wanted)


    def test_files(self):
        with tempfile.TemporaryDirectory() as folder:
            for name in ("a.json", "a.txt"):
                with open(os.path.join(folder, name), "w", encoding="utf-8"):
                    pass
            os.mkdir(os.path.join(folder, "ab"))
            for before in ("play ", "config verify ", "pcap port=1 ", "names "):
                self.assertEqual(candidates(f"{before}{folder}/a", Names()),
                                 [f"{folder}/a.json ", f"{folder}/a.txt ", f"{folder}/ab/"])


class Shell(Case):
    """The shell: it goes on behind a refusal, and tells who is primary."""

    def test_shell(self):
        lines = iter([ROUTER, FIRST, FIRST, "insrt", "entries", "quit"])
        terminal = mock.Mock(isatty=lambda: True)
        out, said = io.StringIO(), io.StringIO()
        with contextlib.redirect_stdout(out), contextlib.redirect_stderr(said), mock.patch("sys.stdin", terminal), \
                mock.patch("builtins.input", lambda prompt: next(lines)), tempfile.TemporaryDirectory() as folder, \
                mock.patch.dict(os.environ, {"XDG_STATE_HOME": folder}):
            status = ctl_main.p4ctl(["--at", f"127.0.0.1:{self.switch.port}"])
        self.assertEqual(status, 0)
        self.assertIn("rule U10: it is there already", said.getvalue())
        self.assertIn("did you mean insert?", said.getvalue())
        self.assertIn("# ipv4_lpm: 1 entry", out.getvalue())
