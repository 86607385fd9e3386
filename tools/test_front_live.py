"""bin/p4front before the built program (P4SWITCH names another to be run in its place): a controller as the tutorials'
are, and sessions that are recorded, whose tape `replay --lockstep` answers as the switch did."""
import os
import random
import re
import shlex
import shutil
import signal
import socket
import subprocess
import tempfile
import threading
import time
import unittest

from built import free_port
from front_stand_in import PATIENCE, Client, Door, make_certificates
from p4tools import messages as p4, tape
from p4tools.front_change import change_number
from p4tools.report import read_reports
from p4tools.scenario import Maker
from test_front import ROUTER, arbitration, wrapper_class
from test_scenarios import EXAMPLES, bytes_of

BUILT = os.path.join(EXAMPLES, "../crates/p4switch/out/p4switch")
PROGRAM = shlex.split(os.environ.get("P4SWITCH", "")) or [BUILT]
WHY = "crates/p4switch/out/p4switch has not been built, so bin/p4front is not tested before it: bin/p4switch or rt ci builds it"
WRITES = (
    "insert ipv4_lpm dst=10.{0}.0.0/16 route(port={1}, mac=02:00:00:00:00:03)",
    "modify ipv4_lpm dst=10.{0}.0.0/16 route(port={1}, mac=02:00:00:00:00:04)",
    "delete ipv4_lpm dst=10.{0}.0.0/16", "modify ipv4_lpm default drop()",
    "insert ipv4_lpm dst=10.{0}.0.0/16 route(port=255, mac=02:00:00:00:00:05)",
    "insert ipv4_lpm dst=10.{0}.0.1/16 drop()", "insert ipv4_lpm dst=10.{0}.0.0/16 route(port=700, mac=0)",
    "insert ipv4_lpm dst=10.{0}.0.0/16 drop() priority=4", "insert multicast {0} replicas 1")
READS = ("read ipv4_lpm", "read *", "read direct_counter_entry ipv4_lpm", "read ipv4_lpm default",
         "read 0x02000099", "get all", "get cookie_only", "capabilities", "raw read ff", "raw write 0880")
ATOMICITIES = ("continue_on_error", "rollback_on_error", "dataplane_atomic")


class Session:
    """A controller's session on a stream channel: what it says and asks, in words, and what it was answered."""

    def __init__(self, client):
        self.client, self.stream, self.heard, self.asked = client, client.open(), [], []
        self.maker = Maker({it: bytes_of(f"programs/{os.path.basename(it)}") for it in ROUTER}.__getitem__)
        self.maker.take("names " + ROUTER[0])

    def take(self, text):
        """Says or asks for what lines say. Of an arbitration the answer is awaited."""
        for record in [it for line in text.split("\n") for it in self.maker.take(line)]:
            if record.kind == tape.LEAVE:
                self.heard.append(self.stream.end())
            elif record.method() == "stream":
                self.stream.say(record.message())
            else:
                self.asked.append((record.message(), self.client.ask(record.method(), record.message())))

    def hear(self, count=1):
        for _ in range(count):
            self.heard.append(self.stream.hear())
        return self.heard[-1]

    def hear_rest(self):
        """What came and waits, up to the end of the channel."""
        while self.heard[-1:] != [None] and not isinstance(self.heard[-1:][0] if self.heard else b"", tuple):
            self.hear()


@unittest.skipUnless(os.path.isfile(PROGRAM[0]), WHY)
class Live(unittest.TestCase):
    def setUp(self):
        self.folder = tempfile.mkdtemp()
        self.addCleanup(shutil.rmtree, self.folder)
        port = free_port(socket.SOCK_STREAM)
        words = [*PROGRAM, "serve", "--port", str(port), "--packets", str(free_port(socket.SOCK_DGRAM, 2))]
        self.switch = subprocess.Popen(words, start_new_session=True)
        self.addCleanup(self.switch.wait)
        self.addCleanup(os.killpg, self.switch.pid, signal.SIGKILL)
        self.port = port
        client = Client(port)
        until = time.monotonic() + 2 * PATIENCE
        while isinstance(client.ask("capabilities", b""), tuple):
            self.assertLess(time.monotonic(), until, "the switch does not answer")
            time.sleep(0.1)
        client.close()

    def door(self, *words):
        door = Door(self.port, *words)
        self.addCleanup(door.process.stderr.close)
        self.addCleanup(door.process.wait)
        self.addCleanup(door.process.kill)
        return door

    def client(self, *given):
        client = Client(*given)
        self.addCleanup(client.close)
        return client

    def test_controller_of_a_tutorial(self):
        """Device 0, the program in its wrapper, TLS with a certificate; and what it is refused for, in words."""
        make_certificates(self.folder)
        files = [f"{self.folder}/{it}" for it in ("front.pem", "front.key", "ca.pem")]
        door = self.door("--map", "0=1", "--words", "--cert", files[0], "--key", files[1], "--client-ca", files[2])
        self.assertEqual(self.client(door.port, (self.folder, None)).ask("capabilities", b"")[0], 14)
        client = self.client(door.port, (self.folder, "client"))
        stream = client.open()
        stream.say(arbitration(0, 1))
        self.assertEqual(stream.hear(), arbitration(0, 1, 0))
        maker = Maker({it: bytes_of(f"programs/{os.path.basename(it)}") for it in ROUTER}.__getitem__)
        request = p4.parse(p4.SetRequest, maker.take("config verify_and_commit " + " ".join(ROUTER))[0].message())
        request.device_id = 0
        request.config.p4_device_config = wrapper_class()(
            reassign=True, device_data=request.config.p4_device_config).SerializeToString()
        self.assertEqual(client.ask("set", request.SerializeToString()), [b""])
        write = maker.take("insert ipv4_lpm dst=10.1.0.0/16 route(port=3, mac=02:00:00:00:00:03)")[0].message()
        write = change_number(write, (1,), lambda _: 0)
        self.assertEqual(client.ask("write", write), [b""])
        code, text, details = client.ask("write", write)
        self.assertEqual((code, text), (2, "ALREADY_EXISTS, U10: it is there already"))
        error = p4.parse(p4.Error, p4.parse(p4.Status, details).details[0].value)
        self.assertEqual((error.canonical_code, error.space, error.code, error.message),
                         (6, "p4switch", 10, "U10: it is there already"))
        self.assertEqual(client.ask("write", change_number(write, (1,), lambda _: 7)), (5, "no such device", b""))
        entries = p4.parse(p4.ReadResponse, client.ask("read", maker.take("as device=0\nread ipv4_lpm".split("\n")[1])[0]
                                                       .message())[0]).entities
        self.assertEqual(list(entries), [p4.parse(p4.WriteRequest, write).updates[0].entity])

    def replayed(self, door, file):
        """The tape and the report of its replay, once the front door has ended."""
        self.assertEqual(door.close(), 0)
        with open(file, "rb") as it:
            data = it.read()
        records, wrong = tape.read_tape(data)
        self.assertIsNone(wrong, door.said)
        done = subprocess.run([*PROGRAM, "replay", "--lockstep"], input=data, capture_output=True, timeout=5 * PATIENCE,
                              check=False)
        self.assertEqual(done.returncode, 0, done.stderr)
        script = [os.path.join(EXAMPLES, "../bin/p4tape"), "show", file]
        shown = subprocess.run(script, capture_output=True, timeout=PATIENCE, check=False)
        # (where it takes long it says how far it is)
        self.assertEqual((shown.returncode, re.sub(rb"p4tape: [\d,]+ of [\d,]+ records[a-z ]* \(\d+ %\)\n", b"", shown.stderr)), (0, b""))
        return records, read_reports(done.stdout.decode(), file)[0]

    def expect_same(self, records, report, lane, sessions):
        """What the sessions of a lane asked stands on the tape in their order, and was answered as in the replay; and
        so was what they heard."""
        of_lane = [it for it in records if it.lane == lane]
        calls = [it for it in report.calls if it.lane == lane]
        self.assertEqual(len(calls), len(of_lane))
        unary = [(record, call) for record, call in zip(of_lane, calls)
                 if record.kind == tape.CALL and record.method() != "stream"]
        asked = [it for session in sessions for it in session.asked]
        self.assertEqual([it.message() for it, _ in unary], [message for message, _ in asked])
        for (record, call), (_, answer) in zip(unary, asked):
            with self.subTest(lane=lane, call=call.number, method=record.method()):
                if isinstance(answer, tuple):
                    status = p4.parse(p4.Status, call.messages[0])
                    self.assertEqual((call.code, status.message), answer[:2])
                    self.assertEqual(call.messages[0] if status.details else answer[2], answer[2])
                else:
                    self.assertEqual((call.code, call.messages), (0, answer))
        heard = [it for session in sessions for it in session.heard if isinstance(it, bytes)]
        told = [data for call in report.calls for to, data in call.notices if to == lane]
        packets = [data for it in report.packets for to, data in it.cpu if to == str(lane)]
        is_packet = [p4.parse(p4.StreamResponse, it).HasField("packet") for it in heard]
        self.assertEqual([it for it, one in zip(heard, is_packet) if not one], told)
        self.assertEqual(sorted(p4.parse(p4.StreamResponse, it).packet.SerializeToString()
                                for it, one in zip(heard, is_packet) if one), sorted(packets))

    def test_recorded_session(self):
        """Two controllers, one behind the other: a backup, refusals of all kinds, packets, an end, a take-over."""
        file = f"{self.folder}/it.tape"
        door = self.door("--record", file)
        one, other = [Session(self.client(door.port)) for _ in range(2)]
        # (calls are on the channel's lane once the front door has seen the channel, which its first answer says)
        one.take("arbitrate election=5")
        one.hear()
        one.take("get all\nconfig verify_and_commit " + " ".join(ROUTER) + " cookie=7")
        other.take("arbitrate election=4")
        other.hear()
        dice = random.Random(7)
        for number in range(60):
            text = WRITES[number % len(WRITES)].format(dice.randrange(1, 4), dice.randrange(1, 9))
            one.take(text)
            if number % 7 == 0:
                one.take("\n".join([f"batch {dice.choice(ATOMICITIES)}", text, WRITES[0].format(9, 1), "end"]))
            one.take(READS[number % len(READS)])
            other.take(text if number % 5 == 0 else READS[number % 3])
        self.packets(one, other)
        one.take("config verify_and_save " + " ".join(ROUTER) + "\nconfig commit\nconfig commit\nread ipv4_lpm")
        one.take("as device=3\n" + READS[0] + "\nas device=1")
        one.take("leave")
        other.hear()
        other.take("delete ipv4_lpm default\narbitrate election=6")
        other.hear()
        other.take(WRITES[0].format(1, 1) + "\nread ipv4_lpm\narbitrate election=7 role=3")
        other.hear_rest()
        self.assertEqual(other.heard[-1][0], 9)
        records, report = self.replayed(door, file)
        self.assertGreater(len(records), 150)
        for lane, session in enumerate((one, other)):
            self.expect_same(records, report, lane, [session])
        self.assertEqual(sorted({it.code for it in report.calls}), [0, 2, 3, 5, 7, 9])

    def packets(self, one, other):
        """Packets out: taken, brought back, refused; and what is no message of the stream."""
        to_controller = WRITES[4].format(2, 0)
        one.take("delete ipv4_lpm dst=10.2.0.0/16\n" + to_controller)
        frame = "0200000000010200000000020800" + "45000014000000004001000a0a000001" + "0a020001"
        for _ in range(5):
            one.take(f"packet_out {frame}")
            one.hear()
            other.take(f"packet_out {frame}")
            other.hear()
        one.take("raw stream 2200\nread direct_counter_entry ipv4_lpm")
        one.hear()

    def test_recorded_side_by_side(self):
        """Eight controllers at once, each in its own thread, each primary of a role: the tape has the switch's order."""
        file = f"{self.folder}/it.tape"
        door = self.door("--record", file)
        sessions = []
        for number in range(8):
            sessions.append(Session(self.client(door.port)))
            sessions[-1].take(f"arbitrate election=3 role={number}" if number else "arbitrate election=3")
            sessions[-1].hear()
        sessions[0].take("config verify_and_commit " + " ".join(ROUTER))
        threads = [threading.Thread(target=self.work, args=(it, number)) for number, it in enumerate(sessions)]
        for it in threads:
            it.start()
        for it in threads:
            it.join(PATIENCE * 6)
        records, report = self.replayed(door, file)
        for lane, session in enumerate(sessions):
            self.assertGreater(len(session.asked), 39)
            self.expect_same(records, report, lane, [session])

    def work(self, session, number):
        """40 calls of a session, on entries that others write, too; now and then a new election id."""
        dice = random.Random(number)
        session.maker.take(f"as role={number} election=3")
        for at in range(40):
            text = dice.choice(WRITES[:5]).format(dice.randrange(1, 4), dice.randrange(1, 9))
            session.take(text if at % 4 else dice.choice(READS[:3]))
            if at % 10 == 9:
                session.take(f"arbitrate election={at} role={number}" if number else f"arbitrate election={at}")
                session.hear()


if __name__ == "__main__":
    unittest.main()
