"""bin/p4front before a stand-in for the switch: what passes, what is changed, what is refused, what is told."""
import contextlib
import importlib.util
import io
import os
import queue
import random
import re
import shutil
import socket
import sys
import tempfile
import time
import unittest
import urllib.error
import urllib.request

import grpc
from google.protobuf import descriptor_pb2, descriptor_pool, message_factory

from front_stand_in import PATIENCE, Client, Door, StandIn, make_certificates
from p4tools import front, front_words, messages as p4, tape
from p4tools.front_change import Devices, StreamDevices, change_number, fields, read_pairs, spell_varint, unwrapped
from p4tools.front_connections import peer_of
from p4tools.front_record import Tape
from p4tools.entities import read_entity
from p4tools.names import Names, read_info
from p4tools.scenario import Maker
from p4tools.trouble import Trouble
from p4tools.words import cut
from test_scenarios import EXAMPLES, bytes_of

sys.path.insert(1, os.path.join(EXAMPLES, "../bench/clients"))
import frames  # noqa: E402

HAS_FIGURES = importlib.util.find_spec("prometheus_client") is not None
WHY = "p4front --metrics is not tested: apt-get install -y python3-prometheus-client"
ROUTER = [os.path.join(EXAMPLES, "programs", f"router.{it}") for it in ("p4info.txt", "json")]


def wrapper_class():
    """p4.tmp.P4DeviceConfig as it is published."""
    file = descriptor_pb2.FileDescriptorProto(name="p4config.proto", package="p4.tmp", syntax="proto3")
    message = file.message_type.add(name="P4DeviceConfig")
    kinds = descriptor_pb2.FieldDescriptorProto
    message.field.add(name="reassign", number=1, label=kinds.LABEL_OPTIONAL, type=kinds.TYPE_BOOL)
    # (a message there, whose bytes are those of a string)
    message.field.add(name="extras", number=2, label=kinds.LABEL_OPTIONAL, type=kinds.TYPE_BYTES)
    message.field.add(name="device_data", number=3, label=kinds.LABEL_OPTIONAL, type=kinds.TYPE_BYTES)
    return p4.classes([file])["p4.tmp.P4DeviceConfig"]


def router_lines():
    """A Maker that knows the router's names."""
    return Maker(lambda name: None, Names(read_info(bytes_of("programs/router.p4info.txt"), "router")[0]))


def call_of(line, maker=None):
    """The method and the message of a scenario's line."""
    record = (maker or router_lines()).take(line)[0]
    return record.method(), record.message()


def arbitration(device, election, code=None):
    """An arbitration, and with a code the switch's answer to one."""
    update = p4.CLASSES["p4.v1.MasterArbitrationUpdate"](device_id=device)
    p4.set_number(update.election_id, election)
    if code is None:
        return p4.StreamRequest(arbitration=update).SerializeToString()
    update.status.SetInParent()
    update.status.code = code
    return p4.StreamResponse(arbitration=update).SerializeToString()


def status_of(*errors):
    """The details of a Write's refusal: (canonical code, rule) for each update."""
    status = p4.Status(code=2)
    for code, rule in errors:
        error = p4.Error(canonical_code=code)
        if rule:
            error.space, error.code = "p4switch", rule
        status.details.add(type_url="type.googleapis.com/p4.v1.Error", value=error.SerializeToString())
    return status.SerializeToString()


class Changes(unittest.TestCase):
    """What is changed in bytes, against protobuf."""

    def test_device_ids(self):
        dice = random.Random(5)
        for _ in range(300):
            known = dice.choice((0, 0, 1, 7, 127, 128, 1 << 40, (1 << 64) - 1))
            new = dice.choice((0, 1, 300, (1 << 64) - 1))
            request = p4.WriteRequest(device_id=known, role_id=dice.randrange(3))
            for _ in range(dice.randrange(3)):
                request.updates.add(type=1).entity.table_entry.table_id = dice.randrange(1 << 32)
            wanted = p4.WriteRequest()
            wanted.CopyFrom(request)
            wanted.device_id = new
            found = change_number(request.SerializeToString(), (1,), lambda number: new if number == known else number)
            self.assertEqual(p4.parse(p4.WriteRequest, found), wanted)

    def test_other_bytes_stay(self):
        # an unknown field, a number in more bytes than it needs, a field given twice
        message = bytes.fromhex("2801" "0880808000" "a20603616263" "0800" "2200")
        self.assertEqual(Devices({0: 1}).request("write", message), bytes.fromhex("2801" "a20603616263" "0801" "2200"))
        self.assertEqual(Devices({0: 1}).request("write", b""), bytes.fromhex("0801"))
        self.assertEqual(Devices({7: 1}).request("write", message), message)
        self.assertEqual(change_number(b"\x08\x07\x22\x00\x08\x05", (1,), lambda it: it - 5), b"\x22\x00")

    def test_no_messages_stay(self):
        dice = random.Random(6)
        devices = Devices({0: 1, 5: 9})
        whole = p4.WriteRequest(device_id=5, updates=[p4.Update(type=1)]).SerializeToString()
        for message in [whole[:-1], b"\x08", b"\x0f", b"\x12\x05ab", b"\x08" + b"\xff" * 11]:
            self.assertEqual(devices.request("write", message), message)
            self.assertEqual(StreamDevices(devices).request(message), message)
        for _ in range(500):
            message = dice.randbytes(dice.randrange(20))
            try:
                is_message = bool(list(fields(message))) or not message
            except ValueError:
                is_message = False
            if not is_message:
                self.assertEqual(devices.request("set", message), message)

    def test_stream(self):
        devices = StreamDevices(Devices({0: 1}))
        self.assertEqual(devices.response(arbitration(1, 3, 0)), arbitration(1, 3, 0))
        self.assertEqual(devices.request(arbitration(0, 3)), arbitration(1, 3))
        self.assertEqual(devices.response(arbitration(1, 3, 0)), arbitration(0, 3, 0))
        other = p4.StreamResponse(packet=p4.PacketIn(payload=b"abc")).SerializeToString()
        self.assertEqual(devices.response(other), other)
        self.assertEqual(devices.request(arbitration(1, 4)), arbitration(1, 4))
        self.assertEqual(devices.response(arbitration(1, 4, 0)), arbitration(1, 4, 0))
        self.assertEqual(devices.request(b""), b"")

    def test_wrapper(self):
        wrapper, program = wrapper_class(), b" {\"program\": 1}"
        for made in (wrapper(device_data=program), wrapper(device_data=program, reassign=True),
                     wrapper(device_data=program, reassign=True, extras=b"\x0a\x00")):
            self.assertEqual(unwrapped(made.SerializeToString()), program)
        twice = 2 * wrapper(device_data=program).SerializeToString()
        for other in (program, b"", b"{}", wrapper(device_data=b"abc").SerializeToString(), twice, b"\n{}", b"\x1a"):
            self.assertEqual(unwrapped(other), other)

    def test_wrapped_config(self):
        request = p4.SetRequest(device_id=0, action=3)
        request.config.p4info.tables.add().preamble.id = 7
        request.config.p4_device_config = wrapper_class()(device_data=b"{}" * 100, reassign=True).SerializeToString()
        request.config.cookie.cookie = 5
        found = p4.parse(p4.SetRequest, Devices({0: 1}).request("set", request.SerializeToString()))
        request.device_id, request.config.p4_device_config = 1, b"{}" * 100
        self.assertEqual(found, request)

    def test_pairs(self):
        self.assertEqual(read_pairs(["0=1", "7=1,8=2"]), {0: 1, 7: 1, 8: 2})
        for words, said in ((["0"], "takes CONTROLLER=SWITCH"), (["0=x"], "takes CONTROLLER=SWITCH"),
                            (["0=1", "0=2"], "both 1 and 2"), (["5=0"], "is 1 or more"), ([""], "and nothing is none")):
            with self.subTest(words), self.assertRaisesRegex(Trouble, said):
                read_pairs(words)

    def test_numbers(self):
        for number in (0, 1, 127, 128, 300, (1 << 64) - 1):
            self.assertEqual(p4.parse(p4.WriteRequest, b"\x08" + spell_varint(number)).device_id, number)

    def test_peers(self):
        self.assertEqual(peer_of("ipv4:127.0.0.1:4321"), "127.0.0.1:4321")
        self.assertEqual(peer_of("ipv6:%5B::1%5D:4321"), "[::1]:4321")
        self.assertEqual(peer_of("ipv6:[::ffff:10.0.0.1]:80"), "10.0.0.1:80")


class Words(unittest.TestCase):
    """The texts of refusals; numbers stay."""

    def test_whole(self):
        for method, code, message, text in (
                ("write", 7, "", "the election id is not that of the role's primary"),
                ("set", 3, "L5", "L5: a name of the JSON means nothing"), ("read", 9, "", "there is no program"),
                ("write", 14, "", "the switch has no memory for this; it changed nothing"),
                ("stream", 5, "", "no such device"), ("write", 4, "", ""), ("write", 4, "own words", "own words")):
            self.assertEqual(front_words.of_status(method, code, message, b""), (text, b""))

    def test_updates(self):
        text, details = front_words.of_status("write", 2, "", status_of((0, 0), (5, 10), (10, 0), (6, 10)))
        self.assertEqual(text, "2 of 4 updates are refused, the first of them update 2: NOT_FOUND, U10: it is not there")
        status = p4.parse(p4.Status, details)
        errors = [p4.parse(p4.Error, it.value) for it in status.details]
        self.assertEqual((status.code, status.message), (2, text))
        self.assertEqual([(it.canonical_code, it.space, it.code) for it in errors],
                         [(0, "", 0), (5, "p4switch", 10), (10, "", 0), (6, "p4switch", 10)])
        self.assertEqual([it.message for it in errors], [
            "", "U10: it is not there", "not done, as another update of the batch is refused",
            "U10: it is there already"])
        text, _ = front_words.of_status("write", 2, "", status_of((11, 7)))
        self.assertEqual(text, "OUT_OF_RANGE, U7: a value is wider than its field")

    def test_room(self):
        """Texts never make details too large for a client that takes them without."""
        for most in (200, 1_000, 8_192, 1 << 20):
            for count in (1, 2, 10, 60, 80, 100, 110, 120, 4_096):
                bare = status_of(*[(5, 10)] * count)
                text, details = front_words.of_status("write", 2, "", bare, most)
                found, wanted = p4.parse(p4.Status, details), p4.parse(p4.Status, bare)
                words = [p4.parse(p4.Error, it.value).message for it in found.details]
                if details != bare:
                    self.assertLessEqual(front_words.trailers_size(text, len(details)), most)
                if most == 1 << 20:
                    self.assertEqual(set(words), {"U10: it is not there"})
                found.message = ""
                for it in found.details:
                    error = p4.parse(p4.Error, it.value)
                    error.message = ""
                    it.value = error.SerializeToString()
                self.assertEqual(found, wanted)

    def test_stream(self):
        error = p4.StreamResponse()
        error.error.canonical_code, error.error.space, error.error.code = 7, "p4switch", 1
        error.error.packet_out.packet_out.payload = b"abc"
        found = p4.parse(p4.StreamResponse, front_words.of_stream(error.SerializeToString()))
        self.assertEqual(found.error.message, "P1: the sender is not the primary of its role")
        found.error.message = ""
        self.assertEqual(found, error)
        for other in (b"\xff", arbitration(1, 2, 0), p4.StreamResponse(packet=p4.PacketIn()).SerializeToString()):
            self.assertEqual(front_words.of_stream(other), other)


class Tapes(unittest.TestCase):
    def test_whole_at_each_call(self):
        told = []
        with tempfile.TemporaryDirectory() as folder:
            file = os.path.join(folder, "it.tape")
            one, wanted = Tape(file, told.append), []
            for lane, message in enumerate((b"", b"abc", bytes(100_000))):
                one.call(lane, "write", message)
                one.leave(lane)
                wanted += [tape.Record(tape.CALL, lane, b"\x01" + message), tape.Record(tape.LEAVE, lane, b"")]
                with open(file, "rb") as it:
                    self.assertEqual(tape.read_tape(it.read()), (wanted, None))
            one.end("of this")
            one.call(0, "write", b"")
            one.end("again")
            with open(file, "rb") as it:
                self.assertEqual(tape.read_tape(it.read()), (wanted, None))
            self.assertEqual(told, [f"the tape {file} ends here: of this"])
            one.close()
            with self.assertRaisesRegex(Trouble, "is there already"):
                Tape(file, told.append)

    def test_full(self):
        told = []
        with tempfile.TemporaryDirectory() as folder:
            one = Tape(os.path.join(folder, "it.tape"), told.append)
            for _ in range(9):
                one.call(0, "set", bytes(8 << 20))
            with open(one.name, "rb") as it:
                records, wrong = tape.read_tape(it.read())
            one.close()
        self.assertEqual((len(records), wrong), (7, None))
        self.assertIn("split the run", told[0])


class Refused(unittest.TestCase):
    """Words and files with which it does not start, and what it says."""

    def run_it(self, *words):
        told = io.StringIO()
        with contextlib.redirect_stderr(told):
            try:
                status = front.p4front(words)
            except SystemExit as ended:
                status = ended.code
        return status, told.getvalue()

    def test_words(self):
        with tempfile.TemporaryDirectory() as folder, socket.socket() as taken:
            make_certificates(folder)
            taken.bind(("127.0.0.1", 0))
            taken.listen()
            place = f"127.0.0.1:{taken.getsockname()[1]}"
            to = ["--to", "127.0.0.1:1"]
            with open(os.path.join(folder, "old.tape"), "wb"):
                pass

            def tls(cert, key):
                return ["--listen", "127.0.0.1:0", *to, "--cert", f"{folder}/{cert}", "--key", f"{folder}/{key}"]
            for words, said in (
                    (["--listen", "0.0.0.0:0", *to], "is no loopback address, and without TLS"),
                    (["--listen", "[::]:0", *to], "is no loopback address, and without TLS"),
                    (["--listen", "127.0.0.1:0", "--to", "192.0.2.1:9559"], "the switch has no TLS"),
                    (["--listen", "9560", *to], "--listen takes HOST:PORT"),
                    (["--listen", "::1:9560", *to], "--listen takes HOST:PORT"),
                    (["--listen", "127.0.0.1:70000", *to], "--listen takes HOST:PORT"),
                    (["--listen", "no.such.host.invalid:1", *to], "no.such.host.invalid is no address"),
                    (["--listen", place, *to], "another program has it"),
                    (["--listen", "127.0.0.1:0", *to, "--map", "0=0"], "is 1 or more"),
                    (["--listen", "127.0.0.1:0", *to, "--client-ca", f"{folder}/ca.pem"], "give --cert and --key"),
                    (["--listen", "127.0.0.1:0", *to, "--cert", f"{folder}/front.pem"], "go together"),
                    (["--listen", "127.0.0.1:0", *to, "--record", f"{folder}/old.tape"], "is there already"),
                    (["--listen", "127.0.0.1:0", *to, "--record", f"{folder}/no/it.tape"], "can't be written"),
                    (["--listen", "127.0.0.1:0", *to, "--log", folder], "can't be written"),
                    (["--listen", "127.0.0.1:0", *to, "--metrics", "70000"], "takes a port"),
                    (["--listen", "127.0.0.1:0", *to, "--metrics", place[10:]], "another program has it"),
                    (tls("none.pem", "front.key"), "none.pem is not read: No such file"),
                    (tls("front.pem", "client.key"), "the key is that of another certificate"),
                    (tls("front.key", "front.pem"), "no certificate with its key in PEM"),
                    ([*tls("front.pem", "front.key"), "--client-ca", f"{folder}/ca.key"], "no certificate in PEM"),
                    ([*to], "the following arguments are required: --listen")):
                with self.subTest(words):
                    status, told = self.run_it(*words)
                    self.assertEqual(status, 2, told)
                    self.assertIn(said, told)


class Passing(unittest.TestCase):
    """Through the front door to a stand-in."""

    def setUp(self):
        self.switch = StandIn()
        self.addCleanup(self.switch.close)
        self.folder = tempfile.mkdtemp()
        self.addCleanup(shutil.rmtree, self.folder)

    def door(self, *words, **given):
        door = Door(self.switch.port, *words, **given)
        self.addCleanup(door.process.wait)
        self.addCleanup(door.process.stderr.close)
        self.addCleanup(door.process.kill)
        self.switch.asked.clear()
        return door

    def client(self, door, *given, **more):
        client = Client(door.port, *given, **more)
        self.addCleanup(client.close)
        return client

    def test_bytes_stay(self):
        client = self.client(self.door())
        odd = bytes.fromhex("2801a206036162630880808000")
        for method in ("write", "set", "get", "capabilities", "read"):
            for message in (b"", odd, bytes(3 << 20), b"\xff\xff"):
                answer = [bytes([len(method)]) + message[:9]] * (2 if method == "read" else 1)
                self.switch.answers[method] = [answer]
                self.assertEqual(client.ask(method, message), answer)
                if method != "capabilities":
                    self.assertEqual(self.switch.asked.pop(), (method, message))

    def test_refusals_stay(self):
        client = self.client(self.door())
        for method in ("write", "set", "get", "read"):
            for answer in ((2, "", status_of((5, 10))), (3, "L5", b"\x08\x03\x12\x02L5"), (14, "", b""), (7, "", b""),
                           (2, "", status_of(*[(5, 10)] * 4096))):
                self.switch.answers[method] = [answer]
                self.assertEqual(client.ask(method, b""), answer)
        self.switch.answers["read"] = [[b"\x0a\x00" * 1024] * 3]
        self.assertEqual(client.ask("read", b""), [b"\x0a\x00" * 1024] * 3)

    def test_streams(self):
        client = self.client(self.door())
        one, other = client.open(), client.open()
        self.switch.answers["stream"] = [[b"first", bytes(1 << 20)], []]
        one.say(b"abc")
        self.assertEqual([one.hear(), one.hear()], [b"first", bytes(1 << 20)])
        other.say(b"\xff")
        self.await_asked(("stream", b"abc"), ("stream", b"\xff"))
        self.switch.say(b"to both")
        self.assertEqual([one.hear(), other.hear()], [b"to both"] * 2)
        self.switch.say((8, "", b""))
        self.assertEqual([one.hear(), other.hear()], [(8, "", b"")] * 2)
        third = client.open()
        third.say(b"more")
        self.await_asked(("stream", b"abc"), ("stream", b"\xff"), ("stream", b"more"))
        self.assertIsNone(third.end())

    def await_asked(self, *wanted):
        """The stand-in was asked for these in time, leaves apart."""
        until = time.monotonic() + PATIENCE
        while [it for it in self.switch.asked if it[0] != "leave"] != list(wanted):
            self.assertLess(time.monotonic(), until, self.switch.asked)
            time.sleep(0.01)

    def test_calls_behind_an_arbitration(self):
        """What a client sends on its connection behind the answer to an arbitration comes behind that, on the connection to the
        switch that its stream channel has."""
        door, wanted = self.door(), []
        for number in range(5):
            self.switch.answers["stream"] = [[b"a%d" % number]]
            peer = frames.Connection(door.port)
            self.addCleanup(peer.close)
            peer.begin()
            channel = peer.open_stream("StreamChannel")
            peer.say(channel, b"s%d" % number)
            self.assertEqual(peer.messages(channel, 1, PATIENCE), [b"a%d" % number])
            peer.say(peer.open_stream("Write"), b"w%d" % number, frames.END_STREAM)
            wanted += [("stream", b"s%d" % number), ("write", b"w%d" % number)]
            self.await_asked(*wanted)

    def test_stream_ends_with_its_client(self):
        client = Client(self.door().port)
        client.open().say(b"abc")
        self.await_asked(("stream", b"abc"))
        client.channel.close()
        until = time.monotonic() + PATIENCE
        while ("leave", b"") not in self.switch.asked:
            self.assertLess(time.monotonic(), until)
            time.sleep(0.01)

    def test_controller_of_a_tutorial(self):
        """Device 0, election id 1, and the program in its wrapper."""
        client = self.client(self.door("--map", "0=1"))
        self.switch.answers["stream"] = [[arbitration(1, 1, 0)]]
        stream = client.open()
        stream.say(arbitration(0, 1))
        self.assertEqual(stream.hear(), arbitration(0, 1, 0))
        request = p4.SetRequest(device_id=0, action=3)
        p4.set_number(request.election_id, 1)
        request.config.p4info.CopyFrom(read_info(bytes_of("programs/router.p4info.txt"), "it")[0])
        program = bytes_of("programs/router.json")
        request.config.p4_device_config = wrapper_class()(reassign=True, device_data=program).SerializeToString()
        self.assertEqual(client.ask("set", request.SerializeToString()), [b""])
        write = call_of("insert ipv4_lpm dst=10.1.0.0/16 route(port=3, mac=02:00:00:00:00:03)")[1]
        self.assertEqual(client.ask("write", change_number(write, (1,), lambda _: 0)), [b""])
        self.assertEqual(client.ask("read", b""), [b""])
        asked = [message for _, message in self.switch.asked]
        request.device_id, request.config.p4_device_config = 1, program
        self.assertEqual(p4.parse(p4.SetRequest, asked[1]), request)
        self.assertEqual([asked[0], asked[2], asked[3]], [arbitration(1, 1), b"\x08\x01" + write[2:], b"\x08\x01"])

    def test_certificates(self):
        make_certificates(self.folder)
        files = [f"{self.folder}/{it}" for it in ("front.pem", "front.key", "ca.pem")]
        log = f"{self.folder}/log"
        door = self.door("--cert", files[0], "--key", files[1], "--client-ca", files[2], "--log", log)
        self.assertEqual(self.client(door, (self.folder, "client")).ask("write", b"mine"), [b""])
        for other in ((self.folder, None), (self.folder, "stranger"), None):
            answer = self.client(door, other).ask("write", b"other")
            self.assertEqual(answer[0], 14, answer)
        self.assertEqual(self.switch.asked, [("write", b"mine")])
        door.close()
        with open(log, encoding="utf-8") as it:
            self.assertRegex(it.read(), r"127\.0\.0\.1:\d+ \(client\) connects\n")
        door = self.door("--cert", files[0], "--key", files[1])
        self.assertEqual(self.client(door, (self.folder, None)).ask("write", b"any"), [b""])

    def test_words(self):
        client = self.client(self.door("--words"))
        self.switch.answers["write"] = [(7, "", b""), (2, "", status_of((0, 0), (5, 3)))]
        self.assertEqual(client.ask("write", b""), (7, "the election id is not that of the role's primary", b""))
        answer = client.ask("write", b"")
        self.assertEqual(answer, (2, *front_words.of_status("write", 2, "", status_of((0, 0), (5, 3)))))
        self.switch.answers["stream"] = [(5, "", b"")]
        stream = client.open()
        stream.say(b"")
        self.assertEqual(stream.hear(), (5, "no such device", b""))

    def test_log(self):
        log = f"{self.folder}/log"
        door = self.door("--log", log, "--map", "0=1")
        client, maker = self.client(door), router_lines()
        program = " ".join(ROUTER)
        files = {it: bytes_of(f"programs/{os.path.basename(it)}") for it in ROUTER}
        maker.read_file = files.__getitem__
        self.switch.answers["stream"] = [[arbitration(1, 5, 0)]]
        stream = client.open()
        stream.say(arbitration(0, 5))
        stream.hear()
        entity = p4.ReadResponse(entities=[p4.Entity(), p4.Entity()]).SerializeToString()
        self.switch.answers.update(write=[(2, "", status_of((6, 10))), (7, "", b"")], read=[[entity, entity]],
                                   set=[(3, "L5", b""), [b""]])
        for line in (f"as election=5\nconfig verify_and_commit {program}", f"config verify_and_commit {program}",
                     "insert ipv4_lpm dst=10.1.0.0/16 drop()", "insert ipv4_lpm dst=10.2.0.0/16 drop()", "read ipv4_lpm",
                     "capabilities"):
            for record in [record for it in line.split("\n") for record in maker.take(it)]:
                client.ask(record.method(), record.message())
        self.assertIsNone(stream.end())
        door.close()
        with open(log, encoding="utf-8") as it:
            lines = [re.sub(r"^\S+ 127\.0\.0\.1:\d+ ", "", line) for line in it.read().splitlines()]
        lines = [re.sub(r", \d+\.\d ms$", "", it) for it in lines]
        self.assertEqual(lines[:11], [
            "connects", "c0 opens a stream channel", "c0 call 1 arbitrate election=5",
            "c0 is told: device 1, greatest election id 5: it is primary",
            "c0 call 2 config verify_and_commit: tables ipv4_lpm: INVALID_ARGUMENT (L5: a name of the JSON means nothing)",
            "c0 call 3 config verify_and_commit: tables ipv4_lpm: OK",
            "c0 call 4 insert ipv4_lpm ipv4.dst=10.1.0.0/16 drop(): UNKNOWN; "
            "insert ipv4_lpm ipv4.dst=10.1.0.0/16 drop(): ALREADY_EXISTS, rule U10: it is there already",
            "c0 call 5 insert ipv4_lpm ipv4.dst=10.2.0.0/16 drop(): PERMISSION_DENIED "
            "(the election id is not that of the role's primary)",
            "c0 call 6 read ipv4_lpm: OK, 4 entities", "c0 call 7 capabilities: OK", "c0 leaves"])

    def test_record(self):
        """The tape has what the switch was asked, in its order, and a stream's messages and ends between them."""
        file = f"{self.folder}/it.tape"
        door = self.door("--record", file)
        clients = [self.client(door) for _ in range(4)]
        streams = [it.open() for it in clients[:2]]
        self.switch.answers["stream"] = [[arbitration(1, 1, 0)]] * 52
        for number in range(52):
            streams[number % 2].say(arbitration(1, number + 1))
            if number < 2:
                streams[number].hear()
                continue
            waiting = [clients[it].channel.unary_unary("/p4.v1.P4Runtime/Write").future(bytes([8, number, 16, it]))
                       for it in range(4)]
            clients[number % 4].ask("read", b"")
            for it in waiting:
                it.result(PATIENCE)
            streams[number % 2].hear()
        self.assertIsNone(streams[1].end())
        self.switch.answers["write"] = [(14, "", b""), (7, "", b"")]
        self.assertEqual([clients[0].ask("write", b"not made")[0], clients[0].ask("write", b"refused")[0]], [14, 7])
        door.close()
        with open(file, "rb") as it:
            records, wrong = tape.read_tape(it.read())
        self.assertIsNone(wrong)
        found = [("leave", b"") if it.kind == tape.LEAVE else (it.method(), it.message()) for it in records]
        self.switch.asked.remove(("write", b"not made"))
        self.assertEqual(found, self.switch.asked)
        self.assertEqual(len(found), 52 + 50 * 5 + 1 + 2)
        lanes = {number: set() for number in range(4)}
        for it in records:
            if it.kind == tape.CALL and it.method() == "write" and len(it.message()) == 4:
                lanes[it.message()[-1]].add(it.lane)
        self.assertEqual([lanes[it] for it in range(4)], [{0}, {1}, {31}, {31}])

    def test_record_of_a_switch_that_goes(self):
        file = f"{self.folder}/it.tape"
        door = self.door("--record", file)
        client = self.client(door)
        client.ask("write", b"one")
        self.switch.close()
        code, text, _ = client.ask("write", b"two")
        self.assertEqual(code, 14)
        self.assertIn("did not answer", text)
        door.close()
        with open(file, "rb") as it:
            records, wrong = tape.read_tape(it.read())
        self.assertEqual(([it.message() for it in records], wrong), ([b"one"], None))
        self.assertTrue([it for it in door.said if "ends here" in it], door.said)

    def test_longest_message(self):
        client = self.client(self.door())
        self.assertEqual(client.ask("write", bytes(8 << 20)), [b""])
        self.assertEqual(client.ask("write", bytes((8 << 20) + 1))[0], 8)
        self.assertEqual(len(self.switch.asked), 1)

    def test_most_connections(self):
        door = self.door()
        links = [socket.create_connection(("127.0.0.1", door.port)) for _ in range(64)]
        client = Client(door.port)
        self.assertEqual(client.ask("write", b"")[0], 14)
        client.close()
        for it in links[:10]:
            it.close()
        until = time.monotonic() + PATIENCE
        while self.client(door).ask("write", b"") != [b""]:
            self.assertLess(time.monotonic(), until)
            time.sleep(0.2)
        for it in links:
            it.close()

    def test_most_streams(self):
        """The switch serves 32 connections: one is for calls without a stream channel."""
        client = self.client(self.door())
        streams = [client.open() for _ in range(31)]
        for number, it in enumerate(streams):
            self.switch.answers["stream"] = [[b"%d" % number]]
            it.say(b"abc")
            self.assertEqual(it.hear(), b"%d" % number)
        code, text, _ = client.open().hear()
        self.assertEqual((code, text), (8, "31 stream channels are open, as many as the switch has room for"))
        self.assertEqual(client.ask("write", b""), [b""])

    def test_client_that_takes_nothing(self):
        door = self.door(patience=2)
        good = self.client(door)
        stream = good.open()
        slow = self.client(door, options=[("grpc.http2.bdp_probe", 0), ("grpc.http2.lookahead_bytes", 1 << 16)])
        says = queue.SimpleQueue()
        says.put(b"slow")
        call = slow.channel.stream_stream("/p4.v1.P4Runtime/StreamChannel")(iter(says.get, None))
        self.await_asked(("stream", b"slow"))
        for _ in range(300):
            self.switch.say(bytes(1 << 16))
        until = time.monotonic() + PATIENCE
        while call.is_active():
            self.assertLess(time.monotonic(), until)
            time.sleep(0.05)
        says.put(None)
        self.assertEqual(call.code().value[0], 14)
        self.assertEqual(stream.hear(), bytes(1 << 16))
        self.assertEqual(good.ask("write", b""), [b""])

    # What is served beside.

    def page(self, door, path):
        """The status and the text of a page."""
        try:
            with urllib.request.urlopen(f"http://127.0.0.1:{door.metrics}{path}", timeout=PATIENCE) as it:
                return it.status, it.read().decode()
        except urllib.error.HTTPError as error:
            with error:
                return error.code, error.read().decode()

    @unittest.skipUnless(HAS_FIGURES, WHY)
    def test_health(self):
        made = p4.classes([p4.proto("health.proto")])
        request, response = [made[f"grpc.health.v1.HealthCheck{it}"] for it in ("Request", "Response")]
        door = self.door("--metrics", "0")
        client = self.client(door)
        check = client.channel.unary_unary("/grpc.health.v1.Health/Check", request.SerializeToString, response.FromString)
        watch = client.channel.unary_stream("/grpc.health.v1.Health/Watch", request.SerializeToString, response.FromString)
        watched = watch(request(), timeout=PATIENCE)
        self.assertEqual(next(watched).status, 1)
        self.assertEqual([check(request(service=it)).status for it in ("", "p4.v1.P4Runtime")], [1, 1])
        with self.assertRaisesRegex(grpc.RpcError, "no such service"):
            check(request(service="other"))
        self.assertEqual(next(watch(request(service="other"), timeout=PATIENCE)).status, 3)
        self.assertEqual(self.page(door, "/health"), (200, "ok\n"))
        port = self.switch.port
        self.switch.close()
        self.assertEqual(next(watched).status, 2)
        self.assertEqual(check(request()).status, 2)
        self.assertEqual(self.page(door, "/health"), (503, f"the switch at 127.0.0.1:{port} does not answer\n"))
        self.assertEqual(self.page(door, "/other")[0], 404)

    def test_reflection(self):
        """A client that knows nothing but reflection finds each service, and makes a call by what it is told."""
        client = self.client(self.door())
        for version in ("v1alpha", "v1"):
            package = f"grpc.reflection.{version}"
            file = p4.proto("reflection.proto")
            file.package = package
            made = p4.classes([file])
            request, response = [made[f"{package}.ServerReflection{it}"] for it in ("Request", "Response")]
            call = client.channel.stream_stream(f"/{package}.ServerReflection/ServerReflectionInfo",
                                                request.SerializeToString, response.FromString)
            asked = [request(list_services=""), request(file_containing_symbol="p4.v1.P4Runtime.Capabilities"),
                     request(file_containing_symbol="no.such"), request(file_by_filename="status.proto"),
                     request(file_containing_symbol="grpc.health.v1.Health")]
            services, of_p4, none, by_name, of_health = list(call(iter(asked), timeout=PATIENCE))
            self.assertEqual([it.name for it in services.list_services_response.service], [
                "p4.v1.P4Runtime", "grpc.health.v1.Health", "grpc.reflection.v1alpha.ServerReflection",
                "grpc.reflection.v1.ServerReflection"])
            self.assertEqual(none.error_response.error_code, 5)
            self.assertEqual(none.original_request, asked[2])
            self.assertEqual(len(by_name.file_descriptor_response.file_descriptor_proto), 1)
            self.call_by(client, of_p4, "p4.v1.P4Runtime", "Capabilities", "p4runtime_api_version: \"1.3.0\"\n")
            self.call_by(client, of_health, "grpc.health.v1.Health", "Check", "status: SERVING\n")

    def call_by(self, client, told, service, method, wanted):
        """A call with an empty message, by the files that reflection told."""
        pool = descriptor_pool.DescriptorPool()
        files = told.file_descriptor_response.file_descriptor_proto
        for data in reversed(files):
            pool.AddSerializedFile(data)
        found = pool.FindServiceByName(service).methods_by_name[method]
        asks, answers = [message_factory.MessageFactory(pool).GetPrototype(it) if not hasattr(
            message_factory, "GetMessageClass") else message_factory.GetMessageClass(it)
            for it in (found.input_type, found.output_type)]
        call = client.channel.unary_unary(f"/{service}/{method}", asks.SerializeToString, answers.FromString)
        self.assertEqual(str(call(asks(), timeout=PATIENCE)), wanted)

    @unittest.skipUnless(HAS_FIGURES, WHY)
    def test_figures(self):
        info = read_info(bytes_of("programs/router.p4info.txt"), "it")[0]
        names, config = Names(info), p4.GetResponse()
        config.config.p4info.CopyFrom(info)
        entities = [read_entity(cut(it), names) for it in (
            "ipv4_lpm dst=10.1.0.0/16 drop()", "ipv4_lpm dst=10.2.0.0/16 drop()",
            "direct_counter_entry ipv4_lpm dst=10.1.0.0/16", "direct_counter_entry ipv4_lpm dst=10.2.0.0/16")]
        for number, it in enumerate(entities[2:]):
            it.direct_counter_entry.data.packet_count, it.direct_counter_entry.data.byte_count = 2 + number, 100
        self.switch.answers.update(
            get=2 * [[config.SerializeToString()]], write=[[b""], [b""], (7, "", b"")],
            read=[[p4.ReadResponse(entities=it).SerializeToString() for it in (entities[:3], entities[3:])]])
        door = self.door("--metrics", "0")
        client = self.client(door)
        stream = client.open()
        self.switch.answers["stream"] = [[arbitration(1, 5, 0)]]
        stream.say(arbitration(1, 5))
        stream.hear()
        for _ in range(3):
            client.ask("write", b"")
        wanted = ['p4switch_table_entries{table="ipv4_lpm"} 2.0', 'p4switch_table_packets{table="ipv4_lpm"} 5.0',
                  'p4switch_table_bytes{table="ipv4_lpm"} 200.0', "p4switch_up 1.0", "p4front_connections 1.0",
                  "p4front_stream_channels 1.0", 'p4front_calls_total{code="OK",method="Write"} 2.0',
                  'p4front_calls_total{code="PERMISSION_DENIED",method="Write"} 1.0',
                  'p4front_call_seconds_count{method="Write"} 3.0',
                  'p4front_stream_messages_total{kind="arbitration",sender="client"} 1.0']
        until = time.monotonic() + PATIENCE
        while [it for it in wanted if it not in self.page(door, "/metrics")[1].splitlines()]:
            self.assertLess(time.monotonic(), until, self.page(door, "/metrics")[1])
            time.sleep(0.1)

    def test_without_a_switch(self):
        door = self.door()
        client = self.client(door)
        port = self.switch.port
        self.switch.close()
        code, text, _ = client.ask("write", b"")
        self.assertEqual(code, 14)
        self.assertIn(f"the switch at 127.0.0.1:{port} did not answer", text)
        self.assertEqual(client.open().hear()[0], 14)
        self.switch = StandIn(port)
        self.addCleanup(self.switch.close)
        until = time.monotonic() + PATIENCE
        while client.ask("write", b"") != [b""]:
            self.assertLess(time.monotonic(), until)
            time.sleep(0.1)
        self.assertEqual(door.close(), 0)


if __name__ == "__main__":
    unittest.main()
