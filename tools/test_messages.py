"""Messages as bytes that are spelled out here, by the published field numbers."""
import os
import unittest

from p4tools import messages
from p4tools.names import Names, read_info
from p4tools.protofile import read_proto
from p4tools.scenario import Maker
from p4tools.tape import METHOD_NUMBERS
from p4tools.trouble import Trouble

TOP = os.path.join(os.path.dirname(os.path.abspath(__file__)), "..")


def file_of(name):
    with open(os.path.join(TOP, "examples/programs", name), "rb") as it:
        return it.read()


def names_of(program):
    return Names(read_info(file_of(program + ".p4info.txt"), program)[0])


def message_of(line, program):
    """The method and the message of the one call of some lines."""
    maker = Maker(None, names_of(program))
    made = [it for one in line.split("\n") for it in maker.take(one)]
    return made[0].method(), made[0].message().hex()


CALLS = [
    ("bridge", "insert bridge dst=2 forward(port=2)", "write",
     "08011a02100122240801 1220121e 0881808010 1207080112030a0102 1a0e0a0c0881808008 220510011a0102"),
    ("bridge", "delete bridge dst=9", "write", "08011a02100122140803 1210120e 0881808010 1207080112030a0109"),
    ("bridge", "modify bridge default", "write", "08011a021001220d0802 12091207 0881808010 4001"),
    ("bridge", "batch dataplane_atomic\nend", "write", "08011a0210012802"),
    ("bridge", "arbitrate election=5", "stream", "0a0608011a021005"),
    ("bridge", "arbitrate election=18446744073709551616", "stream", "0a0608011a020801"),
    ("bridge", "arbitrate election=1 role=7 ids=0x02000002", "stream",
     "0a20 0801 1218 0807 1214 0a0c70347377697463682f696473 120482808010 1a021001"),
    ("bridge", "packet_out aa", "stream", "12030a01aa"),
    ("bridge", "read *", "read", "080112021200"),
    ("bridge", "get cookie_only", "get", "08011001"),
    ("bridge", "config commit", "set", "08011a0210012004"),
    ("bridge", "capabilities", "capabilities", ""),
    ("router", "insert ipv4_lpm dst=10.1.0.0/16 route(port=3, mac=02:00:00:00:00:03)", "write",
     "08011a02100122350801 1231122f 0882808010 120c0801 22080a040a0100001010 1a1a0a180883808008 "
     "220510011a0103 220a10021a06020000000003"),
    ("lab", "insert acl a=0x0a&&&0x0f set_port(port=2) priority=10", "write",
     "08011a02100122290801 12251223 0891808010 120a08011a060a010a12010f 1a0e0a0c0891808008 220510011a0102 200a"),
    ("lab", "insert action_profile_group ecmp_paths group_id=1 members=1*1,2*3", "write",
     "08011a021001221a0801 12162214 08818080880 1 1001 1a0408011001 1a0408021003"),
    ("lab", "insert digest_entry seen max_list_size=1", "write",
     "08011a02100122100801 120c620a 0881808 0b801 12021001"),
]


class Messages(unittest.TestCase):
    def test_calls(self):
        for program, line, method, spelled in CALLS:
            with self.subTest(line):
                self.assertEqual(message_of(line, program), (method, spelled.replace(" ", "")))

    def test_methods(self):
        self.assertEqual(list(METHOD_NUMBERS.values()), [1, 2, 3, 4, 5, 6])

    def test_proto_that_is_not_read(self):
        with self.assertRaises(ValueError):
            read_proto("x", 'syntax = "proto3"; service S {}')
        with self.assertRaises(ValueError):
            read_proto("x", "message M { uint32 x = 1 }")


class Infos(unittest.TestCase):
    def test_text_and_wire_form(self):
        for program in ("bridge", "flood", "router", "lab"):
            info, note = read_info(file_of(program + ".p4info.txt"), program)
            self.assertIsNone(note)
            self.assertEqual(read_info(info.SerializeToString(), program), (info, None))

    def test_a_compilers_further_fields(self):
        text = file_of("router.p4info.txt") + b'''pkg_info { name: "router.p4" arch: "v1model" }
            type_info { structs { key: "seen_t" value { members { name: "a"
            type_spec { bitstring { bit { bitwidth: 8 } } } } } } }'''
        info, note = read_info(text, "text")
        self.assertIsNone(note)
        self.assertEqual(info.type_info.structs[0].value.members[0].type_spec.bitstring.bit.bitwidth, 8)
        info, note = read_info(text.replace(b"pkg_info {", b"pkg_info { platform_properties { cpu: 1 }"), "text")
        self.assertIn("platform_properties", note)
        self.assertEqual(info.tables[0].preamble.name, "ipv4_lpm")

    def test_no_info(self):
        for data in (b"tables {", b"\xff\xfe", b"{}", b"tables { nonsense"):
            with self.subTest(data), self.assertRaises(Trouble):
                read_info(data, "it")

    def test_names(self):
        names = names_of("router")
        self.assertEqual(names.id("table", "ipv4_lpm"), 0x02000002)
        self.assertEqual(names.id("table", "0x02000009"), 0x02000009)
        self.assertEqual(names.name("action", 0x01000003), "route")
        self.assertEqual(names.name("action", 0x01000099), "0x01000099")
        info = messages.P4Info()
        for number, name in enumerate(("a.x", "b.x", "a.y"), 1):
            preamble = info.tables.add().preamble
            preamble.id, preamble.name = number, name
        names = Names(info)
        self.assertEqual(names.id("table", "y"), 3)
        self.assertEqual(names.any_id("y"), 3)
        self.assertEqual(names.any_name(1), "a.x")
        for look in (names.any_id, lambda word: names.id("table", word)):
            with self.assertRaisesRegex(Trouble, "may be a.x or b.x"):
                look("x")
