"""Values in words, and words cut from lines."""
import unittest

from p4tools.trouble import Trouble, nearest
from p4tools.values import canonical, read_hex, read_value, spell_value
from p4tools.words import call_of, cut, cut_list

WORDS = [("0", 9, "00", "0"), ("0x0", 8, "00", "0"), ("7", 9, "07", "7"), ("511", 9, "01ff", "511"),
         ("0x0800", 16, "0800", "2048"), ("10.1.0.0", 32, "0a010000", "10.1.0.0"),
         ("0.0.0.0", 32, "00", "0.0.0.0"), ("02:00:00:00:00:03", 48, "020000000003", "02:00:00:00:00:03"),
         ("00:00:00:00:00:02", 48, "02", "00:00:00:00:00:02"), ("::1", 128, "01", "::1"),
         ("2001:db8::", 128, "20010db8000000000000000000000000", "2001:db8::"),
         ("bytes:0063", 8, "0063", "bytes:0063"), ("bytes:", 8, "", "bytes:"), ("264", 8, "0108", "0x108")]


class Values(unittest.TestCase):
    def test_words_and_bytes(self):
        for word, width, data, spelled in WORDS:
            with self.subTest(word):
                self.assertEqual(read_value(word).hex(), data)
                self.assertEqual(spell_value(bytes.fromhex(data), width), spelled)
                self.assertEqual(read_value(spelled).hex(), data)

    def test_every_width(self):
        for width in range(1, 129):
            for number in {0, 1, (1 << width) - 1, 1 << width - 1}:
                for hexadecimal in (False, True):
                    data = canonical(number)
                    self.assertEqual(read_value(spell_value(data, width, hexadecimal)), data)

    def test_no_value(self):
        for word in ("", "x", "10.1.0", "02:00:00", "-1", "0x", "1.5", "bytes:0"):
            with self.subTest(word), self.assertRaises(Trouble):
                read_value(word)

    def test_hex(self):
        self.assertEqual(read_hex("00 ff\t01"), bytes([0, 255, 1]))
        self.assertEqual(read_hex("."), b"")
        with self.assertRaises(Trouble):
            read_hex("0")


class Words(unittest.TestCase):
    def test_cut(self):
        self.assertEqual(cut("insert t a=1  f(x=1, y=2)  # why"), ["insert", "t", "a=1", "f(x=1,y=2)"])
        self.assertEqual(cut("a#b #c"), ["a#b"])
        self.assertEqual(cut("  # all"), [])
        for line in ("f(x", "f)x"):
            with self.assertRaises(Trouble):
                cut(line)

    def test_lists(self):
        self.assertEqual(cut_list("f(x=1,y=2)*1,g()*2"), ["f(x=1,y=2)*1", "g()*2"])
        self.assertEqual(cut_list(""), [])
        self.assertEqual(call_of("f(x=1,y=2)"), ("f", ["x=1", "y=2"]))
        self.assertEqual(call_of("f"), ("f", []))

    def test_nearest(self):
        self.assertEqual(nearest("ipv4_lmp", ["ipv4_lpm", "acl"]), ["ipv4_lpm"])
        self.assertEqual(nearest("x.dst", ["ipv4.dst", "eth.dst", "eth.src"])[:2], ["eth.dst", "ipv4.dst"])
        self.assertEqual(nearest("zzz", ["acl"]), [])
