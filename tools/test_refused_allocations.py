"""Allocations that are refused: of a small program exactly the N-th, or each from the N-th on, and what a run of p4switch may
then answer. Skipped where there is no C compiler."""
import os
import shutil
import subprocess
import tempfile
import unittest

import refusing
from p4tools import answers, tape

# Makes eight allocations, each of the five functions among them, frees what it has, and writes a letter for each: `y` where it
# was given memory, `n` where not.
PROGRAM = r"""
#include <stdio.h>
#include <stdlib.h>
#include <unistd.h>

static void *given[8];
static char told[9] = "nnnnnnnn\n";

int main(void) {
  given[0] = malloc(10);
  given[1] = calloc(3, 5);
  given[2] = malloc(20);
  if (given[2]) told[2] = 'y';
  given[3] = realloc(given[2], 4000);
  if (given[3]) given[2] = NULL;
  given[4] = aligned_alloc(64, 128);
  if (posix_memalign(&given[5], 64, 100)) given[5] = NULL;
  given[6] = realloc(NULL, 7);
  given[7] = calloc(1, 1);
  for (int i = 0; i < 8; i++) {
    if (given[i]) told[i] = 'y';
    free(given[i]);
  }
  return write(1, told, 9) == 9 ? 0 : 1;
}
"""
ALLOCATIONS = 8
# How long one run of it may take, in seconds.
LIMIT = 120
# What a gRPC client of lane 0 is sent: SETTINGS, and on stream 1 headers, a message and trailers, or trailers alone.
SETTINGS = b"\0\0\0\4\0\0\0\0\0"


def frame(type_, flags, stream, payload):
    return len(payload).to_bytes(3, "big") + bytes([type_, flags]) + stream.to_bytes(4, "big") + payload


def header(name, value):
    return b"\0" + bytes([len(name)]) + name + bytes([len(value)]) + value


def sent(*frames):
    return [[b"reply", b"0", b"1", b"0", b"0", b"0a"], [b"sent", b"0", b"".join((SETTINGS, *frames)).hex().encode()]]


@unittest.skipUnless(shutil.which("cc"), "there is no C compiler `cc`, so no allocation can be refused")
class Refused(unittest.TestCase):
    @classmethod
    def setUpClass(cls):
        cls.folder = tempfile.TemporaryDirectory()
        source, cls.program = (os.path.join(cls.folder.name, it) for it in ("small.c", "small"))
        with open(source, "w", encoding="ascii") as it:
            it.write(PROGRAM)
        subprocess.run(["cc", "-O0", "-fno-builtin", "-o", cls.program, source], check=True)

    @classmethod
    def tearDownClass(cls):
        cls.folder.cleanup()

    def run_with(self, at, has_from=False):
        return refusing.Refuser([self.program], ["small"], has_from, LIMIT).run(b"", at)

    def test_compiles_without_a_warning(self):
        made = subprocess.run(["cc", "-O2", "-shared", "-fPIC", "-Wall", "-Wextra", "-Werror", "-o",
                               os.path.join(self.folder.name, "refuse.so"), refusing.SOURCE], capture_output=True, check=False)
        self.assertEqual((made.returncode, made.stderr), (0, b""))

    def test_none(self):
        self.assertEqual(self.run_with(0), (0, b"yyyyyyyy\n", b"", ALLOCATIONS))

    def test_each(self):
        for at in range(1, ALLOCATIONS + 1):
            with self.subTest(at):
                told = ["y"] * ALLOCATIONS
                told[at - 1] = "n"
                self.assertEqual(self.run_with(at), (0, ("".join(told) + "\n").encode(), b"", ALLOCATIONS))

    def test_from(self):
        for at in range(1, ALLOCATIONS + 1):
            with self.subTest(at):
                told = "y" * (at - 1) + "n" * (ALLOCATIONS + 1 - at) + "\n"
                self.assertEqual(self.run_with(at, True).out, told.encode())

    def test_until_none_is_refused(self):
        judge = refusing.judge_of(refusing.Refuser([self.program], ["small"], False, LIMIT), b"")
        runs, ends, bad = refusing.refuse_each(judge, b"", 1, 1, lambda _: None)
        self.assertEqual((runs, sum(ends.values())), (ALLOCATIONS, 0))
        self.assertEqual([at for at, _ in bad], list(range(1, ALLOCATIONS + 1)))


class Stand:
    """In the place of a program: gives each run this report."""
    words, has_from, seconds = ["replay", "--lockstep"], False, 10

    def __init__(self, report):
        self.report = report

    def run(self, _data, _at, _words=None):
        return refusing.Ended(0, self.report, b"", 5)


class Judged(unittest.TestCase):
    def test_ends(self):
        judge = refusing.Judge(refusing.Refuser(["none"], ["check"]), refusing.Ended(8, b"refused L6\n", b"", 5))
        line = refusing.NO_MEMORY_LINE
        for ended, is_well in [((3, b"", line), True), ((8, b"refused L6\n", b""), True), ((3, b"r", line), False),
                               ((3, b"", b""), False), ((0, b"ok\n", b""), False), ((8, b"refused L7\n", b""), False),
                               ((-11, b"", b""), False), ((None, b"", b""), False)]:
            with self.subTest(ended):
                self.assertEqual(judge.of(refusing.Ended(*ended, 5))[0], is_well)

    def test_replays(self):
        records = [tape.Record(tape.CALL, 0, b"\1ab"), tape.Record(tape.PACKET, 0, b"\0\1")]
        whole = b"step 1 0 1 change 1\nreply 0 1 1 0 .\npacket w0 1 1 sent 2:. - - 1:1\nend 1 1\n"
        instead = b"reply 0 1 0 0 0a05312e332e30\npacket w0 1 0 drop1 - - - -\nend 0 1\n"
        refused = instead.replace(b"0 0a05312e332e30", b"14 -")
        judge = refusing.ReplayJudge(Stand(instead), refusing.Ended(0, whole, b"", 5), tape.write_tape(records))
        for report, is_well in [(whole, True), (refused, True), (instead, False), (refused.replace(b"drop1", b"drop2"), False),
                                (refused.replace(b"14 -", b"14 ."), False), (b"step 1 0 1 change 1\n" + refused, False)]:
            with self.subTest(report):
                self.assertEqual(judge.of(refusing.Ended(0, report, b"", 5))[0], is_well)

    def test_calls_are_replaced(self):
        call, leave = tape.Record(tape.CALL, 0, b"\1ab"), tape.Record(tape.LEAVE, 0, b"")
        packet, instead = tape.Record(tape.PACKET, 0, b"\0\1"), tape.Record(tape.CALL, 0, b"\6")
        other = tape.Record(tape.CALL, 1, b"\1ab")
        self.assertEqual(answers.without_calls([call, packet, other, call, leave], [(0, 2), (0, 3)]),
                         [call, packet, other, instead, instead])

    def test_replies_are_replaced(self):
        lines = answers.lines_of(b"step 1 0 1 change 1\nreply 0 1 1 0 .\nreply 0 2 1 0 0a05\nend 1 0\n")
        refused = answers.with_refused(lines, [(0, 2)])
        self.assertEqual(refused[2], [b"reply", b"0", b"2", b"1", b"14", b"-"])
        self.assertEqual((refused[:2], refused[3:], answers.refused_calls(refused)), (lines[:2], lines[3:], [(0, 2)]))

    def test_transport(self):
        status = header(b":status", b"200")
        whole = sent(frame(1, 4, 1, status), frame(0, 0, 1, b"\0\0\0\0\2ab"), frame(1, 5, 1, header(b"grpc-status", b"0")))
        alone = frame(1, 5, 1, status + header(b"grpc-status", b"14"))
        ends = [(sent(alone), True), (sent(frame(1, 5, 1, status + header(b"grpc-status", b"2"))), False),
                (sent(frame(1, 4, 1, status + header(b"grpc-status", b"14"))), False), (sent(), False),
                (sent(frame(0, 0, 1, b"\0\0\0\0\2ab"), alone), False), (sent(alone, frame(6, 0, 0, bytes(8))), False)]
        for shown, is_well in ends:
            with self.subTest(shown[1][2]):
                expected = answers.with_refused_transport(whole, [(0, 1)], shown)
                self.assertEqual(expected[1] == shown[1], is_well)
                self.assertEqual(expected[0][4:], [b"14", b"-"])


if __name__ == "__main__":
    unittest.main()
