#!/usr/bin/env python3
"""Feeds the built p4switch tapes and connections that are nearly right.

Each is made from a valid run of crates/switch_rows by one to three changes: it is cut, a part comes twice, a bit, a length or a kind
is another. Changed are a tape's bytes, or the payload of one of its records, or what the client of one HTTP/2 lane sends. Each is
replayed in lockstep whole, byte by byte and in pieces of 7, through a pipe of which a read gives one piece; a connection's bytes are
cut into such records too. Asked is that

- the status and the line are those that this script reads in the tape's grammar: 0, or 1 with the first bad place;
- all ways of cutting give the same report, and none where the status is not 0;
- what is sent to a client is whole frames, and nothing behind a GOAWAY.

The gate does not run it. It ends with 1 at the first that fails, and writes that tape to --keep.
"""
import argparse
import collections
import fcntl
import os
import random
import subprocess
import sys
import time

from p4tools.tape import CALL, END, LEAVE, LONGEST_MESSAGE, LONGEST_PACKET, LONGEST_PIECE, MAGIC, MEET, PACKET, PIECE, LAST_PORT, read_tape, write_tape

HERE = os.path.dirname(os.path.abspath(__file__))
ROWS = os.path.join(HERE, "../crates/switch_rows")
BUILT = os.path.join(HERE, "../crates/p4switch/out/p4switch")
PREFACE = b"PRI * HTTP/2.0\r\n\r\nSM\r\n\r\n"
GOAWAY = 7
LIMIT = 60
PIECES = (1, 7)


# ---- the grammar of tapes, byte by byte

class Bad(Exception):
    """No tape begins with the bytes up to one more than this place."""


class Grammar:
    """The longest front of the bytes with which some tape begins."""

    def __init__(self, data):
        self.data, self.at = data, 0
        self.calls = collections.Counter()
        self.asks, self.brings, self.left = set(), set(), set()

    def byte(self, may):
        if self.at == len(self.data) or not may(self.data[self.at]):
            raise Bad(self.at)
        self.at += 1
        return self.data[self.at - 1]

    def number(self, count, low, high):
        value = 0
        for unit in (256 ** left for left in reversed(range(count))):
            start = value * 256
            value = start + self.byte(lambda byte: (start + byte) * unit <= high and (start + byte + 1) * unit > low)
        return value

    def skip(self, count):
        if len(self.data) < self.at + count:
            raise Bad(len(self.data))
        self.at += count

    def takes(self, kind, lane):
        if kind == CALL:
            return lane not in self.brings
        if kind == PIECE:
            return lane not in self.asks | self.left
        if kind == LEAVE:
            return lane not in self.brings & self.left
        return self.calls[lane] > 0

    def may_be(self, kind):
        return kind in (END, PACKET) or kind <= MEET and any(self.takes(kind, lane) for lane in range(32))

    def controller(self, kind):
        self.byte(lambda byte: byte == 0)
        return self.byte(lambda byte: byte < 32 and self.takes(kind, byte))

    def record(self, kind):
        if kind == PACKET:
            self.number(2, 0, 15)
            size = self.number(4, 2, LONGEST_PACKET + 2)
            self.number(2, 0, LAST_PORT)
            self.skip(size - 2)
        elif kind == MEET:
            self.number(2, 0, 15)
            self.number(4, 6, 6)
            lane = self.controller(MEET)
            self.number(4, 1, self.calls[lane])
        else:
            self.of_controller(kind, self.controller(kind))

    def of_controller(self, kind, lane):
        if kind == CALL:
            size = self.number(4, 1, LONGEST_MESSAGE + 1)
            self.number(1, 1, 6)
            self.skip(size - 1)
            self.asks.add(lane)
        elif kind == PIECE:
            self.skip(self.number(4, 1, LONGEST_PIECE))
            self.brings.add(lane)
        else:
            self.number(4, 0, 0)
            self.left.add(lane)
        self.calls[lane] += kind != PIECE

    def tape(self):
        for letter in MAGIC:
            self.byte(lambda byte: byte == letter)
        while (kind := self.byte(self.may_be)) != END:
            self.record(kind)
        self.number(6, 0, 0)
        if self.at < len(self.data):
            raise Bad(self.at)


def due(data):
    """The status and the line that these bytes must be answered with."""
    try:
        Grammar(data).tape()
    except Bad as bad:
        return 1, f"p4switch: not a tape after {bad.args[0]} bytes\n"
    return 0, ""


# ---- changes

def heads_of_records(data):
    """Of each record of a tape, where its kind and its length stand, and how many bytes the length takes."""
    at = len(MAGIC)
    while at + 7 <= len(data):
        yield at, at + 3, 4
        at += 7 + int.from_bytes(data[at + 3:at + 7], "big")


def heads_of_frames(data):
    """The same of each frame that a client sends."""
    at = len(PREFACE)
    while at + 9 <= len(data):
        yield at + 3, at, 3
        at += 9 + int.from_bytes(data[at:at + 3], "big")


def heads_of_message(data):
    """The same of a payload, whose tags and lengths may be any of its bytes but the first."""
    return ((at, at, 1) for at in range(1, len(data)))


def changed(chance, data, heads):
    """The bytes after one change."""
    data, way = bytearray(data), chance.randrange(5)
    places = list(heads(data))
    if not data or way > 2 and not places:
        return bytes(data)
    if way == 0:
        return bytes(data[:chance.randrange(len(data))])
    if way == 1:
        start = chance.choice(places)[1] if places and chance.random() < 0.5 else chance.randrange(len(data))
        end = min(len(data), start + chance.choice((1, 2, 9, 64, 1024)))
        return bytes(data[:end] + data[start:])
    if way == 2:
        data[chance.randrange(len(data))] ^= 1 << chance.randrange(8)
        return bytes(data)
    kind, length, count = chance.choice(places)
    if way == 3:
        data[kind] = chance.choice((*range(11), 255))
        return bytes(data)
    old = int.from_bytes(data[length:length + count], "big")
    new = chance.choice((0, 1, old + 1, old - 1, old ^ 1 << chance.randrange(8 * count), chance.randrange(256 ** count)))
    data[length:length + count] = (new % 256 ** count).to_bytes(count, "big")
    return bytes(data)


def changed_some(chance, data, heads):
    for _ in range(chance.randint(1, 3)):
        data = changed(chance, data, heads)
    return data


def changed_tape(chance, tape):
    """A tape whose bytes were changed, or the payload of one of its records, which has its length then."""
    records, _ = read_tape(tape)
    if not records or chance.random() < 0.5:
        return changed_some(chance, tape, heads_of_records)
    place = chance.randrange(len(records))
    payload = changed_some(chance, records[place].payload, heads_of_message)
    return write_tape([*records[:place], records[place]._replace(payload=payload), *records[place + 1:]])


def with_bytes(records, lane, data, piece):
    """The records with these bytes for those that a lane brings, each behind the records before which it first came, in pieces."""
    made, left = [], data
    last = max(place for place, record in enumerate(records) if (record.kind, record.lane) == (PIECE, lane))
    for place, record in enumerate(records):
        if (record.kind, record.lane) != (PIECE, lane):
            made.append(record)
            continue
        part = left if place == last else left[:len(record.payload)]
        left = left[len(part):]
        made += [record._replace(payload=part[at:at + piece]) for at in range(0, len(part), piece)]
    return made


# ---- runs

def answers():
    """The status and the line of each row of a run."""
    told, name = {}, None
    with open(os.path.join(ROWS, "stdout")) as file:
        for line in file:
            parts = line.rstrip("\n").split("\t")
            if len(parts) > 1:
                name = parts[1] if parts[0] == "run" else None
            if name and len(parts) > 1:
                told[name] = int(parts[2].split(" ")[0]), ""
            elif name and line.startswith("! "):
                told[name] = told[name][0], line[2:]
    return told


def rows():
    """Each row of a run: its name, its words, its tape, and whether a read or a write fails."""
    with open(os.path.join(ROWS, "stdin")) as file:
        for line in file:
            if line.startswith("run\t"):
                _, name, words, tape, *failing = line.rstrip("\n").split("\t")
                yield name, words.split(), bytes.fromhex(tape), any(failing)


def valid_runs():
    """The words and the tape of each row of a run in lockstep that ends with status 0."""
    told = answers()
    return [(words, tape) for name, words, tape, failing in rows() if told[name][0] == 0 and "--lockstep" in words and not failing]


class Program:
    """The built program. Its output goes to memory, so that it never waits for this script."""

    def __init__(self, path):
        self.path = path
        self.out, self.err = os.memfd_create("out"), os.memfd_create("err")
        self.runs = 0

    def run(self, words, data, piece):
        """Its status, its report and its line; of its input a read gives one piece."""
        ends, gives = os.pipe2(os.O_DIRECT | os.O_CLOEXEC)
        fcntl.fcntl(gives, fcntl.F_SETPIPE_SZ, 1 << 20)
        for told in (self.out, self.err):
            os.ftruncate(told, 0)
            os.lseek(told, 0, os.SEEK_SET)
        self.runs += 1
        with subprocess.Popen([self.path, *words], stdin=ends, stdout=self.out, stderr=self.err) as process:
            os.close(ends)
            try:
                for at in range(0, len(data), piece):
                    os.write(gives, data[at:at + piece])
            except BrokenPipeError:
                pass
            os.close(gives)
            try:
                status = process.wait(LIMIT)
            except subprocess.TimeoutExpired:
                process.kill()
                status = f"no end in {LIMIT} seconds"
        return status, self.told(self.out), self.told(self.err).decode("utf-8", "replace")

    @staticmethod
    def told(file):
        return os.pread(file, os.fstat(file).st_size, 0)


def frames_of(data):
    """The types of the frames that a server sends, and with what code a GOAWAY came; None where they are not whole."""
    kinds, code, at = [], None, 0
    while at + 9 <= len(data):
        size, kind = int.from_bytes(data[at:at + 3], "big"), data[at + 3]
        kinds.append(kind)
        at += 9 + size
        if kind == GOAWAY and size >= 8:
            code = int.from_bytes(data[at - size + 4:at - size + 8], "big")
    return (kinds, code) if at == len(data) else None


def amiss_in(report, codes):
    """What is wrong with a report, or None; counts how connections ended."""
    lines = report.decode().split("\n")
    if lines[-1] or not lines[-2].startswith("end "):
        return "the report has no end"
    for line in lines:
        words = line.split(" ")
        if words[0] != "sent":
            continue
        sent = frames_of(b"" if words[2] == "-" else bytes.fromhex(words[2]))
        if sent is None or GOAWAY in sent[0][:-1]:
            return f"what is sent on lane {words[1]} is not whole frames with a GOAWAY as the last at most"
        codes["open" if sent[1] is None else f"GOAWAY {sent[1]}"] += 1
    return None


def amiss(program, words, ways, statuses, codes):
    """What is wrong with how the program answers one tape, cut in these ways, each a tape and a piece; None where nothing is."""
    first = None
    for tape, piece in ways:
        wanted = due(tape)
        status, report, line = program.run(words, tape, piece)
        if (status, line) != wanted or status != 0 and report:
            return f"in pieces of {piece}: status {status}, line {line!r}, {len(report)} bytes of report; wanted {wanted}", tape
        if first is None:
            first = report
            statuses[status] += 1
            wrong = amiss_in(report, codes) if status == 0 else None
            if wrong:
                return wrong, tape
        if report != first:
            return f"in pieces of {piece}: another report", tape
    return None


def ways_of_tape(chance, runs):
    words, tape = chance.choice(runs)
    tape = changed_tape(chance, tape)
    return words, [(tape, 1 << 16), *((tape, piece) for piece in PIECES)]


def ways_of_connection(chance, runs):
    words, tape = chance.choice(runs)
    records, _ = read_tape(tape)
    lane = chance.choice(sorted({record.lane for record in records if record.kind == PIECE}))
    sent = b"".join(record.payload for record in records if (record.kind, record.lane) == (PIECE, lane))
    sent = changed_some(chance, sent, heads_of_frames)
    whole, *cut = (write_tape(with_bytes(records, lane, sent, piece)) for piece in (LONGEST_PIECE, *PIECES))
    return words, [(whole, 1 << 16), *((whole, piece) for piece in PIECES), *((tape, 1 << 16) for tape in cut)]


def main():
    asked = argparse.ArgumentParser(description=__doc__, formatter_class=argparse.RawDescriptionHelpFormatter)
    asked.add_argument("--program", default=os.environ.get("P4SWITCH", BUILT), help="the program to run (default: %(default)s)")
    asked.add_argument("--seed", type=int, default=1)
    asked.add_argument("--tapes", type=int, default=10_000)
    asked.add_argument("--connections", type=int, default=10_000)
    asked.add_argument("--longest", type=int, default=1 << 14, metavar="BYTES", help="make none from longer tapes (default: %(default)s)")
    asked.add_argument("--seconds", type=float, default=3600, help="stop after so long, and tell how many were made (default: %(default)s)")
    asked.add_argument("--keep", default="random_bytes.tape", help="where the first tape that fails is written (default: %(default)s)")
    said = asked.parse_args()
    runs = [run for run in valid_runs() if len(run[1]) <= said.longest]
    bring = [any(record.kind == PIECE for record in read_tape(tape)[0]) for _, tape in runs]
    kinds = [("tapes", said.tapes, ways_of_tape, [run for run, brings in zip(runs, bring) if not brings]),
             ("connections", said.connections, ways_of_connection, [run for run, brings in zip(runs, bring) if brings])]
    program, until = Program(said.program), time.monotonic() + said.seconds
    for kind, count, ways_of, some in kinds:
        statuses, codes, made = collections.Counter(), collections.Counter(), 0
        while made < count and time.monotonic() < until:
            chance = random.Random(f"{said.seed} {kind} {made}")
            words, ways = ways_of(chance, some)
            wrong = amiss(program, words, ways, statuses, codes)
            if wrong:
                with open(said.keep, "wb") as file:
                    file.write(wrong[1])
                print(f"number {made} of the {kind} of seed {said.seed} ({' '.join(words)}, kept in {said.keep}): {wrong[0]}")
                return 1
            made += 1
        told = ", ".join(f"{many} {what}" for what, many in [*((f"with status {status}", many) for status, many in sorted(statuses.items())),
                                                            *((f"lanes {code}", many) for code, many in sorted(codes.items()))])
        print(f"{made} of {count} {kind} from {len(some)} valid runs: {told}", flush=True)
    print(f"{program.runs} runs, each as it must be")
    return 0


if __name__ == "__main__":
    sys.exit(main())
