#!/usr/bin/env python3
"""fault_rows.py stdin|stdout [all]

Prints rows of crates/switch_rows in which one call fails, at each place in turn, and rows of tapes at the limits of a tape; or what is
to be answered to them. With "all" the rows that take minutes are among them, which the crate does not hold. It is computed here, over nothing of the switch, from lengths: how many reads give what is read, how many pieces
make up what is written, and which byte of a connection completes which call.

The client of the cut connections opens a stream channel, becomes the primary of role 0 by the election id 2 and inserts three entries
of the bridge by one Write. Lane 0 was the primary by the id 1 before it. A second client that sends the same follows on its lane.
"""
import os
import sys

from packet_rows import num, raw

HERE = os.path.dirname(os.path.abspath(__file__))
sys.path.insert(0, os.path.dirname(HERE))
import limit_tapes

DATA = os.path.join(HERE, "../../crates/program_rows/data")
ONE_ENTRY = os.path.join(HERE, "../../examples/one-entry-one-packet.tape")
PIECE = 64
IN_LOCKSTEP, FREE = "replay --lockstep --bridge", "replay --bridge"


def content(path):
    with open(path, "rb") as file:
        return file.read()


def config_of(name):
    """The configuration of a program of crates/program_rows."""
    return raw(1, content(f"{DATA}/{name}.info")) + raw(2, content(f"{DATA}/{name}.json"))


def pieces_in(size, piece):
    return -(-size // piece)


def in_turn(answers):
    """Answers with how often each came, of which the same ones in a row are told once."""
    return [line for times, first, *more in answers if times for line in (f"{times} times {first}", *more)]


# ---- the program's reads and writes

ONE_ENTRY_REPORT = [
    "step 1 0 1 change 1", "reply 0 1 1 0 .", "packet w0 1 1 sent 2:0000000000020000000000010800 - - 33554433:1", "packet w0 2 1 drop1 - - - -", "end 1 2"]


def reads(name, words, piece, data, report, whole=True):
    """Each read up to the one that tells the end fails; then none does, if what comes of that is always the same."""
    failing = pieces_in(len(data), piece) + 1
    asked = f"reads-in-turn\t{name}\t{words}\t{piece}\t{failing + whole}\t{data.hex()}"
    return asked, in_turn([(failing, "4", "! p4switch: read fault"), (int(whole), "0", *("> " + line for line in report))])


def writes(name, words, data, status, report):
    """Each piece of the report fails; then none does."""
    failing = pieces_in(sum(len(line) + 1 for line in report), PIECE)
    asked = f"pieces-in-turn\t{name}\t{words}\t{failing + 1}\t{data.hex()}"
    return asked, in_turn([(failing, "5 cut there", "! p4switch: write fault"), (1, f"{status} whole")])


def calls_in_turn(whole):
    tape, router = content(ONE_ENTRY), config_of("router")
    for piece in (7, 1):
        yield reads(f"one entry, by {piece}", IN_LOCKSTEP, piece, tape, ONE_ENTRY_REPORT)
        yield reads(f"one entry, free, by {piece}", FREE, piece, tape, [], False)
        if whole:
            yield reads(f"a router that is checked, by {piece}", "check", piece, router, ["ok"])
    yield reads("a bridge that is checked, by 7", "check", 7, config_of("bridge"), ["ok"])
    yield writes("one entry", IN_LOCKSTEP, tape, 0, ONE_ENTRY_REPORT)
    yield writes("a bridge that is checked", "check", config_of("bridge"), 0, ["ok"])
    yield writes("a refused configuration", "check", raw(2, b"{}"), 8, ["refused I1"])


# ---- connections

PREFACE = b"PRI * HTTP/2.0\r\n\r\nSM\r\n\r\n"
DATA_FRAME, HEADERS_FRAME, SETTINGS_FRAME = 0, 1, 4
END_STREAM, END_HEADERS = 1, 4
INSERTED = (2, 3, 4)
ARBITRATE, READ = "call 0 stream " + raw(1, num(1, 1) + raw(3, num(2, 1))).hex(), "call 2 read 080112021200"
ONE_BY_ONE, ATOMIC = 0, 2
NOT_FOUND, ALREADY_EXISTS = 5, 6
# No worker, the bridge, and few slots of counters, since there are many desks.
DESK = "0 bridge 1024"


def frame(kind, flags, stream, payload):
    return len(payload).to_bytes(3, "big") + bytes([kind, flags]) + stream.to_bytes(4, "big") + payload


def headers(stream, method):
    """A call's headers: POST and http of the static table, and literals that no table takes."""
    path, grpc = b"/p4.v1.P4Runtime/" + method, b"application/grpc"
    return frame(HEADERS_FRAME, END_HEADERS, stream, b"\x83\x86\x04" + bytes([len(path)]) + path + b"\x0f\x10" + bytes([len(grpc)]) + grpc)


def message(stream, flags, content):
    return frame(DATA_FRAME, flags, stream, b"\x00" + len(content).to_bytes(4, "big") + content)


def entry(address):
    """The bridge's entry of an address of one byte, which sends to the port of that number."""
    match = raw(2, num(1, 1) + raw(2, raw(1, bytes([address]))))
    return num(1, 0x02000001) + match + raw(3, raw(1, num(1, 0x01000001) + raw(4, num(2, 1) + raw(3, bytes([address])))))


def client(atomicity):
    """What a client sends up to the end of its arbitration, and then."""
    arbitration = raw(1, num(1, 1) + raw(3, num(2, 2)))
    updates = b"".join(raw(4, num(1, 1) + raw(2, raw(2, entry(address)))) for address in INSERTED)
    write = num(1, 1) + raw(3, num(2, 2)) + updates + num(5, atomicity)
    return (PREFACE + frame(SETTINGS_FRAME, 0, 0, b"") + headers(1, b"StreamChannel") + message(1, 0, arbitration),
            headers(3, b"Write") + message(3, END_STREAM, write))


def notice(code):
    """Who is primary of role 0, told with this code: the device, the election id 2 and the status."""
    return raw(1, num(1, 1) + raw(3, num(2, 2)) + raw(4, num(1, code))).hex()


class Desk:
    """The steps of a desk, how many entries it has, and what waits for lane 0, each with the step that made it."""

    def __init__(self):
        self.steps, self.entries, self.waits, self.known = 1, 0, [], 1

    def step(self, told=None):
        self.steps += 1
        if told:
            self.waits.append((notice(told), self.steps))

    def link(self, made, atomicity):
        """A connection of which this much is made: nothing, the arbitration, or the Write too."""
        if made == "nothing":
            return
        self.step(ALREADY_EXISTS)
        if made == "all" and not self.entries:
            for _ in INSERTED[:1] if atomicity == ATOMIC else INSERTED:
                self.step()
            self.entries = len(INSERTED)
        self.step(NOT_FOUND)

    def told(self):
        """What lane 2 reads and then knows, and what lane 0 is given when it asks three times."""
        read = b"".join(raw(1, raw(2, entry(address))) for address in INSERTED[:self.entries]).hex()
        yield f"> code 0 message {read or '.'}"
        yield f"> nothing knows {self.steps}"
        for _ in range(3):
            shown, self.known = self.waits.pop(0) if self.waits else ("", self.known)
            yield f"> {'message ' + shown if shown else 'nothing'} knows {self.known}"


def cut(made, end, atomicity):
    """The answers at a desk whose first connection ends so when this much is made."""
    desk = Desk()
    lines = ["open", "> code 0 notice 0 0a0808011a0210012200", "> " + end]
    desk.link(made, atomicity)
    lines += desk.told()
    lines.append("> closed")
    desk.link("all", atomicity)
    return lines + [*desk.told(), f"> end {desk.steps}"]


def cuts(way, atomicity):
    """A client cut at each place in this way."""
    first, then = client(atomicity)
    sent, at_end = first + then, "closed" if way == "end" else "fault"
    # Its pushes: the settings, their acknowledgement, the answer to the arbitration, and that to the Write. Then none is left to fail.
    made = {"push": [(2, "nothing", "fault"), (1, "arbitration", "fault"), (1, "all", "fault"), (1, "all", "closed")]}.get(
        way, [(len(first), "nothing", at_end), (len(then), "arbitration", at_end), (1, "all", at_end)])
    told = [READ, "next 2 0", *["next 0 0"] * 3]
    steps = [ARBITRATE, "link 1 CLIENT CUT", *told, "link 1 CLIENT", *told]
    kind = "atomic" if atomicity == ATOMIC else "one by one"
    number = sum(times for times, _, _ in made)
    asked = "\t".join(["cuts", f"{kind}, {way}", DESK, sent.hex(), way, str(number), *steps])
    return asked, in_turn([(times, *cut(what, end, atomicity)) for times, what, end in made])


# ---- tapes at the limits

def at_limits(whole):
    for name, (front, record, count, back), (status, told) in limit_tapes.tapes():
        if not whole and name != "longest-packet":
            continue
        asked = f"repeated\t{name}\t{limit_tapes.BY_BRIDGE}\t{front.hex()}\t{record.hex()}\t{count}\t{back.hex()}"
        yield asked, [str(status), *told.split("\n")]


def tables(whole):
    """The remark over each table, and its rows with their answers."""
    ways = ("end", "fault", "push") if whole else ("push",)
    yield "A call of the program that fails, at each place in turn (tools/rows/fault_rows.py).", list(calls_in_turn(whole))
    yield "A connection that is cut at each place in turn.", [cuts(way, atomicity) for atomicity in (ONE_BY_ONE, ATOMIC) for way in ways]
    yield "A tape that is made while it is read.", list(at_limits(whole))


def lines_of(which, whole):
    for remark, rows in tables(whole):
        if which == "stdin":
            yield "# " + remark
        for asked, (first, *more) in rows:
            kind, name = asked.split("\t")[:2]
            in_line = kind == "repeated"
            yield from [asked] if which == "stdin" else [f"{kind}\t{name}\t{first}" if in_line else f"{kind}\t{name}\t", *([] if in_line else [first]), *more]


def main():
    which, *more = sys.argv[1:] or [""]
    if which not in ("stdin", "stdout") or more not in ([], ["all"]):
        sys.exit(__doc__)
    print("\n".join(lines_of(which, bool(more))))


if __name__ == "__main__":
    main()
