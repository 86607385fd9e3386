#!/usr/bin/env python3
"""limit_tapes.py [PROGRAM]

Gives a built p4switch (that of crates/p4switch, or PROGRAM) tapes at the limits of a tape, holds it to what must be answered, and says
how long each took. A tape is made of a front, a record that comes so often, and a back, so that none of 64 MiB is stored. What must be
answered is computed here from the lengths alone: of a bad byte and a limit the first in the order of the bytes.
"""
import os
import subprocess
import sys
import time

from p4tools.tape import END, LONGEST_PACKET, MAGIC, PACKET, RECORDS, TAPE_BYTES, Record, write_record

BUILT = os.path.join(os.path.dirname(os.path.abspath(__file__)), "../crates/p4switch/out/p4switch")
BY_BRIDGE = "replay --lockstep --bridge"
# A Write of the bridge's entry of the address 2, which sends to port 2.
INSERT = bytes.fromhex("010000" "0000002d" "01" "08011a02100122240801" "1220121e08818080101207080112030a01021a0e0a0c0881808008220510011a0102")
BRIDGE_TABLE = 0x02000001
ETHERNET = bytes.fromhex("000000000002" "000000000001" "0800")
END_RECORD = write_record(Record(END, 0, b""))
# As many bytes as go into a row well, and few enough records.
LONG_RECORD = 1024


def packet(size):
    """A record of a packet of zeros that takes this many bytes of the tape."""
    return write_record(Record(PACKET, 0, bytes(size - 7)))


def of_length(size):
    """A front, a record and its count that take this many bytes of the tape."""
    count, first = divmod(size - len(MAGIC) - 9, LONG_RECORD)
    return MAGIC + packet(first + 9), packet(LONG_RECORD), count


def too_long():
    return 6, "! p4switch: tape too long"


def no_tape(place):
    return 1, f"! p4switch: not a tape after {place} bytes"


def tapes():
    """Each tape's name, its front, its record, the count and the back, and what is answered."""
    least = packet(9)
    behind = len(MAGIC) + RECORDS * len(least)
    yield "a-record-too-many", (MAGIC, least, RECORDS + 1, END_RECORD), too_long()
    yield "unknown-kind-behind-all-records", (MAGIC, least, RECORDS, b"\x06"), no_tape(behind)
    yield "cut-record-behind-all-records", (MAGIC, least, RECORDS, b"\x02"), too_long()
    yield "a-byte-too-many", (*of_length(TAPE_BYTES + 1), b""), too_long()
    yield "bad-byte-past-all-bytes", (*of_length(TAPE_BYTES), b"\x06"), too_long()
    # A byte more than a tape may have, so that both a bad place and the limit are there.
    yield "bad-byte-among-all-bytes", (*of_length(TAPE_BYTES - 1), b"\x06\x00"), no_tape(TAPE_BYTES - 1)
    payload = bytes(LONGEST_PACKET - len(ETHERNET))
    head = bytes([PACKET, 0, 0]) + (LONGEST_PACKET + 2).to_bytes(4, "big") + b"\x00\x01"
    lines = ["step 1 0 1 change 1", "reply 0 1 1 0 .",
             f"packet w0 1 1 sent 2:{(ETHERNET + payload).hex()} - - {BRIDGE_TABLE}:1", "end 1 1"]
    told = "\n".join("> " + line for line in lines)
    yield "longest-packet", (MAGIC + INSERT + head + ETHERNET, b"\x00", len(payload), END_RECORD), (0, told)


def holds(program, tape, status, told):
    """Whether a built program answers a tape so."""
    ran = subprocess.run([program, *BY_BRIDGE.split()], input=tape, capture_output=True, check=False)
    lines = ["> " + line for line in ran.stdout.decode().splitlines()] + ["! " + line for line in ran.stderr.decode().splitlines()]
    return (ran.returncode, "\n".join(lines)) == (status, told)


def main(program):
    """Runs each tape; 1 where one is answered otherwise."""
    failed = 0
    for name, (front, record, count, back), (status, told) in tapes():
        start = time.monotonic()
        passed = holds(program, front + record * count + back, status, told)
        failed |= not passed
        print(f"{name}: {'as it must be' if passed else 'NOT AS IT MUST BE'}, {time.monotonic() - start:.1f} s", flush=True)
    return failed


if __name__ == "__main__":
    if len(sys.argv) > 2 or "--help" in sys.argv:
        sys.exit(__doc__)
    sys.exit(main(sys.argv[1] if len(sys.argv) == 2 else BUILT))
