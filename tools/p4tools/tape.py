"""Tapes as bytes: records read and written, and the grammar that they keep."""
from typing import NamedTuple

from p4tools.trouble import Trouble

MAGIC = b"P4TAPE1\n"
END, CALL, PACKET, PIECE, LEAVE, MEET = range(6)
METHODS = {1: "write", 2: "read", 3: "set", 4: "get", 5: "stream", 6: "capabilities"}
METHOD_NUMBERS = {word: number for number, word in METHODS.items()}
LONGEST_PACKET, LAST_PORT = 9216, 510
LONGEST_MESSAGE = 8 << 20
LONGEST_PIECE = 65536
RECORDS, TAPE_BYTES = 1_000_000, 64 << 20


class Record(NamedTuple):
    """One record: its kind, its lane and its payload."""
    kind: int
    lane: int
    payload: bytes

    def method(self):
        """The method of a call, in words."""
        return METHODS[self.payload[0]]

    def message(self):
        """The message of a call."""
        return self.payload[1:]

    def port(self):
        """The port at which a packet enters."""
        return int.from_bytes(self.payload[:2], "big")

    def packet(self):
        """The bytes of a packet."""
        return self.payload[2:]

    def met(self):
        """The controller lane and the number of the call that a meet names."""
        return int.from_bytes(self.payload[:2], "big"), int.from_bytes(self.payload[2:], "big")


def write_record(record):
    """The bytes of a record."""
    head = bytes([record.kind]) + record.lane.to_bytes(2, "big") + len(record.payload).to_bytes(4, "big")
    return head + record.payload


def write_tape(records):
    """The bytes of a tape."""
    return MAGIC + b"".join(map(write_record, records)) + write_record(Record(END, 0, b""))


def read_tape(data):
    """The records of a tape without its end record, and what is wrong with the bytes, or None."""
    records, at = [], len(MAGIC)
    if data[:at] != MAGIC:
        return records, "the bytes do not begin with P4TAPE1 and a line feed: this is no tape"
    lanes = Lanes()
    while True:
        length = int.from_bytes(data[at + 3:at + 7], "big")
        if at + 7 + length > len(data) or at + 7 > len(data):
            return records, f"the tape breaks off in the record at byte {at}"
        record = Record(data[at], int.from_bytes(data[at + 1:at + 3], "big"), data[at + 7:at + 7 + length])
        if record.kind == END:
            return records, _wrong_end(record, len(data) - at - 7 - length)
        try:
            lanes.take(record)
        except Trouble as trouble:
            return records, f"the record at byte {at}: {trouble}"
        records.append(record)
        at += 7 + length


def _wrong_end(record, behind):
    """What is wrong with an end record behind which so many bytes stand, or None."""
    if record.lane or record.payload:
        return f"the end record has {'a lane' if record.lane else 'a payload'}, and takes none"
    return f"{behind} bytes stand behind the end record" if behind else None


class Lanes:
    """What the controller lanes have done so far, by which a record may follow or not."""

    def __init__(self):
        self.calls, self.of_bytes, self.left = {}, set(), set()
        self.records, self.bytes = 0, len(MAGIC) + 7

    def take(self, record):
        """Refuses a record with which no tape goes on, and notes it."""
        self.records += 1
        self.bytes += 7 + len(record.payload)
        if self.records > RECORDS or self.bytes > TAPE_BYTES:
            raise Trouble("a tape has at most 1,000,000 records and 67,108,864 bytes; split the run")
        if record.kind in (PACKET, MEET):
            self._take_of_worker(record)
        elif record.kind in (CALL, PIECE, LEAVE):
            self._take_of_controller(record)
        else:
            raise Trouble(f"there is no record of kind {record.kind}")

    def _take_of_worker(self, record):
        if record.lane > 15:
            raise Trouble(f"there is no worker lane w{record.lane}; they are w0 to w15")
        if record.kind == PACKET and (len(record.payload) < 2 or record.port() > LAST_PORT):
            raise Trouble("a packet enters at a port from 0 to 510")
        if record.kind == PACKET and len(record.packet()) > LONGEST_PACKET:
            raise Trouble("a packet has at most 9,216 bytes")
        if record.kind == MEET:
            lane, call = record.met()
            if len(record.payload) != 6 or not 1 <= call <= self.calls.get(lane, 0):
                raise Trouble(f"c{lane} has {self.calls.get(lane, 0)} calls before this line, "
                              f"so call {call} can't be met here")

    def _take_of_controller(self, record):
        lane = record.lane
        if lane > 31:
            raise Trouble(f"there is no controller lane c{lane}; they are c0 to c31")
        if record.kind == PIECE:
            if not 1 <= len(record.payload) <= LONGEST_PIECE:
                raise Trouble("a piece of a transport has 1 to 65,536 bytes")
            if self.calls.get(lane) or lane in self.left:
                raise Trouble(f"c{lane} has calls, so it can't hold the bytes of a transport too")
            self.of_bytes.add(lane)
            return
        if record.kind == CALL:
            if not record.payload or record.payload[0] not in METHODS:
                raise Trouble("a call has a method from 1 to 6")
            if len(record.payload) > LONGEST_MESSAGE + 1:
                raise Trouble("a message has at most 8,388,608 bytes")
            if lane in self.of_bytes:
                raise Trouble(f"c{lane} holds the bytes of a transport, so it can't have calls too")
        if record.kind == LEAVE and record.payload:
            raise Trouble("a leave has no payload")
        if record.kind == LEAVE and lane in self.of_bytes & self.left:
            raise Trouble(f"c{lane} holds the bytes of a transport, and it has ended already")
        self.left |= {lane} if record.kind == LEAVE else set()
        self.calls[lane] = self.calls.get(lane, 0) + 1
