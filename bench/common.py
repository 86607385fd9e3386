"""What several scripts of this folder use: fields of messages, records of tapes, calls for the router, and a program that is timed."""
import os
import subprocess
import sys
import time
from collections.abc import Iterable, Iterator
from typing import Union

TOP = os.path.dirname(os.path.dirname(os.path.abspath(__file__)))
PROGRAMS = os.path.join(TOP, "examples/programs")
LOCKSTEP = ("replay", "--lockstep")

# ---- fields of messages


def varint(value: int) -> bytes:
    out = b""
    while value > 127:
        out += bytes([value & 127 | 128])
        value >>= 7
    return out + bytes([value])


def number_field(number: int, value: int) -> bytes:
    return varint(number << 3) + varint(value)


def bytes_field(number: int, content: bytes) -> bytes:
    """A field that is a text, bytes or a message."""
    return varint(number << 3 | 2) + varint(len(content)) + content


def fields(message: bytes) -> Iterator[tuple[int, Union[int, bytes]]]:
    """The numbers and values of a message's fields, in its order."""
    at = 0

    def take() -> int:
        nonlocal at
        value, shift = 0, 0
        while True:
            byte = message[at]
            at += 1
            value |= (byte & 127) << shift
            shift += 7
            if byte < 128:
                return value

    while at < len(message):
        key, value = take(), take()
        if key & 7 == 2:
            at += value
            yield key >> 3, message[at - value:at]
        else:
            yield key >> 3, value


def nested(message: bytes, *path: int) -> bytes:
    """The first value of a field, in the first value of the field before it, and so on."""
    for wanted in path:
        message = next(value for number, value in fields(message) if number == wanted and isinstance(value, bytes))
    return message


def shortest(value: int) -> bytes:
    """A number in canonical form."""
    return value.to_bytes(max(1, (value.bit_length() + 7) // 8), "big")


# ---- records and tapes

MAGIC = b"P4TAPE1\n"
END, CALL, PACKET, BYTES, MEET = 0, 1, 2, 3, 5
WRITE, READ, SET_PIPELINE, STREAM = b"\x01", b"\x02", b"\x03", b"\x05"
VERIFY, VERIFY_AND_SAVE, VERIFY_AND_COMMIT, COMMIT = 1, 2, 3, 4
INSERT, MODIFY, DELETE = 1, 2, 3


def record(kind: int, lane: int, payload: bytes) -> bytes:
    return bytes([kind]) + lane.to_bytes(2, "big") + len(payload).to_bytes(4, "big") + payload


def tape(records: Iterable[bytes]) -> bytes:
    return MAGIC + b"".join(records) + record(END, 0, b"")


# An arbitration of device 1 with election id 1.
ARBITRATE = record(CALL, 0, STREAM + bytes.fromhex("0a0608011a021001"))
# What a Write begins with: device 1 and election id 1.
WRITES = number_field(1, 1) + bytes_field(3, number_field(2, 1))


def write(updates: Iterable[tuple[int, bytes]], more: bytes = b"", lane: int = 0) -> bytes:
    """A Write of these kinds of updates with their entities, and more fields behind them."""
    body = b"".join(bytes_field(4, number_field(1, kind) + bytes_field(2, entity)) for kind, entity in updates)
    return record(CALL, lane, WRITE + WRITES + body + more)


def put(action: int, config: bytes = b"") -> bytes:
    """A SetForwardingPipelineConfig."""
    given = bytes_field(5, config) if config else b""
    return record(CALL, 0, SET_PIPELINE + number_field(1, 1) + bytes_field(3, number_field(2, 1)) + number_field(4, action) + given)


# ---- the bridge, with its one table


def bridge_entry(address: int, port: int) -> bytes:
    """The entry that sends to a port what comes for an address."""
    action = bytes.fromhex("1a0e0a0c0881808008220510011a01%02x" % port)
    return bytes_field(2, bytes.fromhex("08818080101207080112030a01%02x" % address) + action)


# ---- the router of examples/programs

# A packet of it without its last four bytes, the address of IPv4 that it goes to.
HEAD = bytes([2, 0, 0, 0, 0, 10, 2, 0, 0, 0, 0, 1, 8, 0, 0x45, 0, 0, 20, 0, 0, 0, 0, 64, 1, 0, 0, 10, 0, 0, 1])


def config_of(info: str, program: str) -> bytes:
    """A configuration as bin/p4config makes it."""
    return subprocess.run([os.path.join(TOP, "bin/p4config"), info, program], stdout=subprocess.PIPE, check=True).stdout


def router() -> bytes:
    return config_of(os.path.join(PROGRAMS, "router.p4info.txt"), os.path.join(PROGRAMS, "router.json"))


def first_ids(config: bytes) -> tuple[int, int]:
    """The ids of the router's table and of its action `route`: of the P4Info's first table and action."""
    def first(kind: int) -> int:
        return next(value for number, value in fields(nested(config, 1, kind, 1)) if number == 1 and isinstance(value, int))
    return first(2), first(3)


def route(table: int, action: int, place: int, port: int) -> bytes:
    """The entry of 10.x.y.0/24."""
    match = number_field(1, 1) + bytes_field(4, bytes_field(1, shortest(0x0a000000 + place % 65536 * 256)) + number_field(2, 24))
    params = [number_field(2, 1) + bytes_field(3, shortest(port)), number_field(2, 2) + bytes_field(3, shortest(0x020000000001))]
    call = number_field(1, action) + b"".join(bytes_field(4, param) for param in params)
    return bytes_field(2, number_field(1, table) + bytes_field(2, match) + bytes_field(3, bytes_field(1, call)))


def routes(config: bytes, count: int) -> bytes:
    """A Write that inserts so many routes."""
    ids = first_ids(config)
    return write([(INSERT, route(*ids, place, 1 + place % 8)) for place in range(count)])


# ---- programs that are timed


def built(crate: str) -> str:
    """The built program of a crate."""
    return os.path.join(TOP, "crates", crate, "out", crate)


def program_given(crate: str) -> tuple[str, list[str]]:
    """The program that the script's first word names, or else the built one of a crate; and the words behind it."""
    words = sys.argv[1:]
    if words and not words[0].isdigit():
        return words[0], words[1:]
    return built(crate), words


def peak_of(process: int) -> int:
    """The peak of a process's own memory so far, in kB. What wait4 tells counts this script's memory too, from before it began."""
    try:
        with open(f"/proc/{process}/status", encoding="ascii") as told:
            return max((int(line.split()[1]) for line in told if line.startswith("VmHWM:")), default=0)
    except FileNotFoundError:
        return 0


def run(program: str, data: bytes, words: Iterable[str] = LOCKSTEP) -> tuple[float, int, int]:
    """What a run takes in seconds, how it ends, and the peak of its memory in kB."""
    before = time.monotonic()
    with subprocess.Popen([program, *words], stdin=subprocess.PIPE, stdout=subprocess.DEVNULL, stderr=subprocess.DEVNULL) as child:
        assert child.stdin
        child.stdin.write(data)
        child.stdin.close()
        peak = 0
        while (status := child.poll()) is None:
            peak = max(peak, peak_of(child.pid))
            time.sleep(0.0005)
    return time.monotonic() - before, status, peak


def least(program: str, data: bytes, times: int = 5, words: Iterable[str] = LOCKSTEP) -> tuple[float, int]:
    """The least time and the greatest peak of several runs."""
    seconds, peaks = 1e9, 0
    for _ in range(times):
        took, status, peak = run(program, data, words)
        if status:
            sys.exit(f"{program}: status {status}")
        seconds, peaks = min(seconds, took), max(peaks, peak)
    return seconds, peaks
