#!/usr/bin/env python3
"""calls.py [PROGRAM] [N ...]

Times `PROGRAM replay --lockstep --bridge` over tapes of N calls (default: the built program, and 1,000 and
10,000 calls). One tape goes round INSERT, MODIFY and DELETE of one entry, the other has a Read of the table's
four entries in each call. A third has one Write of 4,096 updates in nearly 8 MiB. It prints calls a second, and each run's time for a call as a ratio of the first
run's, which stays near 1 while a call's cost does not grow with the calls before it. Times are of this machine
and of this moment; a figure to quote is a ratio of two runs on one machine.
"""

from common import CALL, LOCKSTEP, MODIFY, READ, bridge_entry, bytes_field, number_field, program_given, record, run, tape, write

BRIDGE = (*LOCKSTEP, "--bridge")
TABLE = bytes.fromhex("0881808010")


def one_write(kind, address, port):
    return write([(kind, bridge_entry(address, port))])


def one_read():
    """A Read of all entries of the bridge."""
    return record(CALL, 0, READ + number_field(1, 1) + bytes_field(2, bytes_field(2, TABLE)))


def writes(count):
    return tape(one_write(1 + i % 3, 2, i % 200) for i in range(count))


def reads(count):
    four = [one_write(1, address, 2) for address in range(1, 5)]
    return tape(four + [one_read()] * (count - 4))


def large_write():
    """One Write of 8 MiB: 4,096 MODIFYs of an entry that is not there, its address behind many zeros."""
    value = b"\x00" * 2000 + b"\x02"
    match = bytes_field(2, b"\x08\x01" + bytes_field(2, bytes_field(1, value)))
    entry = bytes_field(2, TABLE + match + bytes.fromhex("1a0e0a0c0881808008220510011a0102"))
    return tape([write([(MODIFY, entry)] * 4096)])


def main():
    program, words = program_given("p4switch")
    for name, make in (("writes", writes), ("reads", reads)):
        first = None
        for count in [int(w) for w in words] or [1000, 10000]:
            seconds, status, peak = run(program, make(count), BRIDGE)
            each = seconds / count
            first = first or each
            print("%s: %d calls, status %d, %.0f calls a second, ratio %.2f, peak %d KiB"
                  % (name, count, status, count / seconds, each / first, peak))
    data = large_write()
    seconds, status, peak = run(program, data, BRIDGE)
    print("one Write of 4,096 updates: %d bytes, status %d, %.3f s, peak %d KiB" % (len(data), status, seconds, peak))


if __name__ == "__main__":
    main()
