#!/usr/bin/env python3
"""lanes.py [PROGRAM] [N]

Times `PROGRAM replay --lockstep --bridge` (default: the built program) over N unary Writes (10,000) that a gRPC client
sends on one lane as the bytes of its HTTP/2 connection, beside the same Writes as records of calls. Each Write changes
the one entry of the bridge. The client's bytes stand on the tape in pieces of 65,536, of 1,000 and of 100 bytes. Printed is the
time a call, the ratio to a record's, and the ratio of N calls to a tenth of them, which stays near 1 while a call's cost
does not grow with the calls before it. Of each time the least of three runs counts; times are of this machine, ratios of
one run.
"""

from clients import frames
from common import (BYTES, CALL, INSERT, LOCKSTEP, MODIFY, WRITE, WRITES, bridge_entry, bytes_field, least, number_field, program_given,
                    record, tape)

METHOD = "/p4.v1.P4Runtime/Write"


def message(i):
    """A Write that makes the one entry of the bridge, or gives it another port."""
    update = number_field(1, MODIFY if i else INSERT) + bytes_field(2, bridge_entry(2, i % 200))
    return WRITES + bytes_field(4, update)


def opening():
    """What a client sends before its first call: the preface, SETTINGS, and a window that holds all answers."""
    return frames.PREFACE + frames.settings() + frames.window_update(0, frames.LARGEST_WINDOW - frames.FIRST_WINDOW)


def unary(i):
    """The frames of one call on a stream of its own."""
    stream = 2 * i + 1
    head = frames.frame(frames.HEADERS, frames.END_HEADERS, stream, frames.header_block(frames.call_headers(METHOD)))
    return head + frames.frame(frames.DATA, frames.END_STREAM, stream, frames.grpc_message(message(i)))


def of_bytes(count, size):
    data = opening() + b"".join(unary(i) for i in range(count))
    return tape(record(BYTES, 0, data[at : at + size]) for at in range(0, len(data), size))


def of_records(count):
    return tape(record(CALL, 0, WRITE + message(i)) for i in range(count))


def timed(program, data):
    return least(program, data, 3, (*LOCKSTEP, "--bridge"))


def main():
    program, words = program_given("p4switch")
    count = int(words[0]) if words else 10000
    few = max(count // 10, 1)
    empty, _ = timed(program, tape([]))
    first = None
    makes = [("records of calls", of_records)]
    makes += [("bytes in pieces of %d" % size, lambda n, size=size: of_bytes(n, size)) for size in (65536, 1000, 100)]
    for name, make in makes:
        seconds, peak = timed(program, make(count))
        short, _ = timed(program, make(few))
        each = (seconds - empty) / count
        first = first or each
        growth = each / max((short - empty) / few, 1e-9)
        print("%s: %.1f us a call, %.2f times a record, %.2f times that of %d calls, peak %d KiB" % (name, each * 1e6, each / first, growth, few, peak))


if __name__ == "__main__":
    main()
