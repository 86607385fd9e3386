#!/usr/bin/python3
"""front.py PORT [--writes N]

What a call costs through bin/p4front, before a switch that serves at 127.0.0.1:PORT: so many Writes, 10,000 without
--writes, one at a time and then 16 at a time, to the switch itself, through a front door that changes nothing, with TLS
and certificates, with device ids, words and a log, and with a tape. It prints for each how many Writes were made a
second, by how much a Write took longer than at the switch itself, and the processor time that the front door took for
one. It ends with status 1 where a Write was not done, or where the tape has not all of them.
"""
import argparse
import contextlib
import os
import sys
import tempfile
import time

import p4client
from p4client import INSERT, MODIFY, Controller, Difference, Program, call_out, expect, expect_arbitration, fresh_election
from serving import processor_seconds

from front_stand_in import Door, make_certificates  # (p4client has put its folder on the path)
from p4tools import tape

ROUTE = "ipv4_lpm dst=10.1.0.0/16 route(port={}, mac=02:00:00:00:00:03)"
AT_A_TIME = 16


class Cost:
    """Writes to one port, and what they took."""

    def __init__(self, program, port, count):
        self.program, self.count = program, count
        self.controller = Controller(port)
        self.controller.open()
        election = fresh_election()
        expect_arbitration("arbitration", self.controller.arbitrate(election), election, "OK")
        self.requests = [self.controller.write_request([program.update(MODIFY, ROUTE.format(1 + it % 8))])
                         for it in range(count)]

    def one_at_a_time(self):
        """Seconds for a Write."""
        write = self.controller.stub("Write", p4client.p4.WriteResponse)
        begun = time.monotonic()
        for request in self.requests:
            write(request, timeout=p4client.PATIENCE)
        return (time.monotonic() - begun) / self.count

    def side_by_side(self):
        """Seconds for a Write, of several at a time."""
        write = self.controller.stub("Write", p4client.p4.WriteResponse)
        begun, waiting = time.monotonic(), []
        for request in self.requests:
            if len(waiting) == AT_A_TIME:
                waiting.pop(0).result()
            waiting.append(write.future(request, timeout=p4client.PATIENCE))
        for it in waiting:
            it.result()
        return (time.monotonic() - begun) / self.count

    def close(self):
        """The last Write is there, and the stream ends."""
        expect("entries", self.controller.read(self.program.entity("ipv4_lpm")),
               [self.requests[-1].updates[0].entity])
        expect("the end of the stream", self.controller.end_stream(), "OK")
        self.controller.close()


def begin(port, program):
    """The program, and the entry that is written."""
    first = Controller(port)
    first.take_charge(program)
    first.write([program.update(INSERT, ROUTE.format(1))])
    expect("the end of the stream", first.end_stream(), "OK")
    first.close()


@contextlib.contextmanager
def certificates(folder):
    """TLS for the clients, meanwhile."""
    os.environ["CERTIFICATES"] = folder
    try:
        yield
    finally:
        del os.environ["CERTIFICATES"]


def measure(what, program, port, count, door=None, direct=None):
    """Tells what Writes take, and gives it: seconds one at a time, and side by side."""
    before = processor_seconds(door.process.pid) if door else 0
    cost = Cost(program, port, count)
    took = cost.one_at_a_time(), cost.side_by_side()
    cost.close()
    rates = " and ".join(f"{1 / it:,.0f}" for it in took)
    line = f"{what}: {rates} Writes a second, one and {AT_A_TIME} at a time"
    if door:
        more = " and ".join(f"{1e6 * (it - there):,.0f}" for it, there in zip(took, direct))
        used = (processor_seconds(door.process.pid) - before) / (2 * count)
        line += f"; {more} us more for each, {1e6 * used:,.0f} us of a processor"
    call_out(line)
    return took


def check_tape(file, count):
    """The tape has each Write."""
    with open(file, "rb") as it:
        records, wrong = tape.read_tape(it.read())
    expect("what is wrong with the tape", wrong, None)
    expect("Writes on the tape", sum(it.kind == tape.CALL and it.method() == "write" for it in records), 2 * count)
    call_out(f"the tape has all of its {2 * count:,} Writes")


def run(given):
    program = Program("router")
    begin(given.port, program)
    direct = measure("at the switch", program, given.port, given.writes)
    with tempfile.TemporaryDirectory() as folder:
        make_certificates(folder)
        files = [os.path.join(folder, it) for it in ("front.pem", "front.key", "ca.pem", "it.log", "it.tape")]
        tls = ["--cert", files[0], "--key", files[1], "--client-ca", files[2]]
        for what, words in (("through p4front", []), ("with TLS", tls),
                            ("with TLS, --map, --words and --log", [*tls, "--map", "0=1", "--words", "--log", files[3]]),
                            ("with --record", ["--record", files[4]])):
            door = Door(given.port, *words)
            try:
                with certificates(folder) if tls[0] in words else contextlib.nullcontext():
                    measure(what, program, door.port, given.writes, door, direct)
            finally:
                expect("status of p4front", door.close(), 0)
        check_tape(files[4], given.writes)


def main():
    words = argparse.ArgumentParser(description=__doc__, formatter_class=argparse.RawDescriptionHelpFormatter)
    words.add_argument("port", type=int)
    words.add_argument("--writes", type=int, default=10_000)
    try:
        run(words.parse_args())
    except (Difference, p4client.grpc.RpcError, OSError) as difference:
        sys.exit(f"front.py: {difference}")


if __name__ == "__main__":
    main()
