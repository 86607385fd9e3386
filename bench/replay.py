#!/usr/bin/env python3
"""replay.py [PROGRAM] [N ...]

Times `PROGRAM replay --lockstep --bridge` over tapes of N packets and N / 100 INSERT calls (default:
the built program, and 10000, 100000 and 999000 records) and prints packets a second, calls a second and
peak memory, and each run's time for a packet as a ratio of the first run's. A second line is the reading
alone: the same tape with a byte behind its end, which is refused when it was read, and its peak memory beside
four times the tape's bytes and 128 bytes a record. A tape has at most 1,000,000 records. Times are of this machine and of this moment; a figure to quote is a ratio of two runs on one machine.
"""
import resource

from common import INSERT, LOCKSTEP, PACKET, bridge_entry, program_given, record, run, tape, write

BRIDGE = (*LOCKSTEP, "--bridge")


def frame(address):
    return bytes.fromhex("0000000000%02x0000000000010800" % address) + b"\x00" * 30


def mixed(records):
    """How many packets and calls a tape of so many records has, and its bytes."""
    calls = max(records // 100, 1)
    out = []
    for i in range(records - calls):
        if i % 99 == 0 and i // 99 < calls:
            out.append(write([(INSERT, bridge_entry(i // 99 % 256, i // 99 % 255))]))
        out.append(record(PACKET, i % 16, (1).to_bytes(2, "big") + frame(i % 8)))
    return records - calls, calls, tape(out)


def main():
    program, words = program_given("p4switch")
    first = None
    for n in [int(w) for w in words] or [10000, 100000, 999000]:
        packets, calls, data = mixed(n)
        seconds, status, peak = run(program, data, BRIDGE)
        each = seconds / packets
        first = first or each
        print("%d packets, %d calls, tape of %.1f MB: status %d, %.2f s, %.0f packets/s, %.0f calls/s, peak %.0f MB, "
              "%.2f times the first run's time a packet"
              % (packets, calls, len(data) / 1e6, status, seconds, packets / seconds, calls / seconds, peak / 1024, each / first), flush=True)
        seconds, status, peak = run(program, data + b"\x00", BRIDGE)
        print("  reading alone: status %d, %.2f s, peak %.0f MB of %.0f MB"
              % (status, seconds, peak / 1024, (4 * len(data) + 128 * n) / 2**20), flush=True)


if __name__ == "__main__":
    resource.setrlimit(resource.RLIMIT_CORE, (0, 0))
    main()
