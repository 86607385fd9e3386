#!/usr/bin/env python3
"""packets.py [PROGRAM] [N]

Times `PROGRAM replay --lockstep` (default: the built program) over N packets of 34 bytes (default: 999,000) through the
router of examples/programs with four routes, and through the built-in bridge with four entries, and prints the time a
packet, less that of the same tape with a tenth of the packets, the router's beside the bridge's, and the peak memory
beside the tape's bytes. A tape has at most 1,000,000 records. The time a packet has the reading of the tape and its line of the report in it, which are about the same
in both. Times and memory are of this machine; the ratio is what to quote.
"""

from common import (ARBITRATE, HEAD, INSERT, LOCKSTEP, PACKET, VERIFY_AND_COMMIT, bridge_entry, program_given, put, record, router,
                    routes, run, tape, write)


def routed(count):
    """Packets to the four routes in turn."""
    return [record(PACKET, i % 16, b"\x00\x01" + HEAD + bytes([10, 0, i % 4, 1])) for i in range(count)]


def bridged(count):
    """Packets to the four addresses in turn."""
    return [record(PACKET, i % 16, b"\x00\x01" + bytes([0, 0, 0, 0, 0, 2 + i % 4]) + HEAD[6:] + bytes(4)) for i in range(count)]


def main():
    program, words = program_given("p4switch")
    count = int(words[0]) if words else 999000
    config = router()
    kinds = [("router", [ARBITRATE, put(VERIFY_AND_COMMIT, config), routes(config, 4)], routed, LOCKSTEP),
             ("bridge", [write([(INSERT, bridge_entry(address, 2))]) for address in range(2, 6)], bridged, (*LOCKSTEP, "--bridge"))]
    each = {}
    for name, calls, packets, asked in kinds:
        few, status, _ = run(program, tape(calls + packets(count // 10)), asked)
        data = tape(calls + packets(count))
        all_of_them, status_of_all, peak = run(program, data, asked)
        each[name] = (all_of_them - few) / (count - count // 10)
        print("%s: %d packets, status %d, %.2f s, %.0f ns a packet, peak %.0f MB, the tape %.1f MB"
              % (name, count, status or status_of_all, all_of_them, each[name] * 1e9, peak / 1024, len(data) / 2**20), flush=True)
    print("a packet of the router takes %.2f times one of the bridge" % (each["router"] / each["bridge"]))


if __name__ == "__main__":
    main()
