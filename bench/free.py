#!/usr/bin/env python3
"""free.py [PROGRAM [CONFIG]] [N]

Times free runs of tapes with N records (default: 1,000,000, the most that a tape may have) of packets of 34 bytes through
the router of examples/programs with four routes, on 1, 2 and 4 workers, each of which has a route of its own and meets its
INSERT before its first packet. PROGRAM is crates/speed (default: the built one), whose word `replay` measures inside of the process, and CONFIG
the router's (default: as `bin/p4config` makes it): the packets a second
are those of the run without the reading of the tape and without the report, and the report's share is of run and report
together. Of three runs the one counts whose run is shortest. Times are of this machine; the ratios are what to quote, with
how many hardware threads there are.
"""
import os
import re
import subprocess
import sys

from common import ARBITRATE, HEAD, MEET, PACKET, VERIFY_AND_COMMIT, program_given, put, record, router, routes, tape

ROUNDS = 3
WORKERS = (1, 2, 4)
TOLD = re.compile(r"(\d+) calls, (\d+) packets, (\d+) bytes of report\nread (\d+) us, run (\d+) us, report (\d+) us\n")


def tape_for(config, workers, records):
    calls = [ARBITRATE, put(VERIFY_AND_COMMIT, config), routes(config, 4)]
    meets = [record(MEET, worker, bytes([0, 0, 0, 0, 0, 3])) for worker in range(workers)]
    packets = [record(PACKET, worker, b"\x00\x01" + HEAD + bytes([10, 0, worker, 1])) for worker in range(workers)]
    count = records - len(calls) - len(meets)
    return count, tape(calls + meets + [packets[i % workers] for i in range(count)])


def least(program, data):
    """Packets of the report, and the microseconds of the reading, the run and the report, of the shortest run."""
    runs = []
    for _ in range(ROUNDS):
        told = subprocess.run([program, "replay", "measure", "/dev/stdin"], input=data, stdout=subprocess.PIPE, check=True).stdout.decode()
        _, packets, _, read, run, report = map(int, TOLD.fullmatch(told).groups())
        runs.append((run, packets, read, report))
    return min(runs)


def main():
    program, words = program_given("speed")
    config = open(words.pop(0), "rb").read() if words and not words[0].isdigit() else router()
    records = int(words[0]) if words else 1000000
    print("%d hardware threads" % os.cpu_count())
    first = None
    for workers in WORKERS:
        count, data = tape_for(config, workers, records)
        run, packets, read, report = least(program, data)
        if packets != count:
            sys.exit("%d packets in the report, %d on the tape" % (packets, count))
        rate = count / run * 1e6
        first = first or rate
        print("%d workers: %d packets, tape of %.1f MB: read %.2f s, run %.2f s, %.0f packets/s, %.2f times one worker's; report %.2f s, %.0f %% of run and report"
              % (workers, count, len(data) / 1e6, read / 1e6, run / 1e6, rate, rate / first, report / 1e6, 100 * report / (run + report)), flush=True)


if __name__ == "__main__":
    main()
