#!/usr/bin/env python3
"""threads.py [PROGRAM [CONFIG]] [N]

Times the workers of a switch that serves, on the router of examples/programs with 1,000 routes: 1, 2 and 4 of them run
packets of 34 bytes, each on a route of its own and all on one route, and then enter snapshots of the switch and leave
them, beside no writer and beside one that replaces a route as fast as it can. Before that it lets three readers look at
snapshots while a writer replaces two routes at once 100,000 times: none may be torn, and none older than the one before.
PROGRAM is crates/speed (default: the built one), whose word `desk` measures inside of the process, and CONFIG the router's
(default: as `bin/p4config` makes it). Each worker runs N packets (default: 1,000,000) that are all there from the beginning, up to
32 on one snapshot, and enters 4 * N snapshots; of three runs the shortest counts. Workers are also told beside as many processes of one worker each, which share nothing but the
machine, and an entry beside an uncontended addition to an atomic word in the same run. Times are of this machine; the
ratios are what to quote, with how many hardware threads there are.
"""
import os
import re
import subprocess
import sys

from common import (ARBITRATE, HEAD, MODIFY, PACKET, VERIFY_AND_COMMIT, first_ids, number_field, program_given, put, record, route,
                    router, routes, tape, write)

ROUNDS = 3
ROUTES = 1000
WORKERS = (1, 2, 4)
TURNS = 50000
TAPE = "/dev/stdin"
LOOKED = "4 calls OK, %d of the writer\n3 readers: 0 snapshots torn, 0 older than the one before, %d of %d steps seen by each\n"
TOLD = re.compile(r"(\d+) calls OK, (\d+) workers, (\d+) .*\n(\d+) us, (\d+) calls of the writer OK, (\d+) additions in (\d+) us\n")
ATOMIC = number_field(5, 2)


def replacing(config, lane, places, port):
    """A Write that sends these routes to another port, all at once."""
    ids = first_ids(config)
    return write([(MODIFY, route(*ids, place, port)) for place in places], ATOMIC, lane)


def packet(worker, place):
    return record(PACKET, worker, b"\x00\x01" + HEAD + bytes([10, 0, place, 1]))


def opening(config, count):
    return [ARBITRATE, put(VERIFY_AND_COMMIT, config), routes(config, count)]


def looking(config):
    """Three readers, whose two packets leave at one port in each state."""
    both = (2, 3)
    changes = [replacing(config, 0, both, 3)] + [replacing(config, 1, both, port) for port in (1, 2)]
    return tape(opening(config, 4) + changes + [packet(reader, place) for reader in range(3) for place in both])


def measuring(config, workers, shared, written):
    changes = [replacing(config, 1, (ROUTES - 1,), port) for port in (1, 2)] if written else []
    return tape(opening(config, ROUTES) + changes + [packet(w, 0 if shared else w) for w in range(workers)])


def run(program, words, data):
    return subprocess.run([program, "desk", *words, TAPE], input=data, stdout=subprocess.PIPE, check=True).stdout.decode()


def told(text, workers, times):
    """The microseconds that the work took, the writer's calls a second and the microseconds of as many additions."""
    ok, ran, done, took, written, _, added = map(int, TOLD.fullmatch(text).groups())
    if (ok, ran, done) != (3, workers, workers * times):
        sys.exit("%d of 3 calls OK, %d of %d workers, %d of %d done" % (ok, ran, workers, done, workers * times))
    return took, written / took * 1e6, added


def least(program, word, data, workers, times):
    """The same of the shortest of some runs."""
    return min(told(run(program, [word, str(times)], data), workers, times) for _ in range(ROUNDS))


def apart(program, data, count, times):
    """The packets a second of so many processes at once that have a worker each and share nothing."""
    running = [subprocess.Popen([program, "desk", "packets", str(times), TAPE], stdin=subprocess.PIPE, stdout=subprocess.PIPE) for _ in range(count)]
    for one in running:
        one.stdin.write(data)
        one.stdin.close()
    texts = [one.stdout.read().decode() for one in running]
    if any(one.wait() for one in running):
        sys.exit("a process failed")
    return sum(times / told(text, 1, times)[0] * 1e6 for text in texts)


def beside(written, calls):
    return "beside a writer, %.0f calls a second" % calls if written else "beside no writer"


def packets(program, config, name, shared, times):
    first = None
    for workers in WORKERS:
        rates, apart_rates, written_rates = [], [], []
        for _ in range(ROUNDS):
            for written, into in ((False, rates), (True, written_rates)):
                took, calls, _ = told(run(program, ["packets", str(times)], measuring(config, workers, shared, written)), workers, times)
                into.append((workers * times / took * 1e6, calls))
            apart_rates.append(apart(program, measuring(config, 1, shared, False), workers, times))
        rate, (written_rate, calls) = max(rates)[0], max(written_rates)
        first = first or rate
        print("%s, %d workers: %.0f packets a second, %.2f times one, %.2f times as many processes with one each; %s: %.2f times those beside none"
              % (name, workers, rate, rate / first, rate / max(apart_rates), beside(True, calls), written_rate / rate), flush=True)


def entries(program, config, times):
    for written in (False, True):
        for readers in WORKERS:
            took, calls, added = least(program, "enter", measuring(config, readers, False, written), readers, times)
            print("%d readers %s: %.1f ns an entry and leaving, %.1f times an addition of %.1f ns (at most 25 are meant)"
                  % (readers, beside(written, calls), took / times * 1e3, took / max(added, 1), added / times * 1e3), flush=True)


def main():
    program, words = program_given("speed")
    config = open(words.pop(0), "rb").read() if words and not words[0].isdigit() else router()
    times = int(words[0]) if words else 1000000
    print("%d hardware threads, %d routes" % (os.cpu_count(), ROUTES))
    looked = run(program, ["look", str(TURNS)], looking(config))
    print(looked, end="", flush=True)
    if looked != LOOKED % (2 * TURNS, 2 * TURNS + 7, 2 * TURNS + 7):
        sys.exit(1)
    packets(program, config, "entries of their own", False, times)
    packets(program, config, "all on one entry", True, times)
    entries(program, config, 4 * times)


if __name__ == "__main__":
    main()
