#!/usr/bin/env python3
"""pipelines.py [PROGRAM]

Times `PROGRAM replay --lockstep` (default: the built program) over tapes in which a controller commits the router of
examples/programs, and prints:

- what a VERIFY_AND_COMMIT takes: a tape of 201 of them less one of one, by 200;
- the peak memory of a tape of 10 and of 1,000 commits, and of 1,000 VERIFYs of the same bytes, whose tape and report
  are as long and which leave nothing: what is above it is what commits leave;
- what a COMMIT takes, and by how much the peak rises with it, where the saved program has 10 and where it has 4,000
  entries: rounds of VERIFY_AND_SAVE, a Write of the entries and COMMIT, less the same rounds without the COMMIT.

Of each time the least of several runs counts. Times and memory are of this machine.
"""
from common import (ARBITRATE, COMMIT, VERIFY, VERIFY_AND_COMMIT, VERIFY_AND_SAVE, least, program_given, put, router, routes,
                    tape)

ROUNDS = 20


def main():
    program, _ = program_given("p4switch")
    config = router()
    one, _ = least(program, tape([ARBITRATE, put(VERIFY_AND_COMMIT, config)]))
    many, _ = least(program, tape([ARBITRATE] + [put(VERIFY_AND_COMMIT, config)] * 201))
    print("VERIFY_AND_COMMIT of the router, %d bytes: %.2f ms (at most 5 are meant)" % (len(config), (many - one) * 1000 / 200), flush=True)
    for kind, count in ((VERIFY_AND_COMMIT, 10), (VERIFY_AND_COMMIT, 1000), (VERIFY, 1000)):
        data = tape([ARBITRATE] + [put(kind, config)] * count)
        _, peak = least(program, data, 1)
        print("%d %s: peak %.1f MB, the tape %.1f MB" % (count, "VERIFYs" if kind == VERIFY else "commits", peak / 1024, len(data) / 2**20), flush=True)
    for count in (10, 4000):
        both = []
        for end in ([put(COMMIT)], []):
            both.append(least(program, tape([ARBITRATE] + ([put(VERIFY_AND_SAVE, config), routes(config, count)] + end) * ROUNDS)))
        (with_it, high), (without, low) = both
        print("COMMIT of %d entries: %.2f ms, the peak %.1f MB higher" % (count, (with_it - without) * 1000 / ROUNDS, (high - low) / 1024), flush=True)


if __name__ == "__main__":
    main()
