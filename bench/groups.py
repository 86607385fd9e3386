#!/usr/bin/env python3
"""groups.py [PROGRAM]

Times `PROGRAM replay --lockstep` (default: the built program) over tapes in which a controller inserts groups of 256
members into the laboratory's program of examples/programs, whose action profile is given room for 4,096 members and no
limit of weights. It prints what such an INSERT takes beside the members that the groups name alone, beside 2,048 members
more, and beside 32 groups more of other members: the tape with 64 INSERTs and DELETEs of a group less the tape without
them, by 64. The three stay near each other where an INSERT does not grow with what others have.

Of each time the least of several runs counts. Times are of this machine.
"""
import os
import re
import tempfile

from common import (ARBITRATE, DELETE, INSERT, PROGRAMS, VERIFY_AND_COMMIT, bytes_field, config_of, least, number_field, program_given,
                    put, shortest, tape, write)

PROFILE, SET_PORT = 285212673, 16777233


def laboratory():
    with open(os.path.join(PROGRAMS, "lab.p4info.txt")) as file:
        text = file.read()
    text = re.sub(r"(with_selector: true\s+)size: \d+\s+max_group_size: \d+", r"\1size: 4096", text)
    with tempfile.NamedTemporaryFile("w", suffix=".txt") as info:
        info.write(text)
        info.flush()
        return config_of(info.name, os.path.join(PROGRAMS, "lab.json"))


def member(place):
    call = number_field(1, SET_PORT) + bytes_field(4, number_field(2, 1) + bytes_field(3, shortest(1 + place % 8)))
    return bytes_field(3, number_field(1, PROFILE) + number_field(2, 1 + place) + bytes_field(3, call))


def group(place, first):
    shares = b"".join(bytes_field(3, number_field(1, 1 + first + share) + number_field(2, 1)) for share in range(256))
    return bytes_field(4, number_field(1, PROFILE) + number_field(2, 1 + place) + shares)


def members(count):
    return [write([(INSERT, member(place)) for place in range(start, min(start + 1024, count))]) for start in range(0, count, 1024)]


def rounds(place, first, count):
    return [write([(INSERT, group(place, first))]), write([(DELETE, group(place, first))])] * count


def main():
    program, _ = program_given("p4switch")
    start = [ARBITRATE, put(VERIFY_AND_COMMIT, laboratory())]
    others = [write([(INSERT, group(100 + place, 256 + place * 32))]) for place in range(32)]
    for name, before in (("its own 256 members", members(256)), ("2,048 members more", members(2304)), ("32 groups more besides", members(2304) + others)):
        with_it, _ = least(program, tape(start + before + rounds(0, 0, 64)))
        without, _ = least(program, tape(start + before))
        print("INSERT and DELETE of a group of 256 members, beside %s: %.0f us" % (name, (with_it - without) * 1e6 / 64), flush=True)


if __name__ == "__main__":
    main()
