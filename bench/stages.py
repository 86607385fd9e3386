#!/usr/bin/env python3
"""stages.py LOOP.c [PROGRAM] [CONFIG]

Compiles LOOP.c, a hand-written loop over the router's packets that prints `N ns a packet` (cc -O2), and runs it and
`PROGRAM router` (default: the built program speed) one after the other, five times each, on CONFIG (default: the router
of examples/programs as `bin/p4config` makes it). Of each figure the least of the five counts, so that other work on
the machine is left out as far as can be. It prints what each stage, the four stages together and the whole run with 4
and with 1,000 routes take, in nanoseconds and as a ratio of the loop's packet. Times are of this machine; the ratios
are what to quote.
"""
import os
import re
import subprocess
import sys
import tempfile

from common import built, router

ROUNDS = 5


def loop(program):
    told = subprocess.run([program, "1"], stdout=subprocess.PIPE, check=True).stdout.decode()
    return float(re.match(r"([\d.]+) ns a packet", told).group(1))


def parts(program, config):
    told = subprocess.run([program, "router"], input=config, stdout=subprocess.PIPE, check=True).stdout.decode()
    return {name: int(hundredths) / 100 for name, hundredths in re.findall(r"^(.+): (\d+) hundredths", told, re.M)}


def main():
    if len(sys.argv) < 2:
        sys.exit(__doc__)
    program = sys.argv[2] if len(sys.argv) > 2 else built("speed")
    config = open(sys.argv[3], "rb").read() if len(sys.argv) > 3 else router()
    with tempfile.TemporaryDirectory() as folder:
        own_loop = os.path.join(folder, "loop")
        subprocess.run(["cc", "-O2", "-o", own_loop, sys.argv[1]], check=True)
        own, least = None, {}
        for _ in range(ROUNDS):
            own = min(own or 1e9, loop(own_loop))
            for name, each in parts(program, config).items():
                least[name] = min(least.get(name, 1e9), each)
    print("the loop: %.1f ns a packet" % own)
    for name, each in least.items():
        print("%s: %.1f ns, %.1f times the loop" % (name, each, each / own))
    four = sum(least[name] for name in ("parse", "act", "checksums", "deparse"))
    print("parse, act, checksums and deparse together: %.1f ns, %.1f times the loop (at most 60 are meant)" % (four, four / own))
    print("the run with 4 routes: %.1f times the loop (at most 100 are meant)" % (least["run with 4 routes"] / own))


if __name__ == "__main__":
    main()
