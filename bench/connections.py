#!/usr/bin/env python3
"""connections.py [SPEED]

Runs `SPEED connections` (default: the built program `speed`) three times and prints, of each size of the pieces in which
the bytes of an HTTP/2 connection with 1 MiB of data come, the least time a byte and its ratio to that of one piece. The
ratio of pieces of one byte is the cost of a call for each byte; it does not grow with the bytes before it. Times are of
this machine, ratios of one run.
"""
import re
import subprocess
import sys

from common import built


def once(program):
    told = subprocess.run([program, "connections"], stdout=subprocess.PIPE, check=True).stdout.decode()
    return {int(size): int(each) / 100 for size, each in re.findall(r"pieces of (\d+) bytes: (\d+) hundredths", told)}


def main():
    program = sys.argv[1] if len(sys.argv) > 1 else built("speed")
    runs = [once(program) for _ in range(3)]
    least = {size: min(run[size] for run in runs) for size in runs[0]}
    whole = max(least)
    for size, each in sorted(least.items()):
        print("pieces of %d bytes: %.2f ns a byte, %.1f times one piece" % (size, each, each / max(least[whole], 0.01)))


if __name__ == "__main__":
    main()
