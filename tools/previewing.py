#!/usr/bin/env python3
"""previewing.py PID

Tells on standard error how long the preview of process PID has been compiled, every now and then, until the program that it makes
runs or the process ends. `rt try` says nothing while it compiles.
"""
import os
import sys
import time
from collections.abc import Iterator

# How often it looks, and how often it tells, in seconds.
LOOK, TELL = 0.5, 20
# What the process of the compiled program is called: `rt try` starts it by the toolchain's own loader.
PROGRAM = ("ld-linux", "program")


def children(process: int) -> Iterator[int]:
    """The processes that a process started, and those that these started."""
    try:
        for thread in os.listdir(f"/proc/{process}/task"):
            with open(f"/proc/{process}/task/{thread}/children", encoding="ascii") as it:
                found = it.read().split()
            for child in map(int, found):
                yield child
                yield from children(child)
    except OSError:
        pass


def is_program(process: int) -> bool:
    """Whether a process is what was compiled."""
    try:
        with open(f"/proc/{process}/comm", encoding="utf-8", errors="replace") as it:
            return it.read().startswith(PROGRAM)
    except OSError:
        return False


def is_there(process: int) -> bool:
    """Whether a process has not ended."""
    try:
        with open(f"/proc/{process}/stat", encoding="utf-8", errors="replace") as it:
            return it.read().rpartition(") ")[2][:1] not in ("Z", "")
    except OSError:
        return False


def watch(process: int) -> None:
    begun = told = time.monotonic()
    while is_there(process):
        now = time.monotonic()
        if any(map(is_program, children(process))):
            print(f"p4switch: compiled in {now - begun:.0f} s", file=sys.stderr, flush=True)
            return
        if now - told >= TELL:
            print(f"p4switch: compiling for {now - begun:.0f} s; two to four minutes are usual", file=sys.stderr, flush=True)
            told = now
        time.sleep(LOOK)


if __name__ == "__main__":
    watch(int(sys.argv[1]))
