"""`p4ctl watch`: packets and bytes a second of each entry and cell, from two looks at the counters."""
import json
import shutil
import sys
import time

from p4tools.looks import counts, need_program
from p4tools.trouble import Trouble
from p4tools.words import nothing_more, options

FORM = "watch [TABLE | COUNTER] [--once] [--json] [interval=SECONDS]"
TOP, CLEAR = "\x1b[H", "\x1b[J"


class Rate:
    """A Count, and what it counted a second since the look before."""

    def __init__(self, count, before, seconds):
        self.count = count
        # (an entry that is deleted and inserted again counts anew)
        old = before if before and before.packets <= count.packets and before.bytes <= count.bytes else None
        packets, size = (count.packets - old.packets, count.bytes - old.bytes) if old else (0, 0)
        self.packets, self.bytes = packets / seconds, size / seconds

    def row(self):
        """The columns of the screen."""
        return (self.count.title(), f"{self.packets:,.0f}", f"{self.bytes:,.0f}", f"{self.count.packets:,}",
                f"{self.count.bytes:,}")

    def record(self):
        """The members of JSON."""
        return {"kind": self.count.kind, "name": self.count.name, "key": self.count.words,
                "packets_per_second": round(self.packets, 3), "bytes_per_second": round(self.bytes, 3),
                "packets": self.count.packets, "bytes": self.count.bytes}


def rates(session, words, interval):
    """Rates over and over, each `interval` seconds behind the one before."""
    before, seen = counts(session, words), time.monotonic()
    while True:
        time.sleep(interval)
        now, at = counts(session, words), time.monotonic()
        yield [Rate(count, before.get(key), at - seen) for key, count in now.items()], at - seen
        before, seen = now, at


def watch(session, words):
    """`watch [TABLE | COUNTER] [--once] [--json] [interval=SECONDS]`"""
    once, as_json = "--once" in words, "--json" in words
    rest, given = options([it for it in words if it not in ("--once", "--json")], ("interval",))
    nothing_more(rest[1:], FORM)
    interval = given.get("interval", 1)
    if not 1 <= interval <= 3600:
        raise Trouble("interval is 1 to 3,600 seconds")
    need_program(session)
    on_screen = sys.stdout.isatty() and not once and not as_json
    for found, seconds in rates(session, rest, interval):
        if as_json:
            yield json.dumps({"seconds": round(seconds, 3), "counts": [it.record() for it in found]})
        elif on_screen:
            yield TOP + screen(found, shutil.get_terminal_size()) + CLEAR
        else:
            yield from table(found)
        if once:
            return


HEAD = ("entry or cell", "packets/s", "bytes/s", "packets", "bytes")


def table(found):
    """Rates as lines in columns; cells that counted nothing are left out."""
    shown = [it for it in found if it.count.kind == "entry" or it.count.packets or it.count.bytes]
    rows = [HEAD, *(it.row() for it in shown)]
    widths = [max(len(row[at]) for row in rows) for at in range(len(HEAD))]
    for row in rows:
        yield f"{row[0]:<{widths[0]}}  " + "  ".join(f"{row[at]:>{widths[at]}}" for at in range(1, len(HEAD)))
    if not shown:
        yield "# nothing counts"


def screen(found, size):
    """Rates on one screen; where they do not fit, the busiest."""
    room = max(size.lines - 3, 1)
    left = len(found) - room
    if left > 0:
        busiest = sorted(found, key=lambda it: (it.packets, it.count.packets), reverse=True)[:room]
        chosen = {id(it) for it in busiest}
        found = [it for it in found if id(it) in chosen]
    lines = [it[:size.columns] for it in table(found)]
    lines += [f"and {left:,} less busy"] * (left > 0)
    return "".join(f"{it}\x1b[K\n" for it in lines)
