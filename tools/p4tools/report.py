"""Reports as text: their lines read into calls, packets and counts."""
import re
from collections.abc import Callable
from typing import NamedTuple, Optional

from p4tools.trouble import Trouble

FATES = {"sent": "sent", "drop1": "dropped by the program", "drop2": "dropped: there is no program",
         "drop3": "dropped: longer than 10,240 bytes",
         "drop4": "dropped: shorter than the header of a packet-in"}


class Step(NamedTuple):
    """A step of a call: its number, its kind, and how many updates it changes."""
    number: int
    kind: str
    changes: int


class Call(NamedTuple):
    """A call of the journal with what it made: steps, notices by lane, and its reply."""
    lane: int
    number: int
    steps: list[Step]
    notices: list[tuple[int, bytes]]
    steps_so_far: int
    code: int
    messages: list[bytes]


class Packet(NamedTuple):
    """What became of a packet. Outputs are pairs of port and bytes, `cpu` of lane (or `-`) and bytes,
    a digest is a pair of id and bytes, hits are the report's own words."""
    who: str
    number: int
    after: int
    fate: str
    outputs: list[tuple[int, bytes]]
    cpu: list[tuple[str, bytes]]
    digest: Optional[tuple[str, bytes]]
    hits: list[str]


class Report:
    """A report, or that of one device where it tells of several."""

    def __init__(self, device: Optional[int] = None) -> None:
        self.device = device
        self.calls: list[Call] = []
        self.packets: list[Packet] = []
        self.counts: list[tuple[int, ...]] = []
        self.cells: list[tuple[int, ...]] = []
        self.sent: dict[int, bytes] = {}
        self.end: Optional[tuple[int, int]] = None
        self.steps: list[Step] = []
        self.notices: list[tuple[int, bytes]] = []


def read_reports(text: str, file: str) -> list[Report]:
    """The reports of a text: one, or one for each device."""
    reports = [Report()]
    for number, line in enumerate(text.splitlines(), 1):
        words = line.split(" ")
        try:
            if words[0] == "device":
                reports.append(Report(int(words[1])))
            else:
                READERS[words[0]](reports[-1], words[1:])
        except (KeyError, ValueError, IndexError):
            raise Trouble(f"{file}:{number}: {line[:60]!r} is no line of a report; "
                          "a report is what `bin/p4switch replay` writes") from None
    whole = [it for it in reports if it.end is not None]
    if not whole:
        raise Trouble(f"{file} has no line `end`: it is no report, or was cut off")
    return whole


def _bytes(word: str) -> bytes:
    return b"" if word == "." else bytes.fromhex(word)


def _list(word: str) -> list[str]:
    return [] if word == "-" else word.split(",")


def _pairs(word: str) -> list[tuple[str, bytes]]:
    return [(left, _bytes(right)) for left, right in (it.split(":") for it in _list(word))]


def _step(report: Report, words: list[str]) -> None:
    number, lane, call, kind, changes = words
    int(lane), int(call)
    report.steps.append(Step(int(number), kind, int(changes)))


def _notice(report: Report, words: list[str]) -> None:
    report.notices.append((int(words[0]), _bytes(words[1])))


def _reply(report: Report, words: list[str]) -> None:
    lane, number, steps, code, messages = words
    call = Call(int(lane), int(number), report.steps, report.notices, int(steps), int(code),
                [_bytes(it) for it in _list(messages)])
    report.calls.append(call)
    report.steps, report.notices = [], []


def _packet(report: Report, words: list[str]) -> None:
    who, number, after, fate, outputs, cpu, digest, hits = words
    sample, ins, found = _pairs(digest), _pairs(cpu), _list(hits)
    is_well = [fate in FATES, re.fullmatch(r"[wc]\d+", who), all(re.fullmatch(r"\d+:\d+|@\d+", it) for it in found),
               all(re.fullmatch(r"\d+|-", lane) for lane, _ in ins), all(it.isdigit() for it, _ in sample)]
    if not all(is_well):
        raise ValueError(words)
    report.packets.append(Packet(who, int(number), int(after), fate,
                                 [(int(port), data) for port, data in _pairs(outputs)], ins,
                                 sample[0] if sample else None, found))


def _count(report: Report, words: list[str]) -> None:
    report.counts.append(tuple(map(int, words)))
    if len(words) != 4:
        raise ValueError(words)


def _cell(report: Report, words: list[str]) -> None:
    report.cells.append(tuple(map(int, words)))
    if len(words) != 5:
        raise ValueError(words)


def _sent(report: Report, words: list[str]) -> None:
    report.sent[int(words[0])] = _bytes(words[1])


def _end(report: Report, words: list[str]) -> None:
    report.end = (int(words[0]), int(words[1]))


READERS: dict[str, Callable[[Report, list[str]], None]] = {"step": _step, "notice": _notice, "reply": _reply, "packet": _packet, "count": _count,
           "cell": _cell, "sent": _sent, "end": _end}
