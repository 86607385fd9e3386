"""Runs of a program in each of which one allocation of memory is refused, and what p4switch may then answer.

A run of `replay` ends with status 3 and nothing written, or with status 0. Then a call that was refused for memory is answered
UNAVAILABLE, without a message and without a step, and all else is what the tape gives where Capabilities stands in the place
of that call. A run of another command ends as it does with memory, or with status 3 and nothing written.

An allocation is a call of malloc, calloc, realloc, aligned_alloc or posix_memalign. They count from 1, from where the loader
has made the library known (refuse/refuse.c) that counts and refuses them."""
import argparse
import collections
import itertools
import os
import shlex
import subprocess
import sys
import tempfile
import time
from typing import NamedTuple

from p4tools import answers, tape
from p4tools.trouble import Progress, Trouble

HERE = os.path.dirname(os.path.abspath(__file__))
SOURCE = os.path.join(HERE, "refuse", "refuse.c")
LIBRARY = os.path.join(HERE, "refuse", "out", "refuse.so")
# How long a run may take, in seconds.
LIMIT = 10
# After so many bad ends no more runs are made.
MOST_BAD = 20
AS_PROMISED, NOT_AS_PROMISED, WRONG, INTERRUPTED = 0, 1, 2, 130
NO_MEMORY, NO_MEMORY_LINE = 3, b"p4switch: no memory\n"
WORDS_REFUSED = 2


class Ended(NamedTuple):
    """How a run ended: its status (negative for a signal, None where it took too long), what it wrote to standard output and
    to standard error, and how many allocations it made."""
    status: int
    out: bytes
    err: bytes
    allocations: int


def build():
    """The library that refuses, compiled anew where its source changed."""
    if os.path.exists(LIBRARY) and os.path.getmtime(LIBRARY) >= os.path.getmtime(SOURCE):
        return LIBRARY
    os.makedirs(os.path.dirname(LIBRARY), exist_ok=True)
    try:
        subprocess.run(["cc", "-O2", "-shared", "-fPIC", "-Wall", "-Wextra", "-o", LIBRARY, SOURCE], check=True)
    except FileNotFoundError:
        raise Trouble("there is no C compiler `cc`: apt-get install -y gcc libc6-dev") from None
    except subprocess.CalledProcessError:
        raise Trouble(f"{SOURCE} does not compile") from None
    return LIBRARY


class Refuser:
    """Runs a command with some words and standard input, refusing what it is told to."""

    def __init__(self, command, words, has_from=False, seconds=LIMIT):
        self.command, self.words, self.has_from, self.seconds = command, words, has_from, seconds

    def run(self, data, at, words=None):
        """The end of the run on `data` in which the allocation of number `at` was refused, or none where that is 0."""
        with tempfile.NamedTemporaryFile() as count:
            count.write(bytes(8))
            count.flush()
            environment = dict(os.environ, LD_PRELOAD=build(), REFUSE_AT=str(at), REFUSE_COUNT=count.name)
            if self.has_from:
                environment["REFUSE_FROM"] = "1"
            try:
                ended = subprocess.run([*self.command, *(words or self.words)], input=data, capture_output=True,
                                       timeout=self.seconds, env=environment, check=False)
                status, out, err = ended.returncode, ended.stdout, ended.stderr
            except subprocess.TimeoutExpired as late:
                status, out, err = None, late.stdout or b"", late.stderr or b""
            except OSError as error:
                raise Trouble(f"{self.command[0]} does not run: {error.strerror}") from None
            with open(count.name, "rb") as it:
                return Ended(status, out, err, int.from_bytes(it.read(8), sys.byteorder))


def run_whole(refuser, data):
    """The end of the run in which nothing is refused; Trouble where nothing could be learnt beside it."""
    whole = refuser.run(data, 0)
    if whole.status is None:
        raise Trouble(f"with all memory the run takes more than {refuser.seconds:g} seconds: give it more by --seconds")
    if not whole.allocations:
        raise Trouble("no allocation was seen: the program has to take its memory from the C library that is loaded with it "
                      "(no script, none that is linked statically or with a sanitizer)")
    if whole.status == WORDS_REFUSED:
        raise Trouble(f"the program refuses the words {' '.join(refuser.words)}, so nothing was tried: is that command built?")
    if whole.status == NO_MEMORY or whole.status < 0:
        raise Trouble(f"with all memory the run ends with status {whole.status}: {whole.err.decode(errors='replace').strip()}")
    return whole


class Judge:
    """What a run may come to in which allocations were refused. `whole` is the end of the run in which none was."""

    def __init__(self, refuser, whole):
        self.refuser, self.whole = refuser, whole

    def of(self, ended):
        """Whether a run may end so, and how it ended in words, or what is wrong about it."""
        if ended.status is None:
            return False, f"it did not end in {self.refuser.seconds:g} seconds"
        if ended.status < 0:
            return False, f"it ended by signal {-ended.status}"
        if ended.status == NO_MEMORY:
            if ended.out or ended.err != NO_MEMORY_LINE:
                return False, f"with status 3 it wrote {ended.out[:60]!r} and {ended.err[:60]!r}"
            return True, "status 3 and nothing written"
        if ended.status != self.whole.status or ended.err != self.whole.err:
            return False, f"it ended with status {ended.status} and wrote {ended.err[:60]!r}"
        return self.of_output(ended.out)

    def of_output(self, out):
        """The same of a run that ended with the status that it has with all memory."""
        if out == self.whole.out:
            return True, f"status {self.whole.status}, as with all memory"
        return False, f"it wrote {out[:60]!r}"


class ReplayJudge(Judge):
    """The same of a replay, where a call may be refused."""

    def __init__(self, refuser, whole, data):
        super().__init__(refuser, whole)
        self.records, wrong = tape.read_tape(data)
        if wrong:
            raise Trouble(f"the tape: {wrong}")
        self.is_lockstep = "--lockstep" in refuser.words
        lanes = {it.lane for it in self.records if it.kind in (tape.CALL, tape.LEAVE)}
        if not self.is_lockstep and len(lanes) > 1:
            raise Trouble("the tape has more than one controller lane, and without --lockstep their calls come in any order: "
                          "give a tape of one, or --lockstep")
        self.expected = {}

    def of_output(self, out):
        shown = self.shown(out)
        refused = answers.refused_calls(shown)
        if not refused:
            if shown == self.shown(self.whole.out):
                return True, "status 0, as with all memory"
            return False, "its report is another, and no call is refused"
        if len(refused) > 1 and not self.refuser.has_from:
            return False, f"{len(refused)} calls are refused"
        if shown != self.reports_of(refused, shown):
            return False, f"it refused {spelled(refused)}, and its report is not what the tape without them gives"
        return True, f"status 0, {spelled(refused)} answered UNAVAILABLE"

    def shown(self, out):
        """The lines of a report that the tape determines: all in lockstep, else those of the journal and the last."""
        return answers.lines_of(out) if self.is_lockstep else answers.journal_of(out)

    def reports_of(self, refused, shown):
        """The lines that a report has in which these calls are refused, beside those that were shown."""
        of_bytes = {it.lane for it in self.records if it.kind == tape.PIECE}
        by_record = tuple(it for it in refused if it[0] not in of_bytes)
        by_bytes = [it for it in refused if it[0] in of_bytes]
        lines = self.lines_without(by_record)
        return answers.with_refused_transport(lines, by_bytes, shown) if by_bytes else lines

    def lines_without(self, refused):
        """The lines of a report in which these calls of records are refused."""
        if not refused:
            return self.shown(self.whole.out)
        if refused not in self.expected:
            data = tape.write_tape(answers.without_calls(self.records, refused))
            words = self.refuser.words if self.is_lockstep else [*self.refuser.words, "--lockstep"]
            ended = self.refuser.run(data, 0, words)
            if ended.status != 0:
                raise Trouble(f"the tape without {spelled(refused)} ends with status {ended.status}")
            self.expected[refused] = answers.with_refused(self.shown(ended.out), refused)
        return self.expected[refused]


def spelled(calls):
    """Calls in words."""
    return ", ".join(f"c{lane} call {number}" for lane, number in calls)


def refuse_each(judge, data, first, every, tell):
    """Refuses allocation after allocation until a run ends before it comes to the one of that number, or too many ended badly.
    Gives how many runs there were, how often each end came, and the bad ones with the numbers of their allocations."""
    ends, bad = collections.Counter(), []
    for at in itertools.count(first, every):
        ended = judge.refuser.run(data, at)
        is_well, what = judge.of(ended)
        is_last = ended.allocations < at and ended.status is not None
        if not is_well:
            bad.append((at, what))
        elif not is_last:
            ends[what] += 1
        if is_last or len(bad) == MOST_BAD:
            return sum(ends.values()) + len(bad), ends, bad
        tell(at)


def _words():
    parser = argparse.ArgumentParser(
        prog="refuse_allocations",
        description="Refuses each memory allocation of a run of p4switch in turn, one a run, and says how the runs end. "
                    "The exit status is 1 where one does not end as it may.")
    parser.add_argument("--from", dest="has_from", action="store_true", help="refuses each later allocation of the run, too")
    parser.add_argument("--first", type=_positive, default=1, metavar="N", help="begins with allocation N")
    parser.add_argument("--every", type=_positive, default=1, metavar="K", help="tries each K-th allocation alone")
    parser.add_argument("--seconds", type=float, default=LIMIT, metavar="S", help=f"how long a run may take ({LIMIT})")
    parser.add_argument("program", metavar="PROGRAM", help="the built program, or a command with blanks in quotes")
    parser.add_argument("tape", metavar="TAPE", help="what it reads: a tape, or for `check` a configuration")
    parser.add_argument("words", metavar="WORDS", nargs=argparse.REMAINDER, help="its words, as `replay --lockstep`")
    return parser


def _positive(word):
    if not word.isascii() or not word.isdigit() or int(word) < 1:
        raise argparse.ArgumentTypeError(f"{word} is no number from 1 on")
    return int(word)


def judge_of(refuser, data):
    """What judges the runs of the refuser's words on `data`."""
    whole = run_whole(refuser, data)
    if refuser.words[:1] == ["replay"]:
        return ReplayJudge(refuser, whole, data)
    return Judge(refuser, whole)


def _run(given):
    if not given.words:
        raise Trouble("the program's words are missing, as in: refuse_allocations PROGRAM TAPE replay --lockstep")
    try:
        with open(given.tape, "rb") as it:
            data = it.read()
    except OSError as error:
        raise Trouble(f"{given.tape} is not read: {error.strerror}") from None
    command = [given.program] if os.path.exists(given.program) else shlex.split(given.program)
    begun = time.monotonic()
    judge = judge_of(Refuser(command, given.words, given.has_from, given.seconds), data)
    progress = Progress("refuse_allocations", "allocations come to", judge.whole.allocations, every=1)
    runs, ends, bad = refuse_each(judge, data, given.first, given.every, progress.at)
    progress.end()
    print(f"{judge.whole.allocations:,} allocations with all memory; {runs:,} runs, in {time.monotonic() - begun:.0f} seconds")
    for what, number in sorted(ends.items()):
        print(f"{number:,}: {what}")
    for at, what in bad:
        print(f"allocation {at}: {what}")
    if bad:
        print(f"{len(bad):,} runs did not end as they may" + ("; no more were made" if len(bad) == MOST_BAD else ""))
    return NOT_AS_PROMISED if bad else AS_PROMISED


def main(words):
    """Runs the command and gives its exit status."""
    given = _words().parse_args(words)
    try:
        return _run(given)
    except Trouble as trouble:
        print(f"refuse_allocations: {trouble}", file=sys.stderr)
        return WRONG
    except KeyboardInterrupt:
        return INTERRUPTED
