"""`p4tape test`: makes the tape of each scenario, has the switch replay it in lockstep, and tells what came of
what the scenario says must come."""
import os
import re
import shlex
import subprocess
import time
from concurrent.futures import ProcessPoolExecutor
from typing import NamedTuple

from google.protobuf.message import DecodeError

from p4tools import report, scenario, tape, told, verdict
from p4tools.files import tell, text_of, write_text
from p4tools.junit import junit_of
from p4tools.trouble import Trouble

MET, NOT_MET, WRONG = 0, 1, 2
SWITCH = os.path.join(os.path.dirname(os.path.abspath(__file__)), "..", "..", "bin", "p4switch")
# What the exit statuses of a replay say, that a tape of `make` can come to.
STATUSES = {3: "it found no memory, or it is not built", 4: "it could not read the tape", 5: "it could not write the report",
            2: "it refused its words"}
COMMENT = re.compile(r"(\s*)([^#]*?)(\s*(?:(?<=\s)#.*)?)$")


class Result(NamedTuple):
    """A file that was tested: its verdicts, or what is wrong with it, and the seconds that it took."""
    file: str
    verdicts: list
    wrong: str
    seconds: float


def add_words(commands):
    """The words of `p4tape test`."""
    parser = commands.add_parser("test", help="whether scenarios come to what their `expect` lines say; exit status 1 "
                                 "where one does not")
    parser.add_argument("files", metavar="SCENARIO", nargs="+", help="a file with `expect` lines")
    parser.add_argument("--junit", metavar="OUT.xml", help="writes the verdicts as JUnit XML")
    parser.add_argument("--update", action="store_true", help="writes what came in the place of what was not met, and tests again")
    parser.add_argument("--jobs", metavar="N", type=int, default=0, help="so many files beside each other (by the processors)")
    parser.add_argument("--quiet", action="store_true", help="tells only what is not met")
    parser.add_argument("--limit", metavar="SECONDS", type=int, default=600, help="how long a run may take (600)")
    parser.add_argument("--report", metavar="REPORT", help="of one file: is looked at in the place of a run of the switch")
    parser.add_argument("--switch", metavar="PROGRAM", default=os.environ.get("SWITCH") or SWITCH,
                        help="what is run in the place of bin/p4switch; the variable SWITCH names it, too")
    parser.set_defaults(run=run)


def run(given):
    """Tests the files, and gives the exit status: 0 where all is met, 1 where something is not, 2 where a file
    is wrong."""
    if given.report and len(given.files) > 1:
        raise Trouble("--report is of one file: name one")
    words = shlex.split(given.switch) if not os.path.exists(given.switch) else [given.switch]
    jobs = min(given.jobs if given.jobs > 0 else os.cpu_count() or 1, len(given.files))
    switch = Switch(words, given.limit, given.report, jobs > 1)
    if jobs > 1:
        # (where the program is proved and built first, that is done once, and what is told of it is seen)
        switch._replace(is_quiet=False).replay([], [], "a tape without records")
    results = []
    for result in _results(given.files, switch, jobs):
        if given.update and not result.wrong:
            result = _updated(result, switch)
        for line in lines_of(result, given.quiet):
            print(line, flush=True)
        results.append(result)
    print(_figures(results))
    if given.junit:
        write_text(given.junit, junit_of(results))
    if any(it.wrong for it in results):
        return WRONG
    return MET if all(one.is_met for it in results for one in it.verdicts) else NOT_MET


class Switch(NamedTuple):
    """How a tape comes to its report: the words of the program, the seconds that a run may take, or a report that is
    there already. What the program tells is held back where it is quiet."""
    words: list
    limit: int
    report: str
    is_quiet: bool

    def replay(self, start, records, file):
        """The report of a tape, which was made of a file."""
        if self.report:
            return text_of(self.report)
        try:
            done = subprocess.run([*self.words, "replay", "--lockstep", *start], input=tape.write_tape(records), timeout=self.limit,
                                  stdout=subprocess.PIPE, stderr=subprocess.PIPE if self.is_quiet else None, check=False)
        except OSError as error:
            raise Trouble(f"{self.words[0]} does not run: {error.strerror}; --switch names another program") from None
        except subprocess.TimeoutExpired:
            raise Trouble(f"{file}: the replay takes more than {self.limit} seconds; --limit gives it more") from None
        if done.returncode:
            said = (done.stderr or b"").decode("utf-8", "replace").strip()
            what = STATUSES.get(done.returncode, "it failed")
            raise Trouble(f"{file}: the replay ended with status {done.returncode}: {what}" + f" ({said})" * bool(said))
        return done.stdout.decode("ascii", "replace")


def _results(files, switch, jobs):
    """The results of the files in their order."""
    if jobs == 1:
        yield from (tested(it, switch) for it in files)
        return
    with ProcessPoolExecutor(jobs) as pool:
        yield from pool.map(tested, files, [switch] * len(files))


def tested(file, switch):
    """The result of a file."""
    began = time.monotonic()
    try:
        verdicts, wrong = _verdicts(file, switch), ""
    except Trouble as trouble:
        verdicts, wrong = [], str(trouble)
    except DecodeError as error:
        verdicts, wrong = [], f"{file}: a message of the report is not read: {error}"
    return Result(file, verdicts, wrong, time.monotonic() - began)


def _verdicts(file, switch):
    records, watch = scenario.make_watched(file, lambda note: None)
    if not watch.expectations and not watch.is_strict:
        raise Trouble(f"{file}: nothing is expected: write a line `expect`, or `strict`")
    one = report.read_reports(switch.replay(watch.start or [], records, file), switch.report or f"the report of {file}")[0]
    beside = told.Beside(tape.write_tape(records), watch.names)
    beside.follow(one)
    made = {(it.lane, it.number) for it in one.calls}
    for lane, number in (it.call for it in watch.expectations if it.call):
        if (lane, number) not in made:
            raise Trouble(f"{file}: the report has no call {number} of c{lane}: it is not the report of this scenario")
    return verdict.verdicts(watch, one, beside)


# What is told.

def lines_of(result, quiet):
    """A result in lines: each expectation with its place, and below what is not met what came."""
    if result.wrong:
        yield from result.wrong.split("\n")
        return
    failed = sum(not it.is_met for it in result.verdicts)
    yield f"{result.file}: {told.counted(len(result.verdicts), 'expectation')}, " + (f"{failed:,} not met" if failed else "all met")
    for one in result.verdicts:
        if not one.is_met or not quiet:
            yield f"{one.place[0]}:{one.place[1]}: {'met' if one.is_met else 'not met'}: {one.text}"
            yield from (f"    {line}" for line in one.lines)


def _figures(results):
    verdicts = [one for it in results for one in it.verdicts]
    met, wrong = sum(it.is_met for it in verdicts), sum(bool(it.wrong) for it in results)
    text = f"{told.counted(len(results), 'file')}, {told.counted(len(verdicts), 'expectation')}: {met:,} met, {len(verdicts) - met:,} not"
    return text + f"; {wrong:,} of the files wrong" * bool(wrong)


# Updates.

def _updated(result, switch):
    """The result of the file once its lines say what came."""
    if all(it.is_met for it in result.verdicts):
        return result
    for file, lines in sorted(_edits(result.verdicts).items()):
        write_text(file, "\n".join(_edited(text_of(file).splitlines(), lines)) + "\n")
        tell(f"{file}: {told.counted(len(lines), 'line')} written anew; look at what changed before you keep it")
    return tested(result.file, switch)


def _edits(verdicts):
    """For each file the lines that change: by their numbers what stands in their place, or None where the line
    stays, and what stands behind them."""
    places = {}
    for one in verdicts:
        places.setdefault(one.place, []).append(one)
    made = {}
    for (file, number), them in places.items():
        instead = [None if it.is_met else it.instead for it in them]
        if any(it != instead[0] for it in instead):
            tell(f"{file}:{number}: it stands in a file that is included more than once, and what came differs: it stays")
        elif not them[0].is_met and instead[0] is not None:
            made.setdefault(file, {})[number] = (instead[0], [])
    for one in verdicts:
        for (file, number), lines in one.behind:
            before = made.setdefault(file, {}).get(number, (None, []))
            made[file][number] = (before[0], before[1] + lines)
    return made


def _edited(old, lines):
    for number, line in enumerate(old, 1):
        instead, behind = lines.get(number, (None, []))
        indent, _, comment = COMMENT.fullmatch(line).groups() if COMMENT.fullmatch(line) else ("", "", "")
        if instead is None:
            yield line
        else:
            yield from (indent + it + comment * (at == 0) for at, it in enumerate(instead))
        yield from (indent + it for it in behind)
