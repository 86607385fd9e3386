"""The commands of bin/p4tape and bin/p4config: words of the command line, files, exit statuses."""
import argparse
import json
import os
import sys

from google.protobuf.message import DecodeError

from p4tools import captures, difference, draw, explaining, packets, page, report, scenario, spell, stf, suite, tape, told
from p4tools.files import bytes_of as _bytes_of, make_folder, names_of as _names_of, tell as _tell, write_bytes
from p4tools.messages import Config, PacketIn, parse
from p4tools.names import read_info
from p4tools.trouble import Progress, Trouble

MADE, DIFFERENT, WRONG, INTERRUPTED = 0, 1, 2, 130


def p4tape(words):
    """Runs bin/p4tape and gives its exit status: 0, for `diff` 1 where the reports differ, 2 for what is
    wrong with the words or the files."""
    return _run("p4tape", _p4tape_words(), words)


def p4config(words):
    """Runs bin/p4config and gives its exit status: 0, for `--explain` 1 where the config is refused, 2 for what
    is wrong with the words or the files."""
    if words[:1] == ["draw"]:
        return _run("p4config", draw.words(), words[1:])
    return _run("p4config", _p4config_words(), words)


def _run(script, parser, words):
    given = parser.parse_args(words)
    try:
        return given.run(given)
    except Trouble as trouble:
        for line in str(trouble).split("\n"):
            print(f"{script}: {line}", file=sys.stderr)
        return WRONG
    except DecodeError as error:
        print(f"{script}: a message of the report is not read: {error}; is it the report of this tape?",
              file=sys.stderr)
        return WRONG
    except BrokenPipeError:
        # (who reads has seen enough)
        os.dup2(os.open(os.devnull, os.O_WRONLY), 1)
        return WRONG
    except KeyboardInterrupt:
        return INTERRUPTED


def _p4tape_words():
    parser = argparse.ArgumentParser(prog="p4tape", description="Tapes and reports of p4switch in words.")
    commands = parser.add_subparsers(required=True, metavar="make | show | diff | test | page | from-stf | from-pcap")
    make = commands.add_parser("make", help="a tape of a scenario, on standard output")
    make.add_argument("scenario", metavar="SCENARIO", help="a file with a line for each call and packet")
    make.set_defaults(run=_make)
    show = commands.add_parser("show", help="a tape or a report in words")
    show.add_argument("file", metavar="TAPE|REPORT", help="a file, or - for standard input")
    show.add_argument("--tape", help="of a report: the tape that it is the report of")
    show.add_argument("--names", metavar="P4INFO", help="the names of the program at the start, as of --bridge")
    show.add_argument("--files", metavar="DIR", help="of a tape: writes the configs that its lines name")
    show.add_argument("--pcap", metavar="DIR", help="of a report: writes what left as port-N.pcap, "
                      "and what went to a controller as controller-N.pcap")
    show.add_argument("--summary", action="store_true", help="of a report: its figures alone")
    show.set_defaults(run=_show)
    diff = commands.add_parser("diff", help="what two reports differ in; exit status 1 where they do")
    diff.add_argument("one", metavar="A")
    diff.add_argument("other", metavar="B")
    diff.add_argument("--tape", action="append", default=[],
                      help="the tape of both, or given twice that of A and that of B")
    diff.add_argument("--names", metavar="P4INFO", help="the names of the program at the start, as of --bridge")
    diff.set_defaults(run=_diff)
    for added in (suite, page, stf, captures):
        added.add_words(commands)
    return parser


def _p4config_words():
    parser = argparse.ArgumentParser(
        prog="p4config", description="Writes the ForwardingPipelineConfig that `p4switch check` reads.",
        epilog="p4config draw P4INFO JSON -o OUT.svg draws the program; p4config draw --help has its words.")
    parser.add_argument("info", metavar="P4INFO", help="in text or wire form, as the P4 compiler writes it")
    parser.add_argument("json", metavar="JSON", nargs="?", help="the device configuration, as the P4 compiler writes it "
                        "for BMv2")
    parser.add_argument("--cookie", type=int, default=0, help="the config's cookie (0 where none is given)")
    parser.add_argument("--explain", action="store_true", help="says whether the switch takes it, and if not, by which "
                        "rule, where, and what to write instead; exit status 1 where it does not")
    parser.set_defaults(run=_config)
    return parser


def _write_bytes(script, data, what):
    """Writes bytes to standard output, which must not be a terminal."""
    if sys.stdout.isatty():
        raise Trouble(f"{what} is bytes: send it to a file, {script} .. > FILE")
    sys.stdout.buffer.write(data)
    sys.stdout.buffer.flush()


def _make(given):
    progress = Progress("p4tape", "records made")
    records = scenario.make(given.scenario, _tell, progress)
    progress.end()
    _write_bytes("p4tape", tape.write_tape(records), "a tape")
    return MADE


def _show(given):
    data = _bytes_of(given.file)
    if data.startswith(tape.MAGIC):
        return _show_tape(given, data)
    if b"\0" in data[:64]:
        raise Trouble(f"{given.file} is neither a tape, which begins with P4TAPE1, nor a report")
    return _show_report(given, data)


def _show_tape(given, data):
    lines, wrong, files, number = spell.lines_of(data, _names_of(given.names))
    progress = Progress("p4tape", "records", number)
    if given.names:
        print(f"names {given.names}")
    for at, line in lines:
        print(line)
        progress.at(at)
    progress.end()
    if given.files:
        make_folder(given.files)
        for name, content in files.items():
            write_bytes(os.path.join(given.files, name), content)
    if wrong:
        raise Trouble(f"{given.file}: {wrong}; what stands before it is shown")
    return MADE


def _reports_of(file):
    try:
        return report.read_reports(_bytes_of(file).decode("ascii"), file)
    except UnicodeDecodeError:
        raise Trouble(f"{file} is no report; a report is what `bin/p4switch replay` writes") from None


def _beside(file, names):
    return told.Beside(_bytes_of(file) if file else None, names)


def _show_report(given, data):
    try:
        reports = report.read_reports(data.decode("ascii"), given.file)
    except UnicodeDecodeError:
        raise Trouble(f"{given.file} is neither a tape, which begins with P4TAPE1, nor a report") from None
    beside = _beside(given.tape, _names_of(given.names))
    for one in reports:
        progress = Progress("p4tape", "calls and packets", len(one.calls) + len(one.packets))
        for line in told.summary(one) if given.summary else told.tell(one, beside, progress):
            print(line)
        progress.end()
        if given.pcap:
            _write_pcaps(one, given.pcap)
    return MADE


def _write_pcaps(one, folder):
    """Writes what left by port, and what went to controllers, a file each."""
    files = {}
    for packet in one.packets:
        for port, data in packet.outputs:
            files.setdefault(f"port-{port}.pcap", []).append(data)
        for lane, data in packet.cpu:
            if lane != "-":
                files.setdefault(f"controller-{lane}.pcap", []).append(parse(PacketIn, data).payload)
    folder = folder if one.device is None else os.path.join(folder, f"device-{one.device}")
    for name, content in sorted(files.items()):
        path = packets.write_pcap(folder, name, content)
        _tell(f"{path}: {len(content):,} packets")


def _diff(given):
    if len(given.tape) > 2:
        raise Trouble("give --tape once for both reports, or twice, for A and for B")
    reports = [_reports_of(it) for it in (given.one, given.other)]
    names = _names_of(given.names)
    tapes = [given.tape[0], given.tape[-1]] if given.tape else [None, None]
    if len(reports[0]) != len(reports[1]):
        raise Trouble(f"A tells of {len(reports[0])} devices and B of {len(reports[1])}")
    is_same = True
    for pair in zip(*reports):
        besides = [_beside(it, names) for it in tapes]
        progress = Progress("p4tape", "packets", len(pair[0].packets))
        for line in difference.differences(pair, besides, progress):
            is_same = False
            print(line)
        progress.end()
    lines = [_bytes_of(it).splitlines() for it in (given.one, given.other)]
    if is_same and lines[0] != lines[1]:
        differing = (number for number, pair in enumerate(zip(*lines), 1) if pair[0] != pair[1])
        first = next(differing, min(map(len, lines)) + 1)
        print(f"the reports say the same in words, and are not the same from line {first} on")
        return DIFFERENT
    if is_same:
        print("the reports are the same")
    return MADE if is_same else DIFFERENT


def _config(given):
    data = _bytes_of(given.info)
    explaining.need_info(given.info, data, given.json)
    info, note = read_info(data, given.info)
    if note:
        print(f"p4config: note: {note}", file=sys.stderr)
    device = _bytes_of(given.json)
    if given.explain:
        return explaining.explain(info, device)
    try:
        json.loads(device)
    except ValueError as error:
        raise Trouble(f"{given.json} is no JSON: {error}; give the .json file that the P4 compiler wrote") from None
    config = Config(p4info=info, p4_device_config=device)
    if given.cookie:
        config.cookie.cookie = given.cookie
    if not info.tables:
        print(f"p4config: note: {given.info} names no table", file=sys.stderr)
    _write_bytes("p4config", config.SerializeToString(), "a config")
    return MADE
