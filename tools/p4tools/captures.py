"""`p4tape from-pcap`: captures of several ports joined by time into a scenario."""
import os

from p4tools import packets, tape
from p4tools.files import bytes_of, tell, write_text
from p4tools.trouble import Trouble
from p4tools.words import whole_number


def add_words(commands):
    """The words of `p4tape from-pcap`."""
    parser = commands.add_parser("from-pcap", help="a scenario of captures of the ports of a switch")
    parser.add_argument("captures", metavar="PORT=FILE", nargs="+", help="what entered at a port, a pcap or pcapng file")
    parser.add_argument("--expect", metavar="PORT=FILE", action="append", default=[],
                        help="what left at a port of another switch: becomes lines `expect`")
    parser.add_argument("--include", metavar="SCENARIO", help="what is done first, as loading a program")
    parser.add_argument("-o", "--output", metavar="OUT.scenario", help="the scenario (standard output)")
    parser.set_defaults(run=_run)


def _run(given):
    entered = [it for word in given.captures for it in _packets(word, False)]
    left = [it for word in given.expect for it in _packets(word, True)]
    folder = os.path.dirname(given.output) if given.output else ""
    lines = ["# Made of captures by p4tape from-pcap."]
    # (what left stands at its own time, which may be behind packets that entered later)
    lines += ["queued", "strict"] if left else []
    lines += [f"include {path_from(folder, given.include)}"] if given.include else []
    lines += [line for _, line in sorted(entered + left, key=lambda it: it[0])]
    give("\n".join(lines) + "\n", given.output)
    return 0


def path_from(folder, path):
    """A path as a scenario in a folder names it."""
    return os.path.relpath(path, folder or ".") if not os.path.isabs(path) else path


def give(text, output):
    """Writes a scenario to a file, or to standard output where none is named."""
    if output:
        write_text(output, text)
    else:
        print(text, end="")


def _packets(word, is_left):
    """The lines of a capture, each with its time."""
    port, _, file = word.partition("=")
    if not file or not port.isdigit() or int(port) > tape.LAST_PORT:
        raise Trouble(f"{word}: write PORT=FILE, with a port from 0 to 510")
    made, cut = [], 0
    for data, time, is_cut in packets.timed_of_pcap(bytes_of(file), file):
        cut += is_cut
        made.append((time, _line(whole_number("a port", port), data, is_cut, is_left)))
    if cut:
        tell(f"note: {file} has {cut} packets that the capture cut off; "
             + ("what is expected is how they begin" if is_left else "they enter as short as they are"))
    if not made:
        tell(f"note: {file} has no packet")
    return made


def _line(port, data, is_cut, is_left):
    if is_left:
        return f"expect port={port} {data.hex() or '.'}{'..' * is_cut}  # {packets.summary(data)}"
    if len(data) > tape.LONGEST_PACKET:
        raise Trouble(f"a packet of {len(data):,} bytes: one that enters has at most 9,216")
    return f"packet port={port} {data.hex() or '.'}  # {packets.summary(data)}"
