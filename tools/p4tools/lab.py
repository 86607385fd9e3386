"""bin/p4lab: a switch that serves, its program, and the interfaces that are joined to it, in one command."""
import argparse
import contextlib
import ctypes
import os
import queue
import re
import shlex
import signal
import socket
import subprocess
import sys
import threading
import time

from p4tools.files import stored
from p4tools.messages import Config, SetRequest, SetResponse, StreamRequest, StreamResponse, code_name, parse
from p4tools.names import read_info
from p4tools.trouble import Trouble

TOP = os.path.dirname(os.path.dirname(os.path.dirname(os.path.abspath(__file__))))
BIN = os.path.join(TOP, "bin")
ENDED, FAILED, WRONG, MISSING = 0, 1, 2, 3
P4INFO_ENDS = (".p4info.txt", ".p4info.txtpb", ".p4.p4info.txt", ".p4.p4info.txtpb", ".p4info.bin")
# The least election id, so that whoever comes behind may be primary with any.
ELECTION, VERIFY_AND_COMMIT = 1, 3
SERVICE = "/p4.v1.P4Runtime/"
# What is asked of the system for the queue of the switch's UDP port, in bytes. Python has no names for these.
QUEUE, SO_RCVBUFFORCE, PIDFD_GETFD = 8 << 20, 33, 438
# How long a switch is waited for, in seconds, for its start (a build may come first) and for an answer.
START, PATIENCE = 4 * 3600, 600
# Words of BMv2 that have nothing to stand for here, and how many words follow each.
PASSED_OVER = {"--thrift-port": 1, "--notifications-addr": 1, "--nanolog": 1, "--log-level": 1, "-L": 1,
               "--log-console": 0, "--log-flush": 0, "--debugger": 0, "--debugger-addr": 1, "--max-port-count": 1}


class Ended(Exception):
    """A signal asks for the end."""


def p4lab(words):
    """Runs bin/p4lab and gives its exit status: 0 where a signal ended it, 1 where the switch refused the program or a part
    ended by itself, 2 for words that are refused, 3 where something is missing."""
    for number in (signal.SIGINT, signal.SIGTERM, signal.SIGHUP):
        signal.signal(number, _end)
    try:
        return _run(_read_words(words))
    except Trouble as trouble:
        print(f"p4lab: {trouble}", file=sys.stderr)
        return WRONG
    except Ended:
        return ENDED


def _end(*_):
    raise Ended


# Words.

def _number(least, most):
    def read(word):
        if not word.isascii() or not word.isdigit() or not least <= int(word) <= most:
            raise argparse.ArgumentTypeError(f"write a number from {least} to {most:,}, not {word}")
        return int(word)
    return read


def _address(word):
    """The port of ADDRESS:PORT. The switch listens at 127.0.0.1 alone."""
    host, _, port = word.rpartition(":")
    if host not in ("127.0.0.1", "localhost", "0.0.0.0", "[::]"):
        raise argparse.ArgumentTypeError(f"the switch listens at 127.0.0.1 alone: write 127.0.0.1:PORT, not {word}")
    if host not in ("127.0.0.1", "localhost"):
        print(f"p4lab: note: {word} is taken as 127.0.0.1:{port}: the switch listens there alone", file=sys.stderr)
    return _number(1, 65535)(port)


def _parser():
    parser = argparse.ArgumentParser(
        prog="p4lab", usage="p4lab [-i PORT@INTERFACE ..] [PROGRAM.json] [options]", allow_abbrev=False,
        description="Starts the switch, loads a program, joins interfaces, and takes all of it down on Ctrl-C.")
    parser.add_argument("program", nargs="?", metavar="PROGRAM.json", help="as the P4 compiler wrote it for BMv2; without it "
                        "a controller loads one")
    parser.add_argument("--p4info", metavar="FILE", help="the program's P4Info; else that beside it with its name")
    parser.add_argument("-i", "--interface", action="append", default=[], metavar="PORT@INTERFACE",
                        help="a port of the switch, 0 to 510, and its interface, as 1@veth1; once for each")
    parser.add_argument("--device-id", type=_number(1, 2 ** 64 - 1), default=1, metavar="N", help="1 or more (1)")
    parser.add_argument("--cpu-port", type=_number(1, 510), default=255, metavar="N", help="the port to controllers (255)")
    parser.add_argument("--grpc-server-addr", type=_address, default=9559, metavar="ADDRESS", help="127.0.0.1:PORT (9559)")
    parser.add_argument("--packets", type=_number(1, 65534), default=9000, metavar="N",
                        help="the UDP port of packets, and the one above (9000)")
    parser.add_argument("--workers", type=_number(1, 16), default=1, metavar="N",
                        help="with more than one, packets of a port may overtake one another (1)")
    parser.add_argument("--rows", type=_number(1024, 262144), default=16384, metavar="N", help="rows for all tables (16,384)")
    parser.add_argument("--log-file", metavar="FILE", help="what the switch and p4ports tell goes there")
    parser.add_argument("--pcap", metavar="DIR", help="DIR/PORT-in.pcap and DIR/PORT-out.pcap of each interface")
    parser.add_argument("--no-p4", action="store_true", help="without a program: a controller loads one")
    parser.add_argument("--preview", action="store_true", help="runs the switch as it is written, unproved")
    return parser


def _pass_over(words):
    """The words without those that have nothing to stand for here, each of which is told, and without `--`, behind which
    BMv2 has the words of its target."""
    kept, words = [], [it for it in words if it != "--"]
    while words:
        word = words.pop(0)
        name, equals, _ = word.partition("=")
        if name not in PASSED_OVER:
            kept.append(word)
            continue
        if not equals:
            del words[:PASSED_OVER[name]]
        print(f"p4lab: note: {name} is passed over: it has nothing to stand for here", file=sys.stderr)
    return kept


def _read_words(words):
    given = _parser().parse_args(_pass_over(words))
    if given.no_p4 and given.program:
        raise Trouble("--no-p4 stands beside a program; leave one of them out")
    return given


# The program.

def find_p4info(program):
    """The P4Info beside a program, by its name."""
    stem = program[:-len(".json")] if program.endswith(".json") else program
    found = next((stem + it for it in P4INFO_ENDS if os.path.isfile(stem + it)), None)
    if not found:
        raise Trouble(f"there is no P4Info {stem}.p4info.txt beside {program}; --p4info names it, the file that the "
                      "P4 compiler wrote with --p4runtime-files")
    return found


def read_config(program, p4info=None):
    """The configuration of a JSON and its P4Info."""
    info_file = p4info or find_p4info(program)
    info, note = read_info(stored(info_file), info_file)
    if note:
        print(f"p4lab: note: {note}", file=sys.stderr)
    return Config(p4info=info, p4_device_config=stored(program))


def load(port, device, config):
    """Loads a program: becomes the primary, commits it, and leaves."""
    try:
        import grpc
    except ImportError:
        raise Trouble("python3-grpcio is missing: apt-get install -y python3-grpcio python3-protobuf") from None
    asked, channel = queue.SimpleQueue(), grpc.insecure_channel(f"127.0.0.1:{port}")
    stream = channel.stream_stream(
        SERVICE + "StreamChannel", StreamRequest.SerializeToString, lambda it: parse(StreamResponse, it))
    commit = channel.unary_unary(
        SERVICE + "SetForwardingPipelineConfig", SetRequest.SerializeToString, lambda it: parse(SetResponse, it))
    arbitration, request = StreamRequest(), SetRequest(device_id=device, action=VERIFY_AND_COMMIT, config=config)
    arbitration.arbitration.device_id = device
    arbitration.arbitration.election_id.low = request.election_id.low = ELECTION
    try:
        asked.put(arbitration)
        # (the stream lives as long as it is named)
        answers = stream(iter(asked.get, None), timeout=PATIENCE, wait_for_ready=True)
        told = next(answers).arbitration
        if told.status.code:
            raise Trouble(f"the switch has another primary: {code_name(told.status.code)}")
        commit(request, timeout=PATIENCE)
    except grpc.RpcError as error:
        told = error.details() or ""
        rule = f", rule {told} of docs/programs.md" if re.fullmatch(r"[IL]\d+", told) else f" {told}"
        raise Trouble(f"the switch does not take the program: {error.code().name}{rule.rstrip()}") from None
    finally:
        asked.put(None)
        channel.close()


# Processes.

def _die_with_parent():
    ctypes.CDLL(None).prctl(1, signal.SIGTERM)  # PR_SET_PDEATHSIG


class Part:
    """A process of the lab, in a group of its own, so that Ctrl-C comes to the lab alone."""

    def __init__(self, name, words, log):
        self.name = name
        self.process = subprocess.Popen(words, stdin=subprocess.DEVNULL, stdout=subprocess.PIPE, stderr=log,
                                        start_new_session=True, preexec_fn=_die_with_parent, text=True)
        self.told = queue.SimpleQueue()
        self.pump = threading.Thread(target=self._pump, args=(log or sys.stderr,), daemon=True)
        self.pump.start()

    def _pump(self, log):
        for line in self.process.stdout:
            self.told.put(line)
            with contextlib.suppress(OSError, ValueError):
                log.write(line)
                log.flush()
        self.told.put(None)

    def has_ended(self):
        return self.process.poll() is not None

    def end(self):
        """Ends the part and what it started, and waits until all that it told is written."""
        for number in (signal.SIGTERM, signal.SIGKILL):
            if self.has_ended():
                break
            with contextlib.suppress(ProcessLookupError):
                os.killpg(self.process.pid, number)
            with contextlib.suppress(subprocess.TimeoutExpired):
                self.process.wait(5)
        self.pump.join(2)


def _need_free(kind, port, option):
    with socket.socket(socket.AF_INET, kind) as it:
        if kind == socket.SOCK_STREAM:
            it.setsockopt(socket.SOL_SOCKET, socket.SO_REUSEADDR, 1)
        try:
            it.bind(("127.0.0.1", port))
        except OSError as error:
            name = "TCP" if kind == socket.SOCK_STREAM else "UDP"
            raise Trouble(f"{name} port {port} of 127.0.0.1 cannot be had: {error.strerror}; {option} names another") from None


def _wait_for_switch(switch, port):
    until = time.monotonic() + START
    while time.monotonic() < until and not switch.has_ended():
        with contextlib.suppress(OSError), socket.create_connection(("127.0.0.1", port), 1):
            return
        time.sleep(0.05)
    raise Trouble(f"the switch does not serve, its status is {switch.process.poll()}")


# The queue of the switch's UDP port.

def _inodes_at(port):
    """What the sockets at a UDP port of 127.0.0.1 are called under /proc."""
    with open("/proc/net/udp", encoding="ascii") as it:
        rows = [line.split() for line in it.readlines()[1:]]
    return {f"socket:[{row[9]}]" for row in rows if row[1] == f"0100007F:{port:04X}"}


def _files_of(session):
    """The open files of the processes of a session: process, number, and what each is."""
    for process in filter(str.isdigit, os.listdir("/proc")):
        with contextlib.suppress(OSError):
            if os.getsid(int(process)) == session:
                for file in os.listdir(f"/proc/{process}/fd"):
                    yield int(process), int(file), os.readlink(f"/proc/{process}/fd/{file}")


def widen_queue(session, port):
    """Makes the queue of the UDP port of a session's process QUEUE bytes long, or as long as this process may; gives its length,
    0 where the system lets this process not at it."""
    wanted, library = _inodes_at(port), ctypes.CDLL(None, use_errno=True)
    for process, file, what in _files_of(session):
        if what not in wanted:
            continue
        with contextlib.suppress(OSError):
            found = library.syscall(PIDFD_GETFD, handle := os.pidfd_open(process), file, 0)
            os.close(handle)
            if found < 0:
                continue
            with socket.socket(fileno=found) as it:
                for option in (socket.SO_RCVBUF, SO_RCVBUFFORCE):
                    with contextlib.suppress(OSError):
                        it.setsockopt(socket.SOL_SOCKET, option, QUEUE)
                return it.getsockopt(socket.SOL_SOCKET, socket.SO_RCVBUF)
    return 0


def _switch_words(given):
    """What is run for the switch: SWITCH in place of bin/p4switch, where that is set."""
    first = shlex.split(os.environ.get("SWITCH", "")) or [os.path.join(BIN, "p4switch")]
    options = {"port": given.grpc_server_addr, "packets": given.packets, "workers": given.workers,
               "device": given.device_id, "cpu": given.cpu_port, "rows": given.rows}
    return [*first, *["--preview"] * given.preview, "serve", *(it for name in options for it in (f"--{name}", str(options[name])))]


def _ports_words(given):
    joined = [it for one in given.interface for it in ("-i", one)]
    pcap = ["--pcap", given.pcap] if given.pcap else []
    return [os.path.join(BIN, "p4ports"), *joined, "--packets", str(given.packets), "--cpu", str(given.cpu_port), *pcap]


def _check(given):
    """Names what is wrong before anything runs."""
    config = read_config(given.program, given.p4info) if given.program else None
    if given.interface:
        status = subprocess.run([*_ports_words(given), "--check"], stdin=subprocess.DEVNULL, check=False).returncode
        if status:
            return status, None
    elif given.pcap:
        raise Trouble("--pcap captures at interfaces, and none is joined: -i PORT@INTERFACE")
    _need_free(socket.SOCK_STREAM, given.grpc_server_addr, "--grpc-server-addr 127.0.0.1:PORT")
    _need_free(socket.SOCK_DGRAM, given.packets, "--packets")
    return 0, config


def _run(given):
    status, config = _check(given)
    if status:
        return status
    with contextlib.ExitStack() as stack:
        log = None
        if given.log_file:
            try:
                log = stack.enter_context(open(given.log_file, "w", encoding="utf-8", buffering=1))
            except OSError as error:
                raise Trouble(f"--log-file {given.log_file}: {error.strerror}") from None
        return _lab(given, config, log, stack)


def _lab(given, config, log, stack):
    parts = []

    def start(name, words):
        parts.append(Part(name, words, log))
        stack.callback(parts[-1].end)
        return parts[-1]

    try:
        _wait_for_switch(switch := start("the switch", _switch_words(given)), given.grpc_server_addr)
        if config:
            load(given.grpc_server_addr, given.device_id, config)
        if given.interface:
            widen_queue(switch.process.pid, given.packets)
        if given.interface and start("p4ports", _ports_words(given)).told.get() is None:
            raise Trouble("p4ports ended by itself")
        signal.signal(signal.SIGUSR1, lambda *_: [os.kill(it.process.pid, signal.SIGUSR1) for it in parts[1:]])
        print(f"p4lab: device {given.device_id} serves at 127.0.0.1:{given.grpc_server_addr}, program "
              f"{given.program or 'none yet'}, interfaces {' '.join(given.interface) or 'none'}; Ctrl-C ends it", flush=True)
        _watch(parts)
    except Trouble as trouble:
        print(f"p4lab: {trouble}", file=sys.stderr)
        return FAILED
    finally:
        for number in (signal.SIGINT, signal.SIGTERM, signal.SIGHUP):
            signal.signal(number, signal.SIG_IGN)


def _watch(parts):
    """Waits until a part ends by itself, which is a Trouble."""
    while True:
        for part in parts:
            if part.has_ended():
                raise Trouble(f"{part.name} ended by itself, with status {part.process.returncode}")
        time.sleep(0.2)
