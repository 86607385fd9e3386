"""A switch that serves, for the scripts that ask much of one: started and ended, its processor time and its memory; and
calls of it by h2load."""
import contextlib
import os
import re
import shlex
import signal
import socket
import subprocess
import sys
import time

import frames

HERE = os.path.dirname(os.path.abspath(__file__))
TOP = os.path.dirname(os.path.dirname(HERE))
sys.path.insert(1, os.path.join(TOP, "tools"))

from built import free_port  # noqa: E402

# What bin/p4switch sets for the program that serves, unless it is set.
ONE_HEAP = {"MALLOC_ARENA_MAX": "1", "MALLOC_TRIM_THRESHOLD_": "131072"}
HEADERS = ["-H", "content-type: application/grpc", "-H", "te: trailers"]
EMPTY_CALL = EMPTY_ANSWER = bytes(5)
VERSION_ANSWER = bytes.fromhex("0000000007" "0a05312e332e30")
MOST_SECONDS = 900
# How long a switch may take until it listens, in seconds: --preview compiles it first.
PATIENCE = 600


def switch_words():
    """What is run in place of bin/p4switch: the words of SWITCH, or bin/p4switch itself."""
    return shlex.split(os.environ.get("SWITCH", os.path.join(TOP, "bin/p4switch")))


# Processes.

def start(words, port, **how):
    """A process that listens at a port, once it does."""
    process = subprocess.Popen(words, **how)
    while True:
        try:
            socket.create_connection(("127.0.0.1", port)).close()
            return process
        except ConnectionRefusedError:
            if process.poll() is not None:
                sys.exit(f"{words[0]} has ended with status {process.returncode}")
            time.sleep(0.1)


def listener(port):
    """The id of the process that listens at a port: the switch itself, whatever started it."""
    inode = None
    for table in ("tcp", "tcp6"):
        with open("/proc/net/" + table, encoding="ascii") as it:
            for words in map(str.split, it.readlines()[1:]):
                if words[1].endswith(f"0100007F:{port:04X}") and words[3] == "0A":
                    inode = f"socket:[{words[9]}]"
    for pid in filter(str.isdigit, os.listdir("/proc")):
        try:
            if inode in (os.readlink(f"/proc/{pid}/fd/{fd}") for fd in os.listdir(f"/proc/{pid}/fd")):
                return int(pid)
        except OSError:
            continue
    sys.exit(f"nobody listens at {port}")


def end(process, pid):
    """Ends a server by its process id."""
    with contextlib.suppress(ProcessLookupError):
        os.kill(pid, signal.SIGTERM)
    process.wait(20)


def processor_seconds(pid):
    """The processor time of a process so far."""
    with open(f"/proc/{pid}/stat", encoding="ascii") as it:
        words = it.read().rpartition(")")[2].split()
    return (int(words[11]) + int(words[12])) / os.sysconf("SC_CLK_TCK")


def resident(pid, what="VmRSS"):
    """The resident memory of a process in MiB, or with VmHWM the most that it was."""
    with open(f"/proc/{pid}/status", encoding="ascii") as it:
        return int(re.search(what + r":\s+(\d+) kB", it.read())[1]) / 1024


class Switch:
    """A switch that serves at ports of its own, once it answers. `before` is what stands before its words."""

    def __init__(self, *words, before=(), **how):
        self.port, self.packets = free_port(socket.SOCK_STREAM), free_port(socket.SOCK_DGRAM, 2)
        self.words = [*before, *switch_words(), "serve", "--port", str(self.port), "--packets", str(self.packets), *words]
        self.process = start(self.words, self.port, env={**ONE_HEAP, **os.environ}, **how)
        self.pid = listener(self.port)
        first_answer(self.port)

    def __enter__(self):
        return self

    def __exit__(self, *_):
        if self.process.poll() is None:
            end(self.process, self.pid)


def first_answer(port):
    """Waits for the first answer: a switch listens before it is ready."""
    peer = frames.Connection(port)
    peer.begin()
    stream = peer.open_stream("Capabilities")
    peer.say(stream, b"", frames.END_STREAM)
    peer.answer(stream, 120)
    peer.close()


@contextlib.contextmanager
def answering():
    """The port of a server of gRPC's C++ library that answers at once, and its process, meanwhile."""
    port = free_port(socket.SOCK_STREAM)
    answer = start([os.path.join(HERE, "out/answer"), str(port)], port)
    try:
        yield port, answer.pid
    finally:
        end(answer, answer.pid)


# h2load.

class Load:
    """Calls as h2load makes them: a method, the file of its request, its answer, on so many connections and so many at
    a time on each."""

    def __init__(self, method, request, answer, connections, streams):
        self.method, self.request, self.answer = method, request, answer
        self.connections, self.streams = connections, streams

    def __str__(self):
        times = f"{self.streams} at a time on each" if self.connections > 1 else f"{self.streams} at a time"
        return f"{self.method} on {self.connections} connection{'s' * (self.connections > 1)}, {times}"

    def words(self, port, calls):
        """The words of h2load for so many calls."""
        return ["h2load", "-n", str(calls), "-c", str(self.connections), "-m", str(self.streams), "-d", self.request,
                *HEADERS, f"http://127.0.0.1:{port}/p4.v1.P4Runtime/{self.method}"]


class NotAnswered(Exception):
    """Calls of which not all were answered as they should be."""


def h2load(port, calls, load, answer=None):
    """So many calls by h2load: how many a second, and what their times were. Each is to have as many bytes of answer as
    the load's answer has, or the one that is given."""
    words = load.words(port, calls)
    try:
        told = subprocess.run(words, stdout=subprocess.PIPE, check=False, timeout=MOST_SECONDS).stdout.decode()
    except subprocess.TimeoutExpired:
        told = f"not done in {MOST_SECONDS} s"
    rate = re.search(r"finished in .*, ([\d.]+) req/s", told)
    done = re.search(r"(\d+) succeeded", told)
    data = re.search(r"headers .*, \S+ \((\d+)\) data", told)
    times = re.search(r"time for request: +\S+ +(\S+) +(\S+)", told)
    length = calls * len(load.answer if answer is None else answer)
    if rate and done and data and times and int(done[1]) == calls and int(data[1]) == length:
        return float(rate[1]), f"mean {times[2]}, longest {times[1]}"
    raise NotAnswered(f"{shlex.join(words)}: not all were answered as they should be\n{told}")
