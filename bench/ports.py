#!/usr/bin/python3
"""ports.py [--seconds S] [--window N] [--preview] [PROGRAM]

How many packets a second go from one veth through bin/p4ports, the switch and back to another veth, and what processor time
each takes, for frames of 64 and of 1,500 bytes, with the router of examples/programs and one worker: beside a bridge of Linux on
the same veths, and beside p4ports with a wire in C in place of the switch, all in one run. At most N frames are on their way
(192 of 64 bytes, 64 of 1,500), so that none finds a queue full: the rate is that at which all come. PROGRAM is what is run in place of bin/p4switch; with
--preview that runs unproved. It needs a C compiler, iproute2, python3-grpcio and python3-protobuf, and a network namespace of
its own, which it makes; where it cannot, it ends with status 77. Rates are of this machine and moment: one to quote is a ratio.
"""
import argparse
import contextlib
import json
import os
import subprocess
import sys
import tempfile
import time

HERE = os.path.dirname(os.path.abspath(__file__))
TOP = os.path.dirname(HERE)
PYTHON = "/usr/bin/python3"
# The sizes of frames, and how many of them are on their way: less than the queue of a UDP socket holds by default.
WINDOWS = {64: 192, 1500: 64}
SMALL = 64
WANTED = 100_000
GRPC, PACKETS = 9559, 9000
TICK = os.sysconf("SC_CLK_TCK")
ROUTER = os.path.join(TOP, "examples/programs/router.json")
ROUTE = "ipv4_lpm dst=10.0.2.0/24 route(port=2, mac=02:00:00:00:02:01)"


def do(*words):
    subprocess.run(words, check=True)


def times_of(process):
    """The user and system time of a process and its threads, in seconds."""
    with open(f"/proc/{process}/stat", encoding="ascii") as it:
        fields = it.read().rpartition(") ")[2].split()
    return int(fields[11]) / TICK, int(fields[12]) / TICK


def children(process):
    """The processes that a process started, by the names of their programs."""
    with open(f"/proc/{process}/task/{process}/children", encoding="ascii") as it:
        found = it.read().split()
    names = {}
    for child in found:
        with open(f"/proc/{child}/comm", encoding="utf-8") as it:
            names["p4ports" if it.read().strip() == "p4ports" else "the switch"] = int(child)
    return names


class Bench:
    def __init__(self, given, made):
        self.given, self.load = given, os.path.join(made, "load")
        do("cc", "-O2", "-Wall", "-Wextra", "-o", self.load, os.path.join(HERE, "ports_load.c"))
        self.rates = {}

    def measure(self, what, size, processes):
        """Lets frames pass, and says how fast they came and what each process took."""
        before = {name: times_of(it) for name, it in processes.items()}
        words = [self.load, "a1", "b1", str(size), str(self.given.window or WINDOWS[size]), str(self.given.seconds)]
        found = json.loads(subprocess.run(words, stdout=subprocess.PIPE, check=True).stdout)
        spent = {name: [now - then for now, then in zip(times_of(it), before[name])] for name, it in processes.items()}
        spent["the sender"] = [found["user"], found["system"]]
        came, seconds = found["came"], found["seconds"]
        self.rates[what, size] = rate = came / seconds
        print(f"{size:,} bytes, {what}: {rate:,.0f} packets a second, {found['lost']:,} of {found['sent']:,} lost")
        for name, (user, system) in spent.items():
            each = 1e6 / max(came, 1)
            print(f"    {name}: {(user + system) * each:.2f} us a packet ({user * each:.2f} of its own, {system * each:.2f} of "
                  f"the system), busy {100 * (user + system) / seconds:.0f} % of the time")
        sys.stdout.flush()

    # What stands between the veths.

    def bridge(self):
        do("ip", "link", "add", "bridge0", "type", "bridge")
        for name in ("a0", "b0"):
            do("ip", "link", "set", name, "master", "bridge0")
        do("ip", "link", "set", "bridge0", "up")
        time.sleep(1)
        for size in WINDOWS:
            self.measure("a bridge of Linux", size, {})
        do("ip", "link", "del", "bridge0")

    def wire(self):
        with started([self.load, "wire", str(PACKETS)]) as wire, \
                started([os.path.join(TOP, "bin/p4ports"), "-i", "1@a0", "-i", "2@b0"], "p4ports: ") as ports:
            for size in WINDOWS:
                self.measure("p4ports and a wire", size, {"the wire": wire.pid, "p4ports": ports.pid})

    def switch(self):
        words = [os.path.join(TOP, "bin/p4lab"), *["--preview"] * self.given.preview, "-i", "1@a0", "-i", "2@b0", ROUTER]
        with started(words, "p4lab: device") as lab:
            write_route()
            for size in WINDOWS:
                self.measure("p4ports and the switch", size, children(lab.pid))

    def ratios(self):
        for size in WINDOWS:
            ours, bridge = self.rates["p4ports and the switch", size], self.rates["a bridge of Linux", size]
            wire = self.rates["p4ports and a wire", size]
            print(f"{size:,} bytes: {ours / bridge:.3f} times a bridge of Linux, {ours / wire:.3f} times a wire in place of the "
                  "switch")
        rate = self.rates["p4ports and the switch", SMALL]
        print(f"{WANTED:,} packets a second of {SMALL} bytes are meant: {'kept' if rate >= WANTED else 'not kept'}")


def write_route():
    sys.path.insert(0, os.path.join(HERE, "clients"))
    from p4client import INSERT, Controller, Program, fresh_election
    controller, program = Controller(GRPC), Program("router")
    controller.open()
    controller.arbitrate(fresh_election())
    controller.write([program.update(INSERT, ROUTE)])
    controller.end_stream()
    controller.close()


@contextlib.contextmanager
def started(words, said=None):
    """A process, once its first line begins so."""
    with subprocess.Popen(words, stdout=subprocess.PIPE, stderr=subprocess.DEVNULL, text=True) as process:
        try:
            if said and not process.stdout.readline().startswith(said):
                sys.exit(f"ports.py: {' '.join(words)} did not start")
            yield process
        finally:
            process.terminate()


def inside():
    """Runs this anew in a network namespace of its own."""
    own = ["unshare", "--net"] if os.geteuid() == 0 else ["unshare", "--user", "--map-root-user", "--net"]
    tried = subprocess.run([*own, "ip", "link", "add", "a0", "type", "veth", "peer", "name", "a1"], check=False,
                           capture_output=True, text=True)
    if tried.returncode:
        print(f"ports.py: no network namespace with veths can be made here: {tried.stderr.strip()}", file=sys.stderr)
        sys.exit(77)
    os.execvp(own[0], [*own, PYTHON, "-B", os.path.abspath(__file__), "--inside", *sys.argv[1:]])


def main():
    words = argparse.ArgumentParser(description=__doc__, formatter_class=argparse.RawDescriptionHelpFormatter)
    words.add_argument("--seconds", type=float, default=10)
    words.add_argument("--window", type=int)
    words.add_argument("--preview", action="store_true")
    words.add_argument("--inside", action="store_true", help=argparse.SUPPRESS)
    words.add_argument("program", nargs="?", metavar="PROGRAM")
    given = words.parse_args()
    if not given.inside:
        inside()
    if given.program:
        os.environ["SWITCH"] = given.program
    with open("/proc/sys/net/ipv6/conf/default/disable_ipv6", "w", encoding="ascii") as it:
        it.write("1")
    do("ip", "link", "set", "lo", "up")
    for near, far in (("a0", "a1"), ("b0", "b1")):
        do("ip", "link", "add", near, "type", "veth", "peer", "name", far)
        for it in (near, far):
            do("ip", "link", "set", it, "up")
    with tempfile.TemporaryDirectory() as made:
        bench = Bench(given, made)
        bench.bridge()
        bench.wire()
        bench.switch()
        bench.ratios()


if __name__ == "__main__":
    main()
