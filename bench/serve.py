#!/usr/bin/python3
"""serve.py [--short] [--turns N] [--preview] [PART..]

How fast `p4switch serve` answers and carries packets, beside two yardsticks in the same run: a server of gRPC's C++ library
that answers each call at once (clients/answer.cc), and a program in C that sends each datagram back as it came (serve_load.c).
Each figure is taken of the switch and of its yardstick by turns (3, or N), and the middle one of each is told, with their ratio
and the least and the greatest ratio of a turn. A PART is one of

  writes   Writes of one update a second: one at a time and 16 at a time on one connection, and one at a time on 31
  batches  Writes of 4,096 updates a second
  config   VERIFY_AND_COMMITs of a program of nearly 4 MiB a second
  packets  packets of 34 bytes of a route a second: one at a time with one worker, and up to 128 on their way with 1, 2 and 4
           workers; alone, and beside Writes without a pause (of the yardstick, beside such calls of the server that answers)
  inbound  the time from a packet's datagram to its PacketIn, beside that of a datagram that is sent back: on a switch that does
           nothing else, beside 30 connections that say nothing, beside 30 that ask without a pause, beside batches of 4,096
  read     Reads of one entry's counter a second, before and after 1,000,000 counter slots were drawn
  silent   the processor time beside 31 connections that say nothing

and without one all are run, each with a switch of its own. --short makes each small, so that what it measures means nothing, and
--preview runs the switch unproved. SWITCH is what is run in place of bin/p4switch. It needs what `bench/clients/install` has.
Figures are of this machine and of this moment: one to quote is a ratio.
"""
import argparse
import contextlib
import json
import os
import random
import socket
import statistics
import subprocess
import sys
import tempfile
import time

import configs
from common import MODIFY, VERIFY_AND_COMMIT, bytes_field, fields, number_field, router

HERE = os.path.dirname(os.path.abspath(__file__))
sys.path.insert(0, os.path.join(HERE, "clients"))

import frames  # noqa: E402
from ipv4 import packet  # noqa: E402
from p4client import CPU_PORT, DATAPLANE_ATOMIC, DELETE, INSERT, Controller, Program, p4  # noqa: E402
from serving import EMPTY_ANSWER, EMPTY_CALL, VERSION_ANSWER, Load, Switch, answering, free_port, h2load, processor_seconds  # noqa: E402

MAC = "02:00:00:00:00:03"
MOST_UPDATES = 4096
LINKS = 31
WINDOW = 128
CONFIG_BYTES = 4 * 2**20 - 2**16
CAPABILITIES = "Capabilities"


class Sizes:
    """How long a turn takes, in seconds, and how many of a thing are made."""
    seconds, batches, configs, slots, inbound, silent = 3, 20, 6, 1_000_000, 100, 15


class ShortSizes:
    """The same, to see that all of it runs."""
    seconds, batches, configs, slots, inbound, silent = 0.3, 3, 2, 20_000, 5, 1


def route(place, port):
    """The words of a route of 10.0.0.0/8, by its place."""
    return f"ipv4_lpm dst=10.{place >> 8}.{place & 255}.0/24 route(port={port}, mac={MAC})"


def routes(count, port=3):
    return [route(place, port) for place in range(count)]


def short(number):
    """A figure as it is told."""
    return f"{number:,.0f}" if number >= 100 else f"{number:.3g}"


@contextlib.contextmanager
def going(words):
    """A process, meanwhile."""
    with subprocess.Popen(words, stdout=subprocess.DEVNULL) as process:
        try:
            yield
        finally:
            process.terminate()


class Loaded:
    """A switch with the router, and a controller that is its primary."""

    def __init__(self, *words):
        self.switch, self.program = Switch(*words), Program("router")
        self.controller = Controller(self.switch.port)
        self.controller.take_charge(self.program)

    def __enter__(self):
        return self

    def __exit__(self, *_):
        self.controller.close()
        self.switch.__exit__()

    def updates(self, kind, entries):
        return [self.program.update(kind, words) for words in entries]

    def write(self, kind, entries):
        """Writes entries, as many updates at a time as may be."""
        for at in range(0, len(entries), MOST_UPDATES):
            self.controller.write(self.updates(kind, entries[at:at + MOST_UPDATES]))

    def request(self, kind, entries, atomicity=0):
        """The bytes of a Write, as gRPC has them."""
        made = self.controller.write_request(self.updates(kind, entries), atomicity)
        return frames.grpc_message(made.SerializeToString())


class Bench:
    def __init__(self, given, made, answer):
        self.given, self.made = given, made
        self.answer_port, self.answer_pid = answer
        self.sizes = ShortSizes if given.short else Sizes
        self.turns = given.turns or (1 if given.short else 3)
        self.load_program = os.path.join(made, "load")
        subprocess.run(["cc", "-O2", "-Wall", "-Wextra", "-pthread", "-o", self.load_program, os.path.join(HERE, "serve_load.c")],
                       check=True)

    def file(self, name, data):
        with open(os.path.join(self.made, name), "wb") as it:
            it.write(data)
        return it.name

    def by_turns(self, what, unit, ours, other, most=False):
        """Takes a figure of both by turns, and tells the middle ones and their ratio. With `most` a small one is good."""
        taken = [(ours(), other()) for _ in range(self.turns)]
        mine, its = (statistics.median(it) for it in zip(*taken))
        ratios = sorted(one / two for one, two in taken if two)
        told = f"{mine / its:.2f} times ({ratios[0]:.2f} to {ratios[-1]:.2f})" if its else "too little for a ratio"
        print(f"{what}: {short(mine)} {unit}, the yardstick {short(its)}: {told}{', less is better' if most else ''}", flush=True)
        return mine

    # Calls.

    def rate(self, port, load, answer=None, calls=None):
        """Calls a second: so many, or as many as fill a turn."""
        few = max(load.connections * load.streams, 100)
        if calls is None:
            calls = max(few, int(h2load(port, few, load, answer)[0] * self.sizes.seconds))
        return h2load(port, calls, load, answer)[0]

    def calls(self, what, port, load, calls=None):
        """Calls of the switch and of the server that answers at once, by turns."""
        return self.by_turns(what, "a second", lambda: self.rate(port, load, None, calls),
                             lambda: self.rate(self.answer_port, load, EMPTY_ANSWER, calls))

    def writes(self):
        with Loaded() as it:
            it.write(INSERT, [route(1, 3)])
            file = self.file("write", it.request(MODIFY, [route(1, 4)]))
            for connections, streams in ((1, 1), (1, 16), (LINKS, 1)):
                load = Load("Write", file, EMPTY_ANSWER, connections, streams)
                self.calls(str(load), it.switch.port, load)

    def batches(self):
        with Loaded() as it:
            it.write(INSERT, routes(MOST_UPDATES))
            for name, atomicity in (("CONTINUE_ON_ERROR", 0), ("DATAPLANE_ATOMIC", DATAPLANE_ATOMIC)):
                file = self.file("batch", it.request(MODIFY, routes(MOST_UPDATES, 4), atomicity))
                load = Load("Write", file, EMPTY_ANSWER, 1, 1)
                rate = self.calls(f"Writes of {MOST_UPDATES:,} updates ({name}, {os.path.getsize(file):,} bytes)", it.switch.port, load,
                                  self.sizes.batches)
                print(f"    {1e6 / rate / MOST_UPDATES:.2f} us an update", flush=True)

    def config(self):
        parts = dict(fields(router()))
        plain = json.dumps(json.loads(parts[2]), separators=(",", ":")).encode()
        longer = configs.filled(plain, b'"transitions":[', configs.transition, CONFIG_BYTES)
        with Loaded() as it:
            request = number_field(1, 1) + bytes_field(3, election_field(it.controller.election)) + number_field(4, VERIFY_AND_COMMIT)
            request += bytes_field(5, bytes_field(1, parts[1]) + bytes_field(2, longer))
            load = Load("SetForwardingPipelineConfig", self.file("config", frames.grpc_message(request)), EMPTY_ANSWER, 1, 1)
            self.calls(f"VERIFY_AND_COMMITs of {len(longer):,} bytes", it.switch.port, load, self.sizes.configs)

    def read(self):
        with Loaded() as it:
            it.write(INSERT, [route(1, 3)])
            key = it.program.entity("direct_counter_entry " + route(1, 3).partition(" route")[0])
            request = p4.ReadRequest(device_id=1, entities=[key]).SerializeToString()
            answer = p4.ReadResponse(entities=it.controller.read(key)).SerializeToString()
            load = Load("Read", self.file("read", frames.grpc_message(request)), frames.grpc_message(answer), 1, 1)
            before = self.calls("Reads of one counter", it.switch.port, load)
            drawn = self.draw(it)
            after = self.calls(f"Reads of one counter after {drawn:,} slots were drawn", it.switch.port, load)
            print(f"    {before / after:.2f} times as long as before", flush=True)

    def draw(self, it):
        """Draws counter slots: entries come and go, the last first."""
        entries = routes(1 + MOST_UPDATES)[2:]
        inserts, deletes = it.updates(INSERT, entries), it.updates(DELETE, entries[::-1])
        rounds = -(-self.sizes.slots // len(entries))
        for _ in range(rounds):
            it.controller.write(inserts)
            it.controller.write(deletes)
        return rounds * len(entries)

    # Packets.

    def carried(self, port, datagram, window):
        """What `load` says of datagrams to a port."""
        words = [self.load_program, "load", str(port), str(window), str(self.sizes.seconds)]
        with open(datagram, "rb") as it:
            found = json.loads(subprocess.run(words, stdin=it, stdout=subprocess.PIPE, check=True).stdout)
        if found["came"] != found["sent"]:
            print(f"    of {found['sent']:,} datagrams {found['sent'] - found['came']:,} did not come back", flush=True)
        return found["came"] / found["seconds"]

    def beside(self, port, load, is_busy):
        """Calls without a pause, meanwhile."""
        return going(load.words(port, 10**9)) if is_busy else contextlib.nullcontext()

    def packets(self):
        datagram = self.file("datagram", b"\x00\x01" + packet("10.0.1.1"))
        for workers in (1, 2, 4):
            echo_port = free_port(socket.SOCK_DGRAM, 2)
            with Loaded("--workers", str(workers)) as it, going([self.load_program, "echo", str(echo_port), str(workers)]):
                it.write(INSERT, routes(1000))
                load = Load("Write", self.file("write", it.request(MODIFY, [route(500, 4)])), EMPTY_ANSWER, 1, 1)
                for window in (1, WINDOW) if workers == 1 else (WINDOW,):
                    for is_busy in (False, True):
                        self.worker(it, workers, window, datagram, echo_port, load, is_busy)

    def worker(self, it, workers, window, datagram, echo_port, load, is_busy):
        """Packets of so many workers, by turns with datagrams of as many threads."""
        def of(port, calls_port):
            with self.beside(calls_port, load, is_busy):
                return self.carried(port, datagram, window)
        what = f"packets, {workers} worker{'s' * (workers > 1)}, {'one at a time' if window == 1 else f'{window} on their way'}"
        self.by_turns(what + (", beside Writes" if is_busy else ""), "a second", lambda: of(it.switch.packets, it.switch.port),
                      lambda: of(echo_port, self.answer_port))

    def inbound(self):
        with Loaded() as it:
            it.write(INSERT, routes(MOST_UPDATES) + [f"ipv4_lpm dst=11.0.0.0/8 route(port={CPU_PORT}, mac={MAC})"])
            peer = Listener(it.switch, it.controller.election + 1)
            it.controller.election += 1
            batch = Load("Write", self.file("batch", it.request(MODIFY, routes(MOST_UPDATES, 4))), EMPTY_ANSWER, 1, 1)
            ask = Load(CAPABILITIES, self.file("call", EMPTY_CALL), VERSION_ANSWER, 30, 1)
            echo_port = free_port(socket.SOCK_DGRAM, 2)
            with going([self.load_program, "echo", str(echo_port), "1"]), Echo(echo_port) as echo:
                self.waits("alone", peer, echo)
                links = [socket.create_connection(("127.0.0.1", it.switch.port)) for _ in range(30)]
                self.waits("beside 30 connections that say nothing", peer, echo)
                for link in links:
                    link.close()
                time.sleep(0.5)
                with going(ask.words(it.switch.port, 10**9)):
                    self.waits("beside 30 connections that ask", peer, echo)
                with going(batch.words(it.switch.port, 10**9)):
                    self.waits(f"beside batches of {MOST_UPDATES:,}", peer, echo)
            peer.close()

    def waits(self, what, peer, echo):
        """How long packets take to a controller, and datagrams to come back; p50 and p99 of all turns."""
        dice, mine, its = random.Random(1), [], []
        for _ in range(self.turns):
            for times, end in ((mine, peer), (its, echo)):
                for number in range(self.sizes.inbound):
                    time.sleep(dice.uniform(0, 0.06))
                    times.append(end.once(number))
        told = []
        for name, part in (("p50", 0.5), ("p99", 0.99)):
            one, two = (sorted(it)[int(part * (len(it) - 1))] for it in (mine, its))
            told.append(f"{name} {1e3 * one:.3f} ms, the yardstick {1e3 * two:.3f} ms: {one / two:.1f} times")
        print(f"a PacketIn, {what}: {'; '.join(told)}; longest {1e3 * max(mine):.1f} ms, less is better", flush=True)

    # Connections that say nothing.

    def silent(self):
        with Switch() as it:
            self.by_turns(f"processor time beside {LINKS} connections that say nothing", "% of one",
                          lambda: self.idle(it.port, it.pid), lambda: self.idle(self.answer_port, self.answer_pid), True)

    def idle(self, port, pid):
        """The part of a processor in hundredths that a server takes beside connections that say nothing."""
        links = [socket.create_connection(("127.0.0.1", port)) for _ in range(LINKS)]
        time.sleep(0.5)
        before, begun = processor_seconds(pid), time.monotonic()
        time.sleep(self.sizes.silent)
        part = 100 * (processor_seconds(pid) - before) / (time.monotonic() - begun)
        for link in links:
            link.close()
        return part


def election_field(election):
    """An election id's message."""
    return number_field(1, election >> 64) * (election >> 64 > 0) + number_field(2, election & (1 << 64) - 1)


class Listener:
    """A primary of role 0 that sends packets in and waits for what comes of them on its stream channel."""

    def __init__(self, switch, election):
        self.entry, self.socket = ("127.0.0.1", switch.packets), socket.socket(socket.AF_INET, socket.SOCK_DGRAM)
        self.peer = frames.Connection(switch.port)
        self.peer.begin(frames.LARGEST_WINDOW)
        self.channel = self.peer.open_stream("StreamChannel")
        request = p4.StreamRequest()
        request.arbitration.device_id = 1
        p4.set_number(request.arbitration.election_id, election)
        self.peer.say(self.channel, request.SerializeToString())
        self.peer.messages(self.channel, 1)

    def once(self, number):
        """Seconds from a packet's datagram to its PacketIn."""
        payload = number.to_bytes(4, "big")
        begun = time.perf_counter()
        self.socket.sendto(b"\x00\x01" + packet("11.0.0.1", payload), self.entry)
        found = self.peer.messages(self.channel, 1)[0]
        took = time.perf_counter() - begun
        if not p4.parse(p4.StreamResponse, found).packet.payload.endswith(payload):
            sys.exit(f"serve.py: another message came in the place of packet {number}: {found.hex()}")
        return took

    def close(self):
        self.peer.close()
        self.socket.close()


class Echo:
    """The same with datagrams that are sent back."""

    def __init__(self, port):
        self.entry = ("127.0.0.1", port)
        self.socket, self.back = (socket.socket(socket.AF_INET, socket.SOCK_DGRAM) for _ in range(2))
        self.back.bind(("127.0.0.1", port + 1))
        self.back.settimeout(5)

    def __enter__(self):
        return self

    def __exit__(self, *_):
        self.socket.close()
        self.back.close()

    def once(self, number):
        datagram = b"\x00\x01" + packet("11.0.0.1", number.to_bytes(4, "big"))
        begun = time.perf_counter()
        self.socket.sendto(datagram, self.entry)
        self.back.recv(65536)
        return time.perf_counter() - begun


PARTS = {"writes": Bench.writes, "batches": Bench.batches, "config": Bench.config, "packets": Bench.packets, "inbound": Bench.inbound,
         "read": Bench.read, "silent": Bench.silent}


def main():
    words = argparse.ArgumentParser(description=__doc__, formatter_class=argparse.RawDescriptionHelpFormatter)
    words.add_argument("--short", action="store_true")
    words.add_argument("--preview", action="store_true")
    words.add_argument("--turns", type=int)
    words.add_argument("parts", nargs="*", metavar="PART")
    given = words.parse_args()
    unknown = [it for it in given.parts if it not in PARTS]
    if unknown:
        words.error(f"no PART: {', '.join(unknown)}")
    if given.preview:
        os.environ["SWITCH"] = os.environ.get("SWITCH", os.path.join(os.path.dirname(HERE), "bin/p4switch")) + " --preview"
    subprocess.run(["make", "-s", "-C", os.path.join(HERE, "clients"), "out/answer"], check=True)
    print(f"{os.cpu_count()} processors, of which in the minutes before {' '.join(f'{it:.1f}' for it in os.getloadavg())} were asked for",
          flush=True)
    with tempfile.TemporaryDirectory() as made, answering() as answer:
        bench = Bench(given, made, answer)
        for part in given.parts or PARTS:
            PARTS[part](bench)


if __name__ == "__main__":
    main()
