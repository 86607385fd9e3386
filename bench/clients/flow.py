#!/usr/bin/python3
"""flow.py PORT --packets N [--seconds S]

Packets for two customers go into port 1 of a switch that serves at 127.0.0.1:PORT and takes packets at the UDP port N,
while a controller replaces their routes, again and again, in atomic batches: one route for both customers, then a route
for each, then one again. Each route's address bears its port and the number of its batch, so what leaves tells which
route it took. No packet may see half of a batch, take the route upstream that stands behind them all, or be lost; a
packet that is sent behind a batch's answer goes by that batch or a later one. It ends with status 1 at the first
difference.
"""
import threading
import time

import grpc

from ipv4 import Network, mac_bytes, packet, routed
from p4client import (DATAPLANE_ATOMIC, DELETE, INSERT, PATIENCE, Controller, Difference, Program, call_out, expect,
                      main, p4, refusal, update_errors)

CUSTOMERS = ("10.1.2.3", "10.1.200.3")
UPSTREAM = "ipv4_lpm dst=10.0.0.0/8"
BOTH, FIRST, SECOND = "10.1.0.0/16", "10.1.0.0/17", "10.1.128.0/17"
PORTS = {BOTH: 3, FIRST: 4, SECOND: 5}
IN_FLIGHT = 8
NEVER = 0xFFFF_FFFF


def mac_of(port, batch):
    """The address of a route that a batch put in."""
    return ":".join(f"{it:02x}" for it in bytes([2, port]) + batch.to_bytes(4, "big"))


def prefixes_of(batch):
    """What stands behind a batch: one route for both, or one for each."""
    return (FIRST, SECOND) if batch % 2 else (BOTH,)


def route_of(customer, batch):
    """The port by which a customer's packets leave behind a batch."""
    prefixes = prefixes_of(batch)
    return PORTS[prefixes[customer if len(prefixes) == 2 else 0]]


class Replacing:
    """A controller that replaces the routes, and how far it is."""

    def __init__(self, controller, program):
        self.controller, self.program = controller, program
        self.begun = self.answered = 0
        self.trouble = None
        self.stop = threading.Event()

    def inserts(self, batch, number):
        routes = [(it, PORTS[it], mac_of(PORTS[it], number)) for it in prefixes_of(batch)]
        return [self.program.update(INSERT, f"ipv4_lpm dst={prefix} route(port={port}, mac={mac})")
                for prefix, port, mac in routes]

    def batch(self, batch, number):
        """The routes before a batch are taken out, and its own put in with this number."""
        gone = [self.program.update(DELETE, f"ipv4_lpm dst={it}") for it in prefixes_of(batch - 1)]
        return gone + self.inserts(batch, number)

    def start(self):
        """The program, the route upstream, and the routes of batch 0."""
        self.controller.take_charge(self.program)
        upstream = self.program.update(INSERT, f"{UPSTREAM} route(port=1, mac={mac_of(1, 0)})")
        self.controller.write([upstream] + self.inserts(0, 0))

    def run(self):
        """Batches until it is told to stop, and between them batches of which the last update fails."""
        try:
            while not self.stop.is_set():
                self.refused()
                self.begun += 1
                self.controller.write(self.batch(self.begun, self.begun), DATAPLANE_ATOMIC)
                self.answered = self.begun
        except (Difference, grpc.RpcError) as trouble:
            self.trouble = trouble

    def refused(self):
        """A batch that would replace the routes, but for its last update."""
        updates = self.batch(self.begun + 1, NEVER) + [self.program.update(DELETE, "ipv4_lpm dst=10.9.0.0/16")]
        code, status = refusal(self.controller.write, updates, DATAPLANE_ATOMIC)
        expect("batch with a mistake", code, "UNKNOWN")
        wanted = ["ABORTED"] * (len(updates) - 1) + ["NOT_FOUND"]
        expect("its updates", [p4.code_name(it.canonical_code) for it in update_errors(status)], wanted)


class Packets:
    """Packets on their way through the switch, and what each may become."""

    def __init__(self, network, replacing):
        self.network, self.replacing = network, replacing
        self.sent = {}
        self.number = 0

    def send(self):
        """One more, for one of the two customers."""
        self.number += 1
        self.sent[self.number] = self.replacing.answered
        self.network.send(1, packet(CUSTOMERS[self.number % 2], self.number.to_bytes(4, "big")))

    def take(self):
        """One that left: it went by one whole batch, which is none of before it was sent."""
        found = self.network.take(PATIENCE)
        if found is None:
            raise Difference(f"{len(self.sent)} packets did not leave, the first of them {min(self.sent)}")
        port, data = found
        number, batch = int.from_bytes(data[-4:], "big"), int.from_bytes(data[2:6], "big")
        if number not in self.sent:
            raise Difference(f"a packet left that was not sent, or twice: {data.hex()}")
        oldest, newest = self.sent.pop(number), self.replacing.begun
        if not oldest <= batch <= newest:
            raise Difference(f"packet {number} went by batch {batch}, not by one of {oldest} to {newest}: {data.hex()}")
        expect(f"port of packet {number} by batch {batch}", port, route_of(number % 2, batch))
        mac = mac_of(port, batch)
        expect(f"address of packet {number}", data[:6], mac_bytes(mac))
        expect(f"packet {number}", data, routed(CUSTOMERS[number % 2], mac, number.to_bytes(4, "big")))

    def run(self, seconds):
        until = time.monotonic() + seconds
        while time.monotonic() < until and not self.replacing.trouble:
            while len(self.sent) < IN_FLIGHT:
                self.send()
            self.take()
        while self.sent:
            self.take()


def run(given):
    controller, network = Controller(given.port), Network(given.packets)
    replacing = Replacing(controller, Program("router"))
    packets = Packets(network, replacing)
    try:
        replacing.start()
        writer = threading.Thread(target=replacing.run, daemon=True)
        writer.start()
        try:
            packets.run(given.seconds)
        finally:
            replacing.stop.set()
            writer.join()
        if replacing.trouble:
            raise replacing.trouble
        found = controller.read(replacing.program.entity(f"direct_counter_entry {UPSTREAM}"))
        expect("packets upstream", found[0].direct_counter_entry.data.packet_count, 0)
        expect("the end of the stream", controller.end_stream(), "OK")
        call_out(f"{packets.number:,} packets in {given.seconds:g} s while routes were replaced by "
                 f"{replacing.answered:,} atomic batches, and as many were refused: each left by one batch's routes")
    finally:
        controller.close()
        network.close()


if __name__ == "__main__":
    main(__doc__, run, seconds=10.0)
