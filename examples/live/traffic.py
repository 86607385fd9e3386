#!/usr/bin/python3
"""traffic.py PACKETS COUNT
traffic.py PACKETS until FILE

Sends packets to two addresses by turns into port 2 of a switch that takes them at the UDP port PACKETS, COUNT of
them or until FILE is there, and says at which ports they left. At most 32 are under way, so that none is lost on
the way to the switch; one that is not back in five seconds is lost.
"""
import os
import socket
import sys
import time

ADDRESSES = ("10.1.2.3", "10.1.200.3")
UNDER_WAY, PATIENCE = 32, 5


def packet(number):
    """A packet of 50 bytes, whose last eight are its number; its sum is left to be written by the router."""
    ip = bytes.fromhex("45000024" "00000000" "40110000") + socket.inet_aton("192.0.2.1") + address(number)
    return bytes.fromhex("02000000000a" "020000000001" "0800") + ip + bytes.fromhex("c350c35100100000") + number.to_bytes(8, "big")


def address(number):
    return socket.inet_aton(ADDRESSES[number % 2])


class Traffic:
    """Packets that are under way, and where those left that came back."""

    def __init__(self, port):
        self.entry = ("127.0.0.1", port)
        self.socket = socket.socket(socket.AF_INET, socket.SOCK_DGRAM)
        self.socket.bind(("127.0.0.1", port + 1))
        self.socket.settimeout(PATIENCE)
        self.sent, self.under_way, self.lost = 0, set(), 0
        self.ports = {it: {} for it in ADDRESSES}

    def send(self):
        self.socket.sendto((2).to_bytes(2, "big") + packet(self.sent), self.entry)
        self.under_way.add(self.sent)
        self.sent += 1

    def take(self):
        """Takes one that left; where none comes, those under way are lost."""
        try:
            data = self.socket.recv(65536)
        except TimeoutError:
            self.lost += len(self.under_way)
            self.under_way.clear()
            return
        number = int.from_bytes(data[-8:], "big")
        if number in self.under_way:
            self.under_way.discard(number)
            ports = self.ports[ADDRESSES[number % 2]]
            port = int.from_bytes(data[:2], "big")
            ports[port] = ports.get(port, 0) + 1

    def run(self, is_done):
        while not is_done(self.sent):
            self.send()
            while len(self.under_way) >= UNDER_WAY:
                self.take()
            time.sleep(0.0005)
        while self.under_way:
            self.take()


def main():
    port, words = int(sys.argv[1]), sys.argv[2:]
    traffic = Traffic(port)
    if words[0] == "until":
        traffic.run(lambda sent: os.path.exists(words[1]))
    else:
        traffic.run(lambda sent: sent == int(words[0]))
    for name, ports in traffic.ports.items():
        counts = ", ".join(f"port {it}" + f" ({ports[it]})" * (words[0] != "until") for it in sorted(ports))
        print(f"to {name}: left at {counts}")
    print(f"lost: {traffic.lost}")


if __name__ == "__main__":
    main()
