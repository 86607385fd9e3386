"""Packets that the router of examples/programs takes, what it makes of them, and their datagrams."""
import contextlib
import ipaddress
import socket

ROUTER_MAC = bytes.fromhex("02000000000a")
SENDER_MAC = bytes.fromhex("020000000001")
# Python has no name for it.
SO_RCVBUFFORCE = 33
SENDER = ipaddress.ip_address("10.0.0.1").packed


def checksum(header):
    """The checksum of an IPv4 header whose own checksum is 0 (RFC 1071)."""
    total = sum(int.from_bytes(header[at:at + 2], "big") for at in range(0, len(header), 2))
    while total >> 16:
        total = (total & 0xFFFF) + (total >> 16)
    return (~total & 0xFFFF).to_bytes(2, "big")


def ipv4(destination, ttl, payload):
    """An IPv4 packet without options."""
    head = bytes.fromhex("4500") + (20 + len(payload)).to_bytes(2, "big") + bytes.fromhex("00004000") + bytes([ttl, 1])
    tail = SENDER + ipaddress.ip_address(destination).packed
    return head + checksum(head + bytes(2) + tail) + tail + payload


def packet(destination, payload=b"", ttl=64):
    """A packet for the router, as it comes in."""
    return ROUTER_MAC + SENDER_MAC + b"\x08\x00" + ipv4(destination, ttl, payload)


def routed(destination, mac, payload=b"", ttl=64):
    """The same packet as it leaves by a route with this address."""
    return mac_bytes(mac) + ROUTER_MAC + b"\x08\x00" + ipv4(destination, ttl - 1, payload)


def mac_bytes(mac):
    """The bytes of 02:00:00:00:00:03."""
    return bytes.fromhex(mac.replace(":", ""))


class Network:
    """The network at the switch's ports: a packet goes in as a datagram at one UDP port, and what leaves
    comes at the port above. A datagram is the switch's port in two bytes, big-endian, and then the packet."""

    def __init__(self, packets):
        self.entry = ("127.0.0.1", packets)
        self.socket = socket.socket(socket.AF_INET, socket.SOCK_DGRAM)
        # (the second is for root alone, and takes more than the system gives to all)
        for option in (socket.SO_RCVBUF, SO_RCVBUFFORCE):
            with contextlib.suppress(PermissionError):
                self.socket.setsockopt(socket.SOL_SOCKET, option, 1 << 22)
        self.socket.bind(("127.0.0.1", packets + 1))

    def send(self, port, data):
        """Sends a packet into a port of the switch."""
        self.send_datagram(port.to_bytes(2, "big") + data)

    def send_datagram(self, data):
        self.socket.sendto(data, self.entry)

    def take(self, seconds):
        """The port and the bytes of the next packet that leaves, or None where none does in time."""
        self.socket.settimeout(seconds)
        try:
            data = self.socket.recv(65536)
        except (socket.timeout, BlockingIOError):
            return None
        return int.from_bytes(data[:2], "big"), data[2:]

    def close(self):
        self.socket.close()
