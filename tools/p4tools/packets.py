"""Packets in words and in pcap files, by scapy."""
import functools
import io
import logging
import os

from p4tools.files import make_folder, write_bytes
from p4tools.trouble import Trouble

logging.getLogger("scapy").setLevel(logging.ERROR)
ETHERNET = 1
SHORTEST = 14


@functools.lru_cache(None)
def _scapy():
    """scapy is loaded where a packet is first looked at, as that takes a moment."""
    try:
        from scapy.layers import inet, inet6, l2  # noqa: F401 (they name the layers of Ethernet)
        from scapy import utils
    except ImportError:
        raise Trouble("python3-scapy is missing: apt-get install -y python3-protobuf python3-scapy") from None
    return l2.Ether, utils


@functools.lru_cache(4096)
def summary(data):
    """A packet in a line: scapy's summary where it is long enough for Ethernet, else its bytes."""
    if len(data) < SHORTEST:
        return f"{len(data)} bytes {data.hex() or '.'}"
    return f"{_scapy()[0](data).summary()}, {len(data)} bytes"


@functools.lru_cache(4096)
def decode(data):
    """A packet by scapy's layers."""
    return _scapy()[0](data)


def layers():
    """The classes of scapy's layers."""
    from scapy.config import conf
    _scapy()
    return list(conf.layers)


def of_pcap(data, file):
    """The packets of a pcap or pcapng file's bytes."""
    return [packet for packet, _, _ in timed_of_pcap(data, file)]


def timed_of_pcap(data, file):
    """The packets of a pcap or pcapng file's bytes: of each its bytes, its time in nanoseconds, and whether the
    capture cut it off."""
    try:
        reader = _scapy()[1].RawPcapReader(io.BytesIO(data))
        unit = 1 if getattr(reader, "nano", False) else 1000
        return [(packet, _time(told, unit), told.wirelen > len(packet)) for packet, told in reader]
    except Exception as error:  # scapy has many
        raise Trouble(f"{file} is no pcap file: {error}") from None


def _time(told, unit):
    if hasattr(told, "sec"):
        return told.sec * 1_000_000_000 + told.usec * unit
    if told.tshigh is None:
        return 0
    return ((told.tshigh << 32) + told.tslow) * 1_000_000_000 // int(told.tsresol)


def write_pcap(folder, name, packets):
    """Writes packets as folder/name, a microsecond apart, so that the same packets make the same file."""
    make_folder(folder)
    path = os.path.join(folder, name)
    write_bytes(path, b"")
    with _scapy()[1].RawPcapWriter(path, linktype=ETHERNET) as writer:
        writer.write_header(None)
        for number, data in enumerate(packets):
            writer.write_packet(data, sec=number // 1_000_000, usec=number % 1_000_000)
    return path


@functools.lru_cache(4096)
def differences(one, other):
    """In what fields two packets differ: the field, its value in the one, its value in the other.
    None where their layers differ, or no layer is known."""
    if min(len(one), len(other)) < SHORTEST:
        return None
    ether = _scapy()[0]
    layers = [_layers(ether(it)) for it in (one, other)]
    if [it[0] for it in layers[0]] != [it[0] for it in layers[1]]:
        return None
    found = []
    for (name, first), (_, second) in zip(*layers):
        found += [(f"{name}.{field}", first[field], second[field]) for field in first
                  if first[field] != second.get(field)]
    return found


def _layers(packet):
    """The layers of a packet: their names and their fields with values in words."""
    found = []
    while packet and packet.name != "NoPayload":
        fields = {it.name: it.i2repr(packet, packet.getfieldval(it.name)) for it in packet.fields_desc}
        found.append((packet.name, fields))
        packet = packet.payload
    return found
