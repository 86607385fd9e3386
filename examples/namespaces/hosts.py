#!/usr/bin/python3
"""What runs in a host of the walk, in its namespace:

  hosts.py ping ADDRESS           pings without pause, until its standard input ends
  hosts.py watch INTERFACE..      counts the echo requests that come in, by interface and address, until its input ends
  hosts.py receive PORT           takes bytes by TCP until the other end has sent all
  hosts.py send ADDRESS PORT N    sends N bytes by TCP

Each says `ready` where others wait for it, and at its end what it found, as JSON.
"""
import hashlib
import json
import os
import select
import socket
import struct
import sys
import time

IN_FLIGHT = 8
PATIENCE = 20
ECHO_REQUEST, ECHO_REPLY, OUTGOING = 8, 0, 4
MARK = os.getpid() & 0xFFFF
# The length of a socket's queue in bytes; Python has no name for the option.
QUEUE, SO_RCVBUFFORCE = 1 << 22, 33


def ready():
    print("ready", flush=True)


def tell(**found):
    print(json.dumps(found), flush=True)


def wants_end():
    """Whether the standard input has ended."""
    return bool(select.select([sys.stdin], [], [], 0)[0])


def sum_of(data):
    total = sum(struct.unpack(f"!{len(data) // 2}H", data))
    while total >> 16:
        total = (total & 0xFFFF) + (total >> 16)
    return ~total & 0xFFFF


def echo_request(number):
    """An echo request, whose sequence is the number's low half and whose data are the number."""
    head = struct.pack("!BBHHH", ECHO_REQUEST, 0, 0, MARK, number & 0xFFFF)
    data = struct.pack("!Q", number)
    return head[:2] + struct.pack("!H", sum_of(head + data)) + head[4:] + data


def widen(link):
    """A queue of QUEUE bytes for a socket, which the namespace's own root may have, also where that is more than the system
    gives to all."""
    try:
        link.setsockopt(socket.SOL_SOCKET, SO_RCVBUFFORCE, QUEUE)
    except PermissionError:
        link.setsockopt(socket.SOL_SOCKET, socket.SO_RCVBUF, QUEUE)


def ping(address):
    """Keeps IN_FLIGHT requests on their way. One that is not answered in time is lost."""
    link = socket.socket(socket.AF_INET, socket.SOCK_RAW, socket.IPPROTO_ICMP)
    widen(link)
    waiting, sent, answered, is_ending = {}, 0, 0, False
    ready()
    while waiting or not is_ending:
        is_ending = is_ending or wants_end()
        while len(waiting) < IN_FLIGHT and not is_ending:
            sent += 1
            waiting[sent] = time.monotonic()
            link.sendto(echo_request(sent), (address, 0))
        if select.select([link], [], [], 1)[0]:
            packet = link.recv(2048)
            icmp = packet[4 * (packet[0] & 15):]
            if icmp[0] == ECHO_REPLY and icmp[4:6] == MARK.to_bytes(2, "big"):
                answered += waiting.pop(int.from_bytes(icmp[8:16], "big"), None) is not None
        elif waiting and time.monotonic() - min(waiting.values()) > PATIENCE:
            break
    tell(sent=sent, answered=answered)


def watch(*interfaces):
    links, counts = {}, {}
    for name in interfaces:
        link = socket.socket(socket.AF_PACKET, socket.SOCK_RAW, 0)
        widen(link)
        link.bind((name, 0x0003))
        links[link] = name
    ready()
    is_ending = False
    while True:
        found = select.select([*links, *[sys.stdin] * (not is_ending)], [], [], 0.5)[0]
        is_ending = is_ending or sys.stdin in found
        if is_ending and not found:
            break
        for link in found:
            if link is sys.stdin:
                continue
            frame, where = link.recvfrom(65536)
            if where[2] != OUTGOING and frame[12:14] == b"\x08\x00" and frame[23] == 1 and frame[34] == ECHO_REQUEST:
                path = f"{links[link]} {frame[:6].hex(':')}"
                counts[path] = counts.get(path, 0) + 1
    tell(**counts)


def receive(port):
    server = socket.create_server(("", int(port)))
    ready()
    link, found, count = server.accept()[0], hashlib.sha256(), 0
    while data := link.recv(1 << 18):
        found.update(data)
        count += len(data)
    tell(bytes=count, digest=found.hexdigest())


def send(address, port, count):
    block, left, made = os.urandom(1 << 18), int(count), hashlib.sha256()
    begun = time.monotonic()
    with socket.create_connection((address, int(port)), timeout=300) as link:
        while left:
            data = block[:left]
            link.sendall(data)
            made.update(data)
            left -= len(data)
        link.shutdown(socket.SHUT_WR)
        link.recv(1)
    tell(seconds=time.monotonic() - begun, digest=made.hexdigest())


if __name__ == "__main__":
    {"ping": ping, "watch": watch, "receive": receive, "send": send}[sys.argv[1]](*sys.argv[2:])
