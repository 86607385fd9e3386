#!/usr/bin/python3
"""rough.py PORT --packets N

Bad peers at a switch that serves at 127.0.0.1:PORT and takes packets at the UDP port N: peers that close or reset in
mid-frame, send what is no HTTP/2, open too many streams, send datagrams that are no packets, or never read. Behind
each a fresh controller is answered, one that was there before goes on, and nothing that was written is lost. It prints a line for each and ends with status 1 at the first difference.
"""
import random
import time

import frames
from frames import Connection
from ipv4 import Network, packet, routed
from p4client import (CPU_PORT, INSERT, MODIFY, PATIENCE, Controller, Difference, Program, call_out, expect,
                      expect_arbitration, main, p4)

MAC = "02:00:00:00:00:03"
KEPT = f"ipv4_lpm dst=10.1.0.0/16 route(port=3, mac={MAC})"
TO_CONTROLLER = f"ipv4_lpm dst=10.2.0.0/16 route(port={CPU_PORT}, mac={MAC})"
CAPABILITIES = p4.CapabilitiesResponse(p4runtime_api_version="1.3.0").SerializeToString()
# How long, in seconds, a peer that never reads may be kept: in all, and behind the last byte that the system took for it. The switch
# gives it up where it waited 5 seconds for the system to take one.
GIVEN_UP_IN, KEPT_FOR = 60, (4.5, 8)
# The state of a connection that stands, as /proc/net/tcp has it.
ESTABLISHED = "01"
NOTICES = 300
# What may wait for a controller at the switch's desk, of which so many are no packets.
MOST_THAT_WAIT, NO_PACKETS = 256, 64
# Packets for a controller: more than a narrow connection and the desk take together.
PACKETS, PAYLOAD = 400, bytes(1_000)


class Standing:
    """A controller that was there before, the primary of role 0 but while a bad peer is."""

    def __init__(self, port, program):
        self.port, self.program, self.changes = port, program, 0
        self.controller = Controller(port)
        self.controller.take_charge(program)
        self.controller.write([program.update(INSERT, it) for it in (KEPT, TO_CONTROLLER, self.changing())])

    def changing(self):
        """The route that changes behind each bad peer."""
        return f"ipv4_lpm dst=10.3.0.0/16 route(port={1 + self.changes % 200}, mac={MAC})"

    def take_over(self, election):
        """Becomes the primary by a greater election id."""
        self.controller.say_arbitration(election)
        self.is_told(election, "OK")

    def take_over_often(self, first, count, meanwhile):
        """So many times, each with an id above the one before, and without waiting for an answer in between."""
        for election in range(first, first + count):
            self.controller.say_arbitration(election)
        for election in range(first, first + count):
            meanwhile()
            self.is_told(election, "OK")

    def is_told(self, election, code):
        """Hears of an arbitration. Packets that were under way to it are passed over."""
        while (message := self.controller.hear()) is not None and message.WhichOneof("update") == "packet":
            pass
        if message is None:
            raise Difference("the stream of the controller that was there before has ended")
        expect_arbitration("what is told", message.arbitration, election, code)

    def packets_for_the_controller(self):
        """How many packets took the route to the CPU port."""
        key = self.program.entity("direct_counter_entry ipv4_lpm dst=10.2.0.0/16")
        return self.controller.read(key)[0].direct_counter_entry.data.packet_count

    def leaves(self):
        """Ends its stream."""
        self.controller.asked.put(None)
        while (message := self.controller.hear()) is not None:
            expect("message behind the end of the stream", message.WhichOneof("update"), "packet")
        expect("the end of the stream", self.controller.stream.code().name, "OK")

    def goes_on(self):
        """It writes, and a fresh controller reads that and all that was written before."""
        self.changes += 1
        self.controller.write([self.program.update(MODIFY, self.changing())])
        fresh = Controller(self.port)
        expect("version", fresh.capabilities().p4runtime_api_version, "1.3.0")
        expect("entries", fresh.read(self.program.entity("ipv4_lpm")),
               [self.program.entity(it) for it in (KEPT, TO_CONTROLLER, self.changing())])
        fresh.close()


# Peers that end in the midst of something.

def closes_early(port):
    """Ends of a connection at each place where a peer may be cut off."""
    call = frames.frame(frames.HEADERS, frames.END_HEADERS, 1,
                        frames.header_block(frames.call_headers("/p4.v1.P4Runtime/Write")))
    whole = (frames.PREFACE + frames.settings() + call
             + frames.frame(frames.DATA, 0, 1, frames.grpc_message(bytes(40))))
    for end in range(0, len(whole), 3):
        peer = Connection(port)
        peer.send(whole[:end])
        peer.close()
    return f"a connection closed after each third byte of a call: {len(range(0, len(whole), 3))} of them"


def resets(port):
    """Resets in the midst of a message."""
    for length in (0, 4, 30):
        peer = Connection(port)
        peer.begin()
        stream = peer.open_stream("Write")
        peer.send(frames.frame(frames.DATA, 0, stream, frames.grpc_message(bytes(100))[:length]))
        peer.reset()
    return "a connection reset in the midst of a message"


# Peers that send what is no call.

def expect_goaway(peer, what, code):
    """The connection ends behind a GOAWAY with this code."""
    found = peer.next_of(frames.GOAWAY)
    if found is None:
        raise Difference(f"{what}: the connection ended without a GOAWAY")
    expect(f"{what}: code of GOAWAY", int.from_bytes(found[3][4:8], "big"), code)
    expect(f"{what}: what comes behind GOAWAY", peer.next_frame(), None)


def sends_garbage(port):
    """What is no HTTP/2, before and behind the preface. Each is a connection error of RFC 9113."""
    noise = bytes(random.Random(1).randrange(256) for _ in range(20_000))
    begun = frames.PREFACE + frames.settings()
    block = frames.header_block(frames.call_headers("/p4.v1.P4Runtime/Read"))
    cases = [
        ("noise", noise, frames.PROTOCOL_ERROR),
        ("HTTP/1.1", b"GET / HTTP/1.1\r\nHost: switch\r\n\r\n", frames.PROTOCOL_ERROR),
        ("a hello of TLS", bytes.fromhex("16030100f8010000f40303") + noise[:240], frames.PROTOCOL_ERROR),
        ("a first frame that is no SETTINGS", frames.PREFACE + frames.frame(frames.PING, 0, 0, bytes(8)),
         frames.PROTOCOL_ERROR),
        ("a frame that is too long", begun + b"\xff" * 64, frames.FRAME_SIZE_ERROR),
        ("a PING of seven bytes", begun + frames.frame(frames.PING, 0, 0, bytes(7)), frames.FRAME_SIZE_ERROR),
        ("an index of a header that is not there",
         begun + frames.frame(frames.HEADERS, frames.END_HEADERS, 1, b"\xfe"), frames.COMPRESSION_ERROR),
        ("DATA on a stream that is not open", begun + frames.frame(frames.DATA, 0, 1, b"x"), frames.PROTOCOL_ERROR),
        ("a stream of the server's", begun + frames.frame(frames.HEADERS, frames.END_HEADERS, 2, block),
         frames.PROTOCOL_ERROR),
        ("a window of more than 2^31 - 1", begun + frames.window_update(0, frames.LARGEST_WINDOW),
         frames.FLOW_CONTROL_ERROR),
        ("PUSH_PROMISE", begun + frames.frame(frames.PUSH_PROMISE, frames.END_HEADERS, 1, bytes(4) + block),
         frames.PROTOCOL_ERROR),
    ]
    for what, data, code in cases:
        peer = Connection(port)
        peer.send(data)
        expect_goaway(peer, what, code)
        peer.close()
    return f"what is no HTTP/2, of {len(cases)} kinds: each answered by GOAWAY with its code"


def sends_bad_calls(port):
    """Calls that gRPC or P4Runtime refuses, all on one connection, which goes on."""
    peer = Connection(port)
    peer.begin()
    cases = [("Reed", b"", "12"), ("Write", b"\xff\xff\xff", "3"), ("Read", b"\x08\x02", "5"),
             ("StreamChannel", b"\x0a\x02\x08\x07", "5"), ("StreamChannel", b"", "3")]
    for method, data, code in cases:
        stream = peer.open_stream(method)
        peer.say(stream, data, frames.END_STREAM)
        messages, headers = peer.answer(stream)
        expect(f"{method} {data.hex()}: messages", messages, [])
        expect(f"{method} {data.hex()}: code", headers.get("grpc-status"), code)
    get = [(":method", "GET"), (":scheme", "http"), (":path", "/"), (":authority", "switch")]
    peer.stream += 2
    flags = frames.END_HEADERS | frames.END_STREAM
    peer.send(frames.frame(frames.HEADERS, flags, peer.stream, frames.header_block(get)))
    expect("status of a GET", peer.answer(peer.stream)[1], {":status": "415"})
    expect_capabilities(peer)
    peer.close()
    return f"{len(cases) + 1} calls that are refused: each with its code, and the connection goes on"


def expect_capabilities(peer):
    """The connection is served."""
    stream = peer.open_stream("Capabilities")
    peer.say(stream, b"", frames.END_STREAM)
    messages, headers = peer.answer(stream)
    expect("capabilities", messages, [CAPABILITIES])
    expect("code of the capabilities", headers.get("grpc-status"), "0")


def drips(port):
    """A call in pieces of one byte."""
    peer = Connection(port)
    block = frames.header_block(frames.call_headers("/p4.v1.P4Runtime/Capabilities"))
    for byte in (frames.PREFACE + frames.settings([(frames.HEADER_TABLE_SIZE, 0)])
                 + frames.frame(frames.HEADERS, frames.END_HEADERS, 1, block)
                 + frames.frame(frames.DATA, frames.END_STREAM, 1, frames.grpc_message(b""))):
        peer.send(bytes([byte]))
    peer.stream = 1
    expect("capabilities", peer.answer(1)[0], [CAPABILITIES])
    expect_capabilities(peer)
    peer.close()
    return "a call in pieces of one byte: answered"


# Peers that take too much.

def opens_streams(port):
    """The server allows 100 streams; one more is refused, and one that is ended makes room."""
    peer = Connection(port)
    peer.begin()
    streams = [peer.open_stream("Read") for _ in range(100)]
    extra = peer.open_stream("Read")
    found = peer.next_of(frames.RST_STREAM)
    expect("the stream that is reset", found and found[2], extra)
    expect("its code", int.from_bytes(found[3], "big"), frames.REFUSED_STREAM)
    peer.say(streams[0], p4.ReadRequest(device_id=2).SerializeToString(), frames.END_STREAM)
    expect("code of a Read of another device", peer.answer(streams[0])[1].get("grpc-status"), "5")
    expect_capabilities(peer)
    peer.close()
    return "100 streams and one more: it is refused, and the others are served"


def crowd(port):
    """Connections that say nothing, no more than the switch serves at a time, and then close."""
    peers = [Connection(port) for _ in range(30)]
    for peer in peers[::2]:
        peer.begin()
    time.sleep(0.2)
    for peer in peers:
        peer.close()
    return "30 connections that say nothing, and then close"


def bad_datagrams(network):
    """What is no packet is passed over; an empty packet, one of the greatest length and port 510 are packets."""
    for data in (b"", b"\x00", b"\x01\xff" + packet("10.1.0.1"), b"\xff\xff" + packet("10.1.0.1"),
                 b"\x00\x01" + packet("10.1.0.1", bytes(9_217 - 34)), b"\x00\x01" + packet("10.1.0.1", bytes(60_000))):
        network.send_datagram(data)
    network.send(1, b"")
    # An empty packet has no address; the router lets it leave at port 0, as it came.
    expect("what an empty packet becomes", network.take(PATIENCE), (0, b""))
    longest = bytes(9_216 - 34)
    network.send(510, packet("10.1.0.2", longest))
    expect("what the longest packet becomes", network.take(PATIENCE), (3, routed("10.1.0.2", MAC, longest)))
    expect("another packet that left", network.take(0.3), None)
    return "six datagrams that are no packets: passed over; an empty packet and one of 9,216 bytes: run"


# Peers that do not read.

class Sleeper:
    """A controller that becomes the primary of role 0, and then does not read: neither does a narrow one take TCP's
    bytes, nor one with a shut window let DATA come."""

    def __init__(self, standing, narrow=False, window=frames.LARGEST_WINDOW):
        self.first, self.sipped = standing.controller.election + 1, time.monotonic()
        self.peer = Connection(standing.port, narrow)
        self.peer.begin(window)
        self.channel = self.peer.open_stream("StreamChannel")
        request = p4.StreamRequest()
        request.arbitration.device_id = 1
        p4.set_number(request.arbitration.election_id, self.first)
        self.peer.say(self.channel, request.SerializeToString())
        standing.is_told(self.first, "ALREADY_EXISTS")

    def sip(self):
        """Takes a little now and then, so that a slow switch does not give it up before more waits than may. The system
        lets the switch send again once a third of what it keeps for it was taken."""
        if time.monotonic() > self.sipped + 2:
            self.peer.sip(16_384)
            self.sipped = time.monotonic()

    def wake(self):
        """Reads until its channel is closed: the messages and the code."""
        data, headers = self.peer.answer(self.channel)
        return [p4.parse(p4.StreamResponse, it) for it in data], p4.code_name(int(headers["grpc-status"]))

    def goes_on(self):
        """The connection is served, and ends."""
        expect_capabilities(self.peer)
        self.peer.close()


def numbers_told(messages):
    """The election ids of the arbitrations among messages."""
    return [p4.number_of(it.arbitration.election_id) for it in messages if it.WhichOneof("update") == "arbitration"]


def flood(network, meanwhile=lambda: None):
    """Some packets for the primary of role 0, faster than a peer that does not read takes them."""
    data = packet("10.2.0.9", PAYLOAD)
    for _ in range(50):
        network.send(1, data)
        time.sleep(0.0005)
        meanwhile()


def overflows(standing, network):
    """More messages are for a peer that does not read than may wait for it: what waits for it comes once it reads, no
    more than MOST_THAT_WAIT beside what its connection holds, and then its channel is closed with RESOURCE_EXHAUSTED."""
    what, sleeper = "a peer that reads late", Sleeper(standing, narrow=True)
    wanted = standing.packets_for_the_controller() + PACKETS
    while standing.packets_for_the_controller() < wanted:
        flood(network, sleeper.sip)
    expect(f"{what}: it is given up before it reads", not standing.controller.heard.empty(), False)
    standing.take_over_often(sleeper.first + 1, NOTICES, sleeper.sip)
    try:
        messages, code = sleeper.wake()
    except (ConnectionError, TimeoutError, Difference) as error:
        raise Difference(f"{what}: its channel is not closed: {error}") from None
    expect(f"{what}: code of the closed channel", code, "RESOURCE_EXHAUSTED")
    told = numbers_told(messages)
    expect(f"{what}: election ids that it is told, one behind the other", told,
           list(range(sleeper.first, sleeper.first + len(told))))
    if not (NO_PACKETS < len(told) <= MOST_THAT_WAIT + 1 and MOST_THAT_WAIT <= len(messages) <= MOST_THAT_WAIT + PACKETS):
        raise Difference(f"{what}: told {len(told)} times among {len(messages)} messages")
    sleeper.goes_on()
    return (f"{what}: {len(told)} notices and {len(messages) - len(told)} packets come in the end, then "
            "RESOURCE_EXHAUSTED, and its connection goes on")


def bytes_kept(port, peer):
    """How many bytes the system keeps at the switch for a peer that does not take them; None where the switch has closed
    the connection."""
    ends = [f":{port:04X}", f":{peer.socket.getsockname()[1]:04X}", ESTABLISHED]
    with open("/proc/net/tcp", encoding="ascii") as it:
        for words in map(str.split, it.readlines()[1:]):
            if [words[1][-5:], words[2][-5:], words[3]] == ends:
                return int(words[4].partition(":")[0], 16)
    return None


def never_reads(standing, network):
    """A peer of which the system takes no byte for five seconds is given up, and the others are told that it left."""
    sleeper = Sleeper(standing, narrow=True)
    begun = moved = time.monotonic()
    kept = 0
    fresh = Controller(standing.port)
    while standing.controller.heard.empty():
        flood(network)
        expect("version", fresh.capabilities().p4runtime_api_version, "1.3.0")
        now = bytes_kept(standing.port, sleeper.peer)
        if now is not None and now != kept:
            kept, moved = now, time.monotonic()
        if time.monotonic() > begun + GIVEN_UP_IN:
            raise Difference(f"a peer that never reads was not given up in {GIVEN_UP_IN} seconds")
    took = time.monotonic() - moved
    fresh.close()
    standing.is_told(sleeper.first, "NOT_FOUND")
    if not KEPT_FOR[0] < took < KEPT_FOR[1]:
        raise Difference(f"a peer that never reads was given up {took:.1f} s behind the last byte that was taken for it")
    sleeper.peer.close()
    standing.take_over(sleeper.first + 1)
    return f"a peer that never reads: given up {took:.1f} s behind the last byte that was taken for it, while another was answered"


def keeps_its_window_shut(standing):
    """A peer with a window of 0 is sent no DATA, and all that it was told once it opens the window."""
    sleeper = Sleeper(standing, window=0)
    standing.take_over_often(sleeper.first + 1, NOTICES, sleeper.sip)
    expect_no_data(sleeper.peer)
    sleeper.peer.send(frames.window_update(sleeper.channel, 1 << 20))
    messages = [p4.parse(p4.StreamResponse, it) for it in sleeper.peer.messages(sleeper.channel, NOTICES + 1)]
    expect("what the peer was told", numbers_told(messages), list(range(sleeper.first, sleeper.first + NOTICES + 1)))
    sleeper.peer.close()
    return f"a peer with a window of 0: sent nothing, and {NOTICES + 1} notices once the window opened"


def expect_no_data(peer):
    try:
        while (found := peer.next_frame(0.2)) is not None:
            if found[0] == frames.DATA:
                raise Difference("DATA came through a window of 0")
    except TimeoutError:
        pass


def run(given):
    program = Program("router")
    standing = Standing(given.port, program)
    network = Network(given.packets)
    try:
        for bad in (closes_early, resets, sends_garbage, sends_bad_calls, drips, opens_streams, crowd):
            told = bad(given.port)
            standing.goes_on()
            call_out(told)
        for bad in (lambda: bad_datagrams(network), lambda: keeps_its_window_shut(standing),
                    lambda: never_reads(standing, network), lambda: overflows(standing, network)):
            told = bad()
            standing.goes_on()
            call_out(told)
        standing.leaves()
        call_out("behind each of them a fresh controller was answered, and all that was written was there")
    finally:
        standing.controller.close()
        network.close()


if __name__ == "__main__":
    main(__doc__, run)
