#!/usr/bin/env python3
"""frame_rows.py

Prints what is to be answered to the rows of crates/frame_rows, computed here from the text of RFC 9113 (frames) and of RFC 7541
(header blocks) over nothing of the switch: the Huffman code is made of the lengths of its codes, which are canonical.
"""
import os
from collections.abc import Callable

HERE = os.path.dirname(os.path.abspath(__file__))


class Refused(Exception):
    """A frame breaks a rule of this code, or a header block has this fault."""


def number(data):
    return int.from_bytes(data, "big")


def shown(data):
    return data.hex() or "."


def truth(bit):
    return "true" if bit else "false"


# ---- frames: what one is told as, the flags that have a meaning, and its payload without padding

SIZE, PROTOCOL, FLOW_CONTROL = 6, 1, 3
ACK, END_STREAM, END_HEADERS, PADDED, PRIORITY = 1, 1, 4, 8, 0x20


def need(holds, code):
    if not holds:
        raise Refused(code)


def unpadded(flags, payload, fixed):
    """The payload without its padding, behind which so many bytes of fields must stand."""
    need(len(payload) >= fixed + (1 if flags & PADDED else 0), SIZE)
    return payload[1:] if flags & PADDED else payload


def without_padding(flags, length, payload, fixed):
    if not flags & PADDED:
        return payload
    need(length + fixed <= len(payload), PROTOCOL)
    return payload[:len(payload) - length]


def padded_frame(flags, stream, payload, fixed):
    rest = unpadded(flags, payload, fixed)
    need(stream != 0, PROTOCOL)
    return without_padding(flags, payload[0] if payload else 0, rest, fixed)


def priority(data):
    depends = number(data[:4])
    return "priority %s %d %d" % (truth(depends >> 31), depends % 2 ** 31, data[4])


def data_frame(flags, stream, payload):
    payload = padded_frame(flags, stream, payload, 0)
    return "DATA %d %s %s" % (stream, truth(flags & END_STREAM), shown(payload)), flags & END_STREAM, payload


def headers_frame(flags, stream, payload):
    fixed = 5 if flags & PRIORITY else 0
    payload = padded_frame(flags, stream, payload, fixed)
    words = ["HEADERS %d %s %s" % (stream, truth(flags & END_STREAM), truth(flags & END_HEADERS))]
    if fixed:
        words.append(priority(payload))
    return " ".join(words + [shown(payload[fixed:])]), flags & (END_STREAM | END_HEADERS | PRIORITY), payload


def priority_frame(flags, stream, payload):
    need(len(payload) == 5, SIZE)
    need(stream != 0, PROTOCOL)
    return "PRIORITY %d %s" % (stream, priority(payload)), 0, payload


def rst_stream_frame(flags, stream, payload):
    need(len(payload) == 4, SIZE)
    need(stream != 0, PROTOCOL)
    return "RST_STREAM %d %d" % (stream, number(payload)), 0, payload


def settings_frame(flags, stream, payload):
    need(len(payload) % 6 == 0 and not (flags & ACK and payload), SIZE)
    need(stream == 0, PROTOCOL)
    settings = [(number(payload[at:at + 2]), number(payload[at + 2:at + 6])) for at in range(0, len(payload), 6)]
    for identifier, value in settings:
        need(identifier != 2 or value <= 1, PROTOCOL)
        need(identifier != 5 or 16384 <= value < 2 ** 24, PROTOCOL)
    for identifier, value in settings:
        need(identifier != 4 or value < 2 ** 31, FLOW_CONTROL)
    return " ".join(["SETTINGS " + truth(flags & ACK)] + ["%d %d" % it for it in settings]), flags & ACK, payload


def push_promise_frame(flags, stream, payload):
    payload = padded_frame(flags, stream, payload, 4)
    promised = number(payload[:4]) % 2 ** 31
    told = "PUSH_PROMISE %d %s %d %s" % (stream, truth(flags & END_HEADERS), promised, shown(payload[4:]))
    return told, flags & END_HEADERS, promised.to_bytes(4, "big") + payload[4:]


def ping_frame(flags, stream, payload):
    need(len(payload) == 8, SIZE)
    need(stream == 0, PROTOCOL)
    return "PING %s %d" % (truth(flags & ACK), number(payload)), flags & ACK, payload


def goaway_frame(flags, stream, payload):
    need(len(payload) >= 8, SIZE)
    need(stream == 0, PROTOCOL)
    last = number(payload[:4]) % 2 ** 31
    return "GOAWAY %d %d %s" % (last, number(payload[4:8]), shown(payload[8:])), 0, last.to_bytes(4, "big") + payload[4:]


def window_update_frame(flags, stream, payload):
    need(len(payload) == 4, SIZE)
    increment = number(payload) % 2 ** 31
    need(increment != 0, PROTOCOL)
    return "WINDOW_UPDATE %d %d" % (stream, increment), 0, increment.to_bytes(4, "big")


def continuation_frame(flags, stream, payload):
    need(stream != 0, PROTOCOL)
    return "CONTINUATION %d %s %s" % (stream, truth(flags & END_HEADERS), shown(payload)), flags & END_HEADERS, payload


FRAMES = [data_frame, headers_frame, priority_frame, rst_stream_frame, settings_frame, push_promise_frame, ping_frame, goaway_frame, window_update_frame, continuation_frame]


def frame(asked):
    data = bytes.fromhex(asked)
    length, kind, flags, stream, payload = number(data[:3]), data[3], data[4], number(data[5:9]) % 2 ** 31, data[9:]
    try:
        need(length <= 16384, SIZE)
        assert length == len(payload)
        if kind < len(FRAMES):
            told, flags, payload = FRAMES[kind](flags, stream, payload)
        else:
            told = "unknown %d %d %d %s" % (kind, flags, stream, shown(payload))
    except Refused as refused:
        return "code %d" % refused.args
    written = len(payload).to_bytes(3, "big") + bytes([kind, flags]) + stream.to_bytes(4, "big") + payload
    return told + " written " + written.hex()


# ---- header blocks

STATIC = [(b":authority", b""), (b":method", b"GET"), (b":method", b"POST"), (b":path", b"/"), (b":path", b"/index.html"), (b":scheme", b"http"), (b":scheme", b"https")]
STATIC += [(b":status", status) for status in b"200 204 206 304 400 404 500".split()]
STATIC += [(b"accept-charset", b""), (b"accept-encoding", b"gzip, deflate")]
STATIC += [(name, b"") for name in b"""accept-language accept-ranges accept access-control-allow-origin age allow authorization cache-control
    content-disposition content-encoding content-language content-length content-location content-range content-type cookie date etag expect
    expires from host if-match if-modified-since if-none-match if-range if-unmodified-since last-modified link location max-forwards
    proxy-authenticate proxy-authorization range referer refresh retry-after server set-cookie strict-transport-security transfer-encoding
    user-agent vary via www-authenticate""".split()]

# how many bits the code of each byte has, from byte 0 on, and that of EOS; `28x7` stands for seven of them
LENGTHS = """13 23 28x7 24 30 28 28 30 28x8 30 28x9 6 10 10 12 13 6 8 11 10 10 8 11 8 6 6 6 5 5 5 6x7 7 8 15 6 12 10 13 6 7x22 8 7 8 13 19 13 14
    6 15 5 6 5 6 5 6 6 6 5 7 7 6 6 6 5 6 7 6 5 5 6 7x5 15 11 14 13 28 20 22 20 20 22 22 22 23 22 23x5 24 23 24 24 22 23 24 23x4 21 22 23 22
    23 23 24 22 21 20 22 22 23 23 21 23 22 22 24 21 22 23 23 21 21 22 21 23 22 23 23 20 22 22 22 23 22 22 23 26 26 20 19 22 23 22 25 26 26
    26 27 27 26 24 25 19 21 26 27 27 26 27 24 21 21 26 26 28 27 27 27 20 24 20 21 22 21 21 23 22 22 25 25 24 24 26 23 26 27 26 26 27x5 28
    27x5 26 30"""
EOS = 256


def huffman_codes():
    """The codes as texts of bits: they rise by length, then by symbol."""
    lengths = []
    for word in LENGTHS.split():
        length, _, count = word.partition("x")
        lengths += [int(length)] * int(count or 1)
    codes, code, before = {}, 0, 0
    for length, symbol in sorted((length, symbol) for symbol, length in enumerate(lengths)):
        code <<= length - before
        codes[format(code, "0%db" % length)] = symbol
        code, before = code + 1, length
    assert len(lengths) == EOS + 1 and code == 2 ** before
    return codes


HUFFMAN = huffman_codes()


def decoded(data):
    read, code = bytearray(), ""
    for bit in "".join(format(byte, "08b") for byte in data):
        code += bit
        if code in HUFFMAN:
            need(HUFFMAN[code] != EOS, "BadHuffman")
            read.append(HUFFMAN[code])
            code = ""
    need(len(code) < 8 and "0" not in code, "BadHuffman")
    return bytes(read)


def size(headers):
    return sum(len(name) + len(value) + 32 for name, value in headers)


class Decoder:
    """Reads blocks one after another, until one has a fault."""

    def __init__(self):
        self.table, self.limit, self.broken = [], 4096, None

    def block(self, data):
        need(self.broken is None, self.broken)
        self.data, self.at, self.headers = data, 0, []
        try:
            while self.at < len(data):
                self.field(data[self.at])
        except Refused as refused:
            self.broken, = refused.args
            raise
        return self.headers

    def byte(self):
        need(self.at < len(self.data), "Truncated")
        self.at += 1
        return self.data[self.at - 1]

    def integer(self, bits, fault):
        value = self.byte() % 2 ** bits
        if value < 2 ** bits - 1:
            return value
        place, more = 0, True
        while more:
            byte = self.byte()
            value += byte % 128 << place
            need(value < 2 ** 32, fault)
            place, more = place + 7, byte >= 128
        return value

    def string(self):
        need(self.at < len(self.data), "Truncated")
        huffman = self.data[self.at] >= 128
        length = self.integer(7, "Truncated")
        need(length <= len(self.data) - self.at, "Truncated")
        self.at += length
        data = self.data[self.at - length:self.at]
        return decoded(data) if huffman else data

    def entry(self, index):
        need(1 <= index <= len(STATIC) + len(self.table), "BadIndex")
        return (STATIC + self.table)[index - 1]

    def evict(self, room):
        while self.table and size(self.table) + room > self.limit:
            self.table.pop()

    def give(self, header):
        self.headers.append(header)
        need(size(self.headers) <= 65536, "ListTooLong")

    def field(self, first):
        if first & 0x80:
            self.give(self.entry(self.integer(7, "BadIndex")))
        elif first & 0xe0 == 0x20:
            need(not self.headers, "TableSize")
            self.limit = self.integer(5, "TableSize")
            need(self.limit <= 4096, "TableSize")
            self.evict(0)
        else:
            index = self.integer(6 if first & 0x40 else 4, "BadIndex")
            name = self.entry(index)[0] if index else self.string()
            header = (name, self.string())
            self.give(header)
            if first & 0x40:
                self.evict(size([header]))
                if size([header]) <= self.limit:
                    self.table.insert(0, header)


def listed(word, headers):
    return " ".join([word] + ["%s %s" % (shown(name), shown(value)) for name, value in headers])


def blocks(*asked):
    decoder, told = Decoder(), []
    for block in asked:
        try:
            told.append(listed("headers", decoder.block(bytes.fromhex(block))))
        except Refused as refused:
            told.append("%s" % refused.args)
        told.append(listed("table", decoder.table))
    return " ".join(told)


def integer(value, bits, first):
    """An integer in a prefix of so many bits, the others of which are given."""
    if value < 2 ** bits - 1:
        return bytes([first + value])
    spelled, value = [first + 2 ** bits - 1], value - 2 ** bits + 1
    while value >= 128:
        spelled.append(value % 128 + 128)
        value //= 128
    return bytes(spelled + [value])


def string(text):
    return integer(len(text), 7, 0) + text


def headers(*asked):
    named = [part.encode().split(b"=", 1) for part in asked]
    block = b"".join(b"\0" + string(name) + string(value) for name, value in named)
    return shown(block) + " " + blocks(block.hex())


def long_value(length):
    front = b"\0\0" + integer(int(length), 7, 0)
    return "%s true %s" % (front.hex(), 1 if int(length) + 32 <= 65536 else "ListTooLong")


def size_update(asked):
    update = integer(int(asked), 5, 0x20).hex()
    return update + " " + blocks(update)


ANSWERS: dict[str, Callable[..., str]] = {"frame": frame, "blocks": blocks, "headers": headers, "long value": long_value, "size update": size_update}

if __name__ == "__main__":
    with open(os.environ.get("ROWS", HERE + "/../../crates/frame_rows") + "/stdin") as rows:
        for row in rows:
            if row.strip() and not row.startswith("#"):
                kind, name, *asked = row.rstrip("\n").split("\t")
                print(kind, name, ANSWERS[kind](*asked), sep="\t")
