"""HTTP/2 frames (RFC 9113) over a socket, for clients that do with them what no library would."""
import contextlib
import socket
import struct
import time

PREFACE = b"PRI * HTTP/2.0\r\n\r\nSM\r\n\r\n"
DATA, HEADERS, PRIORITY, RST_STREAM, SETTINGS, PUSH_PROMISE, PING, GOAWAY, WINDOW_UPDATE, CONTINUATION = range(10)
END_STREAM = ACK = 0x1
END_HEADERS = 0x4
HEADER_TABLE_SIZE, INITIAL_WINDOW_SIZE = 1, 4
PROTOCOL_ERROR, FLOW_CONTROL_ERROR, FRAME_SIZE_ERROR, REFUSED_STREAM, COMPRESSION_ERROR = 1, 3, 6, 7, 9
LARGEST_WINDOW = (1 << 31) - 1
FIRST_WINDOW = 65_535
SHORT_SEGMENT = 1_400
STATUSES = {8: "200", 9: "204", 10: "206", 11: "304", 12: "400", 13: "404", 14: "500"}


def frame(kind, flags, stream, payload=b""):
    """A frame's bytes."""
    return struct.pack(">I", len(payload))[1:] + bytes([kind, flags]) + struct.pack(">I", stream) + payload


def settings(pairs=()):
    """A SETTINGS frame."""
    return frame(SETTINGS, 0, 0, b"".join(struct.pack(">HI", name, value) for name, value in pairs))


def window_update(stream, more):
    return frame(WINDOW_UPDATE, 0, stream, struct.pack(">I", more))


def text(word):
    """A string of a header block as it is, without Huffman's code (RFC 7541, section 5.2)."""
    data = word.encode()
    if len(data) < 127:
        return bytes([len(data)]) + data
    rest, more = b"", len(data) - 127
    while more > 127:
        rest, more = rest + bytes([more & 127 | 128]), more >> 7
    return bytes([127]) + rest + bytes([more]) + data


def header_block(headers):
    """Headers as literals that are not indexed (RFC 7541, section 6.2.2)."""
    return b"".join(b"\x00" + text(name) + text(value) for name, value in headers)


def call_headers(path):
    """The headers of a gRPC call."""
    return [(":method", "POST"), (":scheme", "http"), (":path", path), (":authority", "switch"),
            ("te", "trailers"), ("content-type", "application/grpc")]


def grpc_message(data):
    """A message with its head: not compressed, its length in four bytes."""
    return b"\x00" + struct.pack(">I", len(data)) + data


def messages_of(data):
    """The messages that DATA begins with, and the bytes behind them."""
    found = []
    while len(data) >= 5 and len(data) - 5 >= (length := struct.unpack(">I", data[1:5])[0]):
        found.append(data[5:5 + length])
        data = data[5 + length:]
    return found, data


def read_block(block):
    """The headers of a block of literals with names of their own and of indexed statuses, as {name: value}. The first
    SETTINGS of `Connection` allow no dynamic table, so there is nothing else but static names and Huffman's code."""
    headers, at = {}, 0
    while at < len(block):
        first, at = block[at], at + 1
        if first & 0x80:
            headers[":status"] = STATUSES[first & 0x7F]
        elif first in (0x00, 0x10):
            name, at = _read_text(block, at)
            headers[name], at = _read_text(block, at)
        elif first & 0xE0 != 0x20:
            raise ValueError(f"a header of the form {first:#x} is not read here")
    return headers


def _read_text(block, at):
    if block[at] & 0x80:
        raise ValueError("a text in Huffman's code is not read here")
    length, at = block[at], at + 1
    if length == 127:
        shift = 0
        while True:
            byte, at = block[at], at + 1
            length += (byte & 127) << shift
            shift += 7
            if byte < 128:
                break
    return block[at:at + length].decode("latin-1"), at + length


class Connection:
    """A connection to 127.0.0.1. A narrow one takes little, some 30,000 bytes in all, before its peer cannot send."""

    def __init__(self, port, narrow=False):
        self.socket = socket.socket(socket.AF_INET, socket.SOCK_STREAM)
        if narrow:
            # The least buffer that the system gives. That of the other side follows the length of segments.
            self.socket.setsockopt(socket.SOL_SOCKET, socket.SO_RCVBUF, 1)
            self.socket.setsockopt(socket.IPPROTO_TCP, socket.TCP_MAXSEG, SHORT_SEGMENT)
        self.socket.setsockopt(socket.IPPROTO_TCP, socket.TCP_NODELAY, 1)
        self.socket.settimeout(20)
        self.socket.connect(("127.0.0.1", port))
        self.kept = b""
        self.stream = -1

    def send(self, data):
        self.socket.sendall(data)

    def begin(self, window=FIRST_WINDOW):
        """The preface and the first SETTINGS: no dynamic table, and a window for each stream; and the largest window of
        the connection."""
        self.send(PREFACE + settings([(HEADER_TABLE_SIZE, 0), (INITIAL_WINDOW_SIZE, window)]))
        self.send(window_update(0, LARGEST_WINDOW - FIRST_WINDOW))

    def open_stream(self, method, flags=END_HEADERS):
        """HEADERS of a call on the next stream, whose number is answered."""
        self.stream += 2
        block = header_block(call_headers("/p4.v1.P4Runtime/" + method))
        self.send(frame(HEADERS, flags, self.stream, block))
        return self.stream

    def say(self, stream, data, flags=0):
        """A message in one frame."""
        self.send(frame(DATA, flags, stream, grpc_message(data)))

    def next_frame(self, seconds=20):
        """The next frame as (kind, flags, stream, payload), None at the connection's end; TimeoutError in time.
        SETTINGS and PING are acknowledged."""
        until = time.monotonic() + seconds
        head = self._take(9, until)
        if head is None:
            return None
        kind, flags = head[3], head[4]
        payload = self._take(int.from_bytes(head[:3], "big"), until)
        if payload is None:
            return None
        if kind in (SETTINGS, PING) and not flags & ACK:
            # a peer that has closed sees no acknowledgement; what it sent before is still to be read
            with contextlib.suppress(ConnectionError):
                self.send(frame(kind, ACK, 0, payload if kind == PING else b""))
        return kind, flags, struct.unpack(">I", head[5:9])[0] & 0x7FFF_FFFF, payload

    def _take(self, count, until):
        while len(self.kept) < count:
            self.socket.settimeout(max(until - time.monotonic(), 0.001))
            try:
                data = self.socket.recv(1 << 16)
            except ConnectionError:
                return None
            except socket.timeout:
                raise TimeoutError("nothing came in time") from None
            if not data:
                return None
            self.kept += data
        taken, self.kept = self.kept[:count], self.kept[count:]
        return taken

    def sip(self, most):
        """Takes no more than so many bytes, as long as they come at once, and keeps them for `next_frame`."""
        self.socket.settimeout(0.02)
        until = len(self.kept) + most
        try:
            while len(self.kept) < until and (data := self.socket.recv(until - len(self.kept))):
                self.kept += data
        except (socket.timeout, ConnectionError):
            pass
        self.socket.settimeout(20)

    def next_of(self, kind, stream=None, seconds=20):
        """The next frame of a kind, also of a stream where one is given; what comes before it is passed over."""
        while True:
            found = self.next_frame(seconds)
            if found is None or found[0] == kind and stream in (None, found[2]):
                return found

    def answer(self, stream, seconds=20):
        """The messages and the trailers of a call, once it has ended."""
        data, headers = b"", {}
        while True:
            found = self.next_frame(seconds)
            if found is None:
                raise ConnectionError("the connection ended before the call")
            kind, flags, its_stream, payload = found
            if its_stream != stream:
                continue
            if kind == HEADERS:
                headers.update(read_block(payload))
            elif kind == DATA:
                data += payload
            if kind in (HEADERS, DATA) and flags & END_STREAM:
                return messages_of(data)[0], headers

    def messages(self, stream, count, seconds=20):
        """So many messages of a call."""
        data, found = b"", []
        while len(found) < count:
            got = self.next_of(DATA, stream, seconds)
            if got is None:
                raise ConnectionError(f"the connection ended behind {len(found)} messages")
            more, data = messages_of(data + got[3])
            found += more
        return found

    def close(self):
        self.socket.close()

    def reset(self):
        """Ends the connection by a reset of TCP, not by its end."""
        self.socket.setsockopt(socket.SOL_SOCKET, socket.SO_LINGER, struct.pack("ii", 1, 0))
        self.socket.close()
