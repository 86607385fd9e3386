"""A connection to a switch that serves: P4Runtime's calls as bytes over gRPC, and its stream channel.
An answer has what a reply of a report has: a code and messages, of a refusal one google.rpc.Status."""
import queue
import socket
import threading
from typing import NamedTuple

import grpc

from p4tools import rules
from p4tools.files import stored
from p4tools.messages import Status
from p4tools.trouble import Trouble

SERVICE = "/p4.v1.P4Runtime/"
METHODS = {"write": "Write", "set": "SetForwardingPipelineConfig", "get": "GetForwardingPipelineConfig",
           "capabilities": "Capabilities"}
DETAILS = "grpc-status-details-bin"
PATIENCE = 60
KEPT = 4096
MIB = 1 << 20
# Each connection stands for itself: by default grpcio shares one among channels to one address. What a
# Write of 4,096 updates is refused for takes some hundred KiB of metadata.
OPTIONS = [("grpc.use_local_subchannel_pool", 1), ("grpc.max_metadata_size", 8 * MIB),
           ("grpc.max_receive_message_length", 64 * MIB), ("grpc.enable_http_proxy", 0)]


class NoSwitch(Exception):
    """The switch does not answer, or the connection broke; said in a sentence or two."""


class Answer(NamedTuple):
    """What a call is answered: its code, and its messages."""
    code: int
    messages: list


class Keys(NamedTuple):
    """Files for TLS: the authority that the server is known by, and a certificate of the client's own."""
    authority: str = None
    certificate: str = None
    key: str = None


def _same(data):
    return data


def place_of(text):
    """Host and port of HOST:PORT, of PORT alone, and of [IPV6]:PORT."""
    host, _, port = text.rpartition(":")
    if not port.isdigit() or not 1 <= int(port) <= 65535:
        raise Trouble(f"{text} is no place of a switch; write HOST:PORT, such as 127.0.0.1:9559")
    return host.strip("[]") or "127.0.0.1", int(port)


class Link:
    """A connection, with one stream channel at most."""

    def __init__(self, place, keys=Keys(), patience=PATIENCE):
        self.place, self.patience = place, patience
        host, port = place_of(place)
        try:
            socket.create_connection((host, port), timeout=10).close()
        except OSError as error:
            raise NoSwitch(f"no switch answers at {host}:{port} ({error.strerror or error}); "
                           f"bin/p4switch serve --port {port} starts one") from None
        host = f"[{host}]" if ":" in host else host
        self.channel = _channel(f"{host}:{port}", keys)
        self.stream, self.to_say, self.heard = None, None, None
        self.dropped = 0

    # Calls.

    def ask(self, method, message):
        """The Answer of a call; `method` is the word of a tape."""
        try:
            if method == "read":
                call = self.channel.unary_stream(SERVICE + "Read", _same, _same)
                return Answer(0, list(call(message, timeout=self.patience)))
            call = self.channel.unary_unary(SERVICE + METHODS[method], _same, _same)
            return Answer(0, [call(message, timeout=self.patience)])
        except grpc.RpcError as error:
            return self._refusal(error)

    def _refusal(self, error):
        code, text = error.code().value[0], error.details() or ""
        details = dict(error.trailing_metadata() or ()).get(DETAILS)
        if error.code() == grpc.StatusCode.DEADLINE_EXCEEDED:
            raise NoSwitch(f"{self.place} took the connection and gave no answer in {self.patience} seconds; "
                           "a switch serves 32 connections at once, and others wait")
        if details is None and text not in ("", rules.NO_MEMORY) and error.code() in (grpc.StatusCode.UNAVAILABLE, grpc.StatusCode.INTERNAL):
            raise NoSwitch(f"the connection to {self.place} broke: {text}")
        return Answer(code, [details if details is not None else Status(code=code, message=text).SerializeToString()])

    # The stream channel.

    def open(self):
        """Opens the stream channel."""
        call = self.channel.stream_stream(SERVICE + "StreamChannel", _same, _same)
        self.to_say, self.heard = queue.SimpleQueue(), queue.Queue()
        self.stream = call(iter(self.to_say.get, None))
        threading.Thread(target=self._listen, args=(self.stream, self.heard), daemon=True).start()

    def _listen(self, stream, heard):
        """Keeps what comes, and None behind the end. Packets that nobody takes are not kept without end."""
        try:
            for data in stream:
                if heard.qsize() < KEPT:
                    heard.put(data)
                else:
                    self.dropped += 1
        except grpc.RpcError:
            pass
        heard.put(None)

    def say(self, data):
        """Sends a message of the stream channel."""
        self.to_say.put(data)

    def hear(self, seconds):
        """The next message of the stream; None behind its end. Where nothing comes in time, queue.Empty."""
        if seconds is not None and seconds <= 0:
            return self.heard.get_nowait()
        return self.heard.get(timeout=seconds)

    def end_of_stream(self):
        """The Answer with which the stream ended; it is no open one any more."""
        stream, self.stream = self.stream, None
        code = stream.code()
        if code is None or code == grpc.StatusCode.OK:
            return Answer(0, [])
        return self._refusal(stream)

    def leave(self):
        """Ends the stream from this side, and waits for its end, so that the switch has seen it."""
        if self.stream is None:
            return
        self.to_say.put(None)
        try:
            while self.heard.get(timeout=10) is not None:
                pass
        except queue.Empty:
            self.stream.cancel()
        self.stream = None

    def close(self):
        """Leaves, and closes the connection."""
        self.leave()
        self.channel.close()


def _channel(target, keys):
    if not any(keys):
        return grpc.insecure_channel(target, options=OPTIONS)
    files = [stored(it) if it else None for it in keys]
    try:
        credentials = grpc.ssl_channel_credentials(files[0], files[2], files[1])
    except ValueError as error:
        raise Trouble(f"the certificates are not taken: {error}") from None
    return grpc.secure_channel(target, credentials, options=OPTIONS)
