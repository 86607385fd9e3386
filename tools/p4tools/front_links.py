"""The connections from a front door to the switch behind it: one for each stream channel, and one for all calls of
clients that have none. Each is a lane of its own at the switch, which answers what comes on it in order."""
from typing import NamedTuple

import grpc

from p4tools import rules

SERVICE = "/p4.v1.P4Runtime/"
PATHS = {"write": "Write", "read": "Read", "set": "SetForwardingPipelineConfig", "get": "GetForwardingPipelineConfig",
         "capabilities": "Capabilities", "stream": "StreamChannel"}
DETAILS = "grpc-status-details-bin"
# The switch serves 32 connections.
LANES, COMMON = 32, 31
# How long, in seconds, a connection may take to stand.
PATIENCE = 5
OPTIONS = [
    ("grpc.use_local_subchannel_pool", 1),
    ("grpc.initial_reconnect_backoff_ms", 100), ("grpc.max_reconnect_backoff_ms", 1000),
    # 4,096 failing updates have details of 400,000 bytes in base64.
    ("grpc.max_metadata_size", 1 << 20),
    ("grpc.max_receive_message_length", 64 << 20), ("grpc.max_send_message_length", -1),
    # A message counts as sent once it is, and not once it is kept to be.
    ("grpc.http2.write_buffer_size", 0)]
OK, LATE = 0, 4


class Refusal(Exception):
    """What a client is refused for by the front door itself."""

    def __init__(self, code, text):
        super().__init__(text)
        self.code, self.text = code, text


class Answer(NamedTuple):
    """What a call was answered: its code, its messages, and of a refused one grpc-message and the bytes of its
    details."""
    code: int
    messages: list
    text: str = ""
    details: bytes = b""

    def is_of_switch(self):
        """Whether the switch answered, and not gRPC's own library in its place: the switch's texts are empty or name a
        rule."""
        return self.code == OK or not self.text or self.text in rules.CONFIG


def answer_of(error):
    """The Answer of a grpc.aio.AioRpcError."""
    details = (error.trailing_metadata() or {}).get(DETAILS, b"")
    return Answer(error.code().value[0], [], error.details() or "", details)


class Link:
    """A connection to the switch, and how many calls were made on it."""

    def __init__(self, target, lane):
        self.lane, self.calls = lane, 0
        self.channel = grpc.aio.insecure_channel(target, options=OPTIONS)
        self.unary = {method: self.channel.unary_unary(SERVICE + PATHS[method])
                      for method in ("write", "set", "get", "capabilities")}
        self.read = self.channel.unary_stream(SERVICE + PATHS["read"])
        self.stream = self.channel.stream_stream(SERVICE + PATHS["stream"])

    async def ask(self, method, message, timeout=None):
        """The Answer of a call other than a Read and a stream channel."""
        try:
            return Answer(OK, [await self.unary[method](message, timeout=timeout)])
        except grpc.aio.AioRpcError as error:
            return answer_of(error)

    async def ask_all(self, message, timeout=None):
        """The Answer of a Read, with all of its messages."""
        found = []
        try:
            async for part in self.read(message, timeout=timeout):
                found.append(part)
        except grpc.aio.AioRpcError as error:
            return answer_of(error)
        return Answer(OK, found)

    def next_call(self):
        """The number of one more call."""
        self.calls += 1
        return self.calls


class Switch:
    """The switch behind a front door, and the connections to it."""

    def __init__(self, target):
        self.target = target
        self.common = Link(target, COMMON)
        self.links = {}
        # The calls of a lane are numbered on, whichever connection has it.
        self.calls = {}

    async def open(self):
        """A connection for a stream channel, on the lowest lane that is free."""
        lane = next((it for it in range(LANES) if it not in self.links and it != COMMON), None)
        if lane is None:
            raise Refusal(grpc.StatusCode.RESOURCE_EXHAUSTED,
                          f"{LANES - 1} stream channels are open, as many as the switch has room for")
        link = self.links[lane] = Link(self.target, lane)
        link.calls = self.calls.get(lane, 0)
        answer = Answer(OK, [])
        try:
            answer = await link.ask("capabilities", b"", PATIENCE)
        finally:
            if answer.code != OK or not answer.messages:
                await self.close(link)
        if answer.code == LATE:
            raise Refusal(grpc.StatusCode.RESOURCE_EXHAUSTED, f"the switch at {self.target} serves no more connections")
        if answer.code != OK:
            raise Refusal(grpc.StatusCode.UNAVAILABLE, f"the switch at {self.target} did not answer: {answer.text}")
        return link

    async def close(self, link):
        """Ends a stream channel's connection."""
        if self.links.get(link.lane) is link:
            self.calls[link.lane] = link.calls
            del self.links[link.lane]
            await link.channel.close()

    async def is_there(self, seconds=2):
        """Whether the switch answers."""
        return (await self.common.ask("capabilities", b"", seconds)).code == OK
