"""How calls pass a front door: from a client to the switch and back, changed where they have to be, one at a time where
they are recorded."""
import asyncio
import contextlib
import time
from typing import NamedTuple

import grpc

from p4tools import front_words
from p4tools.front_change import StreamDevices, fields
from p4tools.front_connections import peer_of
from p4tools.front_links import DETAILS, OK, PATHS, SERVICE, Answer, Refusal, answer_of

CANCELLED = 1
CODES = {it.value[0]: it for it in grpc.StatusCode}
# How long, in seconds, a client may take nothing, and what comes of a stream message or a stream's end may take.
PATIENCE, END_PATIENCE = 10, 20
# The kinds of messages of the stream channel by their fields, of the client and of the switch.
ASKS = {1: "arbitration", 2: "packet", 3: "digest_ack", 4: "other"}
SAYS = {1: "arbitration", 2: "packet", 3: "digest", 4: "idle_timeout_notification", 5: "other", 6: "error"}
# How many messages of a stream channel wait here for a client.
WAITING = 256


class Passed(NamedTuple):
    """A call that passed: whose it was, its lane and number, what the switch was asked, what it answered, how many
    entities that has, and how many seconds it took. A message of a stream channel has no answer."""
    client: object
    lane: int
    number: int
    method: str
    message: bytes
    answer: Answer
    entities: int
    seconds: float


class GivenUp(Exception):
    """A client that takes nothing."""


class Client:
    """A client's connection: its peer, the name in its certificate, its stream channels' connections to the switch, the
    oldest first, and what waits for those that are being opened."""

    def __init__(self, peer, name):
        self.peer, self.links, self.openings = peer, [], set()
        self.title = f"{peer} ({name})" if name else peer


class Front:
    """What calls pass. `connections` is set once the port is known; the `watchers` are told what passes; `tape` is
    where it is recorded, or None."""

    def __init__(self, switch, devices, words=None, tape=None):
        self.switch, self.devices, self.words, self.tape = switch, devices, words, tape
        self.connections, self.watchers = None, []
        self.clients, self.tasks, self.channels = {}, set(), set()
        self.turn = asyncio.Lock() if tape else contextlib.nullcontext()
        self.counts_entities = self.is_ending = False

    # Clients.

    def client(self, context):
        """The client of a call."""
        word = context.peer()
        known = self.clients.get(word)
        if known and known.peer in self.connections.served:
            return known
        peer = peer_of(word)
        if not self.connections.serves(peer):
            raise Refusal(grpc.StatusCode.RESOURCE_EXHAUSTED,
                          f"{self.connections.most} connections are served, and this is one more")
        names = context.auth_context().get("x509_common_name", [])
        known = self.clients[word] = Client(peer, b", ".join(names).decode(errors="replace"))
        self.tell("connected", known)
        return known

    def went(self, peer):
        """A connection is no more."""
        for word in [word for word, it in self.clients.items() if it.peer == peer]:
            self.tell("disconnected", self.clients.pop(word))

    def tell(self, what, *given):
        """Tells the watchers."""
        for watcher in self.watchers:
            getattr(watcher, what)(*given)

    def spawn(self, work):
        """A task that goes on whatever becomes of its call."""
        task = asyncio.ensure_future(work)
        self.tasks.add(task)
        task.add_done_callback(self.tasks.discard)
        return task

    async def link(self, client):
        """The connection to the switch on which a client's calls are made. Where its stream channel is just being
        opened, that is awaited, so that a call comes behind an arbitration that was sent before it."""
        if client.openings:
            await asyncio.wait(client.openings)
        return client.links[0] if client.links else self.switch.common

    # Calls.

    def handlers(self):
        """gRPC's handlers of the calls, by their paths. Messages are bytes."""
        made = {}
        for method in ("write", "set", "get", "capabilities"):
            made[SERVICE + PATHS[method]] = grpc.unary_unary_rpc_method_handler(self._handler(method))
        made[SERVICE + PATHS["read"]] = grpc.unary_stream_rpc_method_handler(self._read)
        made[SERVICE + PATHS["stream"]] = grpc.stream_stream_rpc_method_handler(self._stream)
        return made

    def _handler(self, method):
        async def handle(message, context):
            try:
                client = self.client(context)
            except Refusal as refusal:
                await context.abort(refusal.code, refusal.text)
            message, link = self.devices.request(method, message), await self.link(client)
            begun = time.perf_counter()
            if self.tape:
                number, answer = await asyncio.shield(self.spawn(self._in_turn(link, method, message)))
            else:
                number, answer = link.next_call(), await link.ask(method, message)
            took = time.perf_counter() - begun
            self.tell("passed", Passed(client, link.lane, number, method, message, answer, 0, took))
            if answer.code == OK:
                return answer.messages[0]
            return await self.refuse(context, method, answer)
        return handle

    async def _in_turn(self, link, method, message):
        """A call that is recorded."""
        async with self.turn:
            answer = await link.ask(method, message)
            return self.record(link, method, message, answer), answer

    def record(self, link, method, message, answer):
        """Puts a call on the tape where the switch made it, and answers its number on its lane. One that the switch
        refused for memory was not made, and has none."""
        if not answer.is_of_switch():
            self.tape.end(f"a call was not answered by the switch: {answer.text}")
        elif answer.code != front_words.UNAVAILABLE:
            self.tape.call(link.lane, method, message)
            return link.next_call()
        return 0

    async def refuse(self, context, method, answer):
        """Answers a refusal to a client."""
        text, details = self.texts(method, answer)
        await context.abort(CODES.get(answer.code, grpc.StatusCode.UNKNOWN), text,
                            ((DETAILS, details),) if details else ())

    def texts(self, method, answer):
        """What a refused call has for grpc-message and details."""
        if not answer.is_of_switch():
            return f"the switch at {self.switch.target} did not answer: {answer.text}", b""
        if self.words is None:
            return answer.text, answer.details
        return front_words.of_status(method, answer.code, answer.text, answer.details, self.words)

    # Reads.

    async def _read(self, message, context):
        try:
            client = self.client(context)
        except Refusal as refusal:
            await context.abort(refusal.code, refusal.text)
        message, link = self.devices.request("read", message), await self.link(client)
        begun, entities, answer = time.perf_counter(), 0, Answer(OK, [])
        async with self.turn:
            call = link.read(message)
            first, answer = await _next(call)
            number = self.record(link, "read", message, answer) if self.tape else link.next_call()
        part = first
        while part is not None:
            entities += sum(it.number == 1 for it in fields(part)) if self.counts_entities else 0
            try:
                await self.write(context, part)
            except GivenUp:
                call.cancel()
                self.give_up(client)
                return
            part, answer = await _next(call)
        took = time.perf_counter() - begun
        self.tell("passed", Passed(client, link.lane, number, "read", message, answer, entities, took))
        if answer.code != OK:
            await self.refuse(context, "read", answer)

    async def write(self, context, message):
        """Sends a message to a client, which is to take it."""
        try:
            await asyncio.wait_for(context.write(message), PATIENCE)
        except asyncio.TimeoutError:
            raise GivenUp from None

    def give_up(self, client):
        """Ends the connection of a client that takes nothing."""
        self.tell("given_up", client)
        self.connections.end(client.peer)

    # Stream channels.

    async def end(self, seconds):
        """Ends all stream channels, and waits until they have left."""
        self.is_ending, until = True, time.monotonic() + seconds
        for channel in self.channels:
            channel.end()
        while self.channels and time.monotonic() < until:
            await asyncio.sleep(0.01)

    async def _stream(self, _, context):
        try:
            client = self.client(context)
            channel = await self._open(client, context)
        except Refusal as refusal:
            self.tell("refused", peer_of(context.peer()), refusal.text)
            await context.abort(refusal.code, refusal.text)
        try:
            answer = await channel.run()
        except GivenUp:
            self.give_up(client)
            return
        finally:
            channel.stop()
            self.spawn(self._behind(channel))
        if self.is_ending:
            await context.abort(grpc.StatusCode.UNAVAILABLE, "p4front has been ended")
        if answer.code != OK:
            await self.refuse(context, "stream", answer)

    async def _open(self, client, context):
        """A stream channel to the switch, on which what the client has said by now is said."""
        opening = asyncio.get_running_loop().create_future()
        client.openings.add(opening)
        first = asyncio.ensure_future(context.read())
        try:
            link = await self.switch.open()
            client.links.append(link)
            self.tell("opened", client, link.lane)
            channel = Channel(self, client, link, context, first)
            self.channels.add(channel)
            if first.done():
                await asyncio.wait({asyncio.ensure_future(channel.said.wait())}, timeout=PATIENCE)
            return channel
        except BaseException:
            first.cancel()
            raise
        finally:
            client.openings.discard(opening)
            opening.set_result(None)

    async def _behind(self, channel):
        """What is done behind a stream channel, however it ended."""
        await channel.leave()
        channel.client.links.remove(channel.link)
        self.channels.discard(channel)
        await self.switch.close(channel.link)
        self.tell("closed", channel.client, channel.link.lane, channel.answer)


async def _next(call):
    """The next message of a Read or None, and the Answer so far."""
    try:
        part = await call.read()
        if part is not grpc.aio.EOF:
            return part, Answer(OK, [])
        code = await call.code()
        if code == grpc.StatusCode.OK:
            return None, Answer(OK, [])
        metadata = await call.trailing_metadata()
        return None, Answer(code.value[0], [], await call.details() or "", (metadata or {}).get(DETAILS, b""))
    except grpc.aio.AioRpcError as error:
        return None, answer_of(error)


class Channel:
    """A stream channel of a client, and that of the switch behind it."""

    def __init__(self, front, client, link, context, first):
        self.front, self.client, self.link, self.context, self.first = front, client, link, context, first
        self.devices = StreamDevices(front.devices)
        self.call = link.stream()
        self.waiting = asyncio.Queue(WAITING)
        self.answered, self.said = asyncio.Event(), asyncio.Event()
        # What the switch ended the stream with, once it did.
        self.answer = None
        self.has_said = self.is_leaving = self.has_left = self.is_gone = False
        self.tasks = [front.spawn(it) for it in (self._hear(), self._bring(), self._say_all())]

    async def run(self):
        """Passes messages both ways until the stream ends, and gives what the switch ended it with."""
        _, bring, say = self.tasks
        await asyncio.wait({bring, say}, return_when=asyncio.FIRST_COMPLETED)
        if not bring.done():
            await self.leave()
        await bring
        return self.answer

    def end(self):
        """Ends it where it stands."""
        while self.waiting.full():
            self.waiting.get_nowait()
        self.waiting.put_nowait(None)

    def stop(self):
        """Nothing more goes to the client or comes from it."""
        self.is_gone = True
        for task in self.tasks[1:]:
            task.cancel()
        while not self.waiting.empty():
            self.waiting.get_nowait()

    # From the switch to the client.

    async def _hear(self):
        """Takes what the switch says, as it says it."""
        try:
            while (message := await self.call.read()) is not grpc.aio.EOF:
                await self._take(message)
            self.answer = Answer(OK, [])
        except grpc.aio.AioRpcError as error:
            self.answer = answer_of(error)
        except asyncio.CancelledError:
            self.answer = Answer(CANCELLED, [])
        self.answered.set()
        if not self.is_leaving:
            # (the switch ended it, which is the end of its session)
            async with self.front.turn:
                self._note_leave()
        if not self.is_gone:
            await self.waiting.put(None)

    async def _take(self, message):
        kind = kind_of(message, SAYS)
        if kind in ("arbitration", "error"):
            self.answered.set()
        self.front.tell("told", self.client, self.link.lane, kind, message)
        message = self.devices.response(message)
        if kind == "error" and self.front.words is not None:
            message = front_words.of_stream(message)
        if not self.is_gone:
            await self.waiting.put(message)

    async def _bring(self):
        """Brings to the client what waits for it, up to the end."""
        while (message := await self.waiting.get()) is not None:
            await self.front.write(self.context, message)

    # From the client to the switch.

    async def _say_all(self):
        """Passes what the client says, up to its end."""
        message = await self.first
        while message is not grpc.aio.EOF:
            if self.front.tape:
                await asyncio.shield(self.front.spawn(self._say(message)))
            else:
                await self._say(message)
            self.said.set()
            message = await self.context.read()
        self.said.set()

    async def _say(self, message):
        message, begun = self.devices.request(message), time.perf_counter()
        async with self.front.turn:
            if self.has_left or self.call.done():
                return
            self.answered.clear()
            with contextlib.suppress(asyncio.InvalidStateError, grpc.aio.AioRpcError):
                await self.call.write(message)
            self.has_said = True
            if self.front.tape:
                await self._settle(message)
                if self.call.done():
                    self._note_leave()
            else:
                self.link.next_call()
        took = time.perf_counter() - begun
        self.front.tell("passed", Passed(self.client, self.link.lane, self.link.calls, "stream", message,
                                         Answer(OK, []), 0, took))

    async def _settle(self, message):
        """Waits until the switch has done what a message asks for, and puts it on the tape. A call on the same
        connection is answered behind it; what the switch says to it then has come, or comes at once."""
        fence = await self.link.ask("capabilities", b"")
        kind = kind_of(message, ASKS)
        if kind in ("packet", "digest_ack"):
            for _ in range(10):
                await asyncio.sleep(0)
        elif fence.is_of_switch():
            with contextlib.suppress(asyncio.TimeoutError):
                await asyncio.wait_for(self.answered.wait(), PATIENCE)
        if self.answer is not None and self.answer.is_of_switch() and self.answer.code == front_words.UNAVAILABLE:
            return
        self.front.record(self.link, "stream", message, fence)

    # The end.

    async def leave(self):
        """Ends the switch's stream from this side and waits for its end, unless that was done."""
        async with self.front.turn:
            if self.has_left:
                return
            self.is_leaving = True
            with contextlib.suppress(asyncio.InvalidStateError, grpc.aio.AioRpcError):
                await self.call.done_writing()
            done, _ = await asyncio.wait({self.tasks[0]}, timeout=END_PATIENCE)
            if not done:
                self.call.cancel()
                if self.front.tape:
                    self.front.tape.end(f"the switch did not end a stream channel within {END_PATIENCE} s")
            self._note_leave()

    def _note_leave(self):
        """The session has ended: once, and on the tape where it may have been one."""
        if self.has_left:
            return
        self.has_left = True
        if self.front.tape and self.has_said:
            if self.answer is not None and not self.answer.is_of_switch():
                self.front.tape.end(f"a stream channel was not ended by the switch: {self.answer.text}")
            else:
                self.front.tape.leave(self.link.lane)
                self.link.next_call()


def kind_of(message, kinds):
    """The kind of a message of the stream channel, None of what is none."""
    try:
        return next((kinds.get(it.number) for it in fields(message)), None)
    except ValueError:
        return None
