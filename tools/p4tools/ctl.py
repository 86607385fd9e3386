"""What bin/p4ctl does with a line: the words of a scenario, made into calls by the same code, on a switch
that serves. Each controller lane has a connection of its own, and `c0` is the one without a name."""
import os
import queue
import socket
import time

from p4tools import advice, packets, rules, tape, told
from p4tools.files import stored
from p4tools.hints import of_update
from p4tools.live import Answer, Link, NoSwitch, place_of
from p4tools.messages import (Any, GetRequest, GetResponse, ReadRequest, ReadResponse, SetRequest, Status,
                              StreamRequest, StreamResponse, WriteRequest, code_name, number_of, parse, set_number)
from p4tools.names import Names
from p4tools.report import Call
from p4tools.scenario import UPDATES, VERBS, Maker, lane_of
from p4tools.spell import Speller
from p4tools.trouble import Trouble, nearest
from p4tools.words import cut

LANES = 32
# How long an answer on the stream channel is waited for, in seconds.
NOTICE = 20
SHOWN_UPDATES = 20
# Packets are sent so many at once, so that none is lost between here and the switch.
BURST, PAUSE = 16, 0.001
NAMELESS = ("as", "bytes", "capabilities", "config", "get", "leave", "meet", "names", "packet", "pcap", "raw")


class Refused(Exception):
    """The switch refused a call, or this controller may not change it: the lines that tell it."""

    def __init__(self, lines):
        super().__init__("\n".join(lines))
        self.lines = lines


class Options:
    """The words of the command line: where the switch is and what calls name. An election id that is
    None is chosen: where no controller is primary, the greatest that the role was asked for."""

    def __init__(self, at="127.0.0.1:9559", device=1, role=0, election=None, packet_port=9000, keys=None, patience=60):
        self.at, self.device, self.role, self.election = at, device, role, election
        self.packet_port, self.keys, self.patience = packet_port, keys, patience


class Caller:
    """A controller lane: its connection, and messages of its stream that nobody was told of yet."""

    def __init__(self, link):
        self.link, self.waiting = link, []


class Session:
    """The state of p4ctl between lines. `note` takes what is told beside, a sentence each."""

    def __init__(self, options, note=lambda text: None, folder="."):
        self.options, self.note, self.folder = options, note, folder
        self.callers, self.numbers = {}, {}
        # Lanes whose election id a line said, and those for which it was chosen.
        self.own, self.chosen = set(), {}
        self.has_names, self.names_are_given = False, False
        self.hinted = []
        self.maker = Maker(lambda name: stored(os.path.join(folder, name), name), note=self.hinted.append)
        for lane in range(LANES):
            self.maker.speaker(lane).device, self.maker.speaker(lane).role = options.device, options.role
        self.speller, self.beside = Speller(), told.Beside()

    # Lines.

    def take(self, line):
        """Does what a line says and gives what it tells, line by line."""
        words = cut(line)
        if self.maker.block:
            yield from self.send(self.maker.take(line))
            return
        lane, rest = lane_of(words)
        if lane and int(lane[1:]) >= LANES:
            raise Trouble(f"there is no controller lane {lane}; they are c0 to c{LANES - 1}")
        if not rest:
            return
        if rest[0] not in VERBS and rest[0] not in UPDATES:
            raise Trouble(no_line(rest[0]))
        if needs_names(rest):
            self.learn()
        before = self.maker.names
        records = self.maker.take(line)
        if rest[0] in ("as", "raw") and (rest[0] == "raw" or any(it.startswith("election=") for it in rest)):
            self.own.add(int(lane[1:]) if lane else 0)
        if rest[0] == "names":
            self.has_names = self.names_are_given = True
        try:
            yield from self.send(records)
        except (Refused, NoSwitch):
            self.maker.names = before
            raise
        if rest[0] == "config":
            self.forget_names()
        if not self.maker.block:
            self._tell_hints()

    def drop_block(self):
        """Forgets a block that was begun."""
        self.maker.block = None

    def send(self, records):
        """Makes the calls of records and sends their packets; gives what is told."""
        if records and records[0].kind == tape.PACKET:
            yield from self._send_packets(records)
            return
        for record in records:
            yield from self.make(record)

    def make(self, record):
        """Makes the call of a record; gives what it is answered, or is Refused."""
        if record.kind == tape.MEET:
            return
        if record.kind == tape.PIECE:
            raise Trouble("a client's bytes are played by `bin/p4switch replay`; to a live switch calls are made")
        shown, lane = self._shown(record), record.lane
        if record.kind == tape.LEAVE:
            if lane in self.callers:
                self.callers[lane].link.leave()
            self._stands_alone(lane)
            yield f"{self._who(lane)}leave: OK"
            return
        if record.method() == "stream":
            yield from self._make_on_stream(record, shown)
            return
        if record.method() in ("write", "set"):
            self.take_charge(lane)
            record = self._with_election(record)
        answer = self.caller(lane).link.ask(record.method(), record.message())
        lines = self.tell(record, shown, answer)
        if answer.code:
            raise Refused(lines)
        yield from lines

    def _with_election(self, record):
        """The same call with the election id that was chosen for its lane."""
        chosen = self.chosen.get(record.lane)
        if chosen is None:
            return record
        request = parse(WriteRequest if record.method() == "write" else SetRequest, record.message())
        set_number(request.election_id, chosen)
        return record._replace(payload=record.payload[:1] + request.SerializeToString())

    def _stands_alone(self, lane):
        """The lane's stream has ended: it asks anew before it changes anything."""
        self.own.discard(lane)
        self.chosen.pop(lane, None)

    # What the switch is asked beside the lines.

    def caller(self, lane=0):
        """The connection of a lane, opened where it is not there yet."""
        if lane not in self.callers:
            options = self.options
            keys = {"keys": options.keys} if options.keys else {}
            self.callers[lane] = Caller(Link(options.at, patience=options.patience, **keys))
        return self.callers[lane]

    def config(self, wanted="P4INFO_AND_COOKIE"):
        """The configuration of what controllers write and read, or None."""
        request = GetRequest(device_id=self.maker.speaker(0).device,
                             response_type=GetRequest.ResponseType.Value(wanted))
        answer = self.caller().link.ask("get", request.SerializeToString())
        if answer.code:
            raise Refused(self.whole("get", "get", answer))
        response = parse(GetResponse, answer.messages[0])
        return response.config if response.HasField("config") else None

    def learn(self):
        """Learns the names of the switch's program, where no line said whose are meant."""
        if not self.has_names:
            config = self.config()
            self.maker.names = Names(config.p4info if config else None)
            self.has_names = True

    def forget_names(self):
        """Names are asked for again by the next line that needs them."""
        self.has_names = self.names_are_given

    def read(self, *entities):
        """What a Read selects."""
        request = ReadRequest(device_id=self.maker.speaker(0).device, entities=entities)
        answer = self.caller().link.ask("read", request.SerializeToString())
        if answer.code:
            raise Refused(self.whole("read", "read", answer))
        return [it for message in answer.messages for it in parse(ReadResponse, message).entities]

    # Arbitration.

    def take_charge(self, lane=0):
        """Becomes the primary of the lane's role, where no line said otherwise."""
        who = self.maker.speaker(lane)
        if lane in self.own or lane in self.chosen:
            return
        wanted = self.options.election
        if wanted is None:
            greatest, code = self.ask_to_be(lane, 0)
            if code_name(code) == "ALREADY_EXISTS":
                raise Refused([advice.of_election(who.role, 0, (greatest, code))])
            wanted = max(greatest, 1)
        standing = self.ask_to_be(lane, wanted)
        if standing[1]:
            raise Refused([advice.of_election(who.role, wanted, standing)])
        self.chosen[lane] = who.election = wanted

    def ask_to_be(self, lane, election):
        """Asks for an election id, and gives the greatest that the role was asked for and the code of the answer."""
        who = self.maker.speaker(lane)
        request = StreamRequest()
        request.arbitration.device_id = who.device
        set_number(request.arbitration.election_id, election)
        if who.role:
            request.arbitration.role.id = who.role
        notices = self._arbitrate(lane, request.SerializeToString())
        if isinstance(notices, Answer):
            title = f"arbitrate election={election}" + f" role={who.role}" * bool(who.role)
            raise Refused(self.whole("stream", title, notices))
        return standing_of(notices[-1])

    def _arbitrate(self, lane, message):
        """What is told of who is primary, up to the answer to an arbitration, of which the last holds now; or the
        Answer with which the stream ended."""
        caller, notices = self.caller(lane), []
        if caller.link.stream is None:
            caller.link.open()
        caller.link.say(message)
        caller.link.say(BARRIER)
        while True:
            data = self._hear(lane, lambda it: is_answer(it) or it.WhichOneof("update") == "arbitration")
            if isinstance(data, Answer):
                return data
            if is_answer(parse(StreamResponse, data)):
                return notices
            notices.append(data)

    def _hear(self, lane, is_wanted):
        """The first message of the stream that is wanted, or the Answer with which it ended; others wait."""
        caller = self.caller(lane)
        until = time.monotonic() + NOTICE
        while True:
            try:
                data = caller.link.hear(max(until - time.monotonic(), 0.001))
            except queue.Empty:
                raise NoSwitch(f"{caller.link.place} gave no answer on the stream channel in {NOTICE} seconds") from None
            if data is None:
                self._stands_alone(lane)
                return caller.link.end_of_stream()
            if is_wanted(parse(StreamResponse, data)):
                return data
            caller.waiting.append(data)

    # The stream channel.

    def _make_on_stream(self, record, shown):
        """A message of the stream channel with what it is answered."""
        lane, kind = record.lane, parse(StreamRequest, record.message()).WhichOneof("update")
        if kind == "arbitration":
            yield from self._tell_arbitration(record, shown)
            return
        notice = self._say(lane, kind, record.message())
        if isinstance(notice, Answer):
            raise Refused(self.tell(record, shown, notice))
        message = parse(StreamResponse, notice)
        if kind != "other" and message.error.WhichOneof("details") == "other":
            yield from self.tell(record, shown, Answer(0, []))
            return
        lines = self.tell(record, shown, Answer(0, []), [(lane, notice)])
        if message.WhichOneof("update") == "error":
            raise Refused([it.strip().partition(": ")[2] for it in lines[1:]]
                          + [f"    {it}" for it in advice.of_packet_out(message.error.code)])
        yield from lines

    def _tell_arbitration(self, record, shown):
        """A line's own arbitration."""
        lane = record.lane
        self.chosen.pop(lane, None)
        notices = self._arbitrate(lane, record.message())
        if isinstance(notices, Answer):
            raise Refused(self.tell(record, shown, notices))
        self.own.add(lane)
        yield from self.tell(record, shown, Answer(0, []), [(lane, it) for it in notices])
        standing, who = standing_of(notices[-1]), self.maker.speaker(lane)
        if standing[1]:
            yield f"    {advice.of_election(who.role, who.election, standing)}"

    def _say(self, lane, kind, data):
        """Says a packet or an acknowledgement, and behind it what is surely answered: the first answer."""
        if kind in ("packet", "digest_ack"):
            self.take_charge(lane)
        caller = self.caller(lane)
        if caller.link.stream is None:
            caller.link.open()
        caller.link.say(data)
        if kind != "other":
            caller.link.say(BARRIER)
        notice = self._hear(lane, is_answer)
        if not isinstance(notice, Answer) and kind != "other":
            if parse(StreamResponse, notice).error.WhichOneof("details") != "other":
                self._hear(lane, is_answer)
        return notice

    def waiting(self):
        """What came on the streams and was not told: the lines of changes of mastership, and how many others."""
        for lane, caller in self.callers.items():
            others = 0
            for data in self._take_waiting(lane, caller):
                if parse(StreamResponse, data).WhichOneof("update") == "arbitration":
                    yield f"{self._who(lane)}is told: {told.tell_notice(data, self.beside)}"
                else:
                    others += 1
            if others:
                yield f"{self._who(lane)}{others:,} packets, digests or other messages came; `listen` prints them as they come"

    def _take_waiting(self, lane, caller):
        """The messages of a stream that nobody was told of yet."""
        found, caller.waiting = caller.waiting, []
        try:
            while caller.link.stream is not None:
                data = caller.link.hear(0)
                if data is None:
                    caller.link.end_of_stream()
                    self._stands_alone(lane)
                else:
                    found.append(data)
        except queue.Empty:
            pass
        return found

    # What is told.

    def _tell_hints(self):
        """Tells what was noted of a line that made no call."""
        for text in self.hinted:
            self.note(text)
        self.hinted.clear()

    def _who(self, lane):
        return f"c{lane} " if lane else ""

    def _shown(self, record):
        self.speller.maker.speakers, self.speller.maker.names = self.maker.speakers, self.maker.names
        self.speller.files = {}
        self.maker.speaker(record.lane)
        shown = self.speller.spell(record)
        self.maker.speakers = self.speller.maker.speakers
        return shown

    def tell(self, record, shown, answer, notices=()):
        """The lines of a call and of its answer, as p4tape shows them, and what to do about a refusal."""
        lane = record.lane
        self.numbers[lane] = number = self.numbers.get(lane, 0) + 1
        self.beside.calls = {(lane, number): (record, shown)}
        self.beside.names = shown.names
        call = Call(lane, number, [], list(notices), 0, answer.code, answer.messages)
        lines = told.tell_call(call, self.beside)
        lines[0] = self._who(lane) + lines[0].removeprefix(f"c{lane} call {number} ")
        method = record.method()
        hinted = list(self.hinted)
        self.hinted.clear()
        if method == "write" and answer.code == 2 and told.errors_of(call):
            return self._tell_updates(record, shown, call, lines)
        updates = parse(WriteRequest, record.message()).updates if method == "write" else []
        known = {hint for it in updates for hint in of_update(it, shown.names)} if hinted else ()
        for text in hinted:
            if text not in known:
                self.note(text)
        if answer.code:
            message = parse(Status, answer.messages[0]).message if answer.messages else ""
            return lines + self._words_of_switch(method, answer) + [f"    {it}" for it in advice.of_call(method, answer.code, message)]
        return lines

    def _tell_updates(self, record, shown, call, lines):
        """A Write of which updates failed: each with its rule and what to do."""
        errors, found = told.errors_of(call), told.outcomes(record, call)
        if len(found) == 1:
            words = lines[0].removesuffix(f": {code_name(2)}")
            to_do = advice.of_update(found[0][0], errors[0], shown.names)
            return [f"{words}: {told.tell_error(errors[0])}"] + [f"    {it}" for it in to_do]
        made, left = lines[:1], 0
        for number, (update, code) in enumerate(found):
            is_first = code not in (0, 10)
            if not is_first and len(found) > SHOWN_UPDATES:
                left += 1
                continue
            made.append(lines[1 + number])
            made += [f"        {it}" for it in advice.of_update(update, errors[number], shown.names)]
        made += [f"    and {left:,} more updates: OK or ABORTED"] * bool(left)
        is_whole = any(it.canonical_code == 10 for it in errors)
        return made + ["    nothing of the batch was done"] * is_whole

    def _words_of_switch(self, method, answer):
        """What the switch or what stands in front of it says by itself, where that is told nowhere else."""
        message = parse(Status, answer.messages[0]).message if answer.messages else ""
        is_told = rules.of_config(message) or message == rules.NO_MEMORY or message == rules.WHOLE.get((method, code_name(answer.code)), "")
        return [f"    {message}"] * (not is_told)

    def whole(self, method, title, answer):
        """The lines of a call that is refused whole and that no line of the user's made."""
        message = parse(Status, answer.messages[0]).message if answer.messages else ""
        name = code_name(answer.code)
        reason = rules.CONFIG.get(rules.of_config(message)) or message or rules.WHOLE.get((method, name), "")
        head = f"{title}: {name}" + f" ({reason})" * bool(reason)
        return [head] + [f"    {it}" for it in advice.of_call(method, answer.code, message)]

    # Packets.

    def _send_packets(self, records):
        """Sends packets to the switch's UDP port, and says so."""
        host = place_of(self.options.at)[0]
        family = socket.AF_INET6 if ":" in host else socket.AF_INET
        where = (host, self.options.packet_port)
        with socket.socket(family, socket.SOCK_DGRAM) as it:
            for number, record in enumerate(records, 1):
                it.sendto(record.payload, where)
                if number % BURST == 0:
                    time.sleep(PAUSE)
        what = told.counted(len(records), "packet")
        if len(records) == 1:
            what = packets.summary(records[0].packet())
        yield f"at port {records[0].port()}: {what}, sent to UDP port {where[1]}"

    def close(self):
        """Leaves on every lane and closes the connections."""
        for caller in self.callers.values():
            caller.link.close()
        self.callers, self.chosen = {}, {}
        self.own.clear()


BARRIER = StreamRequest(other=Any()).SerializeToString()


def is_answer(message):
    """Whether a message of the stream answers a packet or an acknowledgement, or the barrier behind it: a
    message of an unknown kind, which the switch answers by an error without changing anything."""
    return message.WhichOneof("update") == "error"


def standing_of(notice):
    """The greatest election id that a role was asked for, and the code that says who is primary."""
    told_one = parse(StreamResponse, notice).arbitration
    return number_of(told_one.election_id), told_one.status.code


def needs_names(words):
    """Whether a line speaks by the names of a program."""
    verb = words[0]
    if verb in ("arbitrate", "packet_out"):
        return any(not it.startswith(("election=", "role=", "device=")) and "=" in it for it in words[1:])
    return verb not in NAMELESS


def no_line(word, more=()):
    """What is said of a line that begins with no known word."""
    near = nearest(word, [*VERBS, *UPDATES, *more])
    return f"no line begins with {word}" + (f"; did you mean {' or '.join(near)}?" if near else "; `help` lists them")
