"""A scenario, line by line, made into the records of a tape. docs/tapes-in-words.md lists the lines."""
import os
import re

from google.protobuf.message import DecodeError

from p4tools import hints, packets, tape
from p4tools.entities import read_entity
from p4tools.expect import Watch
from p4tools.files import stored
from p4tools.messages import (Config, GetRequest, ReadRequest, SetRequest, StreamRequest, Update,
                              WriteRequest, parse, set_number)
from p4tools.names import Names, part, read_info
from p4tools.tape import Record
from p4tools.trouble import Trouble, nearest
from p4tools.values import read_hex, read_value
from p4tools.words import cut, cut_list, nothing_more, options, pair_of

UPDATES = ("insert", "modify", "delete")
IDS = "p4switch/ids"
WRONG_LINES = 20


class Speaker:
    """What a controller lane names in its calls unless a line says otherwise."""

    def __init__(self):
        self.device, self.election, self.role = 1, 1, 0


class Maker:
    """Takes the lines of a scenario and gives records. `read_file` gives the bytes of a file that a
    line names; `watch` has what the lines say must come."""

    def __init__(self, read_file, names=None, note=lambda text: None):
        self.read_file, self.note = read_file, note
        self.names = names or Names()
        self.speakers = {}
        self.block = None
        self.watch = Watch()

    def take(self, line):
        """The records of one line; a block gives its call at its end."""
        words = cut(line)
        if self.block:
            return self._in_block(words)
        lane, words = lane_of(words)
        if not words:
            return []
        verb = words[0]
        if verb in OF_WATCH:
            OF_WATCH[verb](self, lane, words[1:])
            return []
        is_worker = verb in OF_WORKERS
        if lane and verb in (*VERBS, *UPDATES) and lane[0] != ("w" if is_worker else "c"):
            kind, letter = ("worker", "w") if is_worker else ("controller", "c")
            raise Trouble(f"{verb} is of a {kind}'s lane: write {letter}{lane[1:]} in place of {lane}")
        number = int(lane[1:]) if lane else 0
        if verb in UPDATES:
            return [self._write(number, [self._update(words)], "continue_on_error")]
        if verb not in VERBS:
            near = nearest(verb, [*VERBS, *UPDATES, *OF_WATCH, "include"], 1)
            raise Trouble(f"no line begins with {verb}" + f"; did you mean {' or '.join(near)}?" * bool(near))
        return VERBS[verb](self, number, words[1:])

    def speaker(self, lane):
        """What the lane names in its calls."""
        return self.speakers.setdefault(lane, Speaker())

    # Blocks: `batch ATOMICITY` and `read` up to `end`.

    def _in_block(self, words):
        if not words:
            return []
        kind, lane, atomicity, items = self.block
        if words == ["end"]:
            self.block = None
            return [self._write(lane, items, atomicity) if kind == "batch" else self._read(lane, items)]
        if kind == "batch" and words[0] not in UPDATES:
            raise Trouble(f"{words[0]} can't stand in a batch: it has insert, modify and delete, and ends with `end`")
        items.append(self._update(words) if kind == "batch" else read_entity(words, self.names))
        return []

    def batch(self, lane, words):
        """`batch [ATOMICITY]`, updates, `end`"""
        known = [it.lower() for it in WriteRequest.Atomicity.keys()]
        atomicity = words[0] if words else "continue_on_error"
        # (the block begins also where its line is wrong, so that its other lines are not wrong for that)
        self.block = ("batch", lane, atomicity, [])
        if atomicity not in known:
            self.block = ("batch", lane, known[0], [])
            raise Trouble(f"a batch is {', '.join(known[:-1])} or {known[-1]}")
        nothing_more(words[1:], "batch ATOMICITY")
        return []

    def _update(self, words):
        if len(words) < 2:
            raise Trouble(f"{words[0]} what? write {words[0]} TABLE FIELD=VALUE ACTION(..)")
        update = Update(type=Update.Type.Value(words[0].upper()))
        update.entity.CopyFrom(read_entity(words[1:], self.names))
        for text in hints.of_update(update, self.names):
            self.note(text)
        return update

    def _write(self, lane, updates, atomicity):
        who = self.speaker(lane)
        request = WriteRequest(device_id=who.device, role_id=who.role, updates=updates,
                               atomicity=WriteRequest.Atomicity.Value(atomicity.upper()))
        set_number(request.election_id, who.election)
        return call(lane, "write", request)

    def read(self, lane, words):
        """`read ENTITY`, or `read`, entities, `end`"""
        if words:
            return [self._read(lane, [read_entity(words, self.names)])]
        self.block = ("read", lane, None, [])
        return []

    def _read(self, lane, entities):
        return call(lane, "read", ReadRequest(device_id=self.speaker(lane).device, entities=entities))

    # The stream channel.

    def arbitrate(self, lane, words):
        """`arbitrate election=N [role=N] [ids=NAME,..] [device=N]`"""
        form = "arbitrate election=N role=N ids=NAME,.."
        words, given = options(words, ("election", "role", "device"))
        ids = next((it[4:] for it in words if it.startswith("ids=")), None)
        nothing_more([it for it in words if not it.startswith("ids=")], form)
        if "election" not in given:
            raise Trouble(f"an election id is missing; write {form}")
        who = self.speaker(lane)
        who.election, who.role = given["election"], given.get("role", 0)
        who.device = given.get("device", who.device)
        request = StreamRequest()
        request.arbitration.device_id = who.device
        set_number(request.arbitration.election_id, who.election)
        if who.role or ids is not None:
            request.arbitration.role.id = who.role
        if ids is not None:
            request.arbitration.role.config.type_url = IDS
            request.arbitration.role.config.value = b"".join(
                _varint(self.names.any_id(it.strip())) for it in cut_list(ids))
        return [call(lane, "stream", request)]

    def packet_out(self, lane, words):
        """`packet_out [NAME=VALUE ..] HEX`"""
        request = StreamRequest()
        request.packet.SetInParent()
        pairs = [it for it in words if pair_of(it)]
        for name, value in map(pair_of, pairs):
            header = self.names.object("controller header", "packet_out")
            metadata = request.packet.metadata.add()
            metadata.metadata_id = part("field of packet_out", name, header.metadata).id
            metadata.value = read_value(value)
        request.packet.payload = read_hex(" ".join(it for it in words if it not in pairs) or ".")
        return [call(lane, "stream", request)]

    def digest_ack(self, lane, words):
        """`digest_ack DIGEST list_id=N`"""
        words, given = options(words, ("list_id",))
        if not words:
            raise Trouble("a digest is missing; write digest_ack DIGEST list_id=N")
        nothing_more(words[1:], "digest_ack DIGEST list_id=N")
        request = StreamRequest()
        request.digest_ack.digest_id = self.names.id("digest", words[0])
        request.digest_ack.list_id = given.get("list_id", 0)
        return [call(lane, "stream", request)]

    def leave(self, lane, words):
        """`leave`"""
        nothing_more(words, "leave")
        return [Record(tape.LEAVE, lane, b"")]

    def speak(self, lane, words):
        """`as [device=N] [election=N] [role=N]`: what the lane's later calls name"""
        words, given = options(words, ("device", "election", "role"))
        nothing_more(words, "as device=N election=N role=N")
        for name, number in given.items():
            setattr(self.speaker(lane), name, number)
        return []

    # Programs.

    def names_of(self, _, words):
        """`names P4INFO`: later lines speak by its names"""
        if len(words) != 1:
            raise Trouble("write names FILE, with a P4Info in text or wire form")
        self.names = Names(self._info(words[0]))
        self.watch.named(self.names)
        return []

    def _info(self, file):
        info, note = read_info(self.read_file(file), file)
        if note:
            self.note(note)
        return info

    def config(self, lane, words):
        """`config ACTION [P4INFO JSON | CONFIG] [cookie=N]`"""
        form = "config verify_and_commit P4INFO JSON, or config commit"
        known = [it.lower() for it in SetRequest.Action.keys()[1:]]
        words, given = options(words, ("cookie",))
        if not words or words[0] not in known:
            raise Trouble(f"a config is for {', '.join(known[:-1])} or {known[-1]}; write {form}")
        who = self.speaker(lane)
        request = SetRequest(device_id=who.device, role_id=who.role,
                             action=SetRequest.Action.Value(words[0].upper()))
        set_number(request.election_id, who.election)
        files = words[1:]
        nothing_more(files[2:], form)
        if files:
            request.config.CopyFrom(self._config(files))
        if given.get("cookie"):
            request.config.cookie.cookie = given["cookie"]
        if files and words[0] != "verify":
            self.names = Names(request.config.p4info)
        return [call(lane, "set", request)]

    def _config(self, files):
        if len(files) == 1:
            try:
                return parse(Config, self.read_file(files[0]))
            except DecodeError:
                raise Trouble(f"{files[0]} is no config; bin/p4config makes one of a P4Info and a JSON") from None
        return Config(p4info=self._info(files[0]), p4_device_config=self.read_file(files[1]))

    def get(self, lane, words):
        """`get [all | cookie_only | p4info_and_cookie | device_config_and_cookie]`"""
        known = [it.lower() for it in GetRequest.ResponseType.keys()]
        wanted = words[0] if words else "all"
        if wanted not in known or words[1:]:
            raise Trouble(f"write get with one of {', '.join(known)}")
        request = GetRequest(device_id=self.speaker(lane).device,
                             response_type=GetRequest.ResponseType.Value(wanted.upper()))
        return [call(lane, "get", request)]

    def capabilities(self, lane, words):
        """`capabilities`"""
        nothing_more(words, "capabilities")
        return [Record(tape.CALL, lane, bytes([tape.METHOD_NUMBERS["capabilities"]]))]

    # Workers.

    def packet(self, lane, words):
        """`packet port=N [times=N] HEX`"""
        words, given = options(words, ("port", "times"))
        port = _port(given, "packet port=N HEX")
        payload = port + read_hex(" ".join(words) or ".")
        return [Record(tape.PACKET, lane, payload)] * _times(given, 1)

    def pcap(self, lane, words):
        """`pcap port=N FILE [first=N] [count=N] [times=N]`"""
        form = "pcap port=N FILE"
        words, given = options(words, ("port", "first", "count", "times"))
        port = _port(given, form)
        if len(words) != 1:
            raise Trouble(f"one file is needed; write {form}")
        found = packets.of_pcap(self.read_file(words[0]), words[0])
        first = given.get("first", 1) - 1
        chosen = found[first:][:given.get("count", len(found))]
        if not chosen:
            raise Trouble(f"{words[0]} has {len(found)} packets, and none of them is meant by this line")
        return [Record(tape.PACKET, lane, port + it) for it in chosen] * _times(given, len(chosen))

    def meet(self, lane, words):
        """`meet cN call=N`"""
        words, given = options(words, ("call",))
        controller = re.fullmatch(r"c(\d+)", words[0]) if len(words) == 1 else None
        if not controller or "call" not in given:
            raise Trouble("write meet cN call=N: the worker goes on once that call is answered")
        payload = int(controller[1]).to_bytes(2, "big") + given["call"].to_bytes(4, "big")
        return [Record(tape.MEET, lane, payload)]

    # What must come: it makes no record.

    def expect(self, lane, words):
        """`expect ..`: see expect.py"""
        self.watch.expect(lane, words, self.names)

    def strict(self, _, words):
        """`strict [except=PORT,..]`: what leaves and is not expected is a failure"""
        self.watch.strict(words)

    def queued(self, _, words):
        """`queued`: what leaves is looked for by ports, whichever packet it came of"""
        nothing_more(words, "queued")
        self.watch.queued()

    def start(self, _, words):
        """`start [bridge] [device=N] [cpu=N] [rows=N]`: how a test starts the switch"""
        self.watch.begin(words)

    # Bytes as they are.

    def raw(self, lane, words):
        """`raw METHOD HEX`: a call of just these bytes"""
        if not words or words[0] not in tape.METHOD_NUMBERS:
            raise Trouble(f"write raw METHOD HEX, with a method of {', '.join(tape.METHOD_NUMBERS)}")
        message = read_hex(" ".join(words[1:]) or ".")
        return [Record(tape.CALL, lane, bytes([tape.METHOD_NUMBERS[words[0]]]) + message)]

    def bytes(self, lane, words):
        """`bytes HEX`: a piece of what a gRPC client sends"""
        return [Record(tape.PIECE, lane, read_hex(" ".join(words) or "."))]


VERBS = {"arbitrate": Maker.arbitrate, "as": Maker.speak, "batch": Maker.batch, "bytes": Maker.bytes,
         "capabilities": Maker.capabilities, "config": Maker.config, "digest_ack": Maker.digest_ack,
         "get": Maker.get, "leave": Maker.leave, "meet": Maker.meet, "names": Maker.names_of,
         "packet": Maker.packet, "packet_out": Maker.packet_out, "pcap": Maker.pcap, "raw": Maker.raw,
         "read": Maker.read}
OF_WORKERS = ("packet", "pcap", "meet")
OF_WATCH = {"expect": Maker.expect, "strict": Maker.strict, "queued": Maker.queued, "start": Maker.start}


def lane_of(words):
    """The lane that a line begins with (`c0`, `w3`), or None, and the words behind it."""
    if words and re.fullmatch(r"[cw]\d{1,5}", words[0]):
        return words[0], words[1:]
    return None, words


def call(lane, method, message):
    """The record of a call."""
    return Record(tape.CALL, lane, bytes([tape.METHOD_NUMBERS[method]]) + message.SerializeToString())


def _port(given, form):
    port = given.get("port")
    if port is None or port > tape.LAST_PORT:
        raise Trouble(f"a packet enters at a port from 0 to 510; write {form}")
    return port.to_bytes(2, "big")


def _times(given, packets_each):
    times = given.get("times", 1)
    if times * packets_each > tape.RECORDS:
        raise Trouble("a tape has at most 1,000,000 records; split the run")
    return times


def _varint(number):
    data = bytearray()
    while number > 127:
        data.append(number & 127 | 128)
        number >>= 7
    return bytes(data + bytes([number]))


def lines_of(path, within=()):
    """The lines of a scenario's file and of those that it includes: file, number of the line, line."""
    if path in within:
        raise Trouble(f"{path} includes itself")
    try:
        with open(path, encoding="utf-8") as it:
            lines = it.read().splitlines()
    except (OSError, UnicodeDecodeError) as error:
        raise Trouble(f"{path} is not read: {getattr(error, 'strerror', None) or 'it is no text'}") from None
    for number, line in enumerate(lines, 1):
        words = line.split()
        if words[:1] == ["include"] and len(words) == 2:
            inner = os.path.join(os.path.dirname(path), words[1])
            yield from lines_of(inner, (*within, path))
        else:
            yield path, number, line


def make(path, note, progress=None, names=None, took=None):
    """The records of a scenario's file, or the Trouble of its wrong lines, all of them told at once.
    `note` takes what is told beside, a line each. `names` are those of the first lines, and `took` is given
    each line's file, number, records and names."""
    return make_watched(path, note, progress, names, took)[0]


def make_watched(path, note, progress=None, names=None, took=None):
    """The records of a scenario's file, and the Watch that has what must come."""
    place = [path, 0]

    def read_file(name):
        try:
            return stored(os.path.join(os.path.dirname(place[0]), name), name)
        except Trouble as trouble:
            raise Trouble(f"{trouble}; a file is looked for from the scenario's own folder") from None

    maker = Maker(read_file, names, note=lambda text: note(f"{place[0]}:{place[1]}: note: {text}"))
    records, wrong, lanes = [], [], tape.Lanes()
    for place[0], place[1], line in lines_of(path):
        maker.watch.place = tuple(place)
        try:
            made = maker.take(line)
            for record in made:
                lanes.take(record)
                maker.watch.follow(record, tuple(place))
                records.append(record)
            if took:
                took(place[0], place[1], made, maker.names)
        except Trouble as trouble:
            wrong.append(f"{place[0]}:{place[1]}: {trouble}")
            # (behind a config that is not read no name has a meaning)
            if len(wrong) == WRONG_LINES or "config" in line.split()[:2]:
                break
        if progress:
            progress.at(len(records))
    if maker.block and not wrong:
        wrong.append(f"{path}: a {maker.block[0]} has no `end`")
    if wrong:
        raise Trouble("\n".join(wrong))
    return records, maker.watch
