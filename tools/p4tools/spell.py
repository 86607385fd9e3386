"""A tape in the words of a scenario. What has no words, or whose words would give other bytes, is
spelled as it is, so that `make` gives the same tape of what is shown."""
import copy

from google.protobuf.message import DecodeError

from p4tools import packets, tape
from p4tools.entities import spell_entity
from p4tools.messages import (Config, GetRequest, ReadRequest, SetRequest, StreamRequest, Update,
                              WriteRequest, number_of, parse)
from p4tools.names import Names, part_name
from p4tools.scenario import IDS, Maker
from p4tools.trouble import Trouble
from p4tools.values import spell_value


class Shown:
    """The lines of one record, what its call is called in one line, and the names that it speaks by."""

    def __init__(self, lines, title, names):
        self.lines, self.title, self.names = lines, title, names


class Speller:
    """Spells the records of a tape in their order."""

    def __init__(self, names=None):
        self.files = {}
        self.maker = Maker(self._file, names)

    def _file(self, name):
        if name not in self.files:
            raise Trouble(f"{name} is not read")
        return self.files[name]

    def spell(self, record):
        """The lines of a record."""
        if record.kind == tape.PACKET:
            return self._packet(record)
        if record.kind == tape.MEET:
            lane, call = record.met()
            return self._shown(record, [f"w{record.lane} meet c{lane} call={call}"])
        if record.kind == tape.LEAVE:
            return self._shown(record, [f"c{record.lane} leave"])
        if record.kind == tape.PIECE:
            return self._shown(record, [f"c{record.lane} bytes {record.payload.hex()}"])
        return self._call(record)

    def _shown(self, record, lines, title=None):
        return Shown(lines, title or lines[0].partition(" ")[2], self.maker.names)

    def _packet(self, record):
        data = record.packet()
        text = f"w{record.lane} packet port={record.port()} {data.hex() or '.'}"
        comment = packets.summary(data)
        return self._shown(record, [f"{text}  # {comment}"], comment)

    def _call(self, record):
        """A call in words where they give its bytes, else raw."""
        lines, title, before = [], None, self._state()
        try:
            lines, title = SPELLERS[record.method()](self, record.lane, record.message())
            made = [it for line in lines for it in self.maker.take(line)]
        except (Trouble, DecodeError, ValueError):
            made = []
        if made == [record]:
            changed = lines[0].partition(" as ")[2] if len(lines) > 1 else ""
            return self._shown(record, lines, title + f" (as {changed})" * bool(changed))
        self._set_state(before)
        raw = f"c{record.lane} raw {record.method()} {record.message().hex() or '.'}"
        shown = [f"# c{record.lane} calls {record.method()} with a message that has no words"]
        return self._shown(record, shown + [raw], f"{record.method()} of {len(record.message())} bytes")

    def _state(self):
        return copy.deepcopy(self.maker.speakers), self.maker.names, self.maker.block

    def _set_state(self, state):
        self.maker.speakers, self.maker.names, self.maker.block = state

    def _as(self, lane, device, election=None, role=None):
        """The line `as ..` where a call names what its lane did not name before."""
        who = self.maker.speaker(lane)
        given = [("device", device, who.device)]
        given += [("election", election, who.election), ("role", role, who.role)] if election is not None else []
        changed = [f"{name}={new}" for name, new, old in given if new != old]
        return [f"c{lane} as {' '.join(changed)}"] if changed else []

    def write(self, lane, message):
        """A Write."""
        request = parse(WriteRequest, message)
        names, lines = self.maker.names, self._as(lane, request.device_id, number_of(request.election_id),
                                                  request.role_id)
        updates = [f"{Update.Type.Name(it.type).lower()} {spell_entity(it.entity, names)}"
                   for it in request.updates]
        atomicity = WriteRequest.Atomicity.Name(request.atomicity).lower()
        if len(updates) == 1 and not request.atomicity:
            return lines + [f"c{lane} {updates[0]}"], updates[0]
        lines += [f"c{lane} batch {atomicity}", *[f"  {it}" for it in updates], "end"]
        return lines, f"batch {atomicity} of {len(updates)} update{'s' * (len(updates) != 1)}"

    def read(self, lane, message):
        """A Read."""
        request = parse(ReadRequest, message)
        entities = [spell_entity(it, self.maker.names) for it in request.entities]
        lines = self._as(lane, request.device_id)
        if len(entities) == 1:
            return lines + [f"c{lane} read {entities[0]}"], f"read {entities[0]}"
        lines += [f"c{lane} read", *[f"  {it}" for it in entities], "end"]
        return lines, f"read of {len(entities)} entities"

    def set(self, lane, message):
        """A SetForwardingPipelineConfig. Its config becomes a file."""
        request = parse(SetRequest, message)
        lines = self._as(lane, request.device_id, number_of(request.election_id), request.role_id)
        action = SetRequest.Action.Name(request.action).lower()
        if not request.HasField("config"):
            return lines + [f"c{lane} config {action}"], f"config {action}"
        cookie = request.config.cookie.cookie
        plain = Config()
        plain.CopyFrom(request.config)
        plain.ClearField("cookie")
        name = self._name_of(plain.SerializeToString())
        what = describe(request.config)
        line = f"c{lane} config {action} {name}" + f" cookie={cookie}" * bool(cookie)
        return lines + [f"{line}  # {what}"], f"config {action}: {what}"

    def _name_of(self, data):
        """The name of the file of a config, the same for the same config."""
        for name, known in self.files.items():
            if known == data:
                return name
        name = f"program-{len(self.files) + 1}.config"
        self.files[name] = data
        return name

    def get(self, lane, message):
        """A GetForwardingPipelineConfig."""
        request = parse(GetRequest, message)
        wanted = GetRequest.ResponseType.Name(request.response_type).lower()
        return self._as(lane, request.device_id) + [f"c{lane} get {wanted}"], f"get {wanted}"

    def capabilities(self, lane, message):
        """A Capabilities."""
        return [f"c{lane} capabilities"], "capabilities"

    def stream(self, lane, message):
        """A message of the stream channel."""
        request = parse(StreamRequest, message)
        kind = request.WhichOneof("update")
        if kind == "arbitration":
            words = self._arbitration(lane, request.arbitration)
        elif kind == "packet":
            words = self._packet_out(request.packet)
        elif kind == "digest_ack":
            digest = self.maker.names.name("digest", request.digest_ack.digest_id)
            words = f"digest_ack {digest} list_id={request.digest_ack.list_id}"
        else:
            raise Trouble("this message has no words")
        title = words
        if kind == "packet":
            comment = packets.summary(request.packet.payload)
            words, title = f"{words}  # {comment}", f"packet_out {comment}"
        return [f"c{lane} {words}"], title

    def _arbitration(self, lane, asked):
        words = f"arbitrate election={number_of(asked.election_id)}"
        if asked.HasField("role"):
            words += f" role={asked.role.id}"
        if asked.role.HasField("config"):
            if asked.role.config.type_url != IDS:
                raise Trouble("this role's configuration has no words")
            ids = [self.maker.names.any_name(it) for it in varints(asked.role.config.value)]
            words += f" ids={','.join(ids)}"
        is_new = asked.device_id != self.maker.speaker(lane).device
        return words + f" device={asked.device_id}" * is_new

    def _packet_out(self, packet):
        words = ["packet_out"]
        if packet.metadata:
            header = self.maker.names.object("controller header", "packet_out")
            widths = {it.id: it.bitwidth for it in header.metadata}
            words += [f"{part_name(header.metadata, it.metadata_id)}="
                      f"{spell_value(it.value, widths.get(it.metadata_id, 0))}" for it in packet.metadata]
        return " ".join(words + [packet.payload.hex() or "."])


SPELLERS = {"write": Speller.write, "read": Speller.read, "set": Speller.set, "get": Speller.get,
            "stream": Speller.stream, "capabilities": Speller.capabilities}


def varints(data):
    """The numbers of a packed field."""
    found, number, shift = [], 0, 0
    for byte in data:
        number |= (byte & 127) << shift
        shift += 7
        if byte < 128:
            found.append(number)
            number, shift = 0, 0
    return found


def describe(config):
    """What a config holds, in a few words."""
    tables = [it.preamble.name for it in config.p4info.tables]
    shown = ", ".join(tables[:3]) + ", .." * (len(tables) > 3)
    return f"tables {shown}" if tables else "no tables"


def names_of(spelled):
    """The names of all programs of a tape together, by id, for what a report says without its call."""
    whole = Names()
    for shown in spelled:
        for ident, thing in shown.names.by_id.items():
            whole.by_id.setdefault(ident, thing)
    return whole


def lines_of(data, names=None):
    """The lines of a tape, with the like packets in a row as one; what is wrong with it, or None;
    and the files that the lines name."""
    records, wrong = tape.read_tape(data)
    speller = Speller(names)
    return _joined(records, speller), wrong, speller.files, len(records)


def _joined(records, speller):
    at = 0
    while at < len(records):
        times = 1
        while records[at].kind == tape.PACKET and at + times < len(records) and records[at + times] == records[at]:
            times += 1
        for line in speller.spell(records[at]).lines:
            yield at, line.replace(" packet port=", f" packet times={times} port=", 1) if times > 1 else line
        at += times
