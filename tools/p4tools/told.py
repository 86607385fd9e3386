"""A report in words. Beside its tape the calls, the packets that entered and the entries that they
hit are named; without the tape they stay numbers."""
from google.protobuf.message import DecodeError

from p4tools import packets, rules, tape
from p4tools.entities import spell_entity, spell_key
from p4tools.messages import (CapabilitiesResponse, Error, GetResponse, P4Data, PacketIn, ReadResponse,
                              Status, StreamRequest, StreamResponse, TableEntry, Update, WriteRequest, code_name,
                              number_of, parse)
from p4tools.names import Names, part_name
from p4tools.report import FATES, Call, Packet
from p4tools.spell import Speller, describe, names_of
from p4tools.trouble import Progress, Trouble
from p4tools.values import canonical, spell_value


class Beside:
    """What a tape says of its calls and packets: `calls` has the record and the words of each call by
    lane and number, `entered` the port and bytes of each packet, `order` both as they stand on the tape,
    and, once `follow` has seen the journal, `entries` the key of each entry by its sequence number and
    `outs` the number of the packet that a call sent."""

    def __init__(self, data=None, names=None):
        self.calls, self.entered, self.entries = {}, {}, {}
        self.order, self.outs = [], {}
        self.names, self.of_bytes = names or Names(), False
        if data is not None:
            self._read(data, names)

    def _read(self, data, names):
        records, wrong = tape.read_tape(data)
        if wrong:
            raise Trouble(f"the tape beside the report: {wrong}")
        speller, spelled, last = Speller(names), [], {}
        progress = Progress("p4tape", "records of the tape", len(records))
        for number, record in enumerate(records):
            is_call = record.kind in (tape.CALL, tape.LEAVE)
            who = f"{'c' if is_call else 'w'}{record.lane}"
            last[who] = last.get(who, 0) + (is_call or record.kind == tape.PACKET)
            if is_call or record.kind == tape.PACKET:
                self.order.append((who, last[who]))
            if is_call:
                spelled.append(speller.spell(record))
                self.calls[record.lane, last[who]] = (record, spelled[-1])
            elif record.kind == tape.PACKET:
                self.entered[who, last[who]] = (record.port(), record.packet())
            self.of_bytes |= record.kind == tape.PIECE
            progress.at(number)
        progress.end()
        if spelled:
            self.names = names_of(spelled)

    def follow(self, report):
        """Names the entries that the journal inserted, and the packets that controllers sent."""
        number, outs = 0, {}
        self.outs = {}
        for call in report.calls if not self.of_bytes else []:
            record, shown = self.calls.get((call.lane, call.number), (None, None))
            if record is None or record.kind != tape.CALL:
                continue
            for update, code in outcomes(record, call):
                if code == 0 and update.type == Update.INSERT and update.entity.HasField("table_entry"):
                    number += 1
                    self.entries[number] = key_of(update.entity.table_entry, shown.names)
            payload = packet_out_of(record)
            if payload is not None and not any(is_refusal(it) for _, it in call.notices):
                outs[call.lane] = outs.get(call.lane, 0) + 1
                self.entered[f"c{call.lane}", outs[call.lane]] = (None, payload)
                self.outs[call.lane, call.number] = outs[call.lane]

    def hit(self, word):
        """A hit in words."""
        if word.startswith("@"):
            return f"counter cell {word[1:]}"
        table, number = map(int, word.split(":"))
        return f"{self.names.name('table', table)} {self.entries.get(number, f'entry {number}')}"


def outcomes(record, call):
    """The updates of a Write with the code of each; none where the Write was refused whole."""
    if record.method() != "write" or call.code not in (0, 2):
        return []
    try:
        request = parse(WriteRequest, record.message())
        if call.code == 0:
            return [(it, 0) for it in request.updates]
        errors = [it.canonical_code for it in errors_of(call)]
    except DecodeError:
        return []
    return list(zip(request.updates, errors))


def errors_of(call):
    """The errors of a Write, one for each update."""
    status = parse(Status, call.messages[0]) if call.messages else Status()
    return [parse(Error, it.value) for it in status.details]


def key_of(entry, names):
    """The key of an entry in words, its values in canonical form."""
    plain = parse(TableEntry, entry.SerializeToString())
    for match in plain.match:
        chosen = getattr(match, match.WhichOneof("field_match_type"))
        for field, value in chosen.ListFields():
            if isinstance(value, bytes):
                setattr(chosen, field.name, canonical(int.from_bytes(value, "big")))
    try:
        words = spell_key(plain, names)
    except Trouble:
        return "an entry"
    words += [f"priority={entry.priority}"] * bool(entry.priority)
    return " ".join(words) or "without a match"


def packet_out_of(record):
    """The payload of a PacketOut, or None of another call."""
    if record.method() != "stream":
        return None
    try:
        request = parse(StreamRequest, record.message())
    except DecodeError:
        return None
    return request.packet.payload if request.WhichOneof("update") == "packet" else None


def is_refusal(notice):
    """Whether a notice is an error."""
    return parse(StreamResponse, notice).WhichOneof("update") == "error"


# Calls.

def tell_call(call, beside, numbered=True):
    """The lines of a call: its words, its answer and what it made; each further line is indented. Its
    steps have their numbers, or are only counted."""
    record, shown = beside.calls.get((call.lane, call.number), (None, None))
    title = f" {shown.title}" if shown else ""
    head = f"c{call.lane} call {call.number}{title}: {code_name(call.code)}{_steps(call, numbered)}"
    lines = [f"{head}{_reason(record, call)}"]
    lines += _updates(record, shown, call) + _answer(record, shown, call, beside)
    return lines + [f"    c{lane} is told: {tell_notice(data, beside)}" for lane, data in call.notices]


def _steps(call, numbered):
    words = [f"step {it.number} " * numbered + it.kind + f" of {it.changes}" * (it.kind == "batch")
             for it in call.steps]
    return "".join(f", {it}" for it in words)


def _reason(record, call):
    """Why a call other than a Write with failing updates was refused."""
    if call.code == 0:
        return ""
    message = parse(Status, call.messages[0]).message if call.messages else ""
    rule = rules.of_config(message)
    if rule:
        return f", rule {rule}: {rules.CONFIG[rule]}"
    method = record.method() if record is not None and record.kind == tape.CALL else None
    reason = rules.WHOLE.get((method, code_name(call.code)))
    return f" ({reason})" if reason else ""


def _updates(record, shown, call):
    """Each update of a batch, or of a Write of which some failed, with its outcome."""
    if record is None or record.kind != tape.CALL:
        errors = errors_of(call) if call.code == 2 else []
        return [f"    update {number}: {tell_error(it)}" for number, it in enumerate(errors, 1)]
    found = outcomes(record, call)
    errors = errors_of(call) if call.code == 2 else []
    if len(found) < 2 and not errors:
        return []
    lines = []
    for number, (update, _) in enumerate(found):
        error = errors[number] if errors else Error()
        lines.append(f"    {_update_words(update, shown.names)}: {tell_error(error)}")
    return lines


def _update_words(update, names):
    try:
        return f"{Update.Type.Name(update.type).lower()} {spell_entity(update.entity, names)}"
    except (Trouble, ValueError):
        return "an update that has no words"


def tell_error(error):
    """A p4.v1.Error in words."""
    text = code_name(error.canonical_code)
    if error.space == "p4switch":
        return f"{text}, rule U{error.code}: {rules.of_update(error.canonical_code, error.code)}"
    return text


def _answer(record, shown, call, beside):
    """What a call that is OK answers."""
    if call.code or not any(call.messages):
        return []
    method = record.method() if record is not None and record.kind == tape.CALL else None
    if method == "capabilities":
        version = parse(CapabilitiesResponse, call.messages[0]).p4runtime_api_version
        return [f"    P4Runtime {version}"]
    if method == "get":
        config = parse(GetResponse, call.messages[0]).config
        return [f"    cookie {config.cookie.cookie}, {describe(config)}, "
                f"{len(config.p4_device_config):,} bytes of JSON"]
    if method == "read":
        return [f"    {_entity(it, shown.names)}" for message in call.messages
                for it in parse(ReadResponse, message).entities]
    return [f"    {it.hex() or '.'}" for it in call.messages]


def _entity(entity, names):
    try:
        return spell_entity(entity, names)
    except Trouble:
        return entity.SerializeToString().hex()


def tell_notice(data, beside):
    """A message of the stream channel in words."""
    message = parse(StreamResponse, data)
    kind = message.WhichOneof("update")
    if kind == "arbitration":
        notice = message.arbitration
        role = f" role {notice.role.id}," if notice.role.id else ""
        standing = {0: "it is primary", 6: "another is primary", 5: "there is no primary"}
        return (f"device {notice.device_id},{role} greatest election id {number_of(notice.election_id)}: "
                f"{standing.get(notice.status.code, code_name(notice.status.code))}")
    if kind == "error":
        return _stream_error(message.error)
    if kind == "packet":
        return tell_packet_in(message.packet, beside.names)
    if kind == "digest":
        data = "; ".join(tell_data(it) for it in message.digest.data)
        return f"digest {beside.names.name('digest', message.digest.digest_id)}, list {message.digest.list_id}: {data}"
    if kind == "idle_timeout_notification":
        return "idle timeout: " + "; ".join(tell_idle(it, beside.names) for it in message.idle_timeout_notification.table_entry)
    return f"{kind} {data.hex()}"


def tell_idle(entry, names):
    """An entry that was not hit for its idle timeout."""
    return f"{names.name('table', entry.table_id)} {key_of(entry, names)}"


def _stream_error(error):
    text = code_name(error.canonical_code)
    if error.WhichOneof("details") != "packet_out":
        return f"error {text}"
    rule = f", rule P{error.code}: {rules.PACKET_OUT.get(error.code, '')}" if error.code else ""
    return f"packet_out {packets.summary(error.packet_out.packet_out.payload)} is refused: {text}{rule}"


# Packets.

def tell_packet(packet, beside, last=None):
    """The lines of a packet, or of like packets up to the number `last`."""
    number = f"packet {packet.number}" if last in (None, packet.number) else f"packets {packet.number} to {last}"
    port, data = beside.entered.get((packet.who, packet.number), (None, None))
    entered = "" if data is None else f": {packets.summary(data)}"
    at = "" if port is None else f" at port {port}"
    lines = [f"{packet.who} {number}{at} after step {packet.after}{entered}"]
    return lines + [f"    {it}" for it in outcome_lines(packet, beside)]


def outcome_lines(packet, beside):
    """What became of a packet."""
    digest = [f"digest {tell_digest(packet.digest, beside)}"] if packet.digest else []
    return tell_fate(packet, beside) + digest + [f"hit {beside.hit(it)}" for it in packet.hits]


def tell_fate(packet, beside):
    """Where a packet went, a line each."""
    entered = beside.entered.get((packet.who, packet.number), (None, None))[1]
    lines = [f"sent to port {port}{changed(entered, data)}" for port, data in packet.outputs]
    for lane, data in packet.cpu:
        to = "no controller (there is no primary)" if lane == "-" else f"c{lane}"
        lines.append(f"sent to {to}: {tell_packet_in(parse(PacketIn, data), beside.names)}")
    if packet.fate == "sent":
        return lines or ["sent nowhere"]
    return [FATES[packet.fate]] + lines


def changed(entered, left):
    """How a packet left: in what fields it was changed, where what entered is known and has its layers."""
    if entered == left:
        return " unchanged"
    fields = packets.differences(entered, left) if entered is not None else None
    if fields:
        return " with " + ", ".join(f"{name} {value}" for name, _, value in fields)
    return f": {packets.summary(left)}"


def tell_packet_in(packet, names):
    """A PacketIn in words."""
    header = names.by_name["controller header"].get("packet_in")
    fields = header.metadata if header else []
    widths = {it.id: it.bitwidth for it in fields}
    given = [f"{part_name(fields, it.metadata_id)}={spell_value(it.value, widths.get(it.metadata_id, 0))}"
             for it in packet.metadata]
    return "packet_in " + " ".join(given + [packets.summary(packet.payload)])


def tell_digest(digest, beside):
    """A digest's sample in words."""
    return f"{beside.names.name('digest', int(digest[0]))}: {tell_data(parse(P4Data, digest[1]))}"


def tell_data(data):
    """A value of a digest."""
    if data.WhichOneof("data") == "struct":
        return ", ".join(tell_data(it) for it in data.struct.members)
    return "0x" + (data.bitstring.hex() or "0")


# Counts, and the whole.

def tell_count(count, beside):
    """A line `count` in words."""
    number, table, packet_count, byte_count = count
    return f"{beside.hit(f'{table}:{number}')}: {figures(packet_count, byte_count)}"


def tell_cell(cell, beside):
    """A line `cell` in words."""
    _, counter, index, packet_count, byte_count = cell
    return f"{beside.names.name('counter', counter)} index {index}: {figures(packet_count, byte_count)}"


def counted(number, what):
    """`1 step`, `2 steps`."""
    return f"{number:,} {what}{'s' * (number != 1)}"


def figures(packet_count, byte_count):
    """Packets and bytes."""
    return f"{counted(packet_count, 'packet')}, {counted(byte_count, 'byte')}"


def tell(report, beside, progress=None):
    """All lines of a report: calls and packets in the tape's order where the run went that way, else
    behind each step the packets that ran after it."""
    beside.follow(report)
    if report.device is not None:
        yield f"device {report.device}"
    items = in_tape_order(report, beside) or in_step_order(report)
    for done, (item, last) in enumerate(joined(items, beside)):
        yield from tell_call(item, beside) if isinstance(item, Call) else tell_packet(item, beside, last)
        if progress:
            progress.at(done)
    for lane, data in report.sent.items():
        yield f"c{lane} was sent {len(data):,} bytes"
    for count in report.counts:
        yield tell_count(count, beside)
    for cell in report.cells:
        yield tell_cell(cell, beside)
    yield f"end: {counted(report.end[0], 'step')}, {counted(report.end[1], 'packet')}"


def in_tape_order(report, beside):
    """The calls and packets as they stand on the tape, where the run went that way; else None."""
    calls = {(f"c{it.lane}", it.number): it for it in report.calls}
    found = {(it.who, it.number): it for it in report.packets}
    items, steps = [], 0
    for key in beside.order:
        item = calls.get(key) if key[0].startswith("c") else found.get(key)
        if item is None or isinstance(item, Packet) and item.after != steps:
            return None
        items.append(item)
        if isinstance(item, Call):
            if item.steps_so_far < steps:
                return None
            steps = item.steps_so_far
            out = found.get((key[0], beside.outs.get((item.lane, item.number))))
            items += [out] if out else []
    return items if len(items) == len(calls) + len(found) else None


def in_step_order(report):
    """The calls of the journal, and behind the last call of each number of steps the packets that ran
    after so many."""
    behind = {}
    for packet in report.packets:
        behind.setdefault(packet.after, []).append(packet)
    items = []
    for number, call in enumerate(report.calls):
        items.append(call)
        following = report.calls[number + 1:number + 2]
        if not following or following[0].steps_so_far != call.steps_so_far:
            items += behind.pop(call.steps_so_far, [])
    early = [it for steps in sorted(behind) for it in behind[steps]]
    return early + items


def joined(items, beside):
    """The items, packets in a row that are told alike as one, with the number of the last."""
    done = 0
    while done < len(items):
        first, alike = items[done], 1
        while (isinstance(first, Packet) and done + alike < len(items)
               and is_alike(first, items[done + alike], beside)):
            alike += 1
        yield first, first.number + alike - 1
        done += alike


def is_alike(one, other, beside):
    """Whether two packets of a lane are told in the same words."""
    return (isinstance(other, Packet) and one.who == other.who and one[2:] == other[2:]
            and beside.entered.get((one.who, one.number)) == beside.entered.get((other.who, other.number)))


def summary(report):
    """A report in figures: answers by code, packets by fate, what left by port."""
    if report.device is not None:
        yield f"device {report.device}"
    codes = _tally(code_name(it.code) for it in report.calls)
    yield f"{counted(len(report.calls), 'call')}, {counted(report.end[0], 'step')}: {codes or 'no answer'}"
    sent = sum(it.fate == "sent" for it in report.packets)
    yield f"{counted(len(report.packets), 'packet')}: {sent:,} sent, {len(report.packets) - sent:,} dropped"
    ports = {}
    for packet in report.packets:
        for port, data in packet.outputs:
            ports.setdefault(port, []).append(len(data))
    for port, lengths in sorted(ports.items()):
        yield f"port {port}: {figures(len(lengths), sum(lengths))}"
    ins = sum(len(it.cpu) for it in report.packets)
    if ins:
        yield f"controllers: {ins:,} packet_in"


def _tally(words):
    found = {}
    for word in words:
        found[word] = found.get(word, 0) + 1
    return ", ".join(f"{number:,} {word}" for word, number in found.items())
