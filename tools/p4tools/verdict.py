"""Expectations of a scenario held against the report of its tape."""
from p4tools import answered, fields, packets, told
from p4tools.expect import Verdict
from p4tools.messages import PacketIn, parse
from p4tools.values import spell_value

# (of a block with many packets so many are told)
TOLD = 3
TOLD_BY_STRICT = 20


class Left:
    """A packet that left: the packet that entered, the port or the controller's lane to which it went, its bytes,
    and of a packet-in its metadata. `place` is the line of the packet that entered."""

    def __init__(self, packet, port, lane, data, metadata, place, is_strict):
        self.packet, self.port, self.lane, self.data, self.metadata = packet, port, lane, data, metadata
        self.place, self.is_strict = place, is_strict
        self.is_taken = self.is_told = False


class Gone:
    """What became of the packets of a block: what left by port and what went to controllers, each in order,
    and what was dropped."""

    def __init__(self, block, found, beside):
        self.packets, self.ports, self.ins, self.dropped = [], {}, [], []
        self.next, self.last = {}, None
        for source, place, is_strict in block.sources:
            packet = found.get(_key(source, beside))
            if packet is not None:
                self._take(packet, place, is_strict)
        self._by_data = {}

    def _take(self, packet, place, is_strict):
        self.packets.append(packet)
        for port, data in packet.outputs:
            self.ports.setdefault(port, []).append(Left(packet, port, None, data, {}, place, is_strict))
        for lane, data in packet.cpu:
            message = parse(PacketIn, data)
            metadata = {it.metadata_id: it.value for it in message.metadata}
            self.ins.append(Left(packet, None, lane, message.payload, metadata, place, is_strict))
        if packet.fate != "sent":
            self.dropped.append(Left(packet, None, None, b"", {}, place, False))

    def at(self, port, lane):
        """What left at a port, of the packets of a lane where one is named."""
        return [it for it in self.ports.get(port, []) if lane in (None, it.packet.who)]

    def all(self):
        """All that left."""
        return [it for port in self.ports.values() for it in port] + self.ins

    def take_at(self, port, lane, wanted):
        """Takes the next that left at a port as it must be, behind what was taken there before."""
        left = self.ports.get(port, [])
        at = self.next.get((port, lane), 0)
        if wanted.data is not None:
            at = self._place_of(port, wanted.data, at)
        while at < len(left):
            it = left[at]
            if not it.is_taken and lane in (None, it.packet.who) and wanted.fits(it.data):
                it.is_taken, self.next[port, lane] = True, at + 1
                return it
            at += 1
        return None

    def _place_of(self, port, data, at):
        """The first place from `at` on where just these bytes left, or the end: many expectations of many
        packets are looked up, and not searched for."""
        known = self._by_data.get(port)
        if known is None:
            known = self._by_data[port] = {}
            for number, it in enumerate(self.ports.get(port, [])):
                known.setdefault(it.data, []).append(number)
        places = known.get(data, [])
        while places and places[0] < at:
            places.pop(0)
        return places[0] if places else len(self.ports.get(port, []))


def _key(source, beside):
    """The lane and number of a packet in the report."""
    kind, lane, number = source
    if kind == "c":
        number = beside.outs.get((lane, number))
    return f"{kind}{lane}", number


def verdicts(watch, report, beside):
    """The verdicts of all expectations, in the order of their lines."""
    found = {(it.who, it.number): it for it in report.packets}
    gone = {id(block): Gone(block, found, beside) for block in watch.blocks}
    calls = {(it.lane, it.number): it for it in report.calls}
    met = {}
    for one in watch.expectations:
        if one.block is not None:
            met[id(one)] = TAKERS[one.kind](one, gone[id(one.block)])
    made = []
    for one in watch.expectations:
        if one.block is not None:
            made.append(_of_packets(one, met[id(one)], gone[id(one.block)], beside))
        elif one.kind == "counter":
            made.append(answered.of_counter(one, report, beside))
        else:
            made.append(answered.of_call(one, calls[one.call], beside))
    if watch.strict_place:
        made.append(_strict(watch, gone, beside))
    return made


# Packets: how many of those that an expectation names came.

def _take_packets(one, gone):
    return sum(gone.take_at(one.said["port"], one.lane, one.said["wanted"]) is not None
               for _ in range(one.said["times"]))


def _take_ins(one, gone):
    number = 0
    for it in gone.ins:
        if number < one.said["times"] and not it.is_taken and _is_in(one, it):
            it.is_taken = True
            number += 1
    return number


def _is_in(one, left):
    """Whether a packet-in is as it must be, and went to a controller (of the lane, where one is named)."""
    is_there = left.lane != "-" and one.lane in (None, f"c{left.lane}")
    return is_there and one.said["wanted"].fits(left.data) and all(
        left.metadata.get(ident) == value for ident, (_, value) in one.said["metadata"].items())


def _take_drops(one, gone):
    number = 0
    for it in gone.dropped:
        fits = one.said["reason"] in (None, int(it.packet.fate[4:])) and one.lane in (None, it.packet.who)
        if number < one.said["times"] and not it.is_taken and fits:
            it.is_taken = True
            number += 1
    return number


def _take_none(one, gone):
    return int(not _against_none(one, gone))


def _against_none(one, gone):
    """What left and must not have."""
    port = one.said.get("port")
    left = gone.all() if port is None else gone.at(port, one.lane)
    return [it for it in left if one.lane in (None, it.packet.who)]


TAKERS = {"packet": _take_packets, "packet-in": _take_ins, "drop": _take_drops, "none": _take_none}


def _of_packets(one, number, gone, beside):
    """The verdict of an expectation of packets, of which so many came."""
    times = one.said.get("times", 1)
    if number >= times:
        return Verdict(one.place, one.text, True)
    lines = [f"{number} of {times} came"] * (times > 1)
    if one.kind == "none":
        return _not_none(one, gone, beside)
    candidate = _candidate(one, gone)
    if candidate is None:
        lines += _nothing(one, gone, beside)
        return Verdict(one.place, one.text, False, lines, _instead_of_nothing(one, number, gone))
    candidate.is_told = True
    lines += _misfit(one, candidate) + _told([candidate.packet], beside)
    instead = [_with_times(one.text, number)] * bool(number) + [_words_of(candidate, one)]
    return Verdict(one.place, one.text, False, lines, instead)


def _candidate(one, gone):
    """What left in the place of what was expected: at the same port before at another."""
    def is_free(it):
        return not it.is_taken and not it.is_told
    if one.kind == "packet":
        left = [it for it in gone.at(one.said["port"], one.lane) if is_free(it)]
        behind = gone.ports.get(one.said["port"], [])[gone.next.get((one.said["port"], one.lane), 0):]
        chosen = [it for it in left if it in behind] or left
        if chosen:
            return chosen[0]
    elif one.kind == "packet-in":
        left = [it for it in gone.ins if is_free(it)]
        if left:
            return left[0]
    return next((it for it in gone.all() if is_free(it) and one.lane in (None, it.packet.who)), None)


def _nothing(one, gone, beside):
    """What is told where nothing left that could stand in the place of what was expected."""
    what = {"packet": f"nothing more left at port {one.said.get('port')}", "drop": "nothing more was dropped",
            "packet-in": "nothing more went to a controller"}[one.kind]
    if not gone.packets:
        return [what + ": the packet was refused, or none stands before this line"]
    return [what] + _told(gone.packets, beside)


def _instead_of_nothing(one, number, gone):
    if number:
        return [_with_times(one.text, number)]
    free = next((it for it in gone.dropped if not it.is_taken and not it.is_told), None)
    if one.kind == "drop" or free is None:
        return []
    free.is_told = True
    return ["expect drop"]


def _with_times(text, number):
    """The words of an expectation that was met fewer times."""
    words = [it for it in text.split() if not it.startswith("times=")]
    at = words.index("expect") + 2
    return " ".join(words[:at] + [f"times={number}"] * (number > 1) + words[at:])


def _words_of(left, one=None):
    """The line `expect` that says what left, in the manner of another where one is given."""
    wanted = one.said.get("wanted") if one else None
    words = wanted.words_for(left.data) if wanted else [left.data.hex() or "."]
    lane = one.lane if one else None
    if left.port is not None:
        lane = [lane] if lane and lane == left.packet.who else []
        return " ".join([*lane, "expect", f"port={left.port}", *words])
    lane = [lane] if lane and lane == f"c{left.lane}" else []
    named = one.said.get("metadata", {}) if one else {}
    values = [f"{name}=bytes:{left.metadata[ident].hex()}" for ident, (name, _) in named.items() if ident in left.metadata]
    return " ".join([*lane, "expect", "packet-in", *values, *words])


def _not_none(one, gone, beside):
    left = _against_none(one, gone)
    lines = [f"left at port {it.port}" if it.port is not None else f"went to c{it.lane}".replace("c-", "no controller")
             for it in left[:TOLD]]
    came = list({id(it.packet): it.packet for it in left}.values())
    instead = [_words_of(it) for it in left if not it.is_taken and not it.is_told]
    for it in left:
        it.is_told = True
    return Verdict(one.place, one.text, False, lines + _told(came, beside), instead)


def _misfit(one, left):
    """In what a packet that left is not as it must be, a line each."""
    if one.kind == "drop":
        return [f"left at port {left.port}" if left.port is not None else "went to a controller"]
    if one.kind == "packet" and left.port != one.said["port"]:
        return [f"left at port {left.port}, not at port {one.said['port']}" if left.port is not None
                else f"went to a controller, not to port {one.said['port']}"]
    if one.kind == "packet-in" and left.lane is None:
        return [f"left at port {left.port}, not to a controller"]
    if one.kind == "packet-in" and (left.lane == "-" or one.lane not in (None, f"c{left.lane}")):
        return ["went to no controller: there is no primary" if left.lane == "-" else f"went to c{left.lane}"]
    lines = []
    for ident, (name, value) in one.said.get("metadata", {}).items():
        given = left.metadata.get(ident)
        if given != value:
            came = "nothing" if given is None else spell_value(given, 0)
            lines.append(f"{name}: expected {spell_value(value, 0)}, came {came}")
    return lines + misfits(one.said["wanted"], left.data) or ["it left before another that was expected before it"]


def misfits(wanted, data):
    """In what bytes are not as they must be, field by field."""
    if wanted.fits(data):
        return []
    if wanted.digits is None:
        lines = [f"length: expected {wanted.length} bytes, left {len(data)}"] * (wanted.length not in (None, len(data)))
        return lines + [f"{field.word}: expected {word}, left {_value_or_none(field, data)}"
                        for field, word in wanted.named if not fields.is_equal(field, word, data)]
    filled = wanted.filled(data)
    if filled is not None:
        differing = packets.differences(filled, data)
        if differing:
            return [f"{name}: expected {first}, left {second}" for name, first, second in differing]
        lines = []
    else:
        lines = [f"expected {len(wanted.digits) // 2} bytes{' or more' * (not wanted.is_whole)}, left {len(data)}"]
    return lines + [f"expected {wanted.digits or '.'}{'..' * (not wanted.is_whole)}", f"left     {data.hex() or '.'}"]


def _value_or_none(field, data):
    value = fields.value_in(field, data)
    return "no such layer" if value is None else value


def _told(came, beside):
    """Packets in words, the first of them where they are many."""
    lines = [line for packet in came[:TOLD] for line in told.tell_packet(packet, beside)]
    return lines + [f"and {len(came) - TOLD:,} packets more"] * (len(came) > TOLD)


def _strict(watch, gone, beside):
    """The verdict of `strict`: nothing left that no expectation named."""
    extra, ends = [], {}
    for block in watch.blocks:
        over = [it for it in gone[id(block)].all() if it.is_strict and not it.is_taken and it.port not in watch.excepted]
        extra += [(it, block) for it in over]
    lines = []
    for it, _ in extra[:TOLD_BY_STRICT]:
        where = f"left at port {it.port}" if it.port is not None else (
            "went to no controller" if it.lane == "-" else f"went to c{it.lane}")
        lines.append(f"{it.place[0]}:{it.place[1]}: {where} and was not expected")
        lines += [] if it.is_told else _told([it.packet], beside)
    lines += [f"and {len(extra) - TOLD_BY_STRICT:,} more"] * (len(extra) > TOLD_BY_STRICT)
    for it, block in extra:
        if not it.is_told:
            ends.setdefault(_end_of(watch, block, it), []).append(_words_of(it))
    return Verdict(watch.strict_place, watch.strict_text, not extra, lines, behind=sorted(ends.items()))


def _end_of(watch, block, left):
    """The line behind which an expectation of the block would stand."""
    lines = [it.place for it in watch.expectations if it.block is block]
    return lines[-1] if lines else left.place
