"""What a scenario says must come: its lines `expect`, `strict`, `queued` and `start`, each with its place.
verdict.py holds them against a report."""
import re
from typing import NamedTuple, Optional

from google.protobuf.message import DecodeError

from p4tools import fields, tape
from p4tools.entities import read_entity
from p4tools.messages import CODES, StreamRequest, parse
from p4tools.names import part
from p4tools.trouble import Trouble, nearest
from p4tools.values import read_value
from p4tools.words import cut_list, nothing_more, options, pair_of, whole_number

FORMS = {
    "packet": "expect port=N [times=N] HEX, or expect port=N LAYER.FIELD=VALUE ..",
    "packet-in": "expect packet-in [NAME=VALUE ..] HEX, or with LAYER.FIELD=VALUE",
    "none": "expect none [port=N]",
    "drop": "expect drop [reason=N] [times=N]",
    "answer": "expect CODE [rule=RULE] [update=N] [steps=N]",
    "counter": "expect counter TABLE FIELD=VALUE .. packets=N bytes=N, or expect counter COUNTER index=N packets=N",
    "read": "expect read ENTITY, or expect read entities=N"}
RULE = re.compile(r"[UPIL][0-9]{1,2}")
COMMA = re.compile(r",(?=[^()]*\))")
NIBBLES = re.compile(r"[0-9a-f*]*")
START = {"device": (1, (1 << 64) - 1), "cpu": (1, 510), "rows": (1024, 262144)}


class Block:
    """Packets that stand together in a scenario, and of which its `expect` lines behind them speak: for each
    where it comes from, `("w", lane, number)` of a packet or `("c", lane, call)` of a call that sends one, its
    place, and whether all that leaves of it must be expected."""

    def __init__(self):
        self.sources = []


class Wanted:
    """What the bytes of a packet must be: hex digits with `*` for any, or fields with values. Hex digits that
    end with `..` are those that it begins with."""

    def __init__(self, digits=None, is_whole=True, named=(), length=None):
        self.digits, self.is_whole, self.named, self.length = digits, is_whole, list(named), length
        self.data = None
        if digits is not None and is_whole and "*" not in digits:
            self.data = bytes.fromhex(digits)

    def fits(self, data):
        """Whether a packet is as it must be."""
        if self.data is not None:
            return data == self.data
        if self.digits is not None and not self._fits_digits(data.hex()):
            return False
        if self.length not in (None, len(data)):
            return False
        return all(fields.is_equal(field, word, data) for field, word in self.named)

    def _fits_digits(self, given):
        if len(given) < len(self.digits) or self.is_whole and len(given) != len(self.digits):
            return False
        return all(wanted in ("*", digit) for wanted, digit in zip(self.digits, given))

    def filled(self, data):
        """The bytes that were wanted, with those of a packet in the place of `*` and behind; None where
        fields are wanted or the lengths differ."""
        given = data.hex()
        if self.digits is None or len(given) < len(self.digits) or self.is_whole and len(given) != len(self.digits):
            return None
        digits = "".join(digit if wanted == "*" else wanted for wanted, digit in zip(self.digits, given))
        return bytes.fromhex(digits + given[len(self.digits):])

    def words_for(self, data):
        """The words, of the same kind, that say a packet as it is."""
        given = data.hex()
        if self.digits is not None:
            digits = given
            if self.filled(data) is not None:
                digits = "".join("*" if it == "*" else digit for it, digit in zip(self.digits, given))
            return [(digits or ".") + ".." * (not self.is_whole)]
        words = [f"length={len(data)}"] * (self.length is not None)
        for field, _ in self.named:
            value = fields.value_in(field, data)
            words += [f"{field.word}={value}"] * (value is not None)
        return words


class Expectation:
    """A line `expect`: its place and words, its kind, the lane that it names or None, the block or the call
    of which it speaks, and what its kind adds (`said`)."""

    def __init__(self, place, text, kind, lane):
        self.place, self.text, self.kind, self.lane = place, text, kind, lane
        self.block, self.call, self.said, self.names = None, None, {}, None


class Verdict(NamedTuple):
    """What came of an expectation: its place and words, whether it is met, and where it is not the lines that
    tell what came. `instead` are the lines that would say what came, or None where none can; `behind` are
    such lines for what was not expected, each with the place behind which they would stand."""
    place: tuple
    text: str
    is_met: bool
    lines: list = []
    instead: Optional[list] = None
    behind: list = []


class Watch:
    """Follows a scenario line by line, and gathers what it says must come."""

    def __init__(self):
        self.expectations, self.blocks = [], []
        self.is_strict, self.is_queued, self.strict_place = False, False, None
        self.strict_text, self.excepted = "strict", set()
        self.start, self.names = None, None
        self.place = (None, 0)
        self._packets, self._calls, self._of_bytes = {}, {}, set()
        self._last, self._closed = None, True

    # What the scenario does.

    def follow(self, record, place):
        """Takes note of a record and the place of its line."""
        lane = record.lane
        if record.kind == tape.PACKET:
            self._packets[lane] = self._packets.get(lane, 0) + 1
            self._sent(("w", lane, self._packets[lane]), place)
        elif record.kind in (tape.CALL, tape.LEAVE):
            self._calls[lane] = self._calls.get(lane, 0) + 1
            self._last = (lane, self._calls[lane])
            if _is_packet_out(record):
                self._sent(("c", lane, self._calls[lane]), place)
            else:
                self._closed = True
        elif record.kind == tape.PIECE:
            self._of_bytes.add(lane)

    def _sent(self, source, place):
        if self._closed and not (self.is_queued and self.blocks) or not self.blocks:
            self.blocks.append(Block())
        self._closed = False
        self.blocks[-1].sources.append((source, place, self.is_strict))

    def named(self, names):
        """Takes note of the names of a line `names`: before all else they are those of the program at the start."""
        if not self._packets and not self._calls:
            self.names = names

    # What it says.

    def strict(self, words):
        """`strict [except=PORT,..]`: what leaves of the packets of later lines must be expected, but at these ports"""
        given = [it[7:] for it in words if it.startswith("except=")]
        nothing_more([it for it in words if not it.startswith("except=")], "strict, or strict except=PORT,..")
        self.excepted |= {whole_number("a port", port) for it in given for port in cut_list(it)}
        self.is_strict, self.strict_place = True, self.strict_place or self.place
        self.strict_text = " ".join(["strict", *words])

    def queued(self):
        """`queued`: what leaves waits at its port for the next `expect` of that port"""
        if self.blocks:
            raise Trouble("queued stands before all packets: it speaks of all of them")
        self.is_queued = True
        self.blocks.append(Block())

    def begin(self, words):
        """`start [bridge] [device=N] [cpu=N] [rows=N]`: how `p4tape test` starts the switch"""
        words, given = options(words, START)
        is_bridge = words[:1] == ["bridge"]
        nothing_more(words[is_bridge:], "start bridge device=N cpu=N rows=N, each where it is meant")
        for name, number in given.items():
            low, high = START[name]
            if not low <= number <= high:
                raise Trouble(f"{name} is {low} to {high}")
        self.start = ["--bridge"] * is_bridge + [it for name, number in given.items() for it in (f"--{name}", str(number))]

    def expect(self, lane, words, names):
        """`expect ..`, of the kinds in FORMS"""
        if not words:
            raise Trouble("expect what? write " + "; ".join(FORMS.values()))
        kind = _kind_of(words[0])
        text = COMMA.sub(", ", " ".join(([lane] if lane else []) + ["expect", *words]))
        made = Expectation(self.place, text, kind, lane)
        made.names = names
        if kind in ("answer", "read"):
            made.call = self._call(lane)
        elif kind == "counter":
            if self._of_bytes:
                raise Trouble("the calls of a client's bytes are not followed, so entries have no names here")
        else:
            made.block = self._block()
        READERS[kind](made, words if kind in ("packet", "answer") else words[1:])
        self.expectations.append(made)
        self._closed |= made.block is not None

    def _block(self):
        if not self.blocks:
            raise Trouble("no packet stands before this line; an expectation stands behind what it speaks of")
        return self.blocks[-1]

    def _call(self, lane):
        if lane and lane[0] == "w":
            raise Trouble(f"an answer is a controller's: write c{lane[1:]} in place of {lane}")
        number = int(lane[1:]) if lane else None
        if number in self._of_bytes or number is None and self._of_bytes:
            raise Trouble("the calls of a client's bytes are not followed: what is expected of them has no line")
        if number is None and self._last:
            return self._last
        if number is None or not self._calls.get(number):
            raise Trouble("no call stands before this line; an expectation stands behind what it speaks of")
        return number, self._calls[number]


def _kind_of(word):
    if word in CODES.values():
        return "answer"
    if word.replace("_", "-") in FORMS and word not in ("packet", "answer"):
        return word.replace("_", "-")
    if pair_of(word):
        return "packet"
    near = nearest(word.upper(), CODES.values()) or nearest(word, FORMS)
    raise Trouble(f"{word} is nothing that can be expected" + f"; did you mean {' or '.join(near)}?" * bool(near))


def _is_packet_out(record):
    if record.kind != tape.CALL or record.method() != "stream":
        return False
    try:
        return parse(StreamRequest, record.message()).WhichOneof("update") == "packet"
    except DecodeError:
        return False


def _read_wanted(words, form):
    """What a packet must be, of the words that say it: hex digits, or fields."""
    pairs = [pair_of(it) for it in words]
    if not any(pairs):
        return _read_digits("".join(words), form) if words else Wanted()
    if not all(pairs):
        raise Trouble(f"hex digits or fields, not both; write {form}")
    named, length = [], None
    for name, value in pairs:
        if name == "length":
            length = options([f"length={value}"], ("length",))[1]["length"]
            continue
        if "." not in name:
            raise Trouble(f"{name} is not expected here; write {form}")
        field = fields.named(name)
        if not fields.is_value(field, value):
            raise Trouble(f"{value} is no value of {name}")
        named.append((field, value))
    return Wanted(named=named, length=length)


def _read_digits(text, form):
    digits, is_whole = text.lower(), True
    if digits.endswith("..") and digits != ".":
        digits, is_whole = digits[:-2], False
    digits = "" if digits == "." else digits
    if not NIBBLES.fullmatch(digits):
        raise Trouble(f"{text[:40]} is neither hex digits, with * for any digit, nor a field; write {form}")
    if is_whole and len(digits) % 2:
        raise Trouble(f"{text[:40]} is not an even number of hex digits")
    return Wanted(digits, is_whole)


def _times(given):
    times = given.get("times", 1)
    if times < 1:
        raise Trouble("times is 1 or more; that nothing leaves is `expect none`")
    return times


def _read_packet(made, words):
    words, given = options(words, ("port", "times"))
    if not 0 <= given.get("port", -1) <= tape.LAST_PORT:
        raise Trouble(f"a packet leaves at a port from 0 to 510; write {FORMS['packet']}")
    made.said = {"port": given["port"], "times": _times(given), "wanted": _read_wanted(words, FORMS["packet"])}


def _read_packet_in(made, words):
    if made.lane and made.lane[0] == "w":
        raise Trouble(f"a packet-in is a controller's: write c{made.lane[1:]} in place of {made.lane}")
    words, given = options(words, ("times",))
    header = made.names.by_name["controller header"].get("packet_in")
    metadata, rest = {}, []
    for word in words:
        name, value = pair_of(word) or ("", "")
        if not name or "." in name or name == "length":
            rest.append(word)
        elif header is None:
            raise Trouble(f"{name}: the program has no header packet_in, so a packet-in has no metadata")
        else:
            metadata[part("field of packet_in", name, header.metadata).id] = (name, read_value(value))
    made.said = {"times": _times(given), "wanted": _read_wanted(rest, FORMS["packet-in"]), "metadata": metadata}


def _read_none(made, words):
    words, given = options(words, ("port",))
    nothing_more(words, FORMS["none"])
    made.said = given


def _read_drop(made, words):
    words, given = options(words, ("reason", "times"))
    nothing_more(words, FORMS["drop"])
    if not 1 <= given.get("reason", 1) <= 4:
        raise Trouble("a reason is 1 (the program), 2 (there is none), 3 (too long to leave) or "
                      "4 (shorter than the header of a packet-in)")
    made.said = {"times": _times(given), "reason": given.get("reason")}


def _read_answer(made, words):
    code, rest = words[0], []
    words, given = options(words[1:], ("update", "steps"))
    rule = None
    for word in words:
        name, value = pair_of(word) or ("", "")
        if name != "rule":
            rest.append(word)
        elif not RULE.fullmatch(value):
            raise Trouble(f"{value} is no rule that an answer names: those are U1 to U12, P1 to P4, I1 to I9 and L1 to L15")
        else:
            rule = value
    nothing_more(rest, FORMS["answer"])
    if code == "OK" and rule:
        raise Trouble("what is OK broke no rule")
    made.said = {"code": code, "rule": rule, **given}


def _read_counter(made, words):
    form = FORMS["counter"]
    words, given = options(words, ("packets", "bytes"))
    if not words or not given:
        raise Trouble(f"a name and a figure are needed; write {form}")
    made.said = dict(given)
    known = made.names.by_name["counter"]
    if words[0] in known or any(it.endswith("." + words[0]) for it in known):
        made.said["cell"] = _cell(words, made.names, form)
        return
    entry = read_entity(words, made.names).table_entry
    table = made.names.with_id("table", entry.table_id)
    if table and not any(it in [one.preamble.id for one in made.names.info.direct_counters] for it in table.direct_resource_ids):
        raise Trouble(f"{table.preamble.name} has no direct counter")
    made.said["entry"] = entry


def _cell(words, names, form):
    words, given = options(words, ("index",))
    if "index" not in given:
        raise Trouble(f"an index is missing; write {form}")
    nothing_more(words[1:], form)
    return names.id("counter", words[0]), given["index"]


def _read_read(made, words):
    if not words:
        raise Trouble(f"write {FORMS['read']}")
    rest, given = options(words, ("entities",))
    if given:
        nothing_more(rest, FORMS["read"])
        made.said = given
        return
    is_count = words[0] in ("counter_entry", "direct_counter_entry")
    words, figures = options(words, ("packets", "bytes")) if is_count else (words, {})
    made.said = {"entity": read_entity(words, made.names), "figures": figures}


READERS = {"packet": _read_packet, "packet-in": _read_packet_in, "none": _read_none, "drop": _read_drop,
           "answer": _read_answer, "counter": _read_counter, "read": _read_read}
