"""What a front door changes in the messages that pass: device ids, and the wrapper around a device config. Bytes that
need no change stay as they are, and of others just what is to be changed, so that the switch judges what a controller
sent."""
from typing import NamedTuple

from p4tools.trouble import Trouble

VARINT, EIGHT_BYTES, BYTES, FOUR_BYTES = 0, 1, 2, 5
# Where the device id of a call's request stands, and that of a message of the stream channel, both ways.
DEVICE = {"write": (1,), "read": (1,), "set": (1,), "get": (1,), "stream": (1, 1)}
DEVICE_CONFIG = (5, 2)
LARGEST_ID = (1 << 64) - 1


class Field(NamedTuple):
    """A field of a message: its number and wire type, and where it, its value and its end stand."""
    number: int
    kind: int
    start: int
    value: int
    end: int


def fields(data):
    """The fields of a message's bytes; ValueError where they are none."""
    at = 0
    while at < len(data):
        start = at
        tag, at = _varint(data, at)
        kind, value = tag & 7, at
        if kind == VARINT:
            end = _varint(data, at)[1]
        elif kind == BYTES:
            length, value = _varint(data, at)
            end = value + length
        elif kind in (EIGHT_BYTES, FOUR_BYTES):
            end = at + (8 if kind == EIGHT_BYTES else 4)
        else:
            raise ValueError(f"no wire type is {kind}")
        if end > len(data):
            raise ValueError("a field breaks off")
        yield Field(tag >> 3, kind, start, value, end)
        at = end


def _varint(data, at):
    number, shift = 0, 0
    while at < len(data) and shift < 70:
        byte = data[at]
        number |= (byte & 127) << shift
        at, shift = at + 1, shift + 7
        if byte < 128:
            return number, at
    raise ValueError("a number breaks off")


def spell_varint(number):
    """The bytes of a varint."""
    data = bytearray()
    while number > 127:
        data.append(number & 127 | 128)
        number >>= 7
    return bytes(data + bytes([number]))


def change_number(data, path, change):
    """The message with the number at a path of fields changed; one that is not given is 0, and one that is given twice
    is the last. Where a message of the path is not given, nothing is changed. ValueError of what is no message."""
    found = [it for it in fields(data) if it.number == path[0] and it.kind == (BYTES if len(path) > 1 else VARINT)]
    if len(path) > 1:
        return _replaced(data, found, lambda it: change_number(it, path[1:], change))
    old = _varint(data, found[-1].value)[0] if found else 0
    new = change(old)
    if new == old:
        return data
    number = spell_varint(path[0] << 3 | VARINT) + spell_varint(new) if new else b""
    if not found:
        return number + data
    parts = [data[end:start] for end, start in zip([0] + [it.end for it in found], [it.start for it in found])]
    return b"".join([*parts, number, data[found[-1].end:]])


def change_bytes(data, path, change):
    """The message with the bytes at a path of fields changed, where they are given. ValueError of what is no message."""
    found = [it for it in fields(data) if it.number == path[0] and it.kind == BYTES]
    return _replaced(data, found, (lambda it: change_bytes(it, path[1:], change)) if len(path) > 1 else change)


def _replaced(data, found, change):
    """The message with the bytes of some fields changed."""
    parts, at = [], 0
    for field in found:
        old = data[field.value:field.end]
        new = change(old)
        if new != old:
            parts += [data[at:field.start], spell_varint(field.number << 3 | BYTES), spell_varint(len(new)), new]
            at = field.end
    return b"".join([*parts, data[at:]]) if parts else data


def unwrapped(config):
    """The device config without the wrapper p4.tmp.P4DeviceConfig, in which field 3 holds it; any other as it is. A
    JSON begins with a brace or a blank, and no field of the wrapper does."""
    try:
        found = list(fields(config))
    except ValueError:
        return config
    kinds = {1: VARINT, 2: BYTES, 3: BYTES}
    inner = [config[it.value:it.end] for it in found if it.number == 3]
    is_wrapper = all(kinds.get(it.number) == it.kind for it in found) and len(inner) == 1
    return inner[0] if is_wrapper and inner[0].lstrip(b" \t\r\n")[:1] == b"{" else config


class Devices:
    """What the device ids of controllers are at the switch. `pairs` are from a controller's id to the switch's; an id
    that is in no pair stays."""

    def __init__(self, pairs=()):
        self.pairs = dict(pairs)

    def to_switch(self, number):
        """The switch's id for a controller's."""
        return self.pairs.get(number, number)

    def request(self, method, message):
        """A request with the switch's device id, and with its device config unwrapped."""
        try:
            if self.pairs and method in DEVICE:
                message = change_number(message, DEVICE[method], self.to_switch)
            return change_bytes(message, DEVICE_CONFIG, unwrapped) if method == "set" else message
        except ValueError:
            # (the switch refuses it)
            return message


class StreamDevices:
    """The device ids of one stream channel: what comes back bears the id that the controller named last."""

    def __init__(self, devices):
        self.devices, self.named = devices, {}

    def request(self, message):
        """A message of the controller, for the switch."""
        return self._changed(message, self._name) if self.devices.pairs else message

    def response(self, message):
        """A message of the switch, for the controller."""
        return self._changed(message, lambda it: self.named.get(it, it)) if self.named else message

    def _changed(self, message, change):
        try:
            return change_number(message, DEVICE["stream"], change)
        except ValueError:
            return message

    def _name(self, number):
        known = self.devices.to_switch(number)
        if known != number:
            self.named[known] = number
        else:
            self.named.pop(known, None)
        return known


def read_pairs(words):
    """The pairs of device ids of words such as `0=1` or `0=1,7=1`."""
    pairs = {}
    for word in ",".join(words).split(",") if words else []:
        sides = word.split("=")
        if len(sides) != 2 or not all(it.isascii() and it.isdigit() and int(it) <= LARGEST_ID for it in sides):
            raise Trouble(f"--map takes CONTROLLER=SWITCH, two device ids such as 0=1, and {word or 'nothing'} is none")
        mine, other = map(int, sides)
        if pairs.setdefault(mine, other) != other:
            raise Trouble(f"--map says of device {mine} both {pairs[mine]} and {other}: say one of them")
        if other == 0:
            raise Trouble(f"--map {word}: the switch's device id is 1 or more")
    return pairs
