"""Fields of packets by scapy's names, as in `ip.ttl=63`: the name of a layer in small letters, and that of
its field."""
import functools
from typing import Any, NamedTuple

from p4tools import packets
from p4tools.trouble import Trouble, nearest
from p4tools.values import read_number

# (names that people use of the layer that scapy calls Ether, of Ethernet)
ALSO = {"eth": "ether", "ethernet": "ether", "vlan": "dot1q", "payload": "raw"}


class Field(NamedTuple):
    """A field of a layer, by scapy's classes, and the word that named it."""
    word: str
    layer: Any
    field: Any


@functools.lru_cache(None)
def _layers():
    """The layers by their names in small letters; of two of one name, the one that was there first."""
    found = {}
    for layer in packets.layers():
        found.setdefault(layer.__name__.lower(), layer)
    return found


@functools.lru_cache(None)
def named(word):
    """The field that a word such as `ip.ttl` names."""
    name, _, part = word.lower().partition(".")
    layer = _layers().get(ALSO.get(name, name))
    if layer is None:
        near = nearest(name, _layers())
        raise Trouble(f"scapy knows no layer {name}" + f"; did you mean {' or '.join(near)}?" * bool(near))
    known = {it.name.lower(): it for it in layer.fields_desc}
    if part not in known:
        raise Trouble(f"scapy's layer {layer.__name__} has no field {part}; it has {', '.join(known)}")
    return Field(word, layer, known[part])


def is_value(field, word):
    """Whether a word can be a value of the field: an address where the field is one."""
    kind = type(getattr(field.field, "fld", field.field)).__name__
    return read_number(word) is not None or not ("IP" in kind or "MAC" in kind)


def value_in(field, data):
    """The value of a field in a packet's bytes, as a word; None where the packet has not the layer."""
    layer = packets.decode(data).getlayer(field.layer)
    return None if layer is None else _word(field.field, layer)


def _word(field, layer):
    value = layer.getfieldval(field.name)
    if isinstance(value, bytes):
        return value.hex()
    if isinstance(value, str):
        return value
    try:
        return str(int(value))
    except (TypeError, ValueError):
        return field.i2repr(layer, value)


def is_equal(field, word, data):
    """Whether the field of a packet has the value that a word says: a number in any of its forms, hex
    digits of bytes, or scapy's own word for it."""
    layer = packets.decode(data).getlayer(field.layer)
    if layer is None:
        return False
    value = layer.getfieldval(field.field.name)
    number = read_number(word)
    if isinstance(value, bytes):
        return value.hex() == word.lower()
    if isinstance(value, str):
        return value == word or number is not None and read_number(value) == number
    try:
        if number is not None and int(value) == number:
            return True
    except (TypeError, ValueError):
        pass
    return word.lower() == str(field.field.i2repr(layer, value)).strip("'").lower()
