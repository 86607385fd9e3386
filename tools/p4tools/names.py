"""The objects of a P4Info by their names and ids."""
from collections.abc import Iterable
from typing import Any, Optional

from google.protobuf import text_format
from google.protobuf.message import DecodeError

from p4tools.messages import P4Info, parse
from p4tools.trouble import Trouble, no_such
from p4tools.values import read_number

KINDS = {"table": "tables", "action": "actions", "action profile": "action_profiles",
         "counter": "counters", "direct counter": "direct_counters", "digest": "digests",
         "controller header": "controller_packet_metadata"}


class Names:
    """What the words of a scenario mean by one P4Info. A name may be given whole, by its alias, or by
    its last parts where only one object of its kind ends so. A number in place of a name is an id."""

    def __init__(self, info: Any = None) -> None:
        self.info = info or P4Info()
        self.by_name: dict[str, dict[str, Any]] = {kind: {} for kind in KINDS}
        self.by_id: dict[int, tuple[str, Any]] = {}
        for kind, field in KINDS.items():
            for thing in getattr(self.info, field):
                self.by_id.setdefault(thing.preamble.id, (kind, thing))
                for name in {thing.preamble.name, thing.preamble.alias} - {""}:
                    self.by_name[kind].setdefault(name, thing)

    def object(self, kind: str, word: str) -> Any:
        """The object that a word names."""
        number = read_number(word)
        if number is not None:
            found = self.by_id.get(number, ("", None))
            if found[0] != kind:
                raise Trouble(f"no {kind} has the id {word}")
            return found[1]
        return pick(kind, word, self.by_name[kind])

    def id(self, kind: str, word: str) -> int:
        """The id that a word names; a number is taken as it stands."""
        number = read_number(word)
        return self.object(kind, word).preamble.id if number is None else number

    def with_id(self, kind: str, ident: int) -> Any:
        """The object of an id, or None."""
        found = self.by_id.get(ident)
        return found[1] if found and found[0] == kind else None

    def name(self, kind: str, ident: int) -> str:
        """The name of an id; the id itself in hex where nothing bears it."""
        found = self.with_id(kind, ident)
        return found.preamble.name if found else f"0x{ident:08x}"

    def any_id(self, word: str) -> int:
        """The id of an object of any kind."""
        number = read_number(word)
        if number is not None:
            return number
        known: dict[str, Any] = {}
        for of_kind in self.by_name.values():
            known = {**of_kind, **known}
        return pick("object", word, known).preamble.id

    def any_name(self, ident: int) -> str:
        """The name of the object of an id, or the id where its name would mean another object."""
        found = self.by_id.get(ident)
        if found and self.any_id(found[1].preamble.name) == ident:
            return found[1].preamble.name
        return f"0x{ident:08x}"


def pick(kind: str, word: str, known: dict[str, Any]) -> Any:
    """What a word names among the known, whole or by its last parts."""
    if word in known:
        return known[word]
    ends = [it for it in known if it.endswith("." + word)]
    found = {id(known[it]): known[it] for it in ends}
    if len(found) == 1:
        return next(iter(found.values()))
    if found:
        raise Trouble(f"{word} may be {' or '.join(sorted(ends))}: write one of them")
    raise no_such(kind, word, list(known))


def part(kind: str, word: str, parts: Iterable[Any]) -> Any:
    """A match field, parameter or metadata field by its name or number."""
    if word.isdigit():
        for it in parts:
            if it.id == int(word):
                return it
    return pick(kind, word, {it.name: it for it in parts})


def part_name(parts: Iterable[Any], ident: int) -> str:
    """The name of a part by its number; the number where none bears it."""
    return next((it.name for it in parts if it.id == ident), str(ident))


def read_info(data: bytes, file: str) -> tuple[Any, Optional[str]]:
    """The P4Info of a file's bytes, in text or wire form, and a note where some of it was passed over."""
    try:
        text = data.decode("utf-8")
        return text_format.Parse(text, P4Info()), None
    except UnicodeDecodeError:
        first = None
    except text_format.ParseError as error:
        first = error
    info = _of_wire(data)
    if info:
        return info, None
    if first is None:
        raise Trouble(f"{file} is no P4Info, neither in text nor in wire form; "
                      "give the file that the P4 compiler wrote with --p4runtime-files")
    try:
        info = text_format.Parse(text, P4Info(), allow_unknown_field=True)
    except text_format.ParseError as error:
        raise Trouble(f"{file}:{error}; it is read as a P4Info in text form, "
                      "as the P4 compiler writes it with --p4runtime-files") from None
    return info, f"{file}:{first}; this and other fields of later versions are passed over"


def _of_wire(data: bytes) -> Any:
    """The P4Info of bytes in wire form, or None: it has an object with an id."""
    try:
        info = parse(P4Info, data)
    except DecodeError:
        return None
    is_one = any(thing.preamble.id for field in KINDS.values() for thing in getattr(info, field))
    return info if is_one else None
