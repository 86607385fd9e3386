"""What may come next in a line of bin/p4ctl: commands, tables, fields, actions and the values that stand in
the switch."""
import glob
import os

from p4tools import ctl_lines
from p4tools.entities import READERS, SHAPES, spell_key
from p4tools.messages import Entity, SetRequest, WriteRequest
from p4tools.trouble import Trouble

KINDS = sorted(set(READERS) - {"table_entry"})
# Lines with files, and how many words stand before these.
OF_FILES = {"config": 1, "names": 0, "pcap": 1, "play": 0}
OF_PROFILES = ("action_profile_member", "action_profile_group")


def candidates(text, names, stored=lambda table: []):
    """The words that may stand in place of the last of a line, and those behind it where it ends with a blank.
    `stored` gives the entries of a table's id that stand in the switch."""
    before, last = split(text)
    found = following(before, last, names, stored)
    return [it for it in dict.fromkeys(found) if it.startswith(last)]


def split(text):
    """The words before the last, and the last, which begins behind a blank, a comma or a parenthesis."""
    at = max((text.rfind(it) for it in " \t,("), default=-1) + 1
    return text[:at], text[at:]


def following(before, last, names, stored):
    """What may stand at a place of a line."""
    words = before.replace("(", "( ").replace(",", " , ").split()
    if before.count("(") > before.count(")"):
        return _parameters(before, names)
    if not words:
        return [it + " " for it in ctl_lines.verbs()]
    verb, rest = words[0], words[1:]
    if verb in OF_FILES and len(rest) >= OF_FILES[verb]:
        return [it + ("/" if os.path.isdir(it) else " ") for it in sorted(glob.glob(glob.escape(last) + "*"))]
    if verb in ("insert", "modify", "delete", "read"):
        return _entity(verb, rest, last, names, stored)
    if verb in SIMPLE and not rest:
        return SIMPLE[verb](names)
    return []


def _names(kind, names):
    return [it + " " for it in sorted(names.by_name[kind])]


def _parameters(before, names):
    """The parameters that an action still takes."""
    head, _, inside = before.rpartition("(")
    action = head.split()[-1].rpartition("*")[2] if head.split() else ""
    try:
        params = names.object("action", action).params
    except Trouble:
        return []
    return [f"{it.name}=" for it in params if f"{it.name}=" not in inside]


def _entity(verb, rest, last, names, stored):
    """The words of an entity."""
    if not rest:
        kinds = [it + " " for it in KINDS if verb == "read" or "counter" not in it]
        return _names("table", names) + kinds
    if rest[0] in OF_PROFILES:
        return _names("action profile", names) if len(rest) == 1 else _member(rest, names)
    if rest[0] == "digest_entry":
        return _names("digest", names) if len(rest) == 1 else ["max_list_size=", "max_timeout_ns=", "ack_timeout_ns="]
    if rest[0] == "counter_entry":
        return _names("counter", names) if len(rest) == 1 else ["index="]
    if rest[0] == "multicast":
        return ["replicas "] if len(rest) == 2 and verb in ("insert", "modify") else []
    at = 1 if rest[0] == "direct_counter_entry" else 0
    if len(rest) == at:
        return _names("table", names)
    try:
        table = names.object("table", rest[at])
    except Trouble:
        return []
    return _of_table(verb, rest[at + 1:], last, table, names, stored)


def _member(rest, names):
    if rest[0] == "action_profile_group":
        return ["group_id=", "members=", "max_size="]
    return ["member_id="] + _actions([it.preamble.id for it in names.info.actions], names)


def _actions(idents, names):
    found = [names.with_id("action", it) for it in idents]
    return [it.preamble.name + ("(" if it.params else "() ") for it in found if it]


def _of_table(verb, rest, last, table, names, stored):
    """The fields of a table that are not given yet, with the values that stand in the switch; then its actions."""
    given = {it.partition("=")[0] for it in rest}
    fields = {it.name: it for it in table.match_fields if not given & {it.name, it.name.rpartition(".")[2]}}
    name = last.partition("=")[0]
    if "=" in last:
        keys = [word for entry in stored(table.preamble.id) for word in _key(entry, names)]
        return [f"{name}={it.partition('=')[2]} " for it in keys
                if it.partition("=")[0] == name or it.partition("=")[0].endswith("." + name)]
    found = [f"{it}=" for it in fields] + [f"{it.rpartition('.')[2]}=" for it in fields]
    if verb in ("insert", "modify"):
        found += _actions([it.id for it in table.action_refs], names) if not table.implementation_id else \
            ["member_id=", "group_id=", "oneshot("]
    if any(SHAPES.get(it.match_type) not in ("VALUE", "VALUE/LENGTH") or it.match_type == 6 for it in table.match_fields):
        found.append("priority=")
    return found + ["default "] * (verb in ("modify", "read"))


def _key(entry, names):
    try:
        return spell_key(entry, names)
    except Trouble:
        return []


def _both(*kinds):
    return lambda names: [it for kind in kinds for it in _names(kind, names)]


SIMPLE = {
    "entries": _both("table"), "counters": _both("table", "counter"),
    "watch": lambda names: _both("table", "counter")(names) + ["--once ", "--json "],
    "program": lambda names: ["ids"], "digest_ack": _both("digest"),
    "help": lambda names: [*ctl_lines.HELP, "entities"],
    "batch": lambda names: [it.lower() for it in WriteRequest.Atomicity.keys()],
    "config": lambda names: [it.lower() + " " for it in SetRequest.Action.keys()[1:]],
    "get": lambda names: ["all", "cookie_only", "p4info_and_cookie", "device_config_and_cookie"],
    "arbitrate": lambda names: ["election="], "as": lambda names: ["device=", "election=", "role="],
    "listen": lambda names: ["count=", "seconds="],
    "packet": lambda names: ["port="], "pcap": lambda names: ["port="],
    "multicast": lambda names: ["insert ", "modify ", "delete "],
    "raw": lambda names: ["write ", "read ", "set ", "get ", "stream ", "capabilities "],
}


class Known:
    """What stands in the switch, as the shell's completion asks for it: the entries of a table, asked once a line."""

    def __init__(self, session):
        self.session, self.line, self.found = session, None, {}

    def stored(self, table):
        """The entries of a table."""
        if table not in self.found:
            asked = Entity()
            asked.table_entry.table_id = table
            self.found[table] = [it.table_entry for it in self.session.read(asked)]
        return self.found[table]

    def complete(self, text):
        """The candidates of a line as it stands; none where the switch does not answer."""
        try:
            self.found = {}
            self.session.learn()
            return candidates(text, self.session.maker.names, self.stored)
        except Exception:  # (a completion that fails says nothing)
            return []
