#!/usr/bin/env python3
"""update_rows.py

Prints what is to be answered to the rows of crates/update_rows, computed here from the P4Infos and Writes of the rows by the rules
U1 to U12 of docs/formats.md, over nothing of the switch.
"""
import copy
import os
from collections.abc import Callable

HERE = os.path.dirname(os.path.abspath(__file__))
FOLDER = os.environ.get("ROWS", HERE + "/../../crates/update_rows")

INVALID_ARGUMENT, NOT_FOUND, ALREADY_EXISTS, PERMISSION_DENIED, RESOURCE_EXHAUSTED = 3, 5, 6, 7, 8
FAILED_PRECONDITION, OUT_OF_RANGE, UNIMPLEMENTED = 9, 11, 12
INSERT, MODIFY, DELETE = 1, 2, 3
EXACT, LPM, TERNARY, RANGE, OPTIONAL = 2, 3, 4, 5, 6
SLOTS = 1 << 20
MULTICAST_GROUPS = 1024


class Broken(Exception):
    """An update breaks this rule, with this code."""


def need(holds, rule, code=INVALID_ARGUMENT):
    if not holds:
        raise Broken(rule, code)


# ---- messages

def varint(data, at):
    value, place = 0, 0
    while True:
        value |= data[at] % 128 << place
        at, place = at + 1, place + 7
        if data[at - 1] < 128:
            return value, at


def fields(data):
    """The values of each field, by its number."""
    found, at = {}, 0
    while at < len(data):
        tag, at = varint(data, at)
        value, at = varint(data, at)
        if tag % 8 == 2:
            value, at = data[at:at + value], at + value
        found.setdefault(tag // 8, []).append(value)
    return found


class Message:
    """A message by the numbers of its fields, of which the last counts."""

    def __init__(self, data=b""):
        self.fields = fields(data)

    def __contains__(self, field):
        return field in self.fields

    def number(self, field):
        return self.fields.get(field, [0])[-1]

    def signed(self, field):
        value = self.number(field)
        return value - 2 ** 64 if value >= 2 ** 63 else value

    def bytes(self, field):
        return self.fields.get(field, [b""])[-1]

    def message(self, field):
        return Message(self.bytes(field))

    def messages(self, field):
        return [Message(data) for data in self.fields.get(field, [])]


def number(data):
    return int.from_bytes(data, "big")


# ---- P4Infos

class Table:
    def __init__(self, table):
        self.id = table.message(1).number(1)
        self.fields = [(field.number(1), field.number(4), field.number(5)) for field in table.messages(2)]
        self.scopes = {reference.number(1): reference.number(3) for reference in table.messages(3)}
        self.const_default = table.number(4) != 0
        self.profile = table.number(6)
        self.counts = 7 in table
        self.size = table.number(8) or 1024
        self.const = table.number(10) != 0


class Profile:
    def __init__(self, profile, tables):
        self.id = profile.message(1).number(1)
        self.tables = [table for table in tables if table.profile == self.id]
        self.selector = profile.number(3) != 0
        self.size = profile.number(4) or 1024
        self.weights = profile.number(5)


class Info:
    def __init__(self, name):
        with open("%s/data/%s.info" % (FOLDER, name), "rb") as file:
            info = Message(file.read())
        self.tables = {table.id: table for table in map(Table, info.messages(2))}
        self.actions = {action.message(1).number(1): {param.number(1): param.number(4) for param in action.messages(2)} for action in info.messages(3)}
        profiles = [Profile(profile, self.tables.values()) for profile in info.messages(4)]
        self.profiles = {profile.id: profile for profile in profiles}
        self.cells = sum(counter.number(3) for counter in info.messages(5))
        self.digests = [digest.message(1).number(1) for digest in info.messages(12)]


# ---- U1 to U9: what an update changes, by the program alone

def is_watched(member):
    return member.number(3) != 0 or any(member.bytes(4))


def is_weight(weight):
    return 1 <= weight <= 65535


def action_flaw(info, action, allows):
    """The code of what is wrong with an action, if anything is: `allows` are its tables' reasons to have it."""
    params = info.actions.get(action.number(1))
    if params is None or not all(allow(action.number(1)) for allow in allows):
        return INVALID_ARGUMENT
    given = [(param.number(2), param.bytes(3)) for param in action.messages(4)]
    if sorted(id for id, _ in given) != sorted(params) or not all(value for _, value in given):
        return INVALID_ARGUMENT
    return OUT_OF_RANGE if any(number(value) >> params[id] for id, value in given) else None


def profile_flaw(info, profile, actions):
    """The same of actions of members and sets, which stand in all tables of the profile: one that is missing comes first."""
    allows = [lambda id, table=table: id in table.scopes for table in profile.tables]
    flaws = [action_flaw(info, action, allows) for action in actions]
    return min((flaw for flaw in flaws if flaw), default=None)


def call_of(info, action):
    values = {param.number(2): number(param.bytes(3)) for param in action.messages(4)}
    return action.number(1), [values[id] for id in info.actions[action.number(1)]]


def resolution(info, scope, update):
    """The change of an update: its word, what it does, and what it names and brings."""
    kind, entity = update.number(1), update.message(2)
    need(kind in (INSERT, MODIFY, DELETE) and entity.fields, 1)
    member, = entity.fields
    resolve = {2: entry_resolution, 3: member_resolution, 4: group_resolution, 9: replication_resolution, 12: digest_resolution}.get(member)
    need(resolve, 2, UNIMPLEMENTED)
    return resolve(info, lambda id: scope is None or id in scope, kind, entity.message(member))


def member_resolution(info, may_write, kind, member):
    profile, id = member.number(1), member.number(2)
    need(profile in info.profiles, 3, NOT_FOUND)
    need(may_write(profile), 4, PERMISSION_DENIED)
    need(id != 0, 6)
    if kind != DELETE:
        need(3 in member, 9)
        flaw = profile_flaw(info, info.profiles[profile], [member.message(3)])
        need(flaw is None, 9, flaw)
    return "profile", kind, "member", (profile, id), None


def group_resolution(info, may_write, kind, group):
    profile, id, members = group.number(1), group.number(2), group.messages(3)
    need(kind == DELETE or not any(map(is_watched, members)), 2, UNIMPLEMENTED)
    need(profile in info.profiles, 3, NOT_FOUND)
    need(may_write(profile), 4, PERMISSION_DENIED)
    ids, weights = [member.number(1) for member in members], [member.signed(2) for member in members]
    need(id != 0 and 0 not in ids, 6)
    if kind != DELETE:
        need(info.profiles[profile].selector and len(ids) <= 256 and len(set(ids)) == len(ids) and all(map(is_weight, weights)), 9)
    return "profile", kind, "group", (profile, id), list(zip(ids, weights))


def digest_resolution(info, may_write, kind, digest):
    id, config = digest.number(1), digest.message(2)
    need(id in info.digests, 3, NOT_FOUND)
    need(may_write(id), 4, PERMISSION_DENIED)
    if kind != DELETE:
        need(config.signed(1) >= 0 and config.signed(3) >= 0 and 0 <= config.signed(2) <= 256, 9)
    return "digest", kind, "digest", id, None


def replication_resolution(info, may_write, kind, entry):
    need(1 in entry, 2, UNIMPLEMENTED)
    group = entry.message(1)
    id, replicas = group.number(1), [(replica.number(1), replica.number(2)) for replica in group.messages(2)]
    # (no list of ids has one of a multicast group)
    need(may_write(None), 4, PERMISSION_DENIED)
    need(1 <= id <= 65535, 6)
    if kind != DELETE:
        need(len(replicas) <= 32 and len(set(replicas)) == len(replicas) and all(port <= 510 and instance <= 65535 for port, instance in replicas), 9)
    return "multicast", kind, "multicast", id, replicas


def entry_resolution(info, may_write, kind, entry):
    action = entry.message(3)
    items = action.message(4).messages(1)
    unserved = 6 in entry or 7 in entry or 10 in entry or entry.number(9) != 0 or any(map(is_watched, items))
    need(kind == DELETE or not unserved, 2, UNIMPLEMENTED)
    table = info.tables.get(entry.number(1))
    need(table, 3, NOT_FOUND)
    need(may_write(table.id), 4, PERMISSION_DENIED)
    default = entry.number(8) != 0
    need(not table.const, 5)
    need(not default or kind == MODIFY and not table.const_default and not table.profile, 5)
    tests = tests_of(table, default, entry, action)
    if kind != DELETE:
        flaw = entry_flaw(info, table, default, 3 in entry, action, items)
        need(flaw is None, 9, flaw)
    if default:
        return "default", kind, "default", table.id, call_of(info, action.message(1)) if 3 in entry else None
    name = (table.id, tuple(sorted(tests.items())), entry.signed(4))
    return "ok", kind, "entry", name, None if kind == DELETE else brought(info, action, items)


def brought(info, action, items):
    """What an entry does: its word, and the call, the id or the weighted calls."""
    if 1 in action:
        return "call", call_of(info, action.message(1))
    if 2 in action:
        return "member", action.number(2)
    if 3 in action:
        return "group", action.number(3)
    return "set", [(call_of(info, item.message(1)), item.number(2)) for item in items]


def entry_flaw(info, table, default, given, action, items):
    if not given:
        return None if default else INVALID_ARGUMENT
    profile = info.profiles.get(table.profile)
    if 1 in action and not profile:
        scopes = (0, 2) if default else (0, 1)
        return action_flaw(info, action.message(1), [lambda id: table.scopes.get(id) in scopes])
    if 2 in action and profile:
        return None
    if 3 in action and profile and profile.selector:
        return None
    if 4 in action and profile and profile.selector and 1 <= len(items) <= 256 and all(is_weight(item.signed(2)) for item in items):
        return profile_flaw(info, profile, [item.message(1) for item in items])
    return INVALID_ARGUMENT


# the number of a kind of match in a FieldMatch, and the kind in a P4Info
KINDS = {2: EXACT, 3: TERNARY, 4: LPM, 6: RANGE, 7: OPTIONAL}


def tests_of(table, default, entry, action):
    """The tests of an entry by its fields' ids; the first of U6, U7 and U8 that its match and its priority break."""
    matches, wide, wrong, tests = entry.messages(2), False, False, {}
    kinds = {id: (width, kind) for id, width, kind in table.fields}
    ids = [match.number(1) for match in matches]
    need(not (default and matches) and len(set(ids)) == len(ids) and all(id in kinds for id in ids), 6)
    need(default or all(id in ids for id, _, kind in table.fields if kind == EXACT), 6)
    need(not (2 in action and action.number(2) == 0) and not (3 in action and action.number(3) == 0), 6)
    for id, match in zip(ids, matches):
        width, kind = kinds[id]
        member = [field for field in match.fields if field in KINDS]
        need([KINDS[field] for field in member] == [kind], 6)
        value, other = match.message(member[0]).bytes(1), match.message(member[0])
        need(value, 6)
        numbers, length = [number(value)], None
        if kind in (TERNARY, RANGE):
            need(other.bytes(2), 6)
            numbers.append(number(other.bytes(2)))
            need(kind == RANGE or numbers[1] != 0, 6)
        if kind == LPM:
            length = other.signed(2)
            need(1 <= length <= width, 6)
            wrong = wrong or numbers[0] % 2 ** (width - length) != 0
        wrong = wrong or kind == TERNARY and numbers[0] & ~numbers[1] != 0
        wrong = wrong or kind == RANGE and (numbers[0] > numbers[1] or numbers == [0, 2 ** width - 1])
        wide = wide or any(one >> width for one in numbers)
        tests[id] = (kind, length, tuple(numbers))
    need(not wide, 7, OUT_OF_RANGE)
    by_priority = not default and any(kind in (TERNARY, RANGE, OPTIONAL) for _, _, kind in table.fields)
    priority = entry.signed(4)
    need(not wrong and (priority > 0 if by_priority else priority == 0), 8)
    return tests


# ---- U10 to U12: changes of what is written

class Entry:
    def __init__(self, name, seq, does):
        self.name, self.seq, self.does = name, seq, does

    def rows(self):
        return rows_of(self.does)


def rows_of(does):
    return 1 + (len(does[1]) if does[0] == "set" else 0)


class Written:
    """What is written to a program with so many rows: entries by rising number, members, groups, digests, default actions, multicast groups."""

    def __init__(self, info, rows):
        self.info, self.rows, self.slots, self.next = info, rows, SLOTS - info.cells, 1
        self.entries, self.members, self.groups, self.digests, self.defaults, self.multicast = [], set(), {}, set(), {}, {}

    def left(self):
        groups = sum(1 + len(named) for written in (self.groups, self.multicast) for named in written.values())
        return self.rows - sum(entry.rows() for entry in self.entries) - len(self.members) - groups

    def find(self, name):
        return next((entry for entry in self.entries if entry.name == name), None)

    def of_profile(self, profile):
        return [entry for entry in self.entries if self.info.tables[entry.name[0]].profile == profile]

    def sets(self, profile, beside=None):
        return [entry for entry in self.of_profile(profile) if entry.does[0] == "set" and entry is not beside]

    def shares(self, profile, beside=None):
        """How much of a profile's size is taken: members, and actions of sets."""
        return sum(1 for member in self.members if member[0] == profile) + sum(len(entry.does[1]) for entry in self.sets(profile, beside))

    def names(self, word, id):
        """Whether an entry names a member or a group, or a group a member."""
        profile, own = id
        entries = any(entry.does == (word, own) for entry in self.of_profile(profile))
        groups = word == "member" and any(own in dict(members) for group, members in self.groups.items() if group[0] == profile)
        return entries or groups

    def make(self, change):
        told, kind, word, name, does = change
        there = {"entry": lambda: self.find(name) is not None, "member": lambda: name in self.members, "group": lambda: name in self.groups,
                 "digest": lambda: name in self.digests, "multicast": lambda: name in self.multicast, "default": lambda: True}[word]()
        need(kind != INSERT or not there, 10, ALREADY_EXISTS)
        need(kind == INSERT or there, 10, NOT_FOUND)
        getattr(self, "make_" + word)(kind, name, does)
        return told

    def make_default(self, kind, table, call):
        self.defaults[table] = call

    def make_digest(self, kind, id, does):
        (self.digests.discard if kind == DELETE else self.digests.add)(id)

    def make_multicast(self, kind, id, replicas):
        if kind == DELETE:
            del self.multicast[id]
            return
        former = 1 + len(self.multicast[id]) if kind == MODIFY else 0
        need(kind == MODIFY or len(self.multicast) < MULTICAST_GROUPS, 12, RESOURCE_EXHAUSTED)
        need(1 + len(replicas) - former <= self.left(), 12, RESOURCE_EXHAUSTED)
        self.multicast[id] = replicas

    def make_member(self, kind, id, does):
        profile = id[0]
        if kind == DELETE:
            need(not self.names("member", id), 11, FAILED_PRECONDITION)
            self.members.discard(id)
        elif kind == INSERT:
            need(not self.sets(profile), 11, FAILED_PRECONDITION)
            need(self.shares(profile) < self.info.profiles[profile].size and self.left() >= 1, 12, RESOURCE_EXHAUSTED)
            self.members.add(id)

    def make_group(self, kind, id, members):
        profile = id[0]
        if kind == DELETE:
            need(not self.names("group", id), 11, FAILED_PRECONDITION)
            del self.groups[id]
            return
        need(all((profile, member) in self.members for member, _ in members), 11, FAILED_PRECONDITION)
        need(not self.sets(profile), 11, FAILED_PRECONDITION)
        former = 1 + len(self.groups[id]) if kind == MODIFY else 0
        need(self.fits_weights(profile, members) and 1 + len(members) - former <= self.left(), 12, RESOURCE_EXHAUSTED)
        self.groups[id] = members

    def fits_weights(self, profile, weighted):
        limit = self.info.profiles[profile].weights
        return limit == 0 or sum(weight for _, weight in weighted) <= limit

    def make_entry(self, kind, name, does):
        table, old = self.info.tables[name[0]], self.find(name)
        if kind == DELETE:
            self.entries.remove(old)
            return
        if table.profile:
            self.needs_profile(table.profile, does, old)
        need(rows_of(does) - (old.rows() if old else 0) <= self.left(), 12, RESOURCE_EXHAUSTED)
        if old:
            old.does = does
            return
        need(sum(1 for entry in self.entries if entry.name[0] == table.id) < table.size, 12, RESOURCE_EXHAUSTED)
        need(not table.counts or self.slots >= 1, 12, RESOURCE_EXHAUSTED)
        self.slots -= 1 if table.counts else 0
        self.entries.append(Entry(name, self.next, does))
        self.next += 1

    def needs_profile(self, profile, does, old):
        word, what = does
        if word == "set":
            beside = any(id[0] == profile for id in list(self.members) + list(self.groups))
            need(not beside, 11, FAILED_PRECONDITION)
            room = self.shares(profile, old) + len(what) <= self.info.profiles[profile].size
            need(room and self.fits_weights(profile, what), 12, RESOURCE_EXHAUSTED)
        else:
            need((profile, what) in (self.members if word == "member" else self.groups), 11, FAILED_PRECONDITION)
            need(not self.sets(profile, old), 11, FAILED_PRECONDITION)

    def best(self, table, key):
        """The entry that a key takes: of the longest prefix, the greatest priority, the lowest number."""
        hits = [entry for entry in self.entries if entry.name[0] == table and self.is_hit(entry, key)]
        return min(hits, key=lambda entry: (-longest(entry), -entry.name[2], entry.seq), default=None)

    def is_hit(self, entry, key):
        tests = dict(entry.name[1])
        fields = self.info.tables[entry.name[0]].fields
        return all(id not in tests or passes(tests[id], width, value) for (id, width, _), value in zip(fields, key))


def longest(entry):
    return max([length for _, (_, length, _) in entry.name[1] if length is not None], default=0)


def passes(test, width, value):
    kind, length, numbers = test
    if kind == LPM:
        return value >> (width - length) == numbers[0] >> (width - length)
    if kind == TERNARY:
        return value & numbers[1] == numbers[0]
    if kind == RANGE:
        return numbers[0] <= value <= numbers[1]
    return value == numbers[0]


# ---- rows

def updates_of(write):
    return Message(bytes.fromhex(write)).messages(4)


def outcome(make):
    try:
        return make()
    except Broken as broken:
        return "rule %d %d" % broken.args


def made(written, update):
    return outcome(lambda: written.make(resolution(written.info, None, update)))


def entry_told(entry):
    if entry is None:
        return "none"
    word, what = entry.does
    if word == "call":
        return " ".join([str(entry.seq)] + ["to %d" % argument for argument in what[1][:1]])
    return "%d set of %d" % (entry.seq, len(what)) if word == "set" else "%d %s %d" % (entry.seq, word, what)


def updates(info, rows, table, keys, write):
    written = Written(Info(info), int(rows))
    told = [made(written, update) for update in updates_of(write)]
    keys = [[int(word) for word in key.split()] for key in keys.split(",") if key]
    return told + [entry_told(written.best(int(table), key)) for key in keys]


def resolved(info, ids, write):
    info, scope = Info(info), [int(id) for id in ids.split()] or None
    return [outcome(lambda: resolution(info, scope, update)[0]) for update in updates_of(write)]


def entries(info, write):
    written, named = Written(Info(info), 1024), []
    told = [made(written, update) for update in updates_of(write)]
    for update, one in zip(updates_of(write), told):
        named += [resolution(written.info, None, update)[3]] if one == "ok" else []
    for table in sorted({entry.name[0] for entry in written.entries}):
        numbers = [entry.seq for entry in written.entries if entry.name[0] == table]
        told += ["table", table, len(numbers)] + numbers
    found = [written.find(name) for name in named]
    return told + ["in all", len(written.entries), "named"] + [entry.seq if entry else "none" for entry in found]


def room(info, write):
    info, told = Info(info), []
    for update in updates_of(write):
        table = info.tables[resolution(info, None, update)[3][0]]
        for rows, slots, numbers in ((1, 1, 1), (0, 1, 1), (1, 0, 1), (1, 1, 0)):
            told.append("room" if rows and numbers and (slots or not table.counts) else "rule 12 8")
    return told


def draft(write):
    written, told, table, drop = Written(Info("bridge"), 1024), [], 0x02000001, 0x01000002
    for keeps in (False, True, False):
        before = copy.deepcopy(written)
        told += [made(written, update) for update in updates_of(write)]
        written = written if keeps else before
        default = written.defaults.get(table)
        told += [entry_told(written.best(table, [2])), default[0] if default else drop]
    return told


ANSWERS: dict[str, Callable[..., list]] = {"updates": updates, "resolved": resolved, "entries": entries, "room": room, "draft": draft}

if __name__ == "__main__":
    with open(FOLDER + "/stdin") as rows_of_file:
        for row in rows_of_file:
            if row.strip() and not row.startswith("#"):
                row_kind, row_name, *asked = row.rstrip("\n").split("\t")
                print(row_kind, row_name, " ".join(map(str, ANSWERS[row_kind](*asked))), sep="\t")
