"""What bin/p4ctl shows of a switch that serves, without arbitration: its program, its entries, its counts
and its ports."""
from p4tools.entities import KIND_WORDS, spell_entity, spell_entry
from p4tools.live import place_of
from p4tools.messages import Entity, TableEntry
from p4tools.names import Names
from p4tools.told import counted, figures, key_of
from p4tools.trouble import Trouble
from p4tools.words import nothing_more

PORT_BITS = 9
UNITS = {1: "bytes", 2: "packets", 3: "packets and bytes"}
ONE_ROOM = 1024


def need_program(session):
    """The configuration of the switch, or the Trouble that it has no program."""
    config = session.config()
    if config is None:
        raise Trouble("the switch has no program; load one: config verify_and_commit P4INFO JSON")
    session.maker.names = Names(config.p4info)
    session.has_names = True
    return config


# The program.

def program(session, words):
    """`program [ids]`: what the P4Info of the program declares."""
    with_ids = words == ["ids"]
    nothing_more(words[with_ids:], "program, or program ids")
    config = need_program(session)
    info, names = config.p4info, session.maker.names
    yield f"cookie {config.cookie.cookie}"
    for table in info.tables:
        yield from _table(table, names, with_ids)
    for profile in info.action_profiles:
        yield _profile(profile, names, with_ids)
    for counter in info.counters:
        yield (f"counter {_name(counter, with_ids)}: {counter.size:,} cells, "
               f"{UNITS.get(counter.spec.unit, 'no unit')}")
    for digest in info.digests:
        yield f"digest {_name(digest, with_ids)}"
    for header in info.controller_packet_metadata:
        fields = ", ".join(f"{it.name}: {_bits(it.bitwidth)}" for it in header.metadata)
        yield f"header {_name(header, with_ids)}: {fields or 'no fields'}"


def _name(thing, with_ids):
    return thing.preamble.name + f" (0x{thing.preamble.id:08x})" * with_ids


def _bits(width):
    return counted(width, "bit")


def _table(table, names, with_ids):
    parts = [f"room for {table.size or ONE_ROOM:,} entries"]
    if table.implementation_id:
        parts.append(f"by {names.name('action profile', table.implementation_id)}")
    parts += [f"counted by {names.name('direct counter', it)}" for it in table.direct_resource_ids
              if names.with_id("direct counter", it)]
    parts += ["constant"] * table.is_const_table
    yield f"table {_name(table, with_ids)}: {', '.join(parts)}"
    for field in table.match_fields:
        number = f" (field {field.id})" * with_ids
        yield f"    key {field.name}{number}: {KIND_WORDS.get(field.match_type, 'otherwise')}, {_bits(field.bitwidth)}"
    for ref in table.action_refs:
        action = names.with_id("action", ref.id)
        if action:
            params = ", ".join(f"{it.name}: {_bits(it.bitwidth)}" for it in action.params)
            where = {1: ", in entries only", 2: ", as default only"}.get(ref.scope, "")
            yield f"    action {_name(action, with_ids)}({params}){where}"


def _profile(profile, names, with_ids):
    kind = "members and groups" if profile.with_selector else "members"
    limit = f", groups of {profile.max_group_size} by weight" * bool(profile.max_group_size)
    tables = ", ".join(names.name("table", it) for it in profile.table_ids)
    return f"action profile {_name(profile, with_ids)}: {kind}, room for {profile.size or ONE_ROOM:,}{limit}, of {tables}"


# Entries and groups.

def tables_of(session, words, form):
    """The ids of the tables that words name, or of all."""
    nothing_more(words[1:], form)
    names = session.maker.names
    if words:
        return [names.id("table", words[0])]
    return [it.preamble.id for it in names.info.tables]


def entries(session, words):
    """`entries [TABLE]`: entries and default actions, in the words of a scenario, with what they counted."""
    need_program(session)
    names = session.maker.names
    for ident in tables_of(session, words, "entries [TABLE]"):
        found = session.read(*_asked(ident))
        plain = [it.table_entry for it in found if it.HasField("table_entry")]
        counts = {key_bytes(it.table_entry): it.data for it in
                  (it.direct_counter_entry for it in found if it.HasField("direct_counter_entry"))}
        own = [it for it in plain if not it.is_default_action]
        yield f"# {names.name('table', ident)}: {number_of_entries(len(own))}"
        for entry in plain:
            count = counts.get(key_bytes(entry)) if not entry.is_default_action else None
            yield _words(entry, names) + (f"  # {figures(count.packet_count, count.byte_count)}" if count else "")


def number_of_entries(number):
    """`1 entry`, `2 entries`."""
    return f"{number:,} {'entry' if number == 1 else 'entries'}"


def _asked(ident):
    asked = [Entity(), Entity(), Entity()]
    asked[0].table_entry.table_id = ident
    asked[1].table_entry.table_id = ident
    asked[1].table_entry.is_default_action = True
    asked[2].direct_counter_entry.table_entry.table_id = ident
    return asked


def _words(entry, names):
    try:
        return spell_entry(entry, names)
    except Trouble:
        return "# an entry that has no words: " + entry.SerializeToString().hex()


def key_bytes(entry):
    """What tells an entry from the others: its table, match and priority, as bytes."""
    key = TableEntry(table_id=entry.table_id, match=entry.match, priority=entry.priority)
    return key.SerializeToString(deterministic=True)


def groups(session, words):
    """`groups`: members and groups of all action profiles, digest entries and multicast groups."""
    nothing_more(words, "groups")
    need_program(session)
    asked = [Entity(), Entity(), Entity(), Entity()]
    asked[0].action_profile_member.SetInParent()
    asked[1].action_profile_group.SetInParent()
    asked[2].digest_entry.SetInParent()
    asked[3].packet_replication_engine_entry.multicast_group_entry.SetInParent()
    found = session.read(*asked)
    for entity in found:
        yield spell_entity(entity, session.maker.names)
    if not found:
        yield "# no members, no groups, no digest entries and no multicast groups"


# Counts.

class Count:
    """What one entry or cell has counted: its object's kind and name, its words, packets and bytes."""

    def __init__(self, kind, name, words, data):
        self.kind, self.name, self.words = kind, name, words
        self.packets, self.bytes = data.packet_count, data.byte_count

    def title(self):
        """What counts, in words."""
        return f"{self.name} {self.words}"


def counts(session, words=()):
    """The Counts of all entries and cells, or of those of a table or a counter that words name, by a key of each."""
    names, asked = session.maker.names, []
    nothing_more(words[1:], "counters [TABLE | COUNTER]")
    if not words or is_counter(words[0], names):
        asked.append(Entity())
        asked[-1].counter_entry.counter_id = names.id("counter", words[0]) if words else 0
        asked[-1].counter_entry.SetInParent()
    if not words or not is_counter(words[0], names):
        asked.append(Entity())
        asked[-1].direct_counter_entry.SetInParent()
        if words:
            asked[-1].direct_counter_entry.table_entry.table_id = names.id("table", words[0])
    found = {}
    for entity in session.read(*asked):
        if entity.HasField("direct_counter_entry"):
            it = entity.direct_counter_entry
            key = key_bytes(it.table_entry)
            found[key] = Count("entry", names.name("table", it.table_entry.table_id), key_of(it.table_entry, names), it.data)
        else:
            it = entity.counter_entry
            key = (it.counter_id, it.index.index)
            found[key] = Count("cell", names.name("counter", it.counter_id), f"index {it.index.index}", it.data)
    return found


def is_counter(word, names):
    """Whether a word names a counter of cells."""
    try:
        names.object("counter", word)
        return True
    except Trouble:
        return False


def counters(session, words):
    """`counters [TABLE | COUNTER]`: what entries and cells have counted."""
    need_program(session)
    found = list(counts(session, words).values())
    for one in found:
        if one.kind == "entry" or one.packets or one.bytes:
            yield f"{one.title()}: {figures(one.packets, one.bytes)}"
    silent = sum(1 for it in found if it.kind == "cell" and not it.packets and not it.bytes)
    if silent:
        yield f"# {counted(silent, 'cell')} counted nothing"
    if not found:
        yield "# nothing counts: no entry of a table with a direct counter, and no counter of cells"


# Ports.

def ports(session, words):
    """`ports`: where packets go in and out, and which entries, members and multicast groups send to which port."""
    nothing_more(words, "ports")
    host, where = place_of(session.options.at)[0], session.options.packet_port
    yield f"packets enter at UDP port {where} of {host} and leave to UDP port {where + 1}: two bytes of the port, then the packet"
    yield "ports are 0 to 510; the switch has all of them, and tells of none"
    need_program(session)
    names, found = session.maker.names, {}
    asked = [Entity(), Entity(), Entity(), Entity()]
    asked[0].table_entry.SetInParent()
    asked[1].table_entry.is_default_action = True
    asked[2].action_profile_member.SetInParent()
    asked[3].packet_replication_engine_entry.multicast_group_entry.SetInParent()
    for entity in session.read(*asked):
        for port, title in _named_by(entity, names):
            found.setdefault(port, {}).setdefault(title, 0)
            found[port][title] += 1
    for port, titles in sorted(found.items()):
        yield f"port {port}: named by {', '.join(f'{number:,} of {it}' for it, number in sorted(titles.items()))}"
    if not found:
        yield "# no entry, no member and no multicast group names a port"


def _named_by(entity, names):
    """The ports that an entity names, each with the name of what has it."""
    if entity.HasField("packet_replication_engine_entry"):
        group = entity.packet_replication_engine_entry.multicast_group_entry
        return [(it.egress_port, f"multicast group {group.multicast_group_id}") for it in group.replicas]
    return [(port, title) for action, title in _actions(entity, names) for port in _ports_of(action, names)]


def _actions(entity, names):
    """The actions of an entity, each with the name of what has it."""
    if entity.HasField("action_profile_member"):
        member = entity.action_profile_member
        return [(member.action, names.name("action profile", member.action_profile_id))]
    entry = entity.table_entry
    title = names.name("table", entry.table_id) + " default" * entry.is_default_action
    if entry.action.HasField("action"):
        return [(entry.action.action, title)]
    return [(it.action, title) for it in entry.action.action_profile_action_set.action_profile_actions]


def _ports_of(action, names):
    """The values of an action's parameters that are as wide as a port."""
    declared = names.with_id("action", action.action_id)
    wide = {it.id for it in declared.params if it.bitwidth == PORT_BITS} if declared else ()
    return [int.from_bytes(it.value, "big") for it in action.params if it.param_id in wide]
