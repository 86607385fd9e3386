"""Entities of P4Runtime in words, both ways. Each `read_` makes a message from words, and the `spell_`
beside it makes those words from the message; what it can't spell is a Trouble."""
from p4tools.messages import Entity
from p4tools.names import part, part_name, pick
from p4tools.trouble import Trouble
from p4tools.values import read_value, spell_value
from p4tools.words import call_of, cut_list, nothing_more, options, pair_of, whole_number

EXACT, LPM, TERNARY, RANGE, OPTIONAL = 2, 3, 4, 5, 6
KIND_WORDS = {EXACT: "exact", LPM: "lpm", TERNARY: "ternary", RANGE: "range", OPTIONAL: "optional"}
SHAPES = {EXACT: "VALUE", LPM: "VALUE/LENGTH", TERNARY: "VALUE&&&MASK", RANGE: "LOW..HIGH",
          OPTIONAL: "VALUE"}
NUMBERS = ("priority", "controller_metadata", "idle_timeout_ns", "member_id", "group_id")


def read_entity(words, names):
    """The Entity of words such as `ipv4_lpm dst=10.1.0.0/16 route(port=3)`."""
    entity = Entity()
    kind = words[0] if words and words[0] in READERS else "table_entry"
    rest = words[1:] if words and words[0] in READERS else words
    READERS[kind](rest, names, entity)
    return entity


def spell_entity(entity, names):
    """The words of an Entity."""
    kind = entity.WhichOneof("entity")
    if kind not in SPELLERS:
        raise Trouble(f"an entity of the kind {kind} has no words")
    return SPELLERS[kind](getattr(entity, kind), names)


# Matches.

def read_match(match, field, word):
    """Sets a FieldMatch from `10.1.0.0/16`, `0xa0&&&0xf0`, `1..3` or `7`."""
    match.field_id, kind = field.id, field.match_type
    shape = next((it for it, sign in ((TERNARY, "&&&"), (RANGE, ".."), (LPM, "/")) if sign in word), None)
    if shape not in (None, kind):
        raise Trouble(f"{field.name} is matched {KIND_WORDS.get(kind, 'otherwise')}: "
                      f"write {field.name}={SHAPES.get(kind, 'VALUE')}")
    if kind == TERNARY:
        value, _, mask = word.partition("&&&")
        match.ternary.SetInParent()
        match.ternary.value = read_value(value)
        match.ternary.mask = read_value(mask or f"0x{(1 << field.bitwidth) - 1:x}")
    elif kind == RANGE:
        low, _, high = word.partition("..")
        match.range.SetInParent()
        match.range.low, match.range.high = read_value(low), read_value(high or low)
    elif kind == LPM:
        value, _, length = word.partition("/")
        match.lpm.SetInParent()
        match.lpm.value = read_value(value)
        match.lpm.prefix_len = whole_number("the length of a prefix", length or str(field.bitwidth))
    else:
        chosen = match.optional if kind == OPTIONAL else match.exact
        chosen.SetInParent()
        chosen.value = read_value(word)


def spell_match(match, field):
    """FIELD=VALUE of a FieldMatch."""
    kind, width = match.WhichOneof("field_match_type"), field.bitwidth
    if kind != KIND_WORDS.get(field.match_type):
        raise Trouble(f"a match of {field.name} is of the kind {kind}")
    if kind == "ternary":
        value = f"{spell_value(match.ternary.value, width, True)}&&&{spell_value(match.ternary.mask, width, True)}"
    elif kind == "lpm":
        value = f"{spell_value(match.lpm.value, width)}/{match.lpm.prefix_len}"
    elif kind == "range":
        value = f"{spell_value(match.range.low, width)}..{spell_value(match.range.high, width)}"
    else:
        value = spell_value(getattr(match, kind).value, width)
    return f"{field.name}={value}"


# Actions.

def read_action(word, names, action, among=None):
    """Sets an Action from `route(port=3, mac=02:00:00:00:00:03)`; `among` are the ids of the actions
    among which a short name is looked for first."""
    name, items = call_of(word)
    found = _action_named(name, names, among)
    action.SetInParent()
    action.action_id = found.preamble.id
    for item in items:
        given, value = pair_of(item) or (None, None)
        if given is None:
            raise Trouble(f"{item} is no parameter; write {form_of(found)}")
        param = action.params.add()
        param.param_id = part(f"parameter of {found.preamble.name}", given, found.params).id
        param.value = read_value(value)


def _action_named(name, names, among):
    known = {}
    for ident in among or ():
        found = names.with_id("action", ident)
        if found:
            known.update({it: found for it in (found.preamble.name, found.preamble.alias) if it})
    fits = [it for it in known if it == name or it.endswith("." + name)]
    return pick("action", name, known) if fits else names.object("action", name)


def form_of(action):
    """How an action is written."""
    return f"{action.preamble.name}({', '.join(f'{it.name}=VALUE' for it in action.params)})"


def spell_action(action, names):
    """NAME(PARAMETER=VALUE, ..) of an Action."""
    found = names.with_id("action", action.action_id)
    if not found:
        raise Trouble(f"no action has the id {action.action_id}")
    params = {it.id: it for it in found.params}
    items = []
    for given in action.params:
        width = params[given.param_id].bitwidth if given.param_id in params else 0
        items.append(f"{part_name(found.params, given.param_id)}={spell_value(given.value, width)}")
    return f"{found.preamble.name}({', '.join(items)})"


def read_set(word, names, chosen, among):
    """Sets a one-shot set from `oneshot(set_port(port=1)*1, set_port(port=2)*3)`."""
    chosen.SetInParent()
    for item in call_of(word)[1]:
        action, _, weight = item.rpartition("*")
        one = chosen.action_profile_actions.add()
        read_action(action or item, names, one.action, among)
        one.weight = whole_number("a weight", weight if action else "1")


def spell_set(chosen, names):
    """oneshot(ACTION*WEIGHT, ..) of a one-shot set."""
    items = [f"{spell_action(it.action, names)}*{it.weight}" for it in chosen.action_profile_actions]
    return f"oneshot({', '.join(items)})"


# Entries of tables.

def read_entry(words, names, entry):
    """Sets a TableEntry from `TABLE [default] [FIELD=VALUE ..] [ACTION] [priority=N ..]`."""
    entry.SetInParent()
    if not words:
        raise Trouble("a table's name is missing")
    table = None
    if words[0] != "*":
        entry.table_id = names.id("table", words[0])
        table = names.with_id("table", entry.table_id)
    for word in words[1:]:
        pair = pair_of(word)
        if pair:
            _read_pair(pair, table, entry)
        elif word == "default":
            entry.is_default_action = True
        elif word.startswith("oneshot("):
            read_set(word, names, entry.action.action_profile_action_set, _actions_of(table))
        else:
            read_action(word, names, entry.action.action, _actions_of(table))


def _actions_of(table):
    return [it.id for it in table.action_refs] if table else []


def _read_pair(pair, table, entry):
    """FIELD=VALUE, or one of the numbers of an entry where no field bears just that name."""
    name, value = pair
    fields = table.match_fields if table else []
    if name in NUMBERS and name not in [it.name for it in fields]:
        number = whole_number(name, value)
        if name in ("member_id", "group_id"):
            setattr(entry.action, "action_profile_" + name, number)
        else:
            setattr(entry, name, number)
        return
    if not table:
        raise Trouble(f"{name} can't be a field: the table is known by its number alone")
    read_match(entry.match.add(), part(f"match field of {table.preamble.name}", name, fields), value)


def spell_entry(entry, names):
    """The words of a TableEntry."""
    words = [names.name("table", entry.table_id) if entry.table_id else "*"]
    words += ["default"] * entry.is_default_action
    words += spell_key(entry, names)
    kind = entry.action.WhichOneof("type") if entry.HasField("action") else None
    if kind == "action":
        words.append(spell_action(entry.action.action, names))
    elif kind == "action_profile_action_set":
        words.append(spell_set(entry.action.action_profile_action_set, names))
    elif kind:
        words.append(f"{kind[len('action_profile_'):]}={getattr(entry.action, kind)}")
    words += [f"{it}={getattr(entry, it)}" for it in NUMBERS[:3] if getattr(entry, it)]
    return " ".join(words)


def spell_key(entry, names):
    """The matches of a TableEntry, a word each."""
    table = names.with_id("table", entry.table_id)
    fields = {it.id: it for it in table.match_fields} if table else {}
    words = []
    for match in entry.match:
        if match.field_id not in fields:
            raise Trouble(f"table 0x{entry.table_id:08x} has no field {match.field_id}")
        words.append(spell_match(match, fields[match.field_id]))
    return words


# Members, groups, counters, digests, multicast groups.

def _one_name(words, form):
    if not words or pair_of(words[0]):
        raise Trouble(f"a name is missing; write {form}")
    return words[0], words[1:]


def _id_of(kind, word, names):
    return 0 if word == "*" else names.id(kind, word)


def _name_of(kind, ident, names):
    return names.name(kind, ident) if ident else "*"


def read_member(words, names, member):
    """`PROFILE member_id=N [ACTION]`"""
    form = "action_profile_member PROFILE member_id=N ACTION(..)"
    name, words = _one_name(words, form)
    member.SetInParent()
    member.action_profile_id = _id_of("action profile", name, names)
    words, given = options(words, ("member_id",))
    member.member_id = given.get("member_id", 0)
    if words:
        read_action(words[0], names, member.action)
    nothing_more(words[1:], form)


def spell_member(member, names):
    """The words of an ActionProfileMember."""
    words = ["action_profile_member", _name_of("action profile", member.action_profile_id, names)]
    words += [f"member_id={member.member_id}"] * bool(member.member_id)
    words += [spell_action(member.action, names)] if member.HasField("action") else []
    return " ".join(words)


def read_group(words, names, group):
    """`PROFILE group_id=N [max_size=N] [members=ID*WEIGHT,..]`"""
    form = "action_profile_group PROFILE group_id=N members=1*1,2*3"
    name, words = _one_name(words, form)
    group.SetInParent()
    group.action_profile_id = _id_of("action profile", name, names)
    words, given = options(words, ("group_id", "max_size"))
    group.group_id, group.max_size = given.get("group_id", 0), given.get("max_size", 0)
    for item in cut_list(words[0][8:]) if words and words[0].startswith("members=") else []:
        ident, _, weight = item.partition("*")
        member = group.members.add()
        member.member_id = whole_number("a member's id", ident)
        member.weight = whole_number("a weight", weight or "1")
    nothing_more(words[1 if words and words[0].startswith("members=") else 0:], form)


def spell_group(group, names):
    """The words of an ActionProfileGroup."""
    words = ["action_profile_group", _name_of("action profile", group.action_profile_id, names)]
    words += [f"{it}={getattr(group, it)}" for it in ("group_id", "max_size") if getattr(group, it)]
    members = ",".join(f"{it.member_id}*{it.weight}" for it in group.members)
    return " ".join(words + [f"members={members}"] * bool(members))


def read_counter(words, names, entry):
    """`COUNTER [index=N]`"""
    form = "counter_entry COUNTER [index=N]"
    name, words = _one_name(words, form)
    entry.SetInParent()
    entry.counter_id = _id_of("counter", name, names)
    words, given = options(words, ("index",))
    nothing_more(words, form)
    if "index" in given:
        entry.index.SetInParent()
        entry.index.index = given["index"]


def spell_counter(entry, names):
    """The words of a CounterEntry, with its figures where it has them."""
    words = ["counter_entry", _name_of("counter", entry.counter_id, names)]
    words += [f"index={entry.index.index}"] if entry.HasField("index") else []
    return " ".join(words + _figures(entry))


def _figures(entry):
    if not entry.HasField("data"):
        return []
    return [f"packets={entry.data.packet_count}", f"bytes={entry.data.byte_count}"]


def read_direct_counter(words, names, entry):
    """The words of a table entry."""
    entry.SetInParent()
    if words:
        read_entry(words, names, entry.table_entry)


def spell_direct_counter(entry, names):
    """The words of a DirectCounterEntry, with its figures where it has them."""
    words = ["direct_counter_entry"]
    words += [spell_entry(entry.table_entry, names)] if entry.HasField("table_entry") else []
    return " ".join(words + _figures(entry))


DIGEST_NUMBERS = ("max_timeout_ns", "max_list_size", "ack_timeout_ns")


def read_digest(words, names, entry):
    """`DIGEST [max_list_size=N] [max_timeout_ns=N] [ack_timeout_ns=N]`"""
    form = "digest_entry DIGEST max_list_size=N max_timeout_ns=N ack_timeout_ns=N"
    name, words = _one_name(words, form)
    entry.SetInParent()
    entry.digest_id = _id_of("digest", name, names)
    words, given = options(words, DIGEST_NUMBERS)
    nothing_more(words, form)
    for key, number in given.items():
        setattr(entry.config, key, number)


def spell_digest(entry, names):
    """The words of a DigestEntry."""
    words = ["digest_entry", _name_of("digest", entry.digest_id, names)]
    if entry.HasField("config"):
        given = [it for it in DIGEST_NUMBERS if getattr(entry.config, it)]
        words += [f"{it}={getattr(entry.config, it)}" for it in given or DIGEST_NUMBERS[1:2]]
    return " ".join(words)


def read_multicast(words, names, entry):
    """`GROUP [replicas PORT[:INSTANCE], ..]`; the group `*` is all of them."""
    form = "multicast GROUP replicas 1, 2, 3:5"
    word, words = _one_name(words, form)
    group = entry.multicast_group_entry
    group.SetInParent()
    group.multicast_group_id = 0 if word == "*" else whole_number("a multicast group", word)
    if words[:1] != ["replicas"]:
        nothing_more(words, form)
        return
    for item in cut_list(" ".join(words[1:])):
        port, colon, instance = item.strip().partition(":")
        replica = group.replicas.add()
        replica.egress_port = whole_number("the port of a replica", port)
        replica.instance = whole_number("the instance of a replica", instance) if colon else 0


def spell_replica(port, instance):
    """The word of a replica."""
    return f"{port}:{instance}" if instance else str(port)


def spell_multicast(entry, names):
    """The words of a MulticastGroupEntry."""
    if not entry.HasField("multicast_group_entry"):
        raise Trouble("an entry of the replication engine without a group has no words")
    group = entry.multicast_group_entry
    replicas = ", ".join(spell_replica(it.egress_port, it.instance) for it in group.replicas)
    return f"multicast {group.multicast_group_id or '*'}" + f" replicas {replicas}" * bool(replicas)


READERS = {
    "table_entry": lambda words, names, it: read_entry(words, names, it.table_entry),
    "action_profile_member": lambda words, names, it: read_member(words, names, it.action_profile_member),
    "action_profile_group": lambda words, names, it: read_group(words, names, it.action_profile_group),
    "counter_entry": lambda words, names, it: read_counter(words, names, it.counter_entry),
    "direct_counter_entry":
        lambda words, names, it: read_direct_counter(words, names, it.direct_counter_entry),
    "digest_entry": lambda words, names, it: read_digest(words, names, it.digest_entry),
    "multicast": lambda words, names, it: read_multicast(words, names, it.packet_replication_engine_entry),
}
SPELLERS = {
    "table_entry": spell_entry, "action_profile_member": spell_member,
    "action_profile_group": spell_group, "counter_entry": spell_counter,
    "direct_counter_entry": spell_direct_counter, "digest_entry": spell_digest,
    "packet_replication_engine_entry": spell_multicast,
}
