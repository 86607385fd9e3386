"""What a switch will refuse in an update though it can be sent: told while a scenario is made."""
from p4tools.entities import EXACT, OPTIONAL, RANGE, TERNARY, form_of
from p4tools.messages import Update


def of_update(update, names):
    """The hints to an update of a table entry or a multicast group, a sentence each."""
    kind = update.entity.WhichOneof("entity")
    if kind == "packet_replication_engine_entry":
        return list(_of_multicast(update, update.entity.packet_replication_engine_entry.multicast_group_entry))
    if kind != "table_entry":
        return []
    entry = update.entity.table_entry
    table = names.with_id("table", entry.table_id)
    if table is None:
        return []
    found = [] if entry.is_default_action else list(_of_key(entry, table))
    return found + list(_of_action(update.type, entry, table, names))


def _of_multicast(update, group):
    if not 1 <= group.multicast_group_id <= 65535:
        yield "a multicast group has an id from 1 to 65535"
    if update.type == Update.DELETE:
        return
    given = [(it.egress_port, it.instance) for it in group.replicas]
    if len(given) > 32:
        yield "a multicast group has at most 32 replicas"
    if any(port > 510 or instance > 65535 for port, instance in given):
        yield "a replica has a port up to 510 and an instance up to 65535"
    if len(set(given)) < len(given):
        yield "of a multicast group no two replicas have the same port and instance"


def _of_key(entry, table):
    given = {it.field_id for it in entry.match}
    for field in table.match_fields:
        if field.match_type == EXACT and field.id not in given:
            yield f"{field.name} is exact, so each entry of {table.preamble.name} needs {field.name}=VALUE"
    for match in entry.match:
        field = next((it for it in table.match_fields if it.id == match.field_id), None)
        if field:
            yield from _of_match(match, field)
    ranked = any(it.match_type in (TERNARY, RANGE, OPTIONAL) for it in table.match_fields)
    if ranked and entry.priority <= 0:
        yield f"each entry of {table.preamble.name} needs priority=N above 0"
    if not ranked and entry.priority:
        yield f"an entry of {table.preamble.name} has no priority"


def _of_match(match, field):
    kind = match.WhichOneof("field_match_type")
    chosen = getattr(match, kind)
    values = [data for _, data in chosen.ListFields() if isinstance(data, bytes)]
    number = int.from_bytes(chosen.value, "big") if kind != "range" else 0
    if any(int.from_bytes(it, "big") >> field.bitwidth for it in values):
        yield f"{field.name} has {field.bitwidth} bits, and the value has more"
    elif kind == "lpm" and not 1 <= match.lpm.prefix_len <= field.bitwidth:
        yield f"a prefix of {field.name} is 1 to {field.bitwidth} bits long; to match all, leave the field out"
    elif kind == "lpm" and number & (1 << field.bitwidth - match.lpm.prefix_len) - 1:
        yield f"{field.name} has bits behind its prefix"
    elif kind == "ternary":
        mask = int.from_bytes(match.ternary.mask, "big")
        if not mask:
            yield f"the mask of {field.name} is 0; to match all, leave the field out"
        elif number & ~mask:
            yield f"{field.name} has bits outside of its mask"
    elif kind == "range" and match.range.low and match.range.high:
        low, high = (int.from_bytes(it, "big") for it in (match.range.low, match.range.high))
        if low > high:
            yield f"the range of {field.name} begins above its end"
        elif not low and high == (1 << field.bitwidth) - 1:
            yield f"the range of {field.name} is all values; to match all, leave the field out"


def _of_action(kind, entry, table, names):
    if kind == Update.INSERT and not entry.HasField("action"):
        yield "an entry that is inserted needs an action"
    if entry.is_default_action and kind != Update.MODIFY:
        yield "a default action is always there: it is changed by modify"
    if not entry.HasField("action") or entry.action.WhichOneof("type") != "action":
        return
    action = names.with_id("action", entry.action.action.action_id)
    if action is None:
        return
    if action.preamble.id not in [it.id for it in table.action_refs]:
        yield f"{table.preamble.name} has no action {action.preamble.name}"
    given = [it.param_id for it in entry.action.action.params]
    if sorted(given) != sorted(it.id for it in action.params):
        yield f"the action is to be written {form_of(action)}"
    for param in action.params:
        for value in entry.action.action.params:
            if value.param_id == param.id and int.from_bytes(value.value, "big") >> param.bitwidth:
                yield f"{param.name} has {param.bitwidth} bits, and the value has more"
