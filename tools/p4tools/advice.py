"""What to do about a refusal: the sentences of `rules` and the hints of an update, as far as they fit."""
from p4tools import hints, rules
from p4tools.messages import Update, code_name

SHAPE_RULES = (6, 7, 8, 9)


def of_update(update, error, names):
    """What to do about an update's p4.v1.Error, a sentence each; nothing where the update was only aborted."""
    if error.space != "p4switch" or not error.code:
        return []
    if error.code == 10:
        if error.canonical_code == 6:
            return [rules.TO_DO_PRESENT]
        return [rules.TO_DO_GONE if update.type == Update.DELETE else rules.TO_DO_ABSENT]
    found = hints.of_update(update, names) if error.code in SHAPE_RULES else []
    if error.code == 11:
        found = _missing(update)
    if error.code == 12:
        found = _room(update, names)
    return found or [it for it in [rules.TO_DO_UPDATE.get(error.code)] if it]


def _missing(update):
    """What an update needs of members, groups and sets."""
    kind = update.entity.WhichOneof("entity")
    if update.type == Update.DELETE:
        return [rules.TO_DO_NAMED[kind]] if kind in rules.TO_DO_NAMED else []
    if kind == "table_entry":
        kind = update.entity.table_entry.action.WhichOneof("type")
    return [rules.TO_DO_MISSING[kind]] if kind in rules.TO_DO_MISSING else []


def _room(update, names):
    """How much room a table has."""
    if update.entity.WhichOneof("entity") != "table_entry":
        return []
    table = names.with_id("table", update.entity.table_entry.table_id)
    if table is None:
        return []
    return [f"{table.preamble.name} has room for {table.size or 1024:,} entries, and all tables together for the rows of "
            "`serve --rows`; delete what is not needed"]


def of_call(method, code, message=""):
    """What to do about a call that was refused whole: its method in a tape's words, its code, and the message of
    its Status."""
    if code == 14:
        return [rules.TO_DO_MEMORY]
    if rules.of_config(message):
        return [rules.TO_DO_CONFIG]
    name = code_name(code)
    if name == "NOT_FOUND" and method != "read":
        return [rules.TO_DO_DEVICE]
    return [it for it in [rules.TO_DO_WHOLE.get((method, name))] if it]


def of_election(role, asked, standing):
    """Why an election id gives no right to change the switch, and which does. `standing` is the answer to the
    arbitration: the greatest id that the role was asked for, and whether there is a primary."""
    greatest, code = standing
    if code_name(code) == "ALREADY_EXISTS" and greatest == asked:
        return (f"another controller is primary of role {role} with this election id, {asked}: "
                f"--election {greatest + 1} or more takes its place")
    if code_name(code) == "ALREADY_EXISTS":
        return (f"another controller is primary of role {role} with election id {greatest}: "
                f"--election {greatest + 1} or more takes its place")
    return f"election id {greatest} was seen for role {role}: use {greatest} or more (--election {greatest})"


def of_packet_out(number):
    """What to do about a PacketOut that was refused."""
    return [it for it in [rules.TO_DO_PACKET_OUT.get(number)] if it]
