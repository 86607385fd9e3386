"""Expectations of answers, counts and Reads held against a report."""
from google.protobuf.message import Message

from p4tools import told
from p4tools.entities import spell_entity
from p4tools.expect import Verdict
from p4tools.messages import ReadResponse, Status, StreamResponse, code_name, parse
from p4tools.trouble import Trouble
from p4tools.values import canonical


def of_call(one, call, beside):
    """The verdict of an expectation of a call's answer."""
    record = beside.calls[one.call][0]
    check = _read if one.kind == "read" else _answer
    is_met, lines, instead = check(one.said, one, call, record)
    if is_met:
        return Verdict(one.place, one.text, True)
    return Verdict(one.place, one.text, False, lines + told.tell_call(call, beside), instead)


# Answers.

def answers(call, record):
    """The codes of a call with the rules that they name: of the whole, of each update, of a packet-out. Each is
    the update's number or None, the code's name, and the rule or None."""
    found = [(None, code_name(call.code), _rule_of(call, record))]
    outcomes = told.outcomes(record, call)
    errors = told.errors_of(call) if call.code == 2 and outcomes else []
    for number, (_, code) in enumerate(outcomes, 1):
        error = errors[number - 1] if errors else None
        rule = f"U{error.code}" if error is not None and error.space == "p4switch" else None
        found.append((number, code_name(code), rule))
    for lane, data in call.notices:
        message = parse(StreamResponse, data)
        if lane == call.lane and message.WhichOneof("update") == "error":
            rule = f"P{message.error.code}" if message.error.WhichOneof("details") == "packet_out" else None
            found.append((None, code_name(message.error.canonical_code), rule))
    return found


def _rule_of(call, record):
    """The rule of a configuration that is refused."""
    if call.code == 0 or record.kind != 1 or record.method() != "set" or not call.messages:
        return None
    return parse(Status, call.messages[0]).message or None


def _answer(said, one, call, record):
    found = answers(call, record)
    if said["code"] == "OK" and "update" not in said:
        is_met = all(code == "OK" for number, code, _ in found if number is None)
    else:
        is_met = any(code == said["code"] and said["rule"] in (None, rule) and
                     said.get("update") in (None, number) for number, code, rule in found)
    lines = []
    if "steps" in said and len(call.steps) != said["steps"]:
        is_met = False
        lines = [f"steps: expected {said['steps']}, made {len(call.steps)}"]
    return is_met, lines, [_answer_words(said, one, found, call)]


def _answer_words(said, one, found, call):
    """The line `expect` that says what was answered."""
    chosen = next((it for it in found if said.get("update") is not None and it[0] == said["update"]), None)
    failed = [it for it in found[1:] if it[1] not in ("OK", "ABORTED")]
    number, code, rule = chosen or (failed[0] if failed else found[0])
    words = ["expect", code] + [f"rule={rule}"] * bool(rule)
    is_batch = sum(it[0] is not None for it in found) > 1
    words += [f"update={number}"] * bool(number and (is_batch or "update" in said))
    words += [f"steps={len(call.steps)}"] * ("steps" in said)
    return " ".join([one.lane] * bool(one.lane) + words)


# Reads.

def _read(said, one, call, record):
    lane = [one.lane] * bool(one.lane)
    if record.kind != 1 or record.method() != "read":
        return False, ["the call before this line is no read"], None
    found = [it for message in call.messages for it in parse(ReadResponse, message).entities] if call.code == 0 else []
    if "entities" in said:
        lines = [f"entities: expected {said['entities']}, read {len(found)}"]
        return len(found) == said["entities"], lines, [" ".join(lane + ["expect", "read", f"entities={len(found)}"])]
    is_met = any(holds(said["entity"], it) and _has_figures(said, it) for it in found)
    if is_met:
        return True, [], None
    near = next((it for it in found if holds(_key_alone(said["entity"]), it)), None)
    if near is None:
        return False, ["no such entity was read"], None
    return False, [], [" ".join(lane + ["expect", "read", _words_of(near, one)])]


def _words_of(entity, one):
    try:
        words = spell_entity(entity, one.names)
    except Trouble:
        return one.text.partition("read ")[2]
    figures = {"packets": 0, "bytes": 0} if one.said["figures"] and " packets=" not in words else {}
    return words + "".join(f" {name}={number}" for name, number in figures.items())


def _has_figures(said, entity):
    data = getattr(getattr(entity, entity.WhichOneof("entity")), "data", None)
    numbers = {"packets": "packet_count", "bytes": "byte_count"}
    return all(getattr(data, numbers[name]) == number for name, number in said["figures"].items())


def _key_alone(entity):
    """An entity without what may change of it."""
    key = type(entity)()
    key.CopyFrom(entity)
    if key.HasField("table_entry"):
        for name in ("action", "controller_metadata", "idle_timeout_ns"):
            key.table_entry.ClearField(name)
    elif key.HasField("action_profile_member"):
        key.action_profile_member.ClearField("action")
    elif key.HasField("action_profile_group"):
        key.action_profile_group.ClearField("members")
    elif key.HasField("digest_entry"):
        key.digest_entry.ClearField("config")
    elif key.HasField("packet_replication_engine_entry"):
        key.packet_replication_engine_entry.multicast_group_entry.ClearField("replicas")
    return key


def holds(wanted, given):
    """Whether a message has all that is set in another: each field, and each item of a list in any order."""
    for field, value in wanted.ListFields():
        other = getattr(given, field.name)
        if isinstance(value, Message):
            if not given.HasField(field.name) or not holds(value, other):
                return False
        elif hasattr(value, "append"):
            left = list(other)
            for item in value:
                found = next((it for it in left if _is_like(item, it)), None)
                if found is None:
                    return False
                left.remove(found)
            if left:
                return False
        elif not _is_like(value, other):
            return False
    return True


def _is_like(one, other):
    if isinstance(one, Message):
        return holds(one, other)
    if isinstance(one, bytes):
        return canonical(int.from_bytes(one, "big")) == canonical(int.from_bytes(other, "big"))
    return one == other


# Counts at the end.

def of_counter(one, report, beside):
    """The verdict of an expectation of a count, at the end of the run."""
    cell = one.said.get("cell")
    found = _of_cell(cell, report) if cell else _of_entry(one, report, beside)
    wanted = {name: one.said[name] for name in ("packets", "bytes") if name in one.said}
    if found is None:
        return Verdict(one.place, one.text, False, ["no entry with this key is counted at the end"], [])
    given = dict(zip(("packets", "bytes"), found))
    if all(given[name] == number for name, number in wanted.items()):
        return Verdict(one.place, one.text, True)
    lines = [f"{name}: expected {number}, counted {given[name]}" for name, number in wanted.items() if given[name] != number]
    words = [it for it in one.text.split() if it.partition("=")[0] not in wanted]
    instead = " ".join(words + [f"{name}={given[name]}" for name in wanted])
    return Verdict(one.place, one.text, False, lines, [instead])


def _of_cell(cell, report):
    """Packets and bytes of a counter's cell; a cell without a line counted nothing."""
    return next(((it[3], it[4]) for it in report.cells if (it[1], it[2]) == cell), (0, 0))


def _of_entry(one, report, beside):
    """Packets and bytes of an entry that is there at the end, or None."""
    entry = one.said["entry"]
    key = told.key_of(entry, one.names)
    return next(((count, size) for number, table, count, size in report.counts
                 if table == entry.table_id and beside.entries.get(number) == key), None)
