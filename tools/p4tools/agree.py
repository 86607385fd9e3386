"""Where a P4Info breaks a rule by itself (I2 to I9), and where it does not agree with the JSON (L10 to L14)."""
from p4tools.entities import KIND_WORDS, LPM
from p4tools.names import KINDS

PREFIXES = {"table": 2, "action": 1, "action profile": 0x11, "counter": 0x12, "direct counter": 0x13, "digest": 0x17,
            "controller header": 4}


def of_info(info):
    """Findings of a P4Info as tuples: rule, path, what stands there, construct."""
    seen = set()
    for kind, field in KINDS.items():
        names = set()
        for at, thing in enumerate(getattr(info, field)):
            path, own = f"P4Info {field}[{at}]", thing.preamble
            if not own.id or own.id in seen:
                yield "I2", path, f"id 0x{own.id:08x} of `{own.name}`", "info"
            elif kind in PREFIXES and own.id >> 24 != PREFIXES[kind]:
                yield "I3", path, f"id 0x{own.id:08x} of `{own.name}`", "info"
            if not own.name or own.name in names:
                yield "I4", path, f"name `{own.name}`", "info"
            seen.add(own.id)
            names.add(own.name)
    yield from _widths(info)
    yield from _tables(info)


def _widths(info):
    for at, table in enumerate(info.tables):
        for number, field in enumerate(table.match_fields):
            yield from _width(f"P4Info tables[{at}].match_fields[{number}]", f"{table.preamble.name} {field.name}", field.bitwidth)
    for at, action in enumerate(info.actions):
        for number, param in enumerate(action.params):
            yield from _width(f"P4Info actions[{at}].params[{number}]", f"{action.preamble.name} {param.name}", param.bitwidth)


def _width(path, name, width):
    if width == 0:
        yield "I6", path, f"`{name}`, a width of 0", "translated"
    elif not 1 <= width <= 128:
        yield "I6", path, f"`{name}`, {width} bits", "wide"


def _tables(info):
    for at, table in enumerate(info.tables):
        path, name = f"P4Info tables[{at}]", table.preamble.name
        for number, field in enumerate(table.match_fields):
            if field.match_type not in KIND_WORDS:
                yield "I7", f"{path}.match_fields[{number}]", f"`{name} {field.name}`", "info"
        if table.size < 0 or len(table.match_fields) > 16:
            yield "I8", path, f"`{name}`, a size of {table.size} and {len(table.match_fields)} fields", "limit"
        if sum(it.match_type == LPM for it in table.match_fields) > 1:
            yield "I9", path, f"`{name}`", "two lpm"
    for at, action in enumerate(info.actions):
        if len(action.params) > 8:
            yield "I8", f"P4Info actions[{at}]", f"`{action.preamble.name}`, {len(action.params)} parameters, above 8", "limit"


def of_both(info, program):
    """Findings of a P4Info beside a JSON, as tuples."""
    try:
        kinds = {it["name"]: {field[0]: field[1] for field in it["fields"]} for it in program["header_types"]}
        headers = {it["name"]: kinds[it["header_type"]] for it in program["headers"]}
        tables = {it["name"]: it for pipeline in program["pipelines"] for it in pipeline.get("tables") or []}
        found = list(_keys(info, tables, headers)) + list(_actions(info, tables, program)) + list(_others(info, program))
        found += list(_kinds(info, tables))
    except (KeyError, TypeError, AttributeError, IndexError):
        return []  # (a JSON of another shape is told as such)
    return found


def _keys(info, tables, headers):
    for at, table in enumerate(info.tables):
        path, name = f"P4Info tables[{at}]", table.preamble.name
        if name not in tables:
            yield "L10", path, f"`{name}`, which the JSON has not", "both files"
            continue
        wanted = [(KIND_WORDS.get(it.match_type), it.bitwidth) for it in table.match_fields]
        found = [(it["match_type"], _bits(it["target"], headers)) for it in tables[name]["key"]]
        if wanted != found:
            yield "L10", path, f"`{name}`: {_key(wanted)} here and {_key(found)} in the JSON", "both files"


def _bits(target, headers):
    return 1 if target[1] == "$valid$" else headers.get(target[0], {}).get(target[1])


def _key(key):
    return ", ".join(f"{kind} of {width} bits" for kind, width in key) or "no key"


def _actions(info, tables, program):
    declared = {it.preamble.id: it for it in info.actions}
    actions = {it["id"]: it for it in program["actions"]}
    for at, table in enumerate(info.tables):
        own = tables.get(table.preamble.name)
        for ref in table.action_refs if own else ():
            action = declared.get(ref.id)
            widths = [it.bitwidth for it in action.params] if action else []
            found = [[it["bitwidth"] for it in actions[ident]["runtime_data"]]
                     for name, ident in zip(own["actions"], own["action_ids"]) if action and name == action.preamble.name]
            if action and widths not in found:
                yield "L11", f"P4Info tables[{at}]", f"action `{action.preamble.name}` of `{table.preamble.name}`", "both files"


def _kinds(info, tables):
    """Tables whose kind of actions differs."""
    profiles = {it.preamble.id: it for it in info.action_profiles}
    for at, table in enumerate(info.tables):
        profile, own = profiles.get(table.implementation_id), tables.get(table.preamble.name)
        wanted = "simple" if profile is None else "indirect_ws" if profile.with_selector else "indirect"
        if own and own["type"] != wanted:
            yield "L12", f"P4Info tables[{at}]", f"`{table.preamble.name}`: {wanted} here and {own['type']} in the JSON", "both files"


def _others(info, program):
    profiles = {it["name"]: it for pipeline in program["pipelines"] for it in pipeline.get("action_profiles") or []}
    arrays = {it["name"]: it for it in program.get("counter_arrays") or []}
    lists = {it["name"] for it in program.get("learn_lists") or []}
    for rule, field, known in (("L12", "action_profiles", profiles), ("L13", "counters", arrays), ("L14", "digests", lists)):
        for at, thing in enumerate(getattr(info, field)):
            name = thing.preamble.name
            if name not in known:
                yield rule, f"P4Info {field}[{at}]", f"`{name}`, which the JSON has not", "both files"
            elif rule == "L12" and thing.with_selector != bool(known[name].get("selector")):
                yield rule, f"P4Info {field}[{at}]", f"`{name}`: with a selector in one of both", "both files"
            elif rule == "L13" and known[name].get("size") != thing.size:
                yield rule, f"P4Info {field}[{at}]", f"`{name}`: {thing.size} cells here and {known[name].get('size')} in the JSON", "both files"
