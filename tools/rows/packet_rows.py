#!/usr/bin/env python3
"""packet_rows.py stdin|stdout

Prints rows of crates/switch_rows for packets of a program made here, or what is to be answered to them. The program has
an action for each primitive and each operator, with a header whose fields of 1 and of 128 bits stand at odd places. What
the packets become is computed here, by numbers without a bound that are cut where a field takes them, over nothing of the
switch: the packet's bits are a text of ones and zeros, and each action is a function of a dictionary of fields.

Each action of that program is the entry of one value of the field `op` (the table is exact), sends to the port 1 and does what its name
says; each packet row below names an action and the fields of the packet, by which it tells a wrong one from a right one. A last row has the router of examples/programs (without its counter) on
packets that are no IPv4, end early, or make the checksum carry.
"""
import json
import os
import sys

WIDE, ALL = 2 ** 128, 2 ** 128 - 1

# ---- the program: headers as lists of fields, then actions as (name, primitives, what they mean)

STANDARD = [["ingress_port", 9], ["egress_spec", 9], ["egress_port", 9], ["packet_length", 32], ["parser_error", 32], ["checksum_error", 1], ["mcast_grp", 16]]
MAIN = [["op", 8], ["x", 3], ["a", 128], ["f", 1], ["b", 32], ["c", 12]]
PAIR = [["u", 5], ["v", 11]]


def field(name):
    header, own = name.split(".")
    return {"type": "field", "value": [header, own]}


def literal(number):
    return {"type": "hexstr", "value": hex(number)}


def wrapped(op, left, right, **more):
    return {"type": "expression", "value": dict({"op": op, "left": left, "right": right}, **more)}


def header(name):
    return {"type": "header", "value": name}


def assign(name, value):
    return {"op": "assign", "parameters": [field(name), value]}


def of_headers(op, *names):
    return {"op": op, "parameters": [header(name) for name in names]}


A, B, C, F = field("h.a"), field("h.b"), field("h.c"), field("h.f")
YES, NO = literal(0xa5), literal(0x5a)


def set_field(name, value):
    """Assigns to a field of a header that is valid: the lowest bits of its width are kept."""
    def does(p):
        own = name.split(".")[0]
        if own in p["valid"]:
            p[name] = value(p) % 2 ** WIDTHS[name]
    return does


def number(name, tree, value, target="h.a"):
    return name, [assign(target, tree)], [set_field(target, value)]


def choice(name, truth, value):
    """A truth value shown by what it chooses."""
    return number(name, wrapped("?", YES, NO, cond=truth), lambda p: 0xa5 if value(p) else 0x5a)


def add_header(name):
    def does(p):
        if name not in p["valid"]:
            p["valid"].add(name)
            p.update({name + "." + own: 0 for own, _ in PAIR})
    return does


def remove_header(name):
    return lambda p: p["valid"].discard(name)


def copy_header(to, source):
    def does(p):
        (p["valid"].add if source in p["valid"] else p["valid"].discard)(to)
        p.update({to + "." + own: p[source + "." + own] for own, _ in PAIR})
    return does


def drop(p):
    p["standard_metadata.egress_spec"] = 511


def count(index):
    return lambda p: p["cells"].append(index(p))


# A condition of one field, `b` not 0, and one whose value the second operand alone decides.
B_SET, C_SET = wrapped("d2b", None, B), wrapped("d2b", None, C)

ACTIONS = [
    number("add", wrapped("+", A, B), lambda p: p["h.a"] + p["h.b"]),
    number("add_cut_to_32", wrapped("+", A, B), lambda p: p["h.a"] + p["h.b"], "h.b"),
    number("subtract", wrapped("-", B, A), lambda p: p["h.b"] - p["h.a"]),
    number("multiply", wrapped("*", A, A), lambda p: p["h.a"] * p["h.a"]),
    number("shift_left", wrapped("<<", A, C), lambda p: p["h.a"] << p["h.c"]),
    number("shift_right", wrapped(">>", A, C), lambda p: p["h.a"] >> p["h.c"]),
    number("bit_and", wrapped("&", A, B), lambda p: p["h.a"] & p["h.b"]),
    number("bit_or", wrapped("|", A, B), lambda p: p["h.a"] | p["h.b"]),
    number("bit_xor", wrapped("^", A, B), lambda p: p["h.a"] ^ p["h.b"]),
    number("bit_not", wrapped("~", None, A), lambda p: ALL - p["h.a"]),
    choice("equal", wrapped("==", A, B), lambda p: p["h.a"] == p["h.b"]),
    choice("not_equal", wrapped("!=", A, B), lambda p: p["h.a"] != p["h.b"]),
    choice("less", wrapped("<", A, B), lambda p: p["h.a"] < p["h.b"]),
    choice("less_or_equal", wrapped("<=", A, B), lambda p: p["h.a"] <= p["h.b"]),
    choice("greater", wrapped(">", A, B), lambda p: p["h.a"] > p["h.b"]),
    choice("greater_or_equal", wrapped(">=", A, B), lambda p: p["h.a"] >= p["h.b"]),
    choice("and", wrapped("and", B_SET, C_SET), lambda p: p["h.b"] != 0 and p["h.c"] != 0),
    choice("or", wrapped("or", B_SET, C_SET), lambda p: p["h.b"] != 0 or p["h.c"] != 0),
    choice("not", wrapped("not", None, B_SET), lambda p: p["h.b"] == 0),
    choice("valid", wrapped("valid", None, header("t")), lambda p: "t" in p["valid"]),
    choice("choice_of_truths", wrapped("?", C_SET, wrapped("not", None, C_SET), cond=B_SET), lambda p: (p["h.c"] != 0) if p["h.b"] else (p["h.c"] == 0)),
    number("number_of_a_truth", wrapped("b2d", None, wrapped("d2b", None, B)), lambda p: int(p["h.b"] != 0)),
    number("one_bit", wrapped("^", F, literal(1)), lambda p: p["h.f"] ^ 1, "h.f"),
    number("field_of_no_header", field("t.v"), lambda p: p["t.v"] if "t" in p["valid"] else 0),
    ("assign_to_no_header", [assign("t.v", B), of_headers("add_header", "t")], [set_field("t.v", lambda p: p["h.b"]), add_header("t")]),
    ("add_header", [of_headers("add_header", "t"), assign("t.u", C)], [add_header("t"), set_field("t.u", lambda p: p["h.c"])]),
    ("remove_header", [of_headers("remove_header", "t")], [remove_header("t")]),
    ("assign_header", [of_headers("assign_header", "s", "t")], [copy_header("s", "t")]),
    ("mark_to_drop", [of_headers("mark_to_drop", "standard_metadata")], [drop]),
    ("drop", [{"op": "drop", "parameters": []}], [drop]),
    ("count", [{"op": "count", "parameters": [{"type": "counter_array", "value": "cells"}, C]}], [count(lambda p: p["h.c"])]),
    ("generate_digest", [{"op": "generate_digest", "parameters": [literal(1), literal(1)]}], []),
    ("no_op", [{"op": "no_op", "parameters": []}], []),
]
NAMES = [name for name, _, _ in ACTIONS]
TABLE, CELLS, FIRST_ACTION = 0x02000001, 0x12000001, 0x01000001
CELL_COUNT = 4
HEADERS: dict[str, list] = {"standard_metadata": STANDARD, "h": MAIN, "t": PAIR, "s": PAIR}
WIDTHS = {name + "." + own: width for name, fields in HEADERS.items() for own, width in fields}


def program(used):
    """The program with these of the actions, by their places. A packet has `h`; where the highest bit of `op` is 1 also `t`, behind which `x` is made 5 and then, by `x`, the
    parser goes on to a state that changes nothing, or finds no transition."""
    types = [("h", "h_t", MAIN), ("t", "pair_t", PAIR), ("s", "pair_t", PAIR)]
    sends = assign("standard_metadata.egress_spec", {"type": "runtime_data", "value": 0})
    states = [
        {"name": "start", "id": 0, "parser_ops": [extract("h")], "transition_key": [field("h.op")], "transitions": [
            {"type": "hexstr", "value": "0x80", "mask": "0x80", "next_state": "pair"},
            {"type": "hexstr", "value": "0x80", "mask": "0xff", "next_state": "stop"},
            {"type": "default", "value": None, "mask": None, "next_state": None}]},
        {"name": "pair", "id": 1, "parser_ops": [extract("t"), {"op": "set", "parameters": [field("h.x"), literal(5)]}], "transition_key": [field("h.f"), field("t.u")], "transitions": [
            {"type": "hexstr", "value": "0x0103", "mask": None, "next_state": "stop"},
            {"type": "hexstr", "value": "0x0000", "mask": "0x0100", "next_state": None}]},
        {"name": "stop", "id": 2, "parser_ops": [{"op": "set", "parameters": [field("h.x"), literal(2)]}], "transition_key": [], "transitions": [
            {"type": "default", "value": None, "mask": None, "next_state": None}]}]
    actions = [{"name": name, "id": place, "runtime_data": [{"name": "port", "bitwidth": 9}], "primitives": [sends] + primitives}
               for place, (name, primitives, _) in enumerate(ACTIONS) if place in used]
    names = [NAMES[place] for place in used]
    table = {"name": "ops", "id": 0, "key": [{"match_type": "exact", "name": "h.op", "target": ["h", "op"], "mask": None}], "type": "simple", "max_size": 64,
             "with_counters": False, "support_timeout": False, "action_ids": used, "actions": names, "base_default_next": None,
             "next_tables": {name: None for name in names}}
    return {
        "header_types": [{"name": "standard_metadata_t", "id": 0, "fields": STANDARD}, {"name": "h_t", "id": 1, "fields": MAIN}, {"name": "pair_t", "id": 2, "fields": PAIR}],
        "headers": [{"name": "standard_metadata", "id": 0, "header_type": "standard_metadata_t", "metadata": True}]
        + [{"name": name, "id": place + 1, "header_type": kind, "metadata": False} for place, (name, kind, _) in enumerate(types)],
        "parsers": [{"name": "parser", "id": 0, "init_state": "start", "parse_states": states}],
        "deparsers": [{"name": "deparser", "id": 0, "order": ["h", "t", "s"], "primitives": []}],
        "actions": actions,
        "pipelines": [{"name": "ingress", "id": 0, "init_table": "ops", "tables": [table], "action_profiles": [], "conditionals": []},
                      {"name": "egress", "id": 1, "init_table": None, "tables": [], "action_profiles": [], "conditionals": []}],
        "counter_arrays": [{"name": "cells", "id": 0, "size": CELL_COUNT, "is_direct": False}],
        "learn_lists": [{"name": "seen", "id": 1, "elements": [B]}],
        "errors": [["NoError", 0], ["PacketTooShort", 1], ["NoMatch", 2]],
    }


def extract(name):
    return {"op": "extract", "parameters": [{"type": "regular", "value": name}]}


# ---- what becomes of a packet

def bits_of(data):
    return "".join("{:08b}".format(byte) for byte in data)


def take(p, name, bits):
    """Takes a header's fields off the front of bits, or nothing where there are too few."""
    if len(bits) < sum(width for _, width in HEADERS[name]):
        return None
    for own, width in HEADERS[name]:
        p[name + "." + own], bits = int(bits[:width], 2), bits[width:]
    p["valid"].add(name)
    return bits


def parsed(p, bits):
    """The bits that are not extracted. What ends the parse is told to no field here, so that it shows only by them."""
    rest = take(p, "h", bits)
    if rest is None:
        return bits
    if p["h.op"] & 0x80:
        last = take(p, "t", rest)
        if last is None:
            return rest
        rest = last
        p["h.x"] = 5
        if p["h.f"] == 1 and p["t.u"] == 3:
            p["h.x"] = 2
    return rest


def become(entries, data):
    """The report of a packet: its fate, what leaves and what it hit."""
    p = dict.fromkeys(WIDTHS, 0)
    p.update({"valid": {"standard_metadata"}, "cells": []})
    rest = parsed(p, bits_of(data))
    hits = []
    own = entries.get(p["h.op"])
    if own is not None:
        sequence, action = own
        hits.append("%d:%d" % (TABLE, sequence))
        p["standard_metadata.egress_spec"] = 1
        for does in ACTIONS[action][2]:
            does(p)
        hits += ["@%d" % index for index in p["cells"] if index < CELL_COUNT]
    if p["standard_metadata.egress_spec"] == 511:
        return "drop1 -", hits
    out = "".join("{:0{}b}".format(p[name + "." + own], width) for name in ("h", "t", "s") if name in p["valid"] for own, width in HEADERS[name]) + rest
    leaves = bytes(int(out[i:i + 8], 2) for i in range(0, len(out), 8)).hex()
    return "sent %d:%s" % (p["standard_metadata.egress_spec"], leaves or "."), hits


# ---- the packets: an action by its name, or an `op` that has no entry, and the fields of the packet

def packet(action, a=0, b=0, c=0, f=0, x=0, u=None, v=0, behind=b"", op=None):
    place = NAMES.index(action) if op is None else op
    bits = "".join("{:0{}b}".format(number, width) for (_, width), number in zip(MAIN, (place | (0x80 if u is not None else 0), x, a, f, b, c)))
    if u is not None:
        bits += "{:05b}{:011b}".format(u, v)
    return bytes(int(bits[i:i + 8], 2) for i in range(0, len(bits), 8)) + behind


HIGH = 0x8123456789abcdef0123456789abcdef
PACKETS = {
    "each number's operator": [
        packet("add", ALL, 2, 1, 1, 7), packet("add", HIGH, 0xffffffff), packet("add_cut_to_32", 2 ** 64 + 3, 0xfffffffe), packet("subtract", 3, 2), packet("subtract", 2, 3),
        packet("multiply", 2 ** 64 + 1), packet("multiply", ALL), packet("shift_left", HIGH, 0, 4), packet("shift_left", ALL, 0, 127), packet("shift_left", ALL, 0, 128),
        packet("shift_left", 1, 0, 0xfff), packet("shift_right", HIGH, 0, 4), packet("shift_right", ALL, 0, 127), packet("shift_right", ALL, 0, 128), packet("bit_and", HIGH, 0x0ff00ff0),
        packet("bit_or", HIGH, 0xf0f0f0f0), packet("bit_xor", HIGH, 0xffffffff), packet("bit_not", HIGH), packet("number_of_a_truth", 9, 0x80000000), packet("number_of_a_truth", 9),
        packet("one_bit", ALL, 0xffffffff, 0xfff, 1, 7), packet("one_bit"),
    ],
    "each truth's operator": [
        packet(name, a, b) for name in ("equal", "not_equal", "less", "less_or_equal", "greater", "greater_or_equal") for a, b in ((4, 5), (5, 5), (2 ** 127, 5))
    ] + [packet(name, 0, b, c) for name in ("and", "or", "choice_of_truths") for b in (0, 1) for c in (0, 1)] + [packet("not", 0, 1), packet("not"), packet("valid"), packet("valid", u=1)],
    "each primitive": [
        packet("add_header", c=0xfff, behind=b"\xee"), packet("add_header", c=2, u=9, v=0x155), packet("remove_header", u=9, v=0x155, behind=b"\xee"), packet("remove_header"),
        packet("assign_header", u=9, v=0x155, behind=b"\xee"), packet("assign_header", behind=b"\xee"), packet("field_of_no_header", 9), packet("field_of_no_header", 9, u=1, v=0x7ff),
        packet("assign_to_no_header", b=0x123, behind=b"\xee"), packet("assign_to_no_header", b=0xfffff923, u=31, v=1), packet("mark_to_drop"), packet("drop"),
        packet("count", c=0), packet("count", c=3), packet("count", c=4), packet("count", c=0xfff), packet("generate_digest", b=7), packet("no_op", HIGH, 1, 2, 1, 4),
    ],
    "a parser's sets, keys and ends": [
        packet("no_op", u=3, f=1, x=1), packet("no_op", u=3, f=0, x=1), packet("no_op", u=4, f=1, x=1, behind=b"\xee\xff"), packet("no_op", u=3, f=1)[:-1],
        packet("no_op", ALL, 0xffffffff, 0xfff, 1, 7)[:-1], b"", b"\x00", packet("", op=0x7f, behind=b"\x01"),
    ],
}


# ---- messages and tapes

def varint(number):
    out = b""
    while number > 127:
        out, number = out + bytes([number & 127 | 128]), number >> 7
    return out + bytes([number])


def num(place, value):
    return varint(place << 3) + varint(value) if value else b""


def raw(place, content):
    return varint(place << 3 | 2) + varint(len(content)) + content


def named(ident, name):
    return raw(1, num(1, ident) + raw(2, name.encode()))


def p4info(used):
    table = named(TABLE, "ops") + raw(2, num(1, 1) + raw(2, b"h.op") + num(4, 8) + num(5, 2))
    table += b"".join(raw(3, num(1, FIRST_ACTION + place)) for place in used) + num(8, 64)
    actions = [raw(3, named(FIRST_ACTION + place, name) + raw(2, num(1, 1) + raw(2, b"port") + num(4, 9))) for place, name in enumerate(NAMES) if place in used]
    return raw(2, table) + b"".join(actions) + raw(5, named(CELLS, "cells") + raw(2, num(1, 3)) + num(3, CELL_COUNT))


def record(kind, lane, payload):
    return bytes([kind]) + lane.to_bytes(2, "big") + len(payload).to_bytes(4, "big") + payload


def sorted_in(entries):
    """One atomic batch of the entries."""
    updates = b""
    for op, (_, action) in entries.items():
        call = num(1, FIRST_ACTION + action) + raw(4, num(2, 1) + raw(3, b"\x01"))
        entry = num(1, TABLE) + raw(2, num(1, 1) + raw(2, raw(1, bytes([op])))) + raw(3, raw(1, call))
        updates += raw(4, num(1, 1) + raw(2, raw(2, entry)))
    return num(1, 1) + raw(3, num(2, 1)) + updates + num(5, 2)


def entries_for(packets):
    """An entry for each action that the packets ask for, by the numbers that they have, without and with the highest bit."""
    asked = sorted({data[0] for data in packets if len(data) * 8 >= sum(width for _, width in MAIN) and data[0] & 0x7f < len(NAMES)} | {NAMES.index("no_op")})
    return {op: (place + 1, op & 0x7f) for place, op in enumerate(asked)}


def tape_of(info, made, batch, packets):
    config = raw(1, info) + raw(2, json.dumps(made, separators=(",", ":")).encode())
    calls = [b"\x05" + raw(1, num(1, 1) + raw(3, num(2, 1))), b"\x03" + num(1, 1) + raw(3, num(2, 1)) + num(4, 3) + raw(5, config), b"\x01" + batch]
    return b"P4TAPE1\n" + b"".join(record(1, 0, call) for call in calls) + b"".join(record(2, 0, b"\x00\x07" + data) for data in packets) + record(0, 0, b"")


def calls_told(entries):
    return ["step 1 0 1 arbitrate 0", "notice 0 0a0808011a0210012200", "reply 0 1 1 0 -", "step 2 0 2 commit 0", "reply 0 2 2 0 .", "step 3 0 3 batch %d" % entries, "reply 0 3 3 0 ."]


def row(packets):
    """A tape and its report."""
    entries = entries_for(packets)
    used = sorted({action for _, action in entries.values()})
    tape = tape_of(p4info(used), program(used), sorted_in(entries), packets)
    lines = calls_told(len(entries))
    cells = {}
    for place, data in enumerate(packets):
        fate, hits = become(entries, data)
        lines.append("packet w0 %d 3 %s - - %s" % (place + 1, fate, ",".join(hits) or "-"))
        for hit in hits:
            if hit[0] == "@":
                packets_so_far, bytes_so_far = cells.get(int(hit[1:]), (0, 0))
                cells[int(hit[1:])] = packets_so_far + 1, bytes_so_far + len(data)
    lines += ["cell %d %d %d %d %d" % (slot, CELLS, slot, *cells[slot]) for slot in sorted(cells)] + ["end 3 %d" % len(packets)]
    return tape, lines


# ---- the router

ROUTES, ROUTE, DROP = 0x02000002, 0x01000003, 0x01000002
NEXT = bytes([2, 0, 0, 0, 0, 1])
NETS = [(bytes([10, 1, 0, 0]), 16, 3), (bytes([10, 1, 2, 0]), 24, 5), (bytes(4), 1, 7)]


def word_sum(data):
    """RFC 1071: the complement of the ones' complement sum of the words."""
    total = sum(int.from_bytes(data[i:i + 2], "big") for i in range(0, len(data), 2))
    while total > 0xffff:
        total = (total & 0xffff) + (total >> 16)
    return (0xffff - total).to_bytes(2, "big")


def routed(data):
    if len(data) < 34 or data[12:14] != b"\x08\x00":
        return "sent 0:%s" % (data.hex() or "."), "-"
    to = int.from_bytes(data[30:34], "big")
    found = [(length, place) for place, (net, length, _) in enumerate(NETS) if to >> (32 - length) == int.from_bytes(net, "big") >> (32 - length)]
    if not found:
        return "drop1 -", "-"
    place = max(found)[1]
    ip = data[14:22] + bytes([(data[22] - 1) % 256]) + data[23:24] + data[26:34]
    ip = ip[:10] + word_sum(ip) + ip[10:]
    return "sent %d:%s" % (NETS[place][2], (NEXT + data[:6] + b"\x08\x00" + ip + data[34:]).hex()), "%d:%d" % (ROUTES, place + 1)


def router_row():
    with open(os.path.join(os.path.dirname(os.path.abspath(__file__)), "../../examples/programs/router.json")) as file:
        made = json.load(file)
    made["counter_arrays"] = []
    made["pipelines"][0]["tables"][0]["with_counters"] = False
    info = raw(2, named(ROUTES, "ipv4_lpm") + raw(2, num(1, 1) + raw(2, b"ipv4.dst") + num(4, 32) + num(5, 3)) + raw(3, num(1, ROUTE)) + raw(3, num(1, DROP)) + num(8, 8192))
    info += raw(3, named(ROUTE, "route") + raw(2, num(1, 1) + raw(2, b"port") + num(4, 9)) + raw(2, num(1, 2) + raw(2, b"mac") + num(4, 48))) + raw(3, named(DROP, "drop"))
    batch = num(1, 1) + raw(3, num(2, 1))
    for net, length, port in NETS:
        call = num(1, ROUTE) + raw(4, num(2, 1) + raw(3, bytes([port]))) + raw(4, num(2, 2) + raw(3, NEXT))
        batch += raw(4, num(1, 1) + raw(2, raw(2, num(1, ROUTES) + raw(2, num(1, 1) + raw(4, raw(1, net.lstrip(b"\0") or b"\0") + num(2, length))) + raw(3, raw(1, call)))))
    head = bytes([2, 0, 0, 0, 0, 10, 2, 0, 0, 0, 0, 11, 8, 0, 0x45, 0, 0, 20, 0, 0, 0, 0, 64, 1, 0, 0, 10, 0, 0, 1])
    packets = [head + bytes([10, 1, 2, 3]), head + bytes([10, 1, 3, 3, 0xee]), head + bytes([9, 1, 2, 3]), head + bytes([200, 1, 2, 3]), head + bytes([10, 1, 2]), head[:14], head[:13], b"",
               head[:12] + b"\x08\x06" + head[14:] + bytes([10, 1, 2, 3]), head[:22] + b"\x00" + head[23:] + bytes([10, 1, 2, 3]),
               head[:14] + b"\xff" * 16 + bytes([10, 1, 0xff, 0xff, 1, 2, 3]), head[:14] + b"\xff" * 10 + b"\x00\x00" + b"\xff" * 4 + bytes([10, 1, 2, 0]),
               head[:14] + bytes(8) + b"\x01\x00\xab\xcd" + bytes(8)]
    tape = tape_of(info, made, batch + num(5, 2), packets)
    told = [routed(data) for data in packets]
    lines = calls_told(len(NETS)) + ["packet w0 %d 3 %s - - %s" % (place + 1, fate, hits) for place, (fate, hits) in enumerate(told)]
    return tape, lines + ["end 3 %d" % len(packets)]


def main():
    if sys.argv[1:] not in (["stdin"], ["stdout"]):
        sys.exit(__doc__)
    if sys.argv[1] == "stdin":
        print("# Packets of a program with an action for each primitive and operator (tools/rows/packet_rows.py).")
    rows = [(name, *row(packets)) for name, packets in PACKETS.items()]
    for name, tape, lines in rows + [("a router's packets", *router_row())]:
        if sys.argv[1] == "stdin":
            print("run\t%s\treplay --lockstep\t%s\t\t" % (name, tape.hex()))
        else:
            print("run\t%s\t0" % name)
            print("\n".join("> " + line for line in lines))


if __name__ == "__main__":
    main()
