#!/usr/bin/env python3
"""copy_rows.py stdin|stdout

Prints rows of crates/switch_rows in which packets are copied by multicast groups, and in which such groups are written and read; or
what is to be answered to them. What the packets become is computed here over nothing of the switch: a packet is a dictionary of fields,
of which each copy has one of its own.

The program has a header of eight bytes: `to`, by which a table of ingress chooses an action, `n`, `rid`, `port`, and `sum`, a checksum
of those before it. In egress a table over `egress_rid` and then one over `egress_port`, which counts, have an action each. So an
instance says what becomes of a copy, and a port that it hits twice.
"""
import json
import sys

from packet_rows import field, literal, named, num, raw, record, word_sum, wrapped

CPU, DROP = 255, 511
INSERT, MODIFY, DELETE = 1, 2, 3
WRITE, READ, SET, STREAM = 1, 2, 3, 5
ALREADY_EXISTS, NOT_FOUND, INVALID_ARGUMENT, RESOURCE_EXHAUSTED, UNIMPLEMENTED = 6, 5, 3, 8, 12

# ---- the program

STANDARD = [["ingress_port", 9], ["egress_spec", 9], ["egress_port", 9], ["packet_length", 32], ["parser_error", 32], ["checksum_error", 1],
            ["mcast_grp", 16], ["egress_rid", 16]]
HEAD = [["to", 8], ["n", 8], ["rid", 16], ["port", 16], ["sum", 16]]
# So many headers of 256 bytes, by which a short packet becomes one of nearly 10,240 bytes.
PAD, PADS, PAD_BYTES = [["f%d" % place, 128] for place in range(16)], 39, 256
LONGEST = 10_240
WAYS, BY_INSTANCE, BY_PORT, HITS, CELLS, SEEN, PACKET_IN = 0x02000001, 0x02000002, 0x02000003, 0x13000001, 0x12000001, 0x17000001, 0x04000001
CELL_COUNT, IN_BITS = 4, 16


def assign(name, value):
    return {"op": "assign", "parameters": [field(name), value]}


def of_header(op, name):
    return {"op": op, "parameters": [{"type": "header", "value": name}]}


def pad_names(pads):
    return ["p%d" % place for place in range(pads)]


GIVEN, DROPPED = {"type": "runtime_data", "value": 0}, of_header("mark_to_drop", "standard_metadata")
SPEC, RID, GROUP = "standard_metadata.egress_spec", "standard_metadata.egress_rid", "standard_metadata.mcast_grp"
COUNTED = {"op": "count", "parameters": [{"type": "counter_array", "value": "cells"}, field("h.n")]}
LEARNT = {"op": "generate_digest", "parameters": [literal(1), literal(1)]}

# Each action by its name: the width of its parameter or none, and its primitives. Where nothing copies, `egress_rid` stays what `send`
# makes it; `copy` sets it and the port too, which no copy sees.
ACTIONS = {
    "send": (9, [assign(SPEC, GIVEN), assign(RID, literal(1))]),
    "copy": (16, [assign(SPEC, literal(4)), assign(RID, literal(1)), assign(GROUP, GIVEN)]),
    "copy_though_dropped": (16, [DROPPED, assign(GROUP, GIVEN)]),
    "dropped_behind_copy": (16, [assign(GROUP, GIVEN), DROPPED]),
    "copy_and_learn": (16, [assign(GROUP, GIVEN), LEARNT]),
    "stamp": (None, [assign("h.rid", field(RID)), assign("h.port", field("standard_metadata.egress_port"))]),
    "drop": (None, [DROPPED]),
    "grow": (None, []),
    "shrink": (None, [of_header("remove_header", "h")]),
    "stray": (9, [assign(SPEC, GIVEN)]),
    "count_up": (None, [COUNTED, assign("h.n", wrapped("+", field("h.n"), literal(1)))]),
}
IDS = {name: 0x01000001 + place for place, name in enumerate(ACTIONS)}
TABLES: list[tuple] = [
    ("ways", WAYS, "h.to", 8, list(ACTIONS)[:5], None),
    ("by_instance", BY_INSTANCE, RID, 16, list(ACTIONS)[5:10], "by_port"),
    ("by_port", BY_PORT, "standard_metadata.egress_port", 9, ["count_up"], None)]


def json_table(place, name, key, actions, following):
    return {"name": name, "id": place, "key": [{"match_type": "exact", "name": key, "target": key.split("."), "mask": None}], "type": "simple",
            "max_size": 64, "with_counters": name == "by_port", "support_timeout": False, "action_ids": [list(ACTIONS).index(it) for it in actions],
            "actions": actions, "base_default_next": following, "next_tables": dict.fromkeys(actions, following)}


def program(pads):
    """The program, of which the action `grow` adds so many headers."""
    types = [("standard_metadata_t", STANDARD), ("h_t", HEAD), ("pad_t", PAD)]
    headers = [("standard_metadata", "standard_metadata_t"), ("h", "h_t")] + [(name, "pad_t") for name in pad_names(pads)]
    grows = [of_header("add_header", name) for name in pad_names(pads)]
    tables = [json_table(place, name, key, actions, following) for place, (name, _, key, _, actions, following) in enumerate(TABLES)]
    valid = wrapped("d2b", None, {"type": "field", "value": ["h", "$valid$"]})
    end = {"type": "default", "value": None, "mask": None, "next_state": None}
    return {
        "header_types": [{"name": name, "id": place, "fields": fields} for place, (name, fields) in enumerate(types)],
        "headers": [{"name": name, "id": place, "header_type": kind, "metadata": place == 0} for place, (name, kind) in enumerate(headers)],
        "parsers": [{"name": "parser", "id": 0, "init_state": "start", "parse_states": [
            {"name": "start", "id": 0, "parser_ops": [{"op": "extract", "parameters": [{"type": "regular", "value": "h"}]}], "transition_key": [],
             "transitions": [end]}]}],
        "deparsers": [{"name": "deparser", "id": 0, "order": ["h"] + pad_names(pads), "primitives": []}],
        "actions": [{"name": name, "id": place, "runtime_data": [{"name": "it", "bitwidth": width}] if width else [],
                     "primitives": grows if name == "grow" else primitives}
                    for place, (name, (width, primitives)) in enumerate(ACTIONS.items())],
        "pipelines": [{"name": "ingress", "id": 0, "init_table": "ways", "tables": tables[:1], "action_profiles": [], "conditionals": []},
                      {"name": "egress", "id": 1, "init_table": "by_instance", "tables": tables[1:], "action_profiles": [], "conditionals": []}],
        "counter_arrays": [{"name": "cells", "id": 0, "size": CELL_COUNT, "is_direct": False}, {"name": "hits", "id": 1, "is_direct": True, "binding": "by_port"}],
        "learn_lists": [{"name": "seen", "id": 1, "elements": [field("h.to"), field("h.n")]}],
        "calculations": [{"name": "head", "id": 0, "algo": "csum16", "input": [field("h." + name) for name, _ in HEAD[:-1]]}],
        "checksums": [{"name": "sum", "id": 0, "target": ["h", "sum"], "type": "generic", "calculation": "head", "verify": False, "update": True, "if_cond": valid}],
        "errors": [["NoError", 0], ["PacketTooShort", 1], ["NoMatch", 2]],
    }


def p4info():
    tables = [raw(2, named(ident, name) + raw(2, num(1, 1) + raw(2, key.encode()) + num(4, width) + num(5, 2)) + b"".join(raw(3, num(1, IDS[it])) for it in actions)
                  + (num(7, HITS) if name == "by_port" else b"") + num(8, 64)) for name, ident, key, width, actions, _ in TABLES]
    actions = [raw(3, named(IDS[name], name) + (raw(2, num(1, 1) + raw(2, b"it") + num(4, width)) if width else b"")) for name, (width, _) in ACTIONS.items()]
    counters = raw(5, named(CELLS, "cells") + raw(2, num(1, 3)) + num(3, CELL_COUNT)) + raw(6, named(HITS, "hits") + raw(2, num(1, 3)) + num(3, BY_PORT))
    header = raw(9, named(PACKET_IN, "packet_in") + raw(2, num(1, 1) + raw(2, b"mark") + num(4, IN_BITS)))
    return b"".join(tables + actions) + counters + header + raw(12, named(SEEN, "seen"))


def config(pads):
    return raw(1, p4info()) + raw(2, json.dumps(program(pads), separators=(",", ":")).encode())


# What the tables hold, by the key: an action, and what it is given. Instance 0 and port 2 hit nothing.
ENTRIES: dict[str, dict] = {
    "ways": {1: ("copy", 7), 2: ("copy", 8), 3: ("copy", 9), 4: ("copy_though_dropped", 7), 5: ("dropped_behind_copy", 7), 6: ("send", 4), 7: ("copy_and_learn", 7),
             10: ("copy", 10), 11: ("copy", 11), 12: ("copy", 12), 13: ("copy", 13), 14: ("copy", 14), 15: ("copy", 65_535), 16: ("copy", 16), 17: ("copy", 17),
             18: ("copy", 18), 19: ("copy", 19), 20: ("send", DROP)},
    "by_instance": {1: ("stamp", None), 2: ("drop", None), 3: ("grow", None), 4: ("shrink", None), 5: ("stray", 6)},
    "by_port": {1: ("count_up", None), 4: ("count_up", None), CPU: ("count_up", None)},
}
# An entry's sequence number by its table's id and its key.
SEQUENCE = {place: at + 1 for at, place in enumerate((ident, key) for name, ident, *_ in TABLES for key in ENTRIES[name])}
# Groups by their ids, of pairs of port and instance. What is copied by the ids 8 and 9 has no copy: 8 has no replica, and 9 is not there.
GROUPS = {
    65_535: [(port, instance) for port in range(10, 26) for instance in (1, 0)],
    7: [(1, 1), (3, 2), (1, 0), (CPU, 1), (3, 1), (2, 0), (CPU, 0), (1, 5), (510, 65_535)],
    8: [], 10: [(5, 2), (6, 1)], 11: [(CPU, 4)], 12: [(5, 2), (CPU, 4)], 13: [(CPU, 4), (5, 2)], 14: [(CPU, 4), (5, 4), (5, 1)],
    16: [(2, 3)], 17: [(2, 3), (5, 2)], 18: [(5, 2), (2, 3)], 19: [(2, 3), (2, 0)],
}


# ---- what becomes of a packet

class Packet:
    """The fields of a packet, its headers that are valid, and the bytes behind them. Those of the program's pads are all 0."""

    def __init__(self, pads, data):
        self.pads, self.is_grown, self.valid, self.rest = pads, False, {"standard_metadata"}, data
        self.fields = dict.fromkeys(["standard_metadata." + name for name, _ in STANDARD] + ["h." + name for name, _ in HEAD], 0)
        if len(data) >= 8:
            self.valid.add("h")
            number, self.rest = int.from_bytes(data[:8], "big"), data[8:]
            for name, width in reversed(HEAD):
                self.fields["h." + name], number = number % 2 ** width, number >> width

    def copy(self):
        other = Packet(self.pads, b"")
        other.valid, other.fields, other.rest = set(self.valid), dict(self.fields), self.rest
        return other

    def get(self, name):
        return self.fields[name] if name.split(".")[0] in self.valid else 0

    def set(self, name, value):
        if name.split(".")[0] in self.valid:
            self.fields[name] = value

    def written(self):
        head = b"".join(self.get("h." + name).to_bytes(width // 8, "big") for name, width in HEAD[:-1])
        self.set("h.sum", int.from_bytes(word_sum(head), "big"))
        head += self.get("h.sum").to_bytes(2, "big")
        return (head if "h" in self.valid else b"") + bytes(self.pads * PAD_BYTES if self.is_grown else 0) + self.rest


def act(packet, action, given, hits):
    """Does what an action means. Whether it named the digest is answered."""
    if action == "send":
        packet.set(SPEC, given)
        packet.set(RID, 1)
    elif action in ("copy", "copy_though_dropped", "dropped_behind_copy", "copy_and_learn"):
        packet.set(SPEC, DROP if action in ("copy_though_dropped", "dropped_behind_copy") else 4 if action == "copy" else packet.get(SPEC))
        packet.set(RID, 1 if action == "copy" else packet.get(RID))
        packet.set(GROUP, 0 if action == "dropped_behind_copy" else given)
    elif action == "stamp":
        packet.set("h.rid", packet.get(RID))
        packet.set("h.port", packet.get("standard_metadata.egress_port"))
    elif action == "drop":
        packet.set(SPEC, DROP)
        packet.set(GROUP, 0)
    elif action == "grow":
        packet.is_grown = True
    elif action == "shrink":
        packet.valid.discard("h")
    elif action == "stray":
        packet.set(SPEC, given)
    elif action == "count_up":
        if packet.get("h.n") < CELL_COUNT:
            hits.append("@%d" % packet.get("h.n"))
        packet.set("h.n", (packet.get("h.n") + 1) % 256)
    return action == "copy_and_learn"


def look_up(packet, tables, hits):
    """Walks through tables, and answers whether the digest was named."""
    learnt = False
    for name, ident, key, *_ in tables:
        found = ENTRIES[name].get(packet.get(key))
        if found:
            hits.append("%d:%d" % (ident, SEQUENCE[ident, packet.get(key)]))
            learnt = act(packet, *found, hits) or learnt
    return learnt


def packet_in(data):
    mark = int.from_bytes(data[:2], "big")
    payload = data[2:]
    return (raw(1, payload) if payload else b"") + raw(2, num(1, 1) + raw(2, mark.to_bytes(max(1, (mark.bit_length() + 7) // 8), "big")))


def through_egress(packet, hits):
    """A packet to the port in `egress_spec` goes through egress: how it ends, what leaves at a port and what goes to a controller."""
    port = packet.get(SPEC)
    packet.set("standard_metadata.egress_port", port)
    look_up(packet, TABLES[1:], hits)
    if packet.get(SPEC) == DROP:
        return "drop1", [], []
    data = packet.written()
    if len(data) > LONGEST:
        return "drop3", [], []
    if port != CPU:
        return "sent", ["%d:%s" % (port, data.hex() or ".")], []
    return ("drop4", [], []) if len(data) < IN_BITS // 8 else ("sent", [], ["0:" + packet_in(data).hex()])


def become(groups, packet):
    """The line of a packet behind its number of steps, and what it hit."""
    hits: list[str] = []
    sample = "-"
    if look_up(packet, TABLES[:1], hits):
        members = b"".join(raw(1, raw(1, bytes([packet.get("h." + name)]))) for name in ("to", "n"))
        sample = "%d:%s" % (SEEN, raw(5, members).hex())
    group, outputs, packet_ins, fates = packet.get(GROUP), [], [], []
    for port, instance in groups.get(group, []):
        copy = packet.copy()
        copy.set(SPEC, port)
        copy.set(RID, instance)
        fate, left, told = through_egress(copy, hits)
        fates, outputs, packet_ins = fates + [fate], outputs + left, packet_ins + told
    if group == 0:
        fate, outputs, packet_ins = ("drop1", [], []) if packet.get(SPEC) == DROP else through_egress(packet, hits)
    else:
        fate = "sent" if "sent" in fates else (fates + ["drop1"])[0]
    return "%s %s %s %s %s" % (fate, ",".join(outputs) or "-", ",".join(packet_ins) or "-", sample, ",".join(hits) or "-"), hits


# ---- updates, and why they are refused

def group_entity(ident, replicas):
    parts = b"".join(raw(2, num(1, port) + num(2, instance)) for port, instance in replicas)
    return raw(9, raw(1, num(1, ident) + parts))


def table_entity(ident, width, key, action, given):
    params = raw(4, num(2, 1) + raw(3, given.to_bytes(max(1, (given.bit_length() + 7) // 8), "big"))) if given is not None else b""
    value = key.to_bytes(max(1, (key.bit_length() + 7) // 8), "big")
    return raw(2, num(1, ident) + raw(2, num(1, 1) + raw(2, raw(1, value))) + raw(3, raw(1, num(1, IDS[action]) + params)))


def entry_updates():
    """An INSERT of each entry, and of the digest entry."""
    entities = [raw(12, num(1, SEEN))] + [table_entity(ident, width, key, *does) for name, ident, _, width, *_ in TABLES for key, does in ENTRIES[name].items()]
    return [raw(4, num(1, INSERT) + raw(2, entity)) for entity in entities]


def group_update(kind, ident, replicas=()):
    return raw(4, num(1, kind) + raw(2, group_entity(ident, replicas)))


def rows_of(groups):
    return sum(1 + len(replicas) for replicas in groups.values())


def cause(groups, others, rows, kind, ident, replicas):
    """The code and the rule by which an update of a group is refused, where the rest of the planes takes so many rows; or none."""
    if not 1 <= ident <= 65_535:
        return INVALID_ARGUMENT, 6
    if kind != DELETE and (len(replicas) > 32 or len(set(replicas)) < len(replicas) or any(port > 510 or instance > 65_535 for port, instance in replicas)):
        return INVALID_ARGUMENT, 9
    if kind == INSERT and ident in groups:
        return ALREADY_EXISTS, 10
    if kind != INSERT and ident not in groups:
        return NOT_FOUND, 10
    left = rows - others - rows_of({other: of for other, of in groups.items() if other != ident})
    if kind != DELETE and (len(groups) + (kind == INSERT) > 1_024 or 1 + len(replicas) > left):
        return RESOURCE_EXHAUSTED, 12
    return None


# ---- runs

class Run:
    """A tape that is made, and the lines that are due. Lane 0 is the primary. The program has so many pads, and the switch so many rows."""

    def __init__(self, pads=0, rows=16_384):
        self.tape, self.journal, self.packets, self.cells, self.hits = [], [], [], {}, {}
        self.pads, self.made, self.rows, self.planes, self.has_entries = pads, config(pads), rows, [{}], False
        self.calls, self.steps, self.sent, self.out = 0, 0, 0, 0
        self.call(STREAM, raw(1, num(1, 1) + raw(3, num(2, 1))), "arbitrate 0", "-", "notice 0 0a0808011a0210012200")

    def call(self, method, message, step, answer, *notices):
        """A call that makes a step or none, and its answer behind its number of steps."""
        self.calls += 1
        self.tape.append(record(1, 0, bytes([method]) + message))
        if step:
            self.steps += 1
            self.journal.append("step %d 0 %d %s" % (self.steps, self.calls, step))
        self.journal += [*notices, "reply 0 %d %d %s" % (self.calls, self.steps, answer if " " in answer else "0 " + answer)]

    def config(self, action, word, made=b""):
        self.call(SET, num(1, 1) + raw(3, num(2, 1)) + num(4, action) + (raw(5, made) if made else b""), word + " 0", ".")

    def commit(self):
        self.config(3, "commit", self.made)

    def save(self):
        self.config(2, "save", self.made)
        self.planes.append({})

    def commit_saved(self):
        self.config(4, "commit")
        self.planes = self.planes[-1:]

    def batch(self, groups, updates=()):
        """One atomic Write of updates that all are accepted, and of an INSERT of each group."""
        written = [group_update(INSERT, ident, replicas) for ident, replicas in groups.items()]
        self.planes[-1].update(groups)
        self.has_entries = self.has_entries or bool(updates)
        self.call(WRITE, num(1, 1) + raw(3, num(2, 1)) + b"".join([*written, *updates]) + num(5, 2), "batch %d" % len([*written, *updates]), ".")

    def write(self, kind, ident, replicas=()):
        """A Write of one group."""
        groups = self.planes[-1]
        refused = cause(groups, sum(map(rows_of, self.planes[:-1])), self.rows, kind, ident, replicas)
        message = num(1, 1) + raw(3, num(2, 1)) + group_update(kind, ident, replicas)
        if refused:
            error = num(1, refused[0]) + raw(3, b"p4switch") + num(4, refused[1])
            status = num(1, 2) + raw(3, raw(1, b"type.googleapis.com/p4.v1.Error") + raw(2, error))
            self.call(WRITE, message, None, "2 " + status.hex())
            return
        groups.pop(ident, None)
        groups.update({ident: list(replicas)} if kind != DELETE else {})
        self.call(WRITE, message, "change 1", ".")

    def read(self, *idents):
        """A Read of these groups, each by its id, 0 for all."""
        groups = sorted(self.planes[-1].items())
        found = [group_entity(*group) for ident in idents for group in groups if ident in (0, group[0])]
        self.call(READ, num(1, 1) + b"".join(raw(2, group_entity(ident, [])) for ident in idents), None, b"".join(raw(1, it) for it in found).hex() or ".")

    def read_refused(self, *entities):
        self.call(READ, num(1, 1) + b"".join(raw(2, entity) for entity in entities), None, "%d %s" % (UNIMPLEMENTED, num(1, UNIMPLEMENTED).hex()))

    def become(self, who, number, data):
        told, hits = become(self.planes[0], Packet(self.pads, data))
        for hit in hits:
            kept, key = (self.cells, int(hit[1:])) if hit[0] == "@" else (self.hits, int(hit.split(":")[1]))
            packets, octets = kept.get(key, (0, 0))
            kept[key] = packets + 1, octets + len(data)
        return "packet %s %d %d %s" % (who, number, self.steps, told)

    def packet(self, data):
        self.sent += 1
        self.tape.append(record(2, 0, b"\x00\x07" + data))
        self.packets.append(self.become("w0", self.sent, data))

    def packet_out(self, data):
        """A packet of the controller, which its lane's number counts."""
        self.call(STREAM, raw(2, raw(1, data)), None, "-")
        self.out += 1
        self.packets.append(self.become("c0", self.out, data))

    def done(self):
        packets = [it for it in self.packets if it[7] == "w"] + [it for it in self.packets if it[7] == "c"]
        counts = ["count %d %d %d %d" % (SEQUENCE[BY_PORT, key], BY_PORT, *self.hits.get(SEQUENCE[BY_PORT, key], (0, 0))) for key in ENTRIES["by_port"]]
        cells = ["cell %d %d %d %d %d" % (index, CELLS, index, *self.cells[index]) for index in sorted(self.cells)]
        tape = b"P4TAPE1\n" + b"".join(self.tape) + record(0, 0, b"")
        return tape, self.journal + packets + (counts if self.has_entries else []) + cells + ["end %d %d" % (self.steps, len(packets))]


def head(to, n=0, rest=b""):
    return bytes([to, n, 0x11, 0x11, 0x22, 0x22, 0x33, 0x33]) + rest


def copied():
    """Each way to copies and past them, and each way in which copies end."""
    run = Run()
    run.commit()
    run.batch(GROUPS, entry_updates())
    for data in [head(to, 2, b"\xab\xcd") for to in (1, 2, 3, 4, 5, 6, 7, 20, 10)] + [head(to) for to in (11, 12, 13, 14, 15)] + [head(11, 0, b"\x01"), head(11, 0, b"\x00\x7f"), b"\x01"]:
        run.packet(data)
    run.packet_out(head(1, 3))
    run.write(DELETE, 7)
    run.packet(head(1))
    run.write(INSERT, 7, [(3, 0), (2, 1)])
    run.packet(head(1))
    run.write(MODIFY, 7, [(2, 0)])
    run.packet(head(1))
    return run.done()


def too_long():
    """Copies that become too long, by one byte, beside others that do not."""
    run, rest = Run(PADS), bytes(LONGEST - PADS * PAD_BYTES - 8)
    run.commit()
    run.batch(GROUPS, entry_updates())
    run.packet(head(16, 0, rest))
    for to in (16, 17, 18, 19):
        run.packet(head(to, 0, rest + b"\x01"))
    return run.done()


def read_back():
    """Groups that are written one by one, and what a Read answers."""
    run = Run()
    run.commit()
    run.read(0)
    for ident in (300, 2, 65_535):
        run.write(INSERT, ident, [(ident % 500, 0), (1, ident)])
    run.read(0)
    run.write(MODIFY, 300, [(0, 0), (510, 65_535), (1, 0)])
    run.write(MODIFY, 2)
    run.read(300, 7, 2)
    run.read(7)
    run.write(DELETE, 300, [(511, 0)] * 33)
    run.write(DELETE, 300)
    run.read(65_535, 0)
    run.read_refused(group_entity(2, []), raw(9, b""))
    return run.done()


def both_planes():
    """The rows of the active plane and of one that is saved stand beside one another, and those of the active one are given back."""
    run = Run(rows=1_024)
    run.commit()
    run.batch({ident: [(port, 0) for port in range(31)] for ident in range(1, 32)})
    run.write(INSERT, 32, [(port, 0) for port in range(30)])
    run.write(MODIFY, 1, [(port, 1) for port in range(31)])
    run.save()
    run.read(0)
    run.write(INSERT, 40, [(1, 0)])
    run.write(INSERT, 40)
    run.write(MODIFY, 40, [(1, 0)])
    run.write(INSERT, 41)
    run.commit_saved()
    run.write(MODIFY, 40, [(1, 0)])
    run.write(INSERT, 41)
    run.read(0)
    return run.done()


ROWS = [("copies of a packet", "replay --lockstep", copied), ("copies that become too long", "replay --lockstep", too_long),
        ("multicast groups read", "replay --lockstep", read_back), ("rows of multicast groups in both planes", "replay --lockstep --rows 1024", both_planes)]


def main():
    if sys.argv[1:] not in (["stdin"], ["stdout"]):
        sys.exit(__doc__)
    if sys.argv[1] == "stdin":
        print("# Packets that are copied by multicast groups, and such groups written and read (tools/rows/copy_rows.py).")
    for name, words, make in ROWS:
        tape, lines = make()
        if sys.argv[1] == "stdin":
            print("run\t%s\t%s\t%s\t\t" % (name, words, tape.hex()))
        else:
            print("run\t%s\t0" % name)
            print("\n".join("> " + line for line in lines))


if __name__ == "__main__":
    main()
