#!/usr/bin/env python3
"""configs.py [PROGRAM] [MIB ...]

Times `PROGRAM check` (default: the built program) over configurations with 1, 2 and 4 MiB of JSON, the router of
examples/programs with one list in it made long, and prints for each list the time, its ratio to that of the first
size, and the peak memory as a multiple of the configuration's bytes. A ratio near that of the sizes shows that a
configuration is judged in time linear in its size. Each configuration is judged to the end of the rules, but for the
headers, of which there are more than 128 (L3): they are looked up by the rule before.

Then it puts short items of many kinds into lists of the program, the same one over and over and such with different names, and
members with different names into `next_tables`, as many as 4 MiB of JSON has, which most often are refused at once, and prints for
each list the item for which most memory was held; at most 12 times the bytes are meant, beside what the program takes by itself,
which is printed first.

Last it does the same with P4Infos of some 1 MiB: objects and parts of two bytes, numbers of one byte, objects with an id or with an id and a name,
annotations without a character or with one, references, parts with an id or an id and a name, and fields that are not known.

Of each time the least of three runs counts. Times and memory are of this machine.
"""
import itertools
import json
import sys

from common import built, bytes_field, fields, router, run, varint

LONGEST = 4 * 2**20


def with_items(program, beginning, items):
    """The program with these items at the beginning of a list or of an object's members."""
    place = program.index(beginning) + len(beginning)
    comma = b"" if program[place : place + 1] in (b"]", b"}") else b","
    return program[:place] + items + comma + program[place:]


def filled(program, beginning, item, size):
    """The program with items at the beginning of a list, so many that it has nearly so many bytes."""
    room = size - len(program)
    items, length = [], 0
    while True:
        next_item = item(len(items))
        if length + len(next_item) + 1 > room:
            break
        items.append(next_item)
        length += len(next_item) + 1
    return with_items(program, beginning, b",".join(items))


def repeated(program, beginning, item, size, names=(b"",)):
    """The same with one item over and over, or one with each of these names in turn."""
    count = (size - len(program)) // (len(item.replace(b"%s", names[0])) + 1)
    if b"%s" not in item:
        return with_items(program, beginning, (item + b",") * (count - 1) + item)
    front, back = item.split(b"%s")
    return with_items(program, beginning, front + (back + b"," + front).join(names[:count]) + back)


def transition(i):
    return b'{"type":"hexstr","value":"0x%04x","mask":"0xffff","next_state":"ipv4"}' % (i % 65536)


def source(i):
    return b'{"type":"field","value":["ipv4","ttl"]}'


def conditional(i):
    """One of a chain: each leads to the one before it."""
    valid = b'{"type":"expression","value":{"op":"d2b","left":null,"right":{"type":"field","value":["ipv4","$valid$"]}}}'
    return b'{"name":"c%d","id":0,"expression":%s,"true_next":%s,"false_next":null}' % (i, valid, b'"c%d"' % (i - 1) if i else b"null")


def header_type(i):
    return b'{"name":"t%d","id":0,"fields":[["f",8]]}' % i


def header(i):
    return b'{"name":"h%d","id":0,"header_type":"t%d","metadata":false}' % (i, i)


def with_headers(program, size):
    """As many bytes of header types as of headers."""
    return filled(filled(program, b'"header_types":[', header_type, size // 2), b'"headers":[', header, size)


def with_actions(info, program, size):
    """A table that names its first action over and over and its last one once, and a P4Info that refers to the last as often."""
    pairs = (size - len(program)) // 10
    program = program.replace(b'"action_ids":[', b'"action_ids":[' + b"0," * pairs, 1)
    program = program.replace(b'"actions":["route"', b'"actions":[' + b'"route",' * pairs + b'"route"', 1)
    longer = b""
    for number, value in fields(info):
        if number == 2:
            value += bytes_field(3, [ref for kind, ref in fields(value) if kind == 3][-1]) * pairs
        longer += bytes_field(number, value)
    return longer, program


def configs(info, program, size):
    """The name of each list, and a P4Info and a program in which it is long."""
    yield "transitions", info, filled(program, b'"transitions":[', transition, size)
    yield "inputs of a checksum", info, filled(program, b'"algo":"csum16","input":[', source, size)
    yield "conditionals", info, filled(program, b'"conditionals":[', conditional, size)
    yield "header types", info, filled(program, b'"header_types":[', header_type, size)
    yield "headers and their types", info, with_headers(program, size)
    yield "actions and references", *with_actions(info, program, size)


LISTS = ("header_types", "headers", "fields", "parsers", "parse_states", "parser_ops", "parameters", "transition_key", "transitions", "order", "errors", "actions",
         "runtime_data", "primitives", "value", "pipelines", "tables", "action_ids", "key", "target", "action_profiles", "conditionals", "calculations", "input",
         "checksums", "counter_arrays", "learn_lists", "meter_arrays", "register_arrays", "field_lists", "enums", "extern_instances", "force_arith")
SHORT = (b"0", b"null", b"true", b'""', b"[]", b"{}", b"[[0]]", b'{"a":1}', b'["",0]', b'["",8]', b'["a",8]', b'{"op":"","parameters":[]}',
         b'{"name":"","fields":[]}', b'{"type":"default","next_state":null}', b'"\\u0041"', b'1e9', b'{"name":"","bitwidth":8}', b'{"type":"bool","value":true}',
         b'{"type":"hexstr","value":"0x1"}', b'{"type":"field","value":["",""]}', b'{"op":"extract","parameters":[]}', b'{"match_type":"exact","target":["",""]}',
         b'{"name":"","header_type":""}', b'{"name":"","primitives":[],"runtime_data":[]}', b'{"name":"","size":1,"is_direct":false}')
NAMED = (b'"%s"', b'["%s",8]', b'["%s",0]', b'{"%s":0}', b'{"op":"%s","parameters":[]}', b'{"name":"%s","fields":[]}')
LETTERS = bytes(i for i in range(32, 127) if i not in b'"\\')
NAMES = [bytes(name) for name in itertools.product(LETTERS, repeat=3)]


def short(program):
    """The name of each list, an item, and a program in which the list has the item over and over, or with another name each time."""
    for name in LISTS:
        place = b'"%s":[' % name.encode()
        if place not in program:
            program = program.replace(b"{", b"{" + place + b"],", 1)
        for item in SHORT:
            yield name, item, repeated(program, place, item, LONGEST)
        for item in NAMED:
            yield name, item, repeated(program, place, item, LONGEST, NAMES)
    for name in ("next_tables", "default_entry", "expression"):
        for value in (b"null", b'""', b"0", b"[]", b"{}"):
            item = b'"%s":' + value
            yield name, item, repeated(program, b'"%s":{' % name.encode(), item, LONGEST, NAMES)
    room = LONGEST - len(program)
    yield "an expression", b"a tree of sums", program.replace(b'"expression":{', b'"expression":' + sums(room) + b',"unread":{', 1)
    yield "a name", b"escapes of one letter", program.replace(b'"name":"', b'"name":"' + b"\\u0041" * (room // 6), 1)


def sums(room):
    """The text of an expression of at most so many bytes, in which each side of a sum is a sum, down to single numbers."""
    text = b'{"type":"hexstr","value":"0x1"}'
    while 2 * len(text) + 64 < room:
        text = b'{"type":"expression","value":{"op":"+","left":%s,"right":%s}}' % (text, text)
    return text


OBJECTS = {"tables": 2, "actions": 3, "action profiles": 4, "counters": 5, "direct counters": 6, "controller headers": 9, "digests": 12}
HIGH = {2: 2, 3: 1, 4: 17, 9: 4}
PARTS = {"match fields": (2, 2), "references to actions": (2, 3), "parameters": (3, 2), "metadata": (9, 2)}
NUMBERS = {"ids of counters": (2, 7), "ids of tables": (4, 2)}


def preamble(kind, number, more=b""):
    """A preamble with an id of this kind and a name."""
    return bytes_field(1, b"\x08" + varint(HIGH[kind] * 2**24 + number) + bytes_field(2, NAMES[number]) + more)


def infos():
    """What a P4Info has over and over, and the P4Info: objects and parts of two bytes, numbers of one byte, objects that have an id, or an id
    and a name, and annotations without a character in a P4Info that breaks no rule."""
    size = LONGEST // 4
    for name, kind in OBJECTS.items():
        yield "empty " + name, bytes_field(kind, b"") * (size // 2)
    for name, (kind, part) in PARTS.items():
        yield "empty " + name, bytes_field(kind, preamble(kind, 1) + bytes_field(part, b"") * (size // 2))
    for name, (kind, number) in NUMBERS.items():
        yield name, bytes_field(kind, preamble(kind, 1) + bytes_field(number, b"\x01" * size))
    for name, kind in (("tables", 2), ("actions", 3)):
        ids = (bytes_field(kind, bytes_field(1, b"\x08" + varint(i + 1))) for i in range(size // 8))
        yield name + " with an id", b"".join(ids)
        named = (bytes_field(kind, preamble(kind, i + 1)) for i in range(size // 16))
        yield name + " with an id and a name", b"".join(named)
    for name, text in (("", b""), (" of a letter", b"a")):
        one = bytes_field(4, text)
        yield "annotations" + name, bytes_field(3, preamble(3, 1, one * (size // len(one))))
    for name, one in (("references with an id", bytes_field(3, b"\x08\x01")), ("match fields with an id", bytes_field(2, b"\x08\x01"))):
        yield name, bytes_field(2, preamble(2, 1) + one * (size // len(one)))
    for name, kind in (("parameters", 3), ("metadata", 9)):
        one = [bytes_field(2, b"\x08" + varint(i + 1) + bytes_field(2, NAMES[i]) + b"\x20\x08") for i in range(size // 16)]
        yield name + " with an id and a name", bytes_field(kind, preamble(kind, 1) + b"".join(one))
    yield "fields that are not known", bytes_field(3, preamble(3, 1) + b"\x78\x01" * (size // 2))
    yield "digests' types", b"".join(bytes_field(12, bytes_field(1, b"\x08" + varint(i + 1)) + bytes_field(2, b"")) for i in range(size // 10))


def judged(program, config):
    """The least time of three runs, the greatest peak, and the status."""
    seconds, peaks, status = 1e9, 0, 0
    for _ in range(3):
        took, status, peak = run(program, config, ("check",))
        if status not in (0, 8):
            sys.exit("%s: status %d" % (program, status))
        seconds, peaks = min(seconds, took), max(peaks, peak)
    return seconds, peaks, status


def main():
    program = sys.argv[1] if len(sys.argv) > 1 else built("p4switch")
    sizes = [min(LONGEST, int(float(word) * 2**20)) for word in sys.argv[2:]] or [LONGEST // 4, LONGEST // 2, LONGEST]
    parts = dict(fields(router()))
    plain = json.dumps(json.loads(parts[2]), separators=(",", ":")).encode()
    first = {}
    for size in sizes:
        for name, info, longer in configs(parts[1], plain, size):
            config = bytes_field(1, info) + bytes_field(2, longer)
            seconds, peak, status = judged(program, config)
            print("%s, %.2f MiB: %.3f s, %.2f times the first, peak %.1f times the bytes%s"
                  % (name, len(config) / 2**20, seconds, seconds / first.setdefault(name, seconds), peak * 1024 / len(config), " (refused)" if status else ""), flush=True)
    _, own, _ = judged(program, bytes_field(1, parts[1]) + bytes_field(2, plain))
    print("the program by itself: %.1f MiB" % (own / 1024))
    most = {}
    for name, item, longer in short(plain):
        config = bytes_field(1, parts[1]) + bytes_field(2, longer)
        _, status, peak = run(program, config, ("check",))
        if status not in (0, 8):
            sys.exit("%s: status %d" % (program, status))
        most[name] = max(most.get(name, (0, "")), ((peak - own) * 1024 / len(config), item.decode()))
    for name, (times, item) in most.items():
        print("short items in %s, 4 MiB: peak at most %.1f times the bytes beside that, for %s (at most 12 are meant)" % (name, times, item), flush=True)
    for name, info in infos():
        config = bytes_field(1, info) + bytes_field(2, plain)
        _, status, peak = run(program, config, ("check",))
        if status not in (0, 8):
            sys.exit("%s: status %d" % (program, status))
        print("%s in a P4Info, %.1f MiB: peak %.1f times the bytes beside that" % (name, len(config) / 2**20, (peak - own) * 1024 / len(config)), flush=True)


if __name__ == "__main__":
    main()
