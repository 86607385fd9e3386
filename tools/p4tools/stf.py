"""`p4tape from-stf`: a test of p4c's suite, in its simple test framework, as a scenario. A line of such a test that has no
line of a scenario is named, and left out."""
import re

from p4tools.captures import give, path_from
from p4tools.entities import EXACT, LPM, OPTIONAL, RANGE, TERNARY, spell_replica
from p4tools.files import names_of, tell, text_of
from p4tools.names import part
from p4tools.trouble import Trouble
from p4tools.values import MAC, canonical, spell_value
from p4tools.words import cut_list

NOT_SERVED = {
    "mirroring_add": "clone sessions are not served", "mirroring_add_mc": "clone sessions are not served",
    "mirroring_delete": "clone sessions are not served", "mirroring_get": "clone sessions are not served",
    "register_read": "registers are not served", "register_write": "registers are not served",
    "register_reset": "registers are not served", "meter_set_rates": "meters are not served",
    "meter_get_rates": "meters are not served", "reset_counter": "counters are not set by a controller"}
DONE, LEFT_OUT = 0, 1
DIGITS = {"0x": 4, "0b": 1, "0o": 3}


def add_words(commands):
    """The words of `p4tape from-stf`."""
    parser = commands.add_parser("from-stf", help="a scenario of a test in p4c's simple test framework; exit status 1 where "
                                 "something of it was left out")
    parser.add_argument("file", metavar="FILE.stf")
    parser.add_argument("--program", metavar=("P4INFO", "JSON"), nargs=2, required=True, help="the program that is tested")
    parser.add_argument("-o", "--output", metavar="OUT.scenario", help="the scenario (standard output)")
    parser.set_defaults(run=_run)


def _run(given):
    folder = given.output.rpartition("/")[0] if given.output else ""
    files = " ".join(path_from(folder, it) for it in given.program)
    made = Made(names_of(given.program[0]))
    for number, line in enumerate(text_of(given.file).splitlines(), 1):
        made.take(number, line)
    for number, why in made.left_out:
        tell(f"{given.file}:{number}: left out: {why}")
    head = [f"# Made of {given.file} by p4tape from-stf.", "queued", made.strict(),
            "arbitrate election=1", f"config verify_and_commit {files}", "expect OK"]
    give("\n".join(head + made.lines) + "\n", given.output)
    return LEFT_OUT if made.left_out else DONE


class Made:
    """The lines of a scenario of those of a test, by the names of its program; `left_out` are the numbers of the
    lines that have none, each with the reason."""

    def __init__(self, names):
        self.names = names
        self.lines, self.left_out, self.any_ports = [], [], []
        self.keys, self.entries, self.nodes, self.groups = [], {}, [], {}

    def strict(self):
        """All that leaves is to be expected, as in the framework, but where it says that anything may leave."""
        return "strict" + f" except={','.join(map(str, self.any_ports))}" * bool(self.any_ports)

    def take(self, number, line):
        """Takes a line of the test."""
        words = re.sub(r"#.*", "", line).split()
        if not words:
            return
        try:
            verb = words[0].lower()
            if verb not in VERBS:
                raise Trouble(NOT_SERVED.get(verb, f"{words[0]} is no word of a test"))
            self.lines += VERBS[verb](self, words[1:])
        except Trouble as trouble:
            self.left_out.append((number, f"{' '.join(words)[:60]}: {trouble}"))
            self.lines.append(f"# line {number} is left out: {' '.join(words)}")

    # Packets.

    def packet(self, words):
        """`packet PORT HEX`"""
        port, digits = _number(words[:1], "a port"), "".join(words[1:])
        if len(digits) % 2 or not re.fullmatch("[0-9a-fA-F]*", digits):
            raise Trouble("its bytes are not an even number of hex digits")
        return [f"packet port={port} {digits or '.'}"]

    def expect(self, words):
        """`expect PORT [HEX with * for a digit] [$]`: without `$` the packet may go on"""
        port, digits = _number(words[:1], "a port"), "".join(words[1:])
        if not digits:
            self.any_ports.append(port)
            return []
        return [f"expect port={port} " + (digits[:-1] if digits.endswith("$") else digits + "..")]

    def nothing(self, _):
        """`wait`: a replay waits for nothing; `no_packet`: `strict` says it"""
        return []

    # Tables.

    def add(self, words):
        """`add TABLE [PRIORITY] FIELD:VALUE .. ACTION(..) [= NAME]`"""
        text, _, name = " ".join(words).partition(" = ")
        table, rest = self._table(text.split())
        priority = int(rest.pop(0)) if rest and rest[0].isdigit() else None
        matches = []
        while rest and ":" in rest[0].partition("(")[0]:
            matches += self._match(table, rest.pop(0))
        key = " ".join([table.preamble.name, *matches])
        ranked = any(it.match_type in (TERNARY, RANGE, OPTIONAL) for it in table.match_fields)
        # (P4Runtime's priorities begin at 1, those of a test at 0)
        key += f" priority={(priority or 0) + 1}" * ranked
        self.keys.append(key)
        if name.strip():
            self.entries[name.strip()] = key
        return [f"insert {key} {self._action(' '.join(rest))}", "expect OK"]

    def setdefault(self, words):
        """`setdefault TABLE ACTION(..)`"""
        table, rest = self._table(words)
        return [f"modify {table.preamble.name} default {self._action(' '.join(rest))}", "expect OK"]

    def remove(self, words):
        """`remove all`"""
        if words != ["all"]:
            raise Trouble("only `remove all` is taken")
        keys, self.keys, self.entries = self.keys, [], {}
        return [line for key in keys for line in (f"delete {key}", "expect OK")]

    def _table(self, words):
        if not words:
            raise Trouble("a table is missing")
        return self.names.object("table", words[0]), words[1:]

    def _match(self, table, word):
        """FIELD=VALUE of FIELD:VALUE; nothing where the value is any."""
        name, _, value = word.partition(":")
        field = part(f"match field of {table.preamble.name}", name, table.match_fields)
        width, kind = field.bitwidth, field.match_type
        if kind == RANGE:
            low, high = (_plain(it) for it in re.split(r"->|\.\.", value)) if re.search(r"->|\.\.", value) else [_plain(value)] * 2
            return [f"{field.name}={_spelled(low, width)}..{_spelled(high, width)}"]
        number, mask = masked(value, width)
        if kind in (EXACT, OPTIONAL) and mask == (1 << width) - 1:
            return [f"{field.name}={_spelled(number, width)}"]
        if not mask and kind != EXACT:
            return []
        if kind == TERNARY:
            return [f"{field.name}=0x{number & mask:x}&&&0x{mask:x}"]
        length = mask.bit_count()
        if kind == LPM and mask == (1 << width) - (1 << width - length):
            return [f"{field.name}={_spelled(number & mask, width)}/{length}"]
        raise Trouble(f"{field.name} is matched {'exactly' if kind != LPM else 'by a prefix'}, which {value} is not")

    def _action(self, text):
        """ACTION(NAME=VALUE, ..) of ACTION(NAME:VALUE, ..) or ACTION(VALUE, ..)"""
        found = re.fullmatch(r"([^()\s]+)\s*(?:\((.*)\))?", text.strip())
        if not found:
            raise Trouble(f"{text} is no action")
        action = self.names.object("action", found[1])
        params = list(action.params)
        items = []
        for place, item in enumerate(cut_list((found[2] or "").replace(" ", ""))):
            name, colon, value = ("", "", item) if MAC.fullmatch(item) else _named(item)
            if not colon and place >= len(params):
                raise Trouble(f"{action.preamble.name} has {len(params)} parameters")
            param = part(f"parameter of {action.preamble.name}", name, params) if colon else params[place]
            items.append(f"{param.name}={_spelled(_plain(value), param.bitwidth)}")
        return f"{action.preamble.name}({', '.join(items)})"

    # Counters.

    def check_counter(self, words):
        """`check_counter COUNTER(INDEX) packets|bytes == N`, also of an entry that was named as it was added"""
        found = re.fullmatch(r"([^()\s]+)\s*\(\s*\$?([^()\s]*)\s*\)\s*(packets|bytes)?\s*([=!<>]+)?\s*(\w+)?", " ".join(words))
        if not found:
            raise Trouble("write check_counter COUNTER(INDEX) packets == N")
        name, index, what, sign, number = found.groups()
        if sign != "==" or number is None:
            raise Trouble("only == is compared")
        if index in self.entries:
            entity = f"direct_counter_entry {self.entries[index]}"
        elif index.isdigit():
            entity = f"counter_entry {self.names.object('counter', name).preamble.name} index={index}"
        else:
            raise Trouble(f"no entry was added as {index}")
        return [f"read {entity}", f"expect read {entity} {what or 'packets'}={_plain(number)}"]

    # Multicast groups.

    def mc_create(self, words):
        """`mc_mgrp_create GROUP`"""
        self.groups[_number(words[:1], "a group")] = None
        return []

    def mc_node(self, words):
        """`mc_node_create INSTANCE PORT ..`"""
        self.nodes.append((_number(words[:1], "an instance"), [_number([it], "a port") for it in words[1:]]))
        return []

    def mc_join(self, words):
        """`mc_node_associate GROUP NODE`, nodes by their order from 0"""
        group, node = _number(words[:1], "a group"), _number(words[1:2], "a node")
        if group not in self.groups or node >= len(self.nodes):
            raise Trouble("such a group or node was not created")
        verb = "modify" if self.groups[group] else "insert"
        instance, ports = self.nodes[node]
        self.groups[group] = (self.groups[group] or []) + [spell_replica(port, instance) for port in ports]
        return [f"{verb} multicast {group} replicas {', '.join(self.groups[group])}", "expect OK"]


VERBS = {"packet": Made.packet, "expect": Made.expect, "wait": Made.nothing, "no_packet": Made.nothing, "remove": Made.remove,
         "add": Made.add, "setdefault": Made.setdefault,
         "check_counter": Made.check_counter, "mc_mgrp_create": Made.mc_create, "mc_node_create": Made.mc_node,
         "mc_node_associate": Made.mc_join}


def _named(item):
    name, colon, value = item.partition(":")
    return (name, colon, value) if colon else ("", "", item)


def _spelled(number, width):
    return spell_value(canonical(number), width)


def _number(words, what):
    if not words:
        raise Trouble(f"{what} is missing")
    return _plain(words[0])


def _plain(word):
    """The number of a word: decimal, 0x.., 0b.., 0o.., an address."""
    number, mask = masked(word, None)
    if mask is not None:
        raise Trouble(f"{word} is not one number")
    return number


def masked(word, width):
    """The number of a word and its mask over so many bits: `0x**11` and `0b1*` have any digit in the place of `*`, `V/N` the
    first N bits, `V&&&M` the mask M. Without a width the mask is None of what has none."""
    word = word.replace("_", "")
    full = None if width is None else (1 << width) - 1
    if "&&&" in word:
        value, _, mask = word.partition("&&&")
        return _plain(value), _plain(mask)
    if "/" in word and width is not None:
        value, _, length = word.partition("/")
        if not length.isdigit() or int(length) > width:
            raise Trouble(f"{word}: a prefix has at most {width} bits")
        return _plain(value), full - ((1 << width - int(length)) - 1)
    bits = DIGITS.get(word[:2].lower())
    if "*" in word:
        if bits is None:
            raise Trouble(f"{word}: * stands for a digit behind 0x, 0b or 0o")
        digits = word[2:]
        mask = int("".join("0" if it == "*" else format((1 << bits) - 1, "x" if bits > 1 else "b") for it in digits), 1 << bits)
        # (digits that the word has not are zeros, which it means)
        return _int(word.replace("*", "0")), mask | (full or 0) & ~((1 << bits * len(digits)) - 1)
    return _int(word), full


def _int(word):
    bits = DIGITS.get(word[:2].lower())
    try:
        if bits:
            return int(word[2:], 1 << bits)
        if MAC.fullmatch(word):
            return int(word.replace(":", ""), 16)
        if re.fullmatch(r"\d+(\.\d+){3}", word):
            return int.from_bytes(bytes(int(it) for it in word.split(".")), "big")
        return int(word)
    except ValueError:
        raise Trouble(f"{word} is no number") from None
