"""For which rule a program is refused and where: the place in the JSON, what it is in P4, and the way around
it. `bin/p4switch check` decides; this finds the places."""
import json
from typing import NamedTuple

from p4tools import constructs, rules
from p4tools.agree import of_both, of_info
from p4tools.constructs import CONSTRUCTS, LIMITS


class Finding(NamedTuple):
    """A rule, the place where it is broken, what stands there, the construct of P4, and its place in the P4 source."""
    rule: str
    path: str
    shown: str
    construct: str
    source: str = ""

    def lines(self):
        """What is told of it."""
        what, instead = CONSTRUCTS[self.construct]
        place = f"{self.path}, {self.shown}" if self.shown else self.path
        source = f" ({self.source})" * bool(self.source)
        return [f"  {self.rule}  {place}{source}", f"      {what}", f"      instead: {instead}"]


def findings(info, data):
    """All Findings of a P4Info and the bytes of a JSON, by rising rule, I before L."""
    found = [Finding(*it) for it in of_info(info)]
    try:
        program = json.loads(data)
    except ValueError as error:
        return found + [Finding("L1", "the file", f"no JSON: {error}", "json")]
    if not isinstance(program, dict) or "header_types" not in program or "pipelines" not in program:
        return found + [Finding("L1", "the file", "without `header_types` and `pipelines`", "json")]
    look = Look(program)
    look.all(len(data))
    found += look.found
    found += [Finding(*it) for it in of_both(info, program)]
    return sorted(dict.fromkeys(found), key=lambda it: (it.rule[0], int(it.rule[1:])))


def items(thing, name):
    """The items of a list that may be absent or null, with their paths."""
    for at, item in enumerate(thing.get(name) or []):
        yield f"{name}[{at}]", item


def source_of(thing):
    """The place in the P4 source that the compiler noted, in words."""
    noted = thing.get("source_info") if isinstance(thing, dict) else None
    if not isinstance(noted, dict):
        return ""
    fragment = str(noted.get("source_fragment", "")).strip()
    return f"{noted.get('filename', '')}:{noted.get('line', '')}" + f": {fragment}" * bool(fragment)


class Look:
    """A walk through a program's JSON."""

    def __init__(self, program):
        self.program, self.found = program, []

    def add(self, rule, path, shown, construct, thing=None):
        self.found.append(Finding(rule, path, shown, construct, source_of(thing)))

    def all(self, size):
        """Looks at everything; what is not of the shape that is expected is told as L1."""
        if size > constructs.JSON_BYTES:
            self.add("L1", "the file", f"{size:,} bytes, above 4 MiB", "limit")
        for part in (self.twice, self.lists, self.headers, self.parsers, self.deparsers, self.checksums, self.digests, self.actions,
                     self.pipelines, self.limits, self.egress_spec):
            try:
                part()
            except (KeyError, TypeError, AttributeError, ValueError, IndexError) as error:
                self.add("L1", f"the part `{part.__name__}`", f"another shape than is read ({type(error).__name__}: {error})", "json")

    def twice(self):
        """Names and ids that stand twice in their kind."""
        program = self.program
        tables = [it for pipeline in program["pipelines"] for it in pipeline.get("tables") or []]
        fields = [(f"fields of {kind['name']}", [it[0] for it in kind["fields"]]) for kind in program["header_types"]]
        states = [it["name"] for parser in program["parsers"] for it in parser["parse_states"]]
        named = [(it, [one["name"] for _, one in items(program, it)]) for it in ("header_types", "headers", "counter_arrays",
                                                                                "learn_lists", "calculations")]
        for what, names in [*named, *fields, ("parse_states", states), ("tables", [it["name"] for it in tables]),
                            ("errors", [it[0] for it in program.get("errors") or []]),
                            ("actions, by id", [it["id"] for it in program["actions"]])]:
            for name in dict.fromkeys(it for it in names if names.count(it) > 1):
                self.add("L4", what, f"`{name}` twice", "names")

    def lists(self):
        for name, construct in constructs.LISTS.items():
            for path, item in items(self.program, name):
                self.add("L2", path, f"`{item.get('name', '')}`" if isinstance(item, dict) else "", construct, item)

    def headers(self):
        in_packets = self.extracted()
        plain = {it["header_type"] for it in self.program["headers"] if not it.get("metadata") or it["name"] in in_packets}
        for path, kind in items(self.program, "header_types"):
            bits = 0
            for at, field in enumerate(kind["fields"]):
                place = f"{path}.fields[{at}]"
                name = f"`{kind['name']}.{field[0]}`"
                if not isinstance(field[1], int):
                    self.add("L2", place, name, "varbit", kind)
                    continue
                bits += field[1]
                if field[1] > 128:
                    self.add("L2", place, f"{name}, {field[1]} bits", "wide", kind)
                if len(field) > 2 and field[2]:
                    self.add("L2", place, name, "signed", kind)
            if bits % 8 and kind["name"] in plain:
                self.add("L2", path, f"`{kind['name']}`, {bits} bits", "ragged", kind)

    def extracted(self):
        """The headers that a parser extracts or a deparser writes."""
        states = [it for parser in self.program["parsers"] for it in parser["parse_states"]]
        found = {op["parameters"][0].get("value") for it in states for op in it["parser_ops"] if op["op"] == "extract"
                 and isinstance(op["parameters"][0].get("value"), str)}
        return found | {name for it in self.program["deparsers"] for name in it["order"]}

    def parsers(self):
        self.only("parsers")
        for path, parser in items(self.program, "parsers"):
            graph = {}
            for below, state in items(parser, "parse_states"):
                self.state(f"{path}.{below}", state)
                graph[state["name"]] = [it.get("next_state") for it in state["transitions"]]
            for name in loops(graph, parser["init_state"]):
                self.add("L6", path, f"state `{name}` comes back to itself", "loop", parser)

    def only(self, name):
        number = len(self.program.get(name) or [])
        if number != 1:
            self.add("L1", name, f"{number} of them", "blocks")

    def state(self, path, state):
        for below, op in items(state, "parser_ops"):
            refused = constructs.parser_op_of(op["op"])
            if refused:
                self.add(refused[0], f"{path}.{below}", f"`{op['op']}`", refused[1], op)
            else:
                for at, value in enumerate(op["parameters"]):
                    self.value(f"{path}.{below}.parameters[{at}]", value, op)
        for below, key in items(state, "transition_key"):
            if key["type"] in constructs.VALUES:
                self.add("L2", f"{path}.{below}", f"`{key['type']}`", constructs.VALUES[key["type"]], state)
        if self.key_bytes(state) > 16:
            self.add("L1", f"{path}.transition_key", f"{self.key_bytes(state)} bytes, above 16", "limit", state)
        for below, transition in items(state, "transitions"):
            if too_long(transition.get("value")):
                self.add("L2", f"{path}.{below}", "a value above 128 bits", "wide", state)
            if transition.get("type") == "parse_vset":
                self.add("L2", f"{path}.{below}", "`parse_vset`", "value set", state)

    def key_bytes(self, state):
        """The bytes of a state's key, each field in whole bytes."""
        kinds = {it["name"]: {field[0]: field[1] for field in it["fields"]} for it in self.program["header_types"]}
        headers = {it["name"]: kinds.get(it["header_type"], {}) for it in self.program["headers"]}
        targets = [it["value"] for it in state["transition_key"] if it.get("type") == "field"]
        widths = [1 if name == "$valid$" else headers.get(header, {}).get(name, 0) for header, name in targets]
        return sum((it + 7) // 8 for it in widths if isinstance(it, int))

    def deparsers(self):
        self.only("deparsers")
        for path, deparser in items(self.program, "deparsers"):
            for below, primitive in items(deparser, "primitives"):
                self.add("L1", f"{path}.{below}", f"`{primitive.get('op')}`", "deparser", primitive)

    def checksums(self):
        for path, calculation in items(self.program, "calculations"):
            if calculation["algo"] != "csum16":
                self.add("L8", path, f"`{calculation['algo']}`", "hash", calculation)
            for below, value in items(calculation, "input"):
                if value["type"] == "payload":
                    self.add("L1", f"{path}.{below}", "`payload`", "payload", calculation)
        for path, checksum in items(self.program, "checksums"):
            if checksum.get("if_cond"):
                self.condition(f"{path}.if_cond", checksum["if_cond"], checksum)

    def digests(self):
        for path, digest in items(self.program, "learn_lists"):
            for below, element in items(digest, "elements"):
                if element["type"] != "field":
                    self.add("L1", f"{path}.{below}", f"`{element['type']}`", "digest constant", digest)

    def actions(self):
        for path, action in items(self.program, "actions"):
            for below, primitive in items(action, "primitives"):
                place, op = f"{path}.{below}", primitive["op"]
                refused = constructs.primitive_of(op)
                if refused:
                    self.add(refused[0], place, f"`{op}` in action `{action['name']}`", refused[1], primitive)
                    continue
                for at, value in enumerate(primitive["parameters"]):
                    self.value(f"{place}.parameters[{at}]", value, primitive)
                if op == "assign" and inner_of(primitive["parameters"][1]).get("op") in constructs.TRUTHS:
                    self.add("L9", f"{place}.parameters[1]", "a truth value that is assigned", "truth", primitive)
                if op == "count":
                    self.settled(f"{place}.parameters[1]", primitive["parameters"][1], primitive)

    def pipelines(self):
        names = [it["name"] for it in self.program["pipelines"]]
        if sorted(names) != ["egress", "ingress"]:
            self.add("L1", "pipelines", f"they are {', '.join(names) or 'none'}", "blocks")
        for path, pipeline in items(self.program, "pipelines"):
            for below, table in items(pipeline, "tables"):
                self.table(f"{path}.{below}", table)
            for below, condition in items(pipeline, "conditionals"):
                self.condition(f"{path}.{below}.expression", condition["expression"], condition)
            for below, one in items(pipeline, "action_calls"):
                self.add("L1", f"{path}.{below}", f"`{one.get('name', '')}`", "action call", one)
            for name in loops(next_nodes(pipeline), pipeline.get("init_table")):
                self.add("L7", path, f"`{name}` comes back to itself", "loop", pipeline)

    def table(self, path, table):
        for below, key in items(table, "key"):
            if key.get("mask") is not None:
                self.add("L1", f"{path}.{below}", f"a mask, in table `{table['name']}`", "key", table)
        for below, _ in items(table, "entries"):
            self.add("L2", f"{path}.{below}", f"in table `{table['name']}`", "entries", table)
            break

    # Values and expressions.

    def condition(self, path, value, beside):
        """A value that is to be a truth value."""
        self.value(path, value, beside)
        if not is_truth(value) and op_of(value) not in constructs.OPERATORS_LEFT_OUT:
            self.add("L9", path, "a condition that is a number", "truth", beside)

    def value(self, path, value, beside):
        """Looks at a value and at all that is in it."""
        if not isinstance(value, dict):
            return
        kind, inner = value.get("type"), value.get("value")
        if kind in constructs.VALUES:
            self.add("L2", path, f"`{kind}`", constructs.VALUES[kind], beside)
        elif kind == "hexstr" and too_long(inner):
            self.add("L2", path, "a value above 128 bits", "wide", beside)
        elif kind == "expression" and isinstance(inner, dict):
            self.value(path, inner, beside) if "type" in inner else self.expression(path, inner, beside)
        elif kind is None and "op" in value:
            self.expression(path, value, beside)

    def expression(self, path, expression, beside):
        op = expression.get("op")
        if op in constructs.OPERATORS_LEFT_OUT:
            self.add("L2", path, f"`{op}`", constructs.OPERATORS_LEFT_OUT[op], beside)
            return
        if op not in constructs.OPERATORS:
            self.add("L8", path, f"`{op}`", "operation", beside)
            return
        sides = [it for it in ("left", "right", "cond") if isinstance(expression.get(it), dict)]
        for side in sides:
            self.value(f"{path}.{side}", expression[side], beside)
        if op != "valid" and any(expression[it].get("type") == "header" for it in sides):
            self.add("L1", path, f"`{op}` of headers", "header operand", beside)
        elif op in constructs.COMPARISONS:
            if any(is_truth(expression[it]) for it in sides):
                self.add("L9", path, f"`{op}` of truth values", "truth", beside)
            else:
                for side in sides:
                    self.settled(f"{path}.{side}", expression[side], beside)
        elif op == "d2b":
            self.settled(f"{path}.right", expression.get("right"), beside)
        elif op in ("<<", ">>"):
            for side in ("left", "right") if op == ">>" else ("right",):
                self.settled(f"{path}.{side}", expression.get(side), beside)
        elif op == "?" and is_truth(expression["left"]) != is_truth(expression["right"]):
            self.add("L9", path, "`?` of a truth value and a number", "truth", beside)
        elif op in ("and", "or", "not") and not all(is_truth(expression[it]) for it in sides):
            self.add("L9", path, f"`{op}` of a number", "truth", beside)

    def settled(self, path, value, beside):
        if not is_settled(value):
            self.add("L9", path, f"`{op_of(value)}`", "unsettled", beside)

    # The whole.

    def limits(self):
        program = self.program
        tables = [it for pipeline in program["pipelines"] for it in pipeline.get("tables") or []]
        states = [it for parser in program["parsers"] for it in parser["parse_states"]]
        kinds = {it["name"]: it for it in program["header_types"]}
        fields = sum(len(kinds[it["header_type"]]["fields"]) for it in program["headers"])
        for what, number in (("headers", len(program["headers"])), ("fields in all headers", fields), ("tables", len(tables)),
                             ("actions", len(program["actions"])), ("parser states", len(states))):
            self.limit("the program", what, number)
        for pipeline_path, pipeline in items(program, "pipelines"):
            for path, table in items(pipeline, "tables"):
                self.limit(f"{pipeline_path}.{path}", "fields of a key", len(table["key"]), table)
        for path, action in items(program, "actions"):
            self.limit(path, "parameters of an action", len(action["runtime_data"]), action)
            self.limit(path, "primitives of an action", len(action["primitives"]), action)
        for path, digest in items(program, "learn_lists"):
            self.limit(path, "elements of a digest", len(digest["elements"]), digest)

    def limit(self, path, what, number, thing=None):
        if number > LIMITS[what]:
            self.add("L3", path, f"{number:,} {what}, above {LIMITS[what]:,}", "limit", thing)

    def egress_spec(self):
        kinds = {it["name"]: it for it in self.program["header_types"]}
        own = next((it for it in self.program["headers"] if it["name"] == "standard_metadata"), None)
        fields = {it[0]: it[1] for it in kinds[own["header_type"]]["fields"]} if own else {}
        if fields.get("egress_spec") != 9:
            self.add("L15", "headers", "`standard_metadata.egress_spec`", "egress_spec")


def inner_of(value):
    """A value without its wrappers."""
    while isinstance(value, dict) and value.get("type") == "expression" and isinstance(value.get("value"), dict):
        value = value["value"]
    return value if isinstance(value, dict) else {}


def op_of(value):
    """The operator of a value, or its type."""
    value = inner_of(value)
    return value.get("op") or value.get("type")


def too_long(text):
    """Whether a literal has more than 128 bits."""
    return isinstance(text, str) and text.startswith("0x") and len(text) > 34


def is_truth(value):
    """Whether a value is a truth value."""
    value = inner_of(value)
    if value.get("op") == "?" and isinstance(value.get("left"), dict):
        return is_truth(value["left"])
    return value.get("type") == "bool" or value.get("op") in constructs.TRUTHS


def is_settled(value):
    """Whether a number is surely within the width of what it is made of."""
    value = inner_of(value)
    op, sides = value.get("op"), [value.get("left"), value.get("right")]
    if op is None or op in constructs.TRUTHS or op == "b2d":
        return True
    if op == "&" and any(inner_of(it).get("type") == "hexstr" for it in sides):
        return True
    if op in ("&", "|", "^", "?"):
        return all(is_settled(it) for it in sides)
    return op == ">>" and is_settled(sides[0])


def next_nodes(pipeline):
    """The nodes that may follow each table and conditional."""
    graph = {}
    for table in pipeline.get("tables") or []:
        graph[table["name"]] = [*(table.get("next_tables") or {}).values(), table.get("base_default_next")]
    for condition in pipeline.get("conditionals") or []:
        graph[condition["name"]] = [condition.get("true_next"), condition.get("false_next")]
    return graph


def loops(graph, start):
    """A node on a loop that is reached from the start, or nothing."""
    state, stack = {}, [(start, iter(graph.get(start, ())))]
    state[start] = 1
    while stack:
        node, rest = stack[-1]
        following = next((it for it in rest if it in graph and state.get(it) != 2), None)
        if following is None:
            state[node] = 2
            stack.pop()
        elif state.get(following) == 1:
            return [following]
        else:
            state[following] = 1
            stack.append((following, iter(graph[following])))
    return []


def tell(found, verdict=None):
    """The lines of Findings. `verdict` is what `bin/p4switch check` says, `ok` or a rule, where it was asked."""
    if verdict == "ok" or verdict is None and not found:
        said = "ok: bin/p4switch check takes it" if verdict else "nothing is found for which it would be refused"
        yield said
        return
    first = verdict or found[0].rule
    yield f"refused by rule {first}: {rules.CONFIG.get(first, '')}"
    shown = sorted(found, key=lambda it: it.rule != first)
    for finding in shown:
        yield from finding.lines()
    if not any(it.rule == first for it in found):
        yield f"  where {first} is broken is not found here; docs/programs.md lists what is refused"
