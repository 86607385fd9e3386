"""A program as a graph: parser states, tables and conditionals of its controls, and what follows on what; and the way
that a packet of a report took through it."""
from typing import NamedTuple

from p4tools import tape, told
from p4tools.messages import Update
from p4tools.trouble import Trouble

ENTER, ACCEPT, LEAVE = "enter", "accept", "leave"
# So many ways are looked at; beyond, only what the packet hit is known.
WAYS = 20_000


class Edge(NamedTuple):
    """What follows on a node: where to, the words beside it, and when: the place of a transition, `true` or `false`
    of a conditional, or the pairs of a hit and an action of a table."""
    source: str
    target: str
    label: str
    when: tuple


class Graph:
    """The nodes of a program by their names (`parser start`, `ingress ipv4_lpm`) and the edges between them."""

    def __init__(self, program):
        self.program, self.edges = program, []
        self.states, self.tables, self.conditionals = {}, {}, {}
        parser = _one(program, "parsers")
        self._edge(ENTER, f"parser {parser['init_state']}")
        for state in parser["parse_states"]:
            self._state(state)
        controls = program["pipelines"]
        for place, control in enumerate(controls):
            self._control(control, self.end_of(place))
        self._edge(ACCEPT, self.begin_of(0))
        for place in range(len(controls)):
            self._edge(self.end_of(place), self.begin_of(place + 1))

    def _edge(self, source, target, label="", when=()):
        self.edges.append(Edge(source, target, label, when))

    def begin_of(self, place):
        """The node with which a control begins; behind the last one, the deparser."""
        controls = self.program["pipelines"]
        if place >= len(controls):
            return LEAVE
        first = controls[place].get("init_table")
        return f"{controls[place]['name']} {first}" if first else self.end_of(place)

    def end_of(self, place):
        """The node with which a control ends."""
        return f"end of {self.program['pipelines'][place]['name']}"

    def _state(self, state):
        name = f"parser {state['name']}"
        self.states[name] = state
        for place, transition in enumerate(state.get("transitions", [])):
            following = transition.get("next_state")
            is_default = transition.get("type") == "default" or transition.get("value") == "default"
            mask = f" &&& {transition['mask']}" if transition.get("mask") else ""
            label = "else" if is_default and len(state["transitions"]) > 1 else "" if is_default else f"{transition['value']}{mask}"
            self._edge(name, f"parser {following}" if following else ACCEPT, label, (place,))

    def _control(self, control, end):
        def node(following):
            return f"{control['name']} {following}" if following else end
        for one in control.get("conditionals") or []:
            name = node(one["name"])
            self.conditionals[name] = one
            self._edge(name, node(one.get("true_next")), "yes", (True,))
            self._edge(name, node(one.get("false_next")), "no", (False,))
        for table in control["tables"]:
            name = node(table["name"])
            self.tables[name] = table
            targets = {}
            for is_hit in (True, False):
                for action in table["actions"] or [None]:
                    targets.setdefault(node(_following(table, is_hit, action)), []).append((is_hit, action))
            for target, pairs in targets.items():
                self._edge(name, target, _label(pairs, table) if len(targets) > 1 else "", tuple(pairs))

    def behind(self, node):
        """The edges that lead on from a node."""
        return [it for it in self.edges if it.source == node]


def _one(program, name):
    found = program.get(name)
    if not isinstance(found, list) or not found:
        raise Trouble(f"the JSON has no {name}; give the .json file that the P4 compiler wrote")
    return found[0]


def _following(table, is_hit, action):
    """The node behind a table that hit or missed and ran an action."""
    known = table.get("next_tables") or {}
    for name in ("__HIT__" if is_hit else "__MISS__", action):
        if name in known:
            return known[name]
    return table.get("base_default_next")


def _label(pairs, table):
    """In what cases an edge is taken: at a hit, at a miss, or behind actions."""
    hits = [action for is_hit, action in pairs if is_hit]
    misses = [action for is_hit, action in pairs if not is_hit]
    if not misses or not hits:
        return "hit" if hits else "miss"
    return ", ".join(it for it in table["actions"] if it in hits)


# The way of a packet.

class Way(NamedTuple):
    """What of a program is marked: nodes and edges that are surely on the way, those that may be, and the actions
    that ran, by table node."""
    nodes: set
    edges: set
    maybe_nodes: set
    maybe_edges: set
    actions: dict


def way_of_entry(graph, table, action):
    """The way through an entry: its table, its action, and what follows."""
    node = next((it for it in graph.tables if graph.tables[it]["name"] == table), None)
    if node is None:
        raise Trouble(f"the JSON has no table {table}")
    edges = {it for it in graph.behind(node) if action is None or (True, action) in it.when}
    return Way({node} | {it.target for it in edges}, edges, set(), set(), {node: {action} - {None}})


def way_of_packet(graph, packet, data, hits):
    """The way of a packet of a report: through the parser by its bytes, and through the controls by what it hit,
    pairs of a table's name and the action of the entry, or None where that is not known."""
    nodes, edges, read = _parsed(graph, data)
    ways, actions = [], {}
    if nodes[-1] == ACCEPT:
        for number, found in enumerate(_ways(graph, hits, packet.fate != "sent", read)):
            if number == WAYS:
                ways = []
                break
            ways.append(found)
    for table, action in hits:
        node = next((it for it in graph.tables if graph.tables[it]["name"] == table), None)
        if node:
            nodes.append(node)
            actions.setdefault(node, set()).update({action} - {None})
    sure = set.intersection(*map(set, ways)) if ways else set()
    maybe = set.union(*map(set, ways)) - sure if ways else set()
    return Way(set(nodes) | _ends(sure), set(edges) | sure, _ends(maybe), maybe, actions)


def _ends(edges):
    return {node for it in edges for node in (it.source, it.target)}


def _parsed(graph, data):
    """The nodes and edges of the parser by a packet's bytes, and the headers that were read; it ends where
    something else than the packet's bytes decides."""
    bits = int.from_bytes(data, "big")
    left, fields, read = 8 * len(data), {}, set()
    edges = [graph.behind(ENTER)[0]]
    nodes = [ENTER, edges[0].target]
    while nodes[-1] in graph.states and len(nodes) < 1000:
        state = graph.states[nodes[-1]]
        left = _extracted(graph, state, bits, left, fields, read)
        edge = _transition(graph, nodes[-1], fields) if left is not None else None
        if edge is None:
            break
        edges.append(edge)
        nodes.append(edge.target)
    return nodes, edges, read


def _extracted(graph, state, bits, left, fields, read):
    """Reads the headers of a state, and gives the bits that are left, or None where they are too few."""
    types = {it["name"]: it for it in graph.program["header_types"]}
    headers = {it["name"]: types[it["header_type"]] for it in graph.program["headers"]}
    for op in state.get("parser_ops", []):
        if op["op"] != "extract":
            continue
        name = op["parameters"][0]["value"]
        read.add(name)
        for field in headers[name]["fields"]:
            left -= field[1]
            if left < 0:
                return None
            fields[name, field[0]] = (bits >> left & (1 << field[1]) - 1, field[1])
    return left


def _transition(graph, node, fields):
    """The transition that the fields take, or None where one of them was not read of the packet."""
    state, key = graph.states[node], 0
    for item in state.get("transition_key", []):
        value, width = fields.get(tuple(item["value"]), (None, 0)) if item["type"] == "field" else (None, 0)
        if value is None:
            return None
        key = key << 8 * -(-width // 8) | value
    for edge in graph.behind(node):
        transition = state["transitions"][edge.when[0]]
        if transition.get("type") == "default" or transition.get("value") == "default":
            return edge
        mask = int(transition["mask"], 16) if transition.get("mask") else -1
        if key & mask == int(transition["value"], 16) & mask:
            return edge
    return None


def _ways(graph, hits, is_dropped, read):
    """The ways through the controls that hit just what the packet hit. A dropped packet may end behind ingress."""
    settled = _settled(graph)
    first_end = graph.end_of(0)
    stack = [(ACCEPT, 0, ())]
    while stack:
        node, done, way = stack.pop()
        if len(way) > 1000:
            continue
        if node == LEAVE or is_dropped and node == first_end and done == len(hits):
            if done == len(hits):
                yield way
            continue
        for edge in graph.behind(node):
            step = _step(graph, node, edge, hits, done, read if settled else None)
            if step is not None:
                stack.append((edge.target, step, (*way, edge)))


def _step(graph, node, edge, hits, done, read):
    """How many hits are behind an edge, or None where the packet did not take it."""
    if node in graph.conditionals:
        header = _valid_of(graph.conditionals[node]["expression"])
        if read is not None and header is not None and (header in read) != edge.when[0]:
            return None
        return done
    if node not in graph.tables:
        return done
    name = graph.tables[node]["name"]
    if done < len(hits) and hits[done][0] == name:
        action = hits[done][1]
        return done + 1 if any(is_hit and action in (None, it) for is_hit, it in edge.when) else None
    return done if any(not is_hit for is_hit, _ in edge.when) else None


def _settled(graph):
    """Whether no action makes a header valid or invalid, so that the valid headers are those that were read."""
    changing = ("add_header", "remove_header", "assign_header")
    return not any(op["op"] in changing for action in graph.program["actions"] for op in action["primitives"])


def _valid_of(expression):
    """The header of which an expression just says whether it is valid, or None."""
    while isinstance(expression, dict) and expression.get("type") == "expression":
        expression = expression["value"]
    if not isinstance(expression, dict):
        return None
    right = expression.get("right") or {}
    if expression.get("op") == "valid" and right.get("type") == "header":
        return right["value"]
    if expression.get("op") == "d2b" and right.get("type") == "field" and right["value"][1] == "$valid$":
        return right["value"][0]
    return None


def hits_of(packet, report, beside):
    """What a packet hit: pairs of a table's name and the action that its entry had then, or None where the entry
    names a member, a group or a set. Cells of counters are passed over."""
    actions, number = {}, 0
    keys = {}
    for call in report.calls:
        record, shown = beside.calls.get((call.lane, call.number), (None, None))
        if record is None or record.kind != tape.CALL or not call.steps:
            continue
        for update, code in told.outcomes(record, call):
            if code or not update.entity.HasField("table_entry"):
                continue
            entry = update.entity.table_entry
            key = (entry.table_id, told.key_of(entry, shown.names))
            if update.type == Update.INSERT:
                number += 1
                keys[key] = number
            if key in keys and entry.HasField("action") and call.steps[0].number <= packet.after:
                actions[keys[key]] = _action_name(entry, shown.names)
    found = []
    for hit in packet.hits:
        if not hit.startswith("@"):
            table, seq = map(int, hit.split(":"))
            found.append((beside.names.name("table", table), actions.get(seq)))
    return found


def _action_name(entry, names):
    if entry.action.WhichOneof("type") != "action":
        return None
    return names.name("action", entry.action.action.action_id)
