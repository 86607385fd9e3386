"""`p4config draw`: a program as a picture, by graphviz."""
import argparse
import html
import json
import re
import subprocess

from p4tools import report, told
from p4tools.entities import KIND_WORDS, read_entity
from p4tools.files import bytes_of, names_of, text_of, write_text
from p4tools.graph import ACCEPT, ENTER, LEAVE, Graph, hits_of, way_of_entry, way_of_packet
from p4tools.trouble import Trouble
from p4tools.words import cut

MARK, PLAIN, LONGEST = "#c2410c", "#59636e", 60



def words():
    """The words of `p4config draw`."""
    parser = argparse.ArgumentParser(prog="p4config draw", description="Draws a program as SVG: parser states, tables, "
                                     "conditionals and actions, with an entry's or a packet's way marked.")
    parser.add_argument("info", metavar="P4INFO")
    parser.add_argument("json", metavar="JSON")
    parser.add_argument("-o", "--output", metavar="OUT.svg", required=True)
    parser.add_argument("--entry", metavar="ENTRY", help="marks an entry's way: TABLE FIELD=VALUE .. ACTION(..)")
    parser.add_argument("--packet", metavar="LANE:NUMBER", help="marks a packet's way, as w0:5; needs --report and --tape")
    parser.add_argument("--report")
    parser.add_argument("--tape")
    parser.set_defaults(run=_run)
    return parser


def _run(given):
    try:
        program = json.loads(text_of(given.json))
        graph = Graph(program)
    except (ValueError, KeyError, TypeError, AttributeError) as error:
        raise Trouble(f"{given.json} is no program of BMv2's form ({error}); bin/p4switch check says what it breaks") from None
    names = names_of(given.info)
    way, title = None, ""
    if given.entry and given.packet:
        raise Trouble("--entry or --packet, not both")
    if given.entry:
        way, title = _of_entry(graph, names, given.entry), given.entry
    elif given.packet:
        way, title = _of_packet(graph, names, given)
    write_text(given.output, svg_of(dot_of(graph, names, way, title)))
    return 0


def _of_entry(graph, names, text):
    entry = read_entity(cut(text), names).table_entry
    if not entry.table_id:
        raise Trouble("write an entry of a table: TABLE FIELD=VALUE .. ACTION(..)")
    action = names.name("action", entry.action.action.action_id) if entry.action.HasField("action") else None
    return way_of_entry(graph, names.name("table", entry.table_id), action)


def _of_packet(graph, names, given):
    if not given.report or not given.tape:
        raise Trouble("the way of a packet is read of its report: give --report and --tape")
    who, _, number = given.packet.partition(":")
    one = report.read_reports(text_of(given.report), given.report)[0]
    beside = told.Beside(bytes_of(given.tape), names)
    beside.follow(one)
    packet = next((it for it in one.packets if (it.who, str(it.number)) == (who, number)), None)
    if packet is None:
        raise Trouble(f"{given.report} has no packet {given.packet}; write --packet w0:5")
    _, data = beside.entered.get((packet.who, packet.number), (None, None))
    if data is None:
        raise Trouble(f"the tape has no packet {given.packet}")
    way = way_of_packet(graph, packet, data, hits_of(packet, one, beside))
    return way, "\n".join(it.strip() for it in told.tell_packet(packet, beside)[:2])


def svg_of(dot):
    """The picture of a graph in graphviz' language."""
    try:
        done = subprocess.run(["dot", "-Tsvg"], input=dot.encode(), capture_output=True, check=False)
    except OSError:
        raise Trouble("graphviz is missing: apt-get install -y graphviz") from None
    if done.returncode:
        raise Trouble(f"graphviz does not draw it: {done.stderr.decode('utf-8', 'replace').strip()}")
    return done.stdout.decode("utf-8")


# Graphviz' language.

def dot_of(graph, names, way, title):
    """A program in graphviz' language, with a way marked where one is given."""
    lines = ["digraph program {", 'graph [rankdir=TB, fontname="sans-serif", labelloc=t, compound=true, nodesep=0.35, ranksep=0.45];',
             'node [fontname="sans-serif", fontsize=11, shape=box, style=filled, fillcolor=white];',
             f'edge [fontname="sans-serif", fontsize=10, color="{PLAIN}"];', f"label={_quoted(title)};"]
    lines += _cluster("parser", "parser", [_node(it, _state_label(graph.states[it]), way, "style=\"rounded,filled\"") for it in graph.states])
    for place, control in enumerate(graph.program["pipelines"]):
        head = control["name"] + " "
        inside = [_node(it, _table_label(it, graph.tables[it], names, graph, way), way, "shape=plain")
                  for it in graph.tables if it.startswith(head)]
        inside += [_node(it, _quoted(text_of_expression(graph.conditionals[it]["expression"])), way, "shape=diamond, margin=0.02")
                   for it in graph.conditionals if it.startswith(head)]
        lines += _cluster(control["name"], control["name"], inside + [_node(graph.end_of(place), _quoted(graph.end_of(place)), way, "shape=plaintext")])
    order = ", ".join(graph.program.get("deparsers", [{}])[0].get("order", []))
    for name, text in ((ENTER, "a packet enters"), (ACCEPT, "parsed"), (LEAVE, f"deparser: {order}")):
        lines.append(_node(name, _quoted(text), way, "shape=oval"))
    lines += [_edge(it, way) for it in graph.edges]
    return "\n".join([*lines, "}"])


def _cluster(name, title, inside):
    # (with less of a margin the edges would run through the label)
    look = 'labeljust=l; fontsize=12; margin=24; color="#c8d0d9"; style=rounded;'
    return [f"subgraph {_quoted('cluster ' + name)} {{", f"label={_quoted(title)}; {look}", *inside, "}"]


def _quoted(text):
    return '"' + text.replace("\\", "\\\\").replace('"', '\\"').replace("\n", "\\n") + '"'


def _node(name, label, way, more=""):
    """A node; on the way it is framed, and dashed where it may be."""
    kind = ""
    if way and name in way.nodes:
        kind = f', color="{MARK}", penwidth=2.5'
    elif way and name in way.maybe_nodes:
        kind = f', color="{MARK}", style="dashed"'
    return f"{_quoted(name)} [label={label}, {more}{kind}, class={_quoted(_class(name, way))}];"


def _class(name, way):
    if not way:
        return "plain"
    return "sure" if name in way.nodes else "maybe" if name in way.maybe_nodes else "plain"


def _edge(edge, way):
    kind = ""
    if way and edge in way.edges:
        kind = f', color="{MARK}", penwidth=2.5, class="sure"'
    elif way and edge in way.maybe_edges:
        kind = f', color="{MARK}", style=dashed, class="maybe"'
    return f"{_quoted(edge.source)} -> {_quoted(edge.target)} [label={_quoted(edge.label)}{kind}];"


def _state_label(state):
    """A state: what it extracts and sets, and by what it goes on."""
    lines = [state["name"]]
    for op in state.get("parser_ops", []):
        values = [text_of_expression(it) for it in op.get("parameters", [])]
        lines.append(f"{values[0]} = {values[1]}" if op["op"] == "set" and len(values) == 2 else f"{op['op']} {', '.join(values)}")
    key = [text_of_expression(it) for it in state.get("transition_key", [])]
    return _quoted("\n".join(map(_short, lines + [f"select {', '.join(key)}"] * bool(key))))


def _table_label(node, table, names, graph, way):
    """A table: its name, its key with kinds and widths, its size, and its actions; those that ran are marked."""
    info = names.by_name["table"].get(table["name"])
    fields = {it.name: it for it in info.match_fields} if info else {}
    frame = f'border="2" color="{MARK}"' if way and node in way.nodes else 'border="0"'
    rows = [f"<b>{html.escape(table['name'])}</b>"]
    for key in table.get("key", []):
        name = key.get("name") or ".".join(map(str, key["target"]))
        field = fields.get(name)
        rows.append(html.escape(f"{name} {KIND_WORDS.get(field.match_type, '') if field else key['match_type']}"
                                + (f", {field.bitwidth} bits" if field else "")))
    rows.append(html.escape(_size(table, info)))
    ran = way.actions.get(node, set()) if way else set()
    default = (table.get("default_entry") or {}).get("action_id")
    cells = "".join(f'<tr><td align="left">{it}</td></tr>' for it in rows)
    for ident, action in zip(table.get("action_ids", []), table["actions"]):
        text = html.escape(_action(action, names) + " (default)" * (ident == default))
        colour = "#ffe08a" if action in ran else "#f1f4f8"
        cells += f'<tr><td align="left" bgcolor="{colour}">{text}</td></tr>'
    return f'<<table {frame} cellborder="1" cellspacing="0" cellpadding="4" bgcolor="white">{cells}</table>>'


def _size(table, info):
    if info is None:
        return "not in the P4Info: no entries, runs its default"
    profile = f", profile {table['action_profile']}" if table.get("action_profile") else ""
    return f"{info.size or 1024:,} entries{profile}" + ", counted" * bool(info.direct_resource_ids)


def _action(name, names):
    found = names.by_name["action"].get(name)
    return f"{name}({', '.join(it.name for it in found.params)})" if found else name


def text_of_expression(value):
    """A value of the JSON in words: a field, a literal, an expression."""
    if not isinstance(value, dict):
        return str(value)
    kind, inner = value.get("type"), value.get("value")
    if kind == "expression" or "op" in value:
        inner = value if "op" in value else inner
        if isinstance(inner, dict) and "op" in inner:
            return _short(_operation(inner))
        return text_of_expression(inner)
    if kind == "field":
        return f"{inner[0]} is valid" if inner[1] == "$valid$" else ".".join(map(str, inner))
    if kind == "hexstr":
        return re.sub(r"^(-?0x)0+(?=[0-9a-fA-F])", r"\1", str(inner))
    return ".".join(map(str, inner)) if isinstance(inner, list) else str(inner)


def _operation(it):
    left, right, op = it.get("left"), it.get("right"), it["op"]
    if op in ("d2b", "b2d"):
        return text_of_expression(right)
    if op == "valid":
        return f"{text_of_expression(right)} is valid"
    if op == "?":
        return f"{text_of_expression(it.get('cond'))} ? {text_of_expression(left)} : {text_of_expression(right)}"
    if left is None:
        return f"{op} {text_of_expression(right)}"
    return f"{_inside(left)} {op} {_inside(right)}"


def _inside(value):
    text = text_of_expression(value)
    return f"({text})" if " " in text and not text.endswith("is valid") else text


def _short(text):
    return text if len(text) <= LONGEST else text[:LONGEST - 2] + ".."
