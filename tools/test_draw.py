"""Programs as pictures, and the ways of entries and packets through them."""
import json
import os
import shutil
import tempfile
import unittest
from xml.etree import ElementTree

from p4tools import told
from p4tools.draw import dot_of, text_of_expression
from p4tools.graph import Graph, Way, hits_of, way_of_packet
from p4tools.names import Names, read_info
from p4tools.report import Packet, read_reports
from test_commands import run
from test_scenarios import bytes_of

SVG = "{http://www.w3.org/2000/svg}"


def graph_of(name):
    return Graph(json.loads(bytes_of(name)))


def names_of(name):
    return Names(read_info(bytes_of(name), name)[0])


def way(name, tape, report, who, number):
    """The way of a packet of a walk through a program."""
    graph, beside = graph_of(name), told.Beside(bytes_of(tape))
    one = read_reports(bytes_of(report).decode(), report)[0]
    beside.follow(one)
    packet = next(it for it in one.packets if (it.who, it.number) == (who, number))
    return way_of_packet(graph, packet, beside.entered[who, number][1], hits_of(packet, one, beside))


class Graphs(unittest.TestCase):
    def test_edges(self):
        edges = {(it.source, it.target, it.label) for it in graph_of("laboratory/version-2.json").edges}
        self.assertLessEqual({
            ("enter", "parser start", ""), ("parser start", "parser ipv4", "0x0800"), ("parser start", "accept", "else"),
            ("parser ipv4", "accept", ""), ("end of ingress", "end of egress", ""), ("end of egress", "leave", "")}, edges)
        self.assertIn(("ingress ipv4_lpm", "end of ingress", ""), {(it.source, it.target, it.label) for it in graph_of("programs/router.json").edges})

    def test_expressions(self):
        def field(*parts):
            return {"type": "field", "value": list(parts)}
        ttl = {"type": "expression", "value": {"op": ">", "left": field("ipv4", "ttl"), "right": {"type": "hexstr", "value": "0x01"}}}
        valid = {"op": "d2b", "left": None, "right": field("ipv4", "$valid$")}
        for value, text in ((ttl, "ipv4.ttl > 0x1"), (valid, "ipv4 is valid"), ({"op": "not", "left": None, "right": valid}, "not ipv4 is valid"),
                            ({"type": "expression", "value": {"op": "and", "left": valid, "right": ttl}}, "ipv4 is valid and (ipv4.ttl > 0x1)"),
                            ({"op": "?", "cond": valid, "left": field("a", "b"), "right": {"type": "local", "value": 0}}, "ipv4 is valid ? a.b : 0")):
            self.assertEqual(text_of_expression(value), text)


class Ways(unittest.TestCase):
    def test_a_routed_packet(self):
        it = way("programs/router.json", "operator/routes.tape", "operator/routes.report", "w0", 5)
        self.assertEqual(it.nodes, {"enter", "parser start", "parser ipv4", "accept", "ingress is_ipv4", "ingress ipv4_lpm",
                                    "end of ingress", "end of egress", "leave"})
        self.assertEqual(it.actions, {"ingress ipv4_lpm": {"route"}})
        self.assertLessEqual({("ingress is_ipv4", "ingress ipv4_lpm"), ("ingress ipv4_lpm", "end of ingress"), ("end of egress", "leave")},
                             {(edge.source, edge.target) for edge in it.edges})
        self.assertEqual((it.maybe_nodes, it.maybe_edges), (set(), set()))

    def test_no_ipv4(self):
        """An ARP request is not parsed further, and passes no table."""
        it = way("laboratory/version-2.json", "laboratory/version-2.tape", "laboratory/version-2.report", "w0", 6)
        self.assertNotIn("parser ipv4", it.nodes)
        self.assertFalse(it.actions)
        self.assertNotIn("ingress ipv4_lpm", {edge.target for edge in it.edges | it.maybe_edges})

    def test_what_is_not_known(self):
        """A packet that misses may take either way at a condition over its fields: that is marked as such."""
        it = way("laboratory/version-2.json", "laboratory/version-2.tape", "laboratory/version-2.report", "w0", 4)
        self.assertIn("ingress ipv4_lpm", it.maybe_nodes)
        self.assertTrue(it.maybe_edges)
        self.assertFalse({edge.source for edge in it.maybe_edges} & {"enter", "parser start"})

    def test_a_short_packet(self):
        """A packet that ends in a header is followed no further than that."""
        graph = graph_of("programs/router.json")
        packet = Packet("w0", 1, 0, "drop1", [], [], None, [])
        it = way_of_packet(graph, packet, bytes.fromhex("02000000000a0200000000010800450000"), [])
        self.assertEqual(it.nodes, {"enter", "parser start", "parser ipv4"})

    def test_members(self):
        """Of an entry that names a group no action is known."""
        it = way("programs/lab.json", "paths/paths.tape", "paths/paths.report", "w0", 1)
        self.assertEqual(it.actions, {"ingress ecmp": set()})
        self.assertIn("ingress acl", {edge.source for edge in it.edges})


class Pictures(unittest.TestCase):
    def test_dot(self):
        graph, names = graph_of("programs/lab.json"), names_of("programs/lab.p4info.txt")
        text = dot_of(graph, names, None, "")
        for wanted in ("lab.a ternary, 8 bits", "8 entries, profile ecmp_paths", "learn(port)", "drop() (default)", "extract lab", "deparser: lab"):
            self.assertIn(wanted, text)
        self.assertNotIn("sure", text)
        node = "ingress acl"
        marked = dot_of(graph, names, Way({node}, set(), set(), set(), {node: {"learn"}}), 'a "title"\nof two lines')
        self.assertIn('label="a \\"title\\"\\nof two lines"', marked)
        self.assertEqual(marked.count('class="sure"'), 1)

    def check_svg(self, *words):
        if not shutil.which("dot"):
            why = "programs are not drawn: apt-get install -y graphviz"
            print(f"tools/test: {why}", flush=True)
            self.skipTest(why)
        with tempfile.TemporaryDirectory() as folder:
            out = os.path.join(folder, "it.svg")
            status, _, said = run("p4config", "draw", *words, "-o", out)
            self.assertEqual((status, said), (0, ""))
            return ElementTree.parse(out).getroot()

    def test_svg(self):
        program = ["programs/router.p4info.txt", "programs/router.json"]
        plain = self.check_svg(*program)
        texts = [it.text for it in plain.iter(SVG + "text")]
        for wanted in ("ipv4_lpm", "ipv4.dst lpm, 32 bits", "8,192 entries, counted", "route(port, mac)", "ipv4 is valid"):
            self.assertIn(wanted, texts)
        self.assertFalse([it for it in plain.iter(SVG + "g") if "sure" in it.get("class", "")])
        for added in (["--entry", "ipv4_lpm dst=10.0.0.0/8 route(port=1, mac=2)"],
                      ["--packet", "w0:5", "--report", "operator/routes.report", "--tape", "operator/routes.tape"]):
            marked = [it.find(SVG + "title").text for it in self.check_svg(*program, *added).iter(SVG + "g") if "sure" in it.get("class", "")]
            self.assertIn("ingress ipv4_lpm", marked)
            self.assertIn("ingress ipv4_lpm->end of ingress", marked)
            self.assertEqual("parser ipv4" in marked, "--packet" in added)

    def test_wrong_words(self):
        program = ["programs/router.p4info.txt", "programs/router.json"]
        for words, said in (([program[0], program[0]], "is no program of BMv2's form"), ([program[0], "programs/lab.p4info.txt"], "is no program"),
                            ([*program, "--packet", "w0:5"], "give --report and --tape"),
                            ([*program, "--entry", "ipv4_lmp"], "did you mean ipv4_lpm?"),
                            ([*program, "--entry", "ipv4_lpm", "--packet", "w0:1"], "not both"),
                            ([*program, "--packet", "w0:99", "--report", "operator/routes.report", "--tape", "operator/routes.tape"], "has no packet w0:99")):
            status, _, told_to = run("p4config", "draw", *words, "-o", "/dev/null")
            self.assertEqual(status, 2, words)
            self.assertIn(said, told_to)


if __name__ == "__main__":
    unittest.main()
