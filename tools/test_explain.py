"""p4config --explain: where a program is refused and what to write instead, held against the rows of program_rows,
which say of changed programs which rule they break first."""
import os
import re
import unittest

from p4tools import agree, constructs, explain, rules
from p4tools.messages import P4Info, parse
from test_commands import run
from test_scenarios import EXAMPLES, bytes_of

TOP = os.path.join(EXAMPLES, "..")
ROWS = os.path.join(TOP, "crates/program_rows")
# The rules whose places are looked for; of L1, L4 and L5 only what a compiler's file may have.
SOUGHT = ("L2", "L3", "L6", "L7", "L8", "L9", "L10", "L11", "L12", "L13", "L14", "L15")
# Rules that a row without a P4Info asks for.
OF_PROGRAM = ("L1", "L2", "L3")


def rows():
    """Each row of program_rows that is one program: its name, its P4Info or None, its JSON, and the rule, or ok."""
    with open(os.path.join(ROWS, "stdout"), encoding="utf-8") as it:
        wanted = {tuple(line.split("\t")[:2]): line.rstrip("\n").split("\t")[2].split(" ")[0] for line in it}
    with open(os.path.join(ROWS, "stdin"), encoding="utf-8") as it:
        lines = [line.rstrip("\n").split("\t") for line in it if line.strip() and not line.startswith("#")]
    for parts in lines:
        if parts[0] not in ("changed", "link", "program"):
            continue
        texts = parts[-2:] if parts[0] == "changed" else []
        files = parts[2:len(parts) - len(texts)]
        info = parse(P4Info, data_of(files[0])) if files[0].endswith(".info") else None
        data = data_of(files[-1])
        if texts:
            data = data.replace(texts[0].encode(), texts[1].encode(), 1)
        answer = wanted[parts[0], parts[1]]
        yield parts[1], info, data, answer if answer == "ok" else "L" + answer


def data_of(name):
    with open(os.path.join(ROWS, "data", name), "rb") as it:
        return it.read()


def changed(program, old, new):
    """The lines of what is told of a program of the examples with a text in place of another."""
    data = bytes_of(f"programs/{program}.json")
    text = re.sub(rb"\s+", b"", data)
    assert old.encode() in text, old
    from p4tools.names import read_info
    info = read_info(bytes_of(f"programs/{program}.p4info.txt"), program)[0]
    return list(explain.tell(explain.findings(info, text.replace(old.encode(), new.encode(), 1))))


class Places(unittest.TestCase):
    def test_rows(self):
        number = 0
        for name, info, data, wanted in rows():
            with self.subTest(name):
                found = explain.findings(info or P4Info(), data)
                if wanted == "ok":
                    asked = [it for it in found if info is not None or it.rule in OF_PROGRAM]
                    self.assertEqual(asked, [])
                elif wanted in SOUGHT:
                    self.assertIn(wanted, [it.rule for it in found])
                number += 1
        self.assertGreater(number, 200)

    def test_a_place(self):
        old = '"primitives":[{"op":"assign"'
        new = '"primitives":[{"op":"register_read","parameters":[],"source_info":{"filename":"r.p4","line":9,"source_fragment":"r.read(x,0)"}},{"op":"assign"'
        self.assertEqual(changed("router", old, new), [
            "refused by rule L2: the program uses what is left out",
            "  L2  actions[0].primitives[0], `register_read` in action `route` (r.p4:9: r.read(x,0))", "      a register",
            "      instead: keep what changes in table entries that a controller writes, and count by counters"])

    def test_each_construct_that_is_named(self):
        """What a P4 author may have written, by its JSON, and the construct that is told."""
        action = '"primitives":[{"op":"assign"'
        for program, old, new, rule, construct in (
                ("router", action, action.replace('"op":"assign"', '"op":"clone_ingress_pkt_to_egress","parameters":[]},{"op":"assign"'), "L2", "clone"),
                ("router", action, action.replace('"op":"assign"', '"op":"recirculate","parameters":[]},{"op":"assign"'), "L2", "again"),
                ("router", action, action.replace('"op":"assign"', '"op":"_jump_if_zero","parameters":[]},{"op":"assign"'), "L2", "jump"),
                ("router", action, action.replace('"op":"assign"', '"op":"exit","parameters":[]},{"op":"assign"'), "L8", "exit"),
                ("router", action, action.replace('"op":"assign"', '"op":"log_msg","parameters":[]},{"op":"assign"'), "L8", "log"),
                ("router", action, action.replace('"op":"assign"', '"op":"modify_field_rng_uniform","parameters":[]},{"op":"assign"'), "L8", "random"),
                ("router", '"op":"extract"', '"op":"extract_VL"', "L2", "varbit"),
                ("router", '"transition_key":[{"type":"field"', '"transition_key":[{"type":"lookahead"', "L2", "lookahead"),
                ("router", '"algo":"csum16"', '"algo":"crc16"', "L8", "hash"),
                ("router", '["version",4', '["version",5', "L2", "ragged"),
                ("router", '"default_entry":{', '"entries":[{}],"default_entry":{', "L2", "entries"),
                ("router", '"errors"', '"meter_arrays":[{"name":"m"}],"errors"', "L2", "meter"),
                ("router", '"errors"', '"header_stacks":[{"name":"s"}],"errors"', "L2", "stack")):
            with self.subTest(construct):
                told = changed(program, old, new)
                self.assertEqual(told[0], f"refused by rule {rule}: {rules.CONFIG[rule]}")
                what, instead = constructs.CONSTRUCTS[construct]
                self.assertIn(f"      {what}\n      instead: {instead}", "\n".join(told))

    def test_ids_of_each_kind(self):
        """An id of each kind has the highest byte that P4Runtime gives the kind, and is told with any other one."""
        kinds = {"tables": 2, "actions": 1, "action_profiles": 0x11, "counters": 0x12, "direct_counters": 0x13, "digests": 0x17,
                 "controller_packet_metadata": 4}
        for field, byte in kinds.items():
            for highest in (byte, byte + 1, 0x18):
                with self.subTest(field, highest=highest):
                    info = P4Info()
                    own = getattr(info, field).add().preamble
                    own.id, own.name = highest << 24 | 1, "it"
                    told = [rule for rule, *_ in agree.of_info(info) if rule == "I3"]
                    self.assertEqual(told, [] if highest == byte else ["I3"])

    def test_words_stand_in_the_document(self):
        with open(os.path.join(TOP, "docs/programs.md"), encoding="utf-8") as it:
            document = it.read()
        for construct, (_, instead) in constructs.CONSTRUCTS.items():
            with self.subTest(construct):
                self.assertTrue(instead.replace("||", "\\|\\|") in document, instead)


class Script(unittest.TestCase):
    def test_explain(self):
        status, data, said = run("p4config", "--explain", "programs/router.p4info.txt", "programs/router.json")
        self.assertEqual((status, said), (0, ""), data)
        status, data, said = run("p4config", "--explain", "programs/router.p4info.txt", "programs/lab.json")
        self.assertEqual((status, said), (1, ""))
        self.assertTrue(data.startswith(b"refused by rule L10: "), data)
        self.assertIn(b"P4Info tables[0], `ipv4_lpm`, which the JSON has not", data)

    def test_files_are_named(self):
        for words, said in ((["programs/router.json"], "programs/router.json is the JSON of a program"),
                            (["programs/router.json", "programs/router.json"], "--p4runtime-files"),
                            (["programs/router.p4info.txt"], "the JSON of programs/router.p4info.txt is missing")):
            for option in ([], ["--explain"]):
                status, data, told = run("p4config", *option, *words)
                self.assertEqual((status, data), (2, b""))
                self.assertIn(said, told)


if __name__ == "__main__":
    unittest.main()
