"""What of P4 a program is refused for, and the way around it; `docs/programs.md` has the same sentences."""

# For each construct: what it is in P4, and what to write instead.
CONSTRUCTS = {
    "register": ("a register", "keep what changes in table entries that a controller writes, and count by counters"),
    "meter": ("a meter", "let a controller look at counters and change entries"),
    "extern": ("an extern of one's own", "write it as tables and actions"),
    "value set": ("a parser value set", "write the values into the select, or match them in a table"),
    "stack": ("a header stack", "declare a header for each place, with a parser state for each"),
    "union": ("a header union", "declare a header for each member, of which one is valid"),
    "clone": ("clone", "send the packet to the CPU port; the controller sends the copy by packet_out"),
    "again": ("resubmit or recirculate", "apply the second round's tables behind the first's, in one pass"),
    "jump": ("a condition inside of an action", "write the condition in the control's apply, with an action for each side, or as ? :"),
    "varbit": ("a varbit field", "declare a header for each length and choose it in the parser"),
    "wide": ("a field of more than 128 bits", "split it into fields of up to 128 bits"),
    "signed": ("a signed number", "use bit<W>, and compare the uppermost bit"),
    "saturating": ("saturating arithmetic", "compare first, and assign the greatest value by ? :"),
    "lookahead": ("lookahead", "extract the header and select over its fields"),
    "verify": ("verify in a parser", "select over the field, and test it again in ingress"),
    "entries": ("entries written in the program", "insert them by a controller, or by bin/p4ctl -"),
    "ragged": ("a header that is not whole bytes", "add a field that fills the last byte"),
    "key": ("a key with a mask or of a slice", "assign the slice to a metadata field first, and match that; a mask is given by a ternary entry"),
    "action call": ("an action that is called by a control itself", "compile without an option that makes action_calls: the compiler makes a hidden table then"),
    "deparser": ("statements in the deparser", "write them in egress; a deparser emits headers alone"),
    "blocks": ("another architecture, or controls beside ingress and egress", "compile for v1model, with its parser, ingress, egress and deparser"),
    "payload": ("a checksum over the payload", "use update_checksum and verify_checksum over the headers"),
    "digest constant": ("a constant in a digest", "assign it to a metadata field, and give the field"),
    "header operand": ("headers that are compared", "compare their fields"),
    "parser call": ("a function called in a parser", "call it in ingress"),
    "log": ("log_msg, assert or assume", "take it out: `bin/p4tape show` tells what a packet hit"),
    "exit": ("exit", "write if around what follows, or return"),
    "random": ("random", "spread by an action selector, which chooses by a hash"),
    "hash": ("hash, or a checksum of another algorithm than csum16", "spread by an action selector, which chooses by a hash; sum by csum16"),
    "truncate": ("truncate", "leave the packet whole"),
    "operation": ("an operation that is not known here", "write it by assignments and tables"),
    "truth": ("truth values that are compared, or mixed with numbers", "write (a && b) || (!a && !b)"),
    "unsettled": ("a sum, difference, product, shift or complement inside of a comparison, an index or a right shift",
                  "assign it to a metadata field first, which cuts it to its width, and use the field"),
    "loop": ("a loop of parser states, or of tables", "write each round out"),
    "limit": ("more than a limit", "split it, or use less"),
    "translated": ("a type that is translated to texts (sdn_string)", "use a type of bits"),
    "two lpm": ("two LPM fields in a key", "make one of them ternary"),
    "both files": ("a P4Info of another program or of another run of the compiler", "compile once with --p4runtime-files, and give both files of that run"),
    "json": ("no JSON of BMv2", "give the .json file that the P4 compiler writes for BMv2"),
    "egress_spec": ("standard_metadata without egress_spec of 9 bits", "compile for v1model"),
    "names": ("names or ids that stand twice or mean nothing", "compile again; the compiler's own file has each once"),
    "info": ("a P4Info that contradicts itself", "give the file that the compiler wrote, unchanged"),
}
LIMITS = {"headers": 128, "fields in all headers": 1024, "fields of a key": 16, "parameters of an action": 8, "tables": 128,
          "actions": 512, "parser states": 256, "primitives of an action": 64, "elements of a digest": 128}
JSON_BYTES = 4 << 20

# Lists that are to be empty.
LISTS = {"register_arrays": "register", "meter_arrays": "meter", "extern_instances": "extern", "parse_vsets": "value set",
         "header_stacks": "stack", "header_unions": "union", "header_union_types": "union", "header_union_stacks": "union"}
PRIMITIVES = ("assign", "add_header", "remove_header", "assign_header", "mark_to_drop", "drop", "count", "generate_digest", "no_op")
# Primitives that are left out (rule L2), by how they begin or whole; others are unknown (L8).
LEFT_OUT_BEGINS = {"clone": "clone", "register_": "register", "assign_union": "union", "_jump": "jump"}
LEFT_OUT = {"resubmit": "again", "recirculate": "again", "execute_meter": "meter", "push": "stack", "pop": "stack",
            "assign_header_stack": "stack", "remove_union": "union"}
UNKNOWN = {"exit": "exit", "log_msg": "log", "assert": "log", "assume": "log", "truncate": "truncate",
           "modify_field_with_hash_based_offset": "hash", "modify_field_rng_uniform": "random"}
PARSER_OPS = ("extract", "set")
PARSER_LEFT_OUT = {"extract_VL": "varbit", "verify": "verify"}
PARSER_UNKNOWN = {"primitive": "parser call", "advance": "lookahead", "shift": "lookahead"}
VALUES = {"header_stack": "stack", "stack": "stack", "stack_field": "stack", "header_union": "union", "union": "union",
          "union_stack": "union", "union_stack_field": "union", "header_union_stack": "union", "register_array": "register",
          "register": "register", "meter_array": "meter", "extern": "extern", "lookahead": "lookahead"}
OPERATORS = ("+", "-", "*", "<<", ">>", "&", "|", "^", "~", "==", "!=", "<", "<=", ">", ">=", "and", "or", "not", "d2b", "b2d",
             "valid", "?")
OPERATORS_LEFT_OUT = {"sat_cast": "saturating", "usat_cast": "saturating", "two_comp_mod": "signed",
                      "dereference_header_stack": "stack", "dereference_union_stack": "union", "last_stack_index": "stack",
                      "size_stack": "stack", "access_field": "stack", "access_union_header": "union", "valid_union": "union"}
COMPARISONS = ("==", "!=", "<", "<=", ">", ">=")
TRUTHS = (*COMPARISONS, "and", "or", "not", "valid", "d2b")


def primitive_of(name):
    """The rule and the construct for which a primitive is refused, or None."""
    if name in PRIMITIVES:
        return None
    begins = next((construct for start, construct in LEFT_OUT_BEGINS.items() if name.startswith(start)), None)
    if begins or name in LEFT_OUT:
        return "L2", begins or LEFT_OUT[name]
    return "L8", UNKNOWN.get(name, "operation")


def parser_op_of(name):
    """The same of an operation of a parser."""
    if name in PARSER_OPS:
        return None
    if name in PARSER_LEFT_OUT:
        return "L2", PARSER_LEFT_OUT[name]
    return "L8", PARSER_UNKNOWN.get(name, "operation")
