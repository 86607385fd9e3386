"""The lines of bin/p4ctl: those that look, those of a scenario, and what `help` says of each."""
from p4tools import listen, looks, watch
from p4tools.ctl import no_line
from p4tools.scenario import UPDATES, VERBS, lane_of
from p4tools.trouble import Trouble
from p4tools.words import cut, nothing_more

OWN = {"program": looks.program, "entries": looks.entries, "groups": looks.groups, "counters": looks.counters,
       "ports": looks.ports, "watch": watch.watch, "listen": listen.listen, "play": listen.play}
ENDLESS = ("watch", "listen")
ENTRY = "TABLE FIELD=VALUE .. ACTION(PARAMETER=VALUE, ..)"

# The form of each line, what it does, and an example.
HELP = {
    "program": ("program [ids]", "tables, keys, actions, profiles, counters and digests of the switch's program; with "
                "ids their numbers", "program"),
    "entries": ("entries [TABLE]", "entries and default actions, with what each has counted", "entries ipv4_lpm"),
    "groups": ("groups", "members and groups of the action profiles, digest entries and multicast groups", "groups"),
    "counters": ("counters [TABLE | COUNTER]", "what entries and cells have counted", "counters ipv4_lpm"),
    "watch": (watch.FORM, "packets and bytes a second of each entry and cell, once a second; --once looks once, over a "
              "second, and --json writes an object a line", "watch --once"),
    "ports": ("ports", "where packets go in and out, and what sends to which port", "ports"),
    "listen": ("listen [count=N] [seconds=N]", "packets for the controller, digests (which are acknowledged), idle "
               "timeouts and changes of mastership, as they come", "listen seconds=10"),
    "play": ("play FILE", "the calls and packets of a scenario, in their order; what is refused is told",
             "play examples/operator/routes.scenario"),
    "config": ("config ACTION [P4INFO JSON | CONFIG] [cookie=N]", "sets the program: verify, verify_and_save, "
               "verify_and_commit, commit", "config verify_and_commit router.p4info.txt router.json"),
    "insert": (f"insert {ENTRY} [priority=N]", "a new entry, member, group or digest entry (`help entities`)",
               "insert ipv4_lpm dst=10.1.0.0/16 route(port=3, mac=02:00:00:00:00:03)"),
    "modify": (f"modify {ENTRY} [priority=N]", "what an entry, member or group does; TABLE default ACTION(..) is the "
               "default action", "modify ipv4_lpm default drop()"),
    "delete": ("delete TABLE FIELD=VALUE .. [priority=N]", "takes an entry, member or group away",
               "delete ipv4_lpm dst=10.1.0.0/16"),
    "batch": ("batch [ATOMICITY]", "updates up to `end`, in one Write: continue_on_error, rollback_on_error or "
              "dataplane_atomic", "batch dataplane_atomic"),
    "multicast": ("multicast [insert | modify | delete] GROUP [replicas PORT[:INSTANCE], ..]", "a multicast group, as insert "
                  "multicast", "multicast 7 replicas 1, 2, 3:5"),
    "read": ("read ENTITY, or read, entities, end", "what the switch has, asked for by the words of an entity",
             "read ipv4_lpm"),
    "packet_out": ("packet_out [FIELD=VALUE ..] HEX", "a packet of the controller, which enters at the CPU port",
                   "packet_out 02000000000a02000000000108004500"),
    "digest_ack": ("digest_ack DIGEST list_id=N", "acknowledges a digest list", "digest_ack seen list_id=1"),
    "packet": ("packet port=N [times=N] HEX", "a packet into a port, by UDP", "packet port=1 020000000001020000000002"),
    "pcap": ("pcap port=N FILE [first=N] [count=N] [times=N]", "the packets of a capture into a port, by UDP",
             "pcap port=2 examples/operator/customer.pcap"),
    "arbitrate": ("arbitrate election=N [role=N] [ids=NAME,..] [device=N]", "asks to be primary of a role; lines that "
                  "change something do so by themselves", "arbitrate election=5"),
    "as": ("as [device=N] [election=N] [role=N]", "later calls name these", "as election=5"),
    "leave": ("leave", "ends the stream: this controller is no longer primary", "leave"),
    "names": ("names P4INFO", "names are those of this file, not of the switch's program", "names router.p4info.txt"),
    "get": ("get [all | cookie_only | p4info_and_cookie | device_config_and_cookie]", "the program that was set", "get"),
    "capabilities": ("capabilities", "the version of P4Runtime", "capabilities"),
    "raw": ("raw METHOD HEX", "a call of just these bytes: write, read, set, get, stream, capabilities",
            "raw capabilities ."),
    "help": ("help [LINE]", "what a line is for; `help entities` has the words of entities", "help insert"),
    "quit": ("quit", "ends the shell; so does the end of the input", "quit"),
}
ENTITIES = {
    "an entry of a table": f"{ENTRY} [priority=N] [controller_metadata=N]",
    ".. to a member, a group, a set": "member_id=N, group_id=N, oneshot(ACTION(..)*WEIGHT, ..) in place of the action",
    "a default action": "TABLE default ACTION(..)",
    "a member": "action_profile_member PROFILE member_id=N ACTION(..)",
    "a group": "action_profile_group PROFILE group_id=N members=1*1,2*3 (member and weight)",
    "a digest": "digest_entry DIGEST max_list_size=N max_timeout_ns=N ack_timeout_ns=N",
    "a multicast group": "multicast GROUP replicas 1, 2, 3:5 (port, and instance where it is not 0)",
    "counters, in a read": "counter_entry COUNTER [index=N], direct_counter_entry TABLE [FIELD=VALUE ..]",
    "a match": "dst=10.1.0.0/16 (lpm), a=0xa0&&&0xf0 (ternary), port=1..3 (range), dst=7 (exact, optional)",
    "a value": "7, 0x07, 10.1.0.0, 02:00:00:00:00:03, an IPv6 address, or bytes:0007 for the very bytes",
}
# Lines of a scenario that mean nothing to a live switch.
TESTED = "what must come is tested by `bin/p4tape test FILE`, and `play FILE` passes over it"
NOT_LIVE = {"expect": TESTED, "strict": TESTED, "queued": TESTED, "start": "the switch runs already; `bin/p4tape test FILE` starts one",
            "meet": "on a live switch each line waits for its answer, so there is nothing to meet",
            "bytes": "a client's bytes are played by `bin/p4switch replay`; to a live switch calls are made",
            "include": "write play FILE in place of include FILE"}


def verbs():
    """The words with which a line begins."""
    return [it for it in HELP if it not in NOT_LIVE]


def is_line(text):
    """Whether a text of several words is a line of its own."""
    words = text.split()
    return len(words) > 1 and (words[0] in HELP or lane_of(words)[0] is not None)


def lines_of(words):
    """The lines of a command line: an argument of several words that is a line stands for itself, and the
    arguments between such make a line together."""
    lines, open_words = [], []
    for word in words:
        if is_line(word):
            lines += [" ".join(open_words)] * bool(open_words) + [word]
            open_words = []
        else:
            open_words.append(word)
    return lines + [" ".join(open_words)] * bool(open_words)


def take(session, line):
    """Does what a line says; gives what it tells."""
    lane, words = lane_of(cut(line))
    if session.maker.block or not words:
        yield from session.take(line)
        return
    verb = words[0]
    if verb in NOT_LIVE:
        raise Trouble(f"{verb} has no place here: {NOT_LIVE[verb]}")
    if lane and (verb in OWN or verb == "help"):
        raise Trouble(f"{verb} is of no controller: leave {lane} out")
    if verb == "help":
        yield from tell_help(words[1:])
    elif verb in OWN:
        yield from OWN[verb](session, words[1:])
    elif verb == "multicast":
        yield from session.take(f"{lane or ''} {multicast(words[1:])}")
    elif verb in VERBS or verb in UPDATES:
        yield from session.take(line)
    else:
        raise Trouble(no_line(verb, HELP))


def multicast(words):
    """The line of an update that `multicast` stands for."""
    verb, *rest = words if words[:1] and words[0] in UPDATES else ["insert", *words]
    if not rest:
        raise Trouble(f"a group is missing; write {HELP['multicast'][0]}")
    return " ".join([verb, "multicast", *rest])


def tell_help(words):
    """`help [LINE]`"""
    nothing_more(words[1:], "help [LINE]")
    if words == ["entities"]:
        width = max(map(len, ENTITIES))
        yield from (f"{title:<{width}}  {form}" for title, form in ENTITIES.items())
        return
    if words:
        if words[0] not in HELP:
            raise Trouble(no_line(words[0], HELP))
        form, does, example = HELP[words[0]]
        yield form
        yield f"    {does}"
        yield f"    example: {example}"
        return
    width = max(map(len, HELP))
    for verb, (_, does, _) in HELP.items():
        yield f"{verb:<{width}}  {does}"
