"""What the rules say by whose names p4switch refuses, in a few words each."""

UPDATE = {
    1: "no kind of update, or no entity",
    2: "what it gives is not served",
    3: "there is no such object",
    4: "it is not among the ids of the role",
    5: "the table or its default action is constant",
    6: "a match or an id is malformed",
    7: "a value is wider than its field",
    8: "bits outside of mask or prefix, an empty range, or a priority that does not fit the table",
    9: "the action, or what it is given, does not fit",
    11: "a member or group is missing, or in use",
    12: "there is no room"}
PACKET_OUT = {
    1: "the sender is not the primary of its role",
    2: "there is no program",
    3: "the metadata does not fit",
    4: "it is too long"}
WHOLE = {
    ("write", "NOT_FOUND"): "no such device",
    ("write", "PERMISSION_DENIED"): "the election id is not that of the role's primary",
    ("write", "FAILED_PRECONDITION"): "there is no program",
    ("write", "INVALID_ARGUMENT"): "the message is not read, or its atomicity is unknown",
    ("write", "RESOURCE_EXHAUSTED"): "more than 4,096 updates",
    ("read", "NOT_FOUND"): "no such device, or the program has no such object",
    ("read", "FAILED_PRECONDITION"): "there is no program",
    ("read", "UNIMPLEMENTED"): "what is asked for is not served",
    ("read", "INVALID_ARGUMENT"): "the message is not read, or a match is malformed",
    ("read", "OUT_OF_RANGE"): "a value is wider than its field",
    ("set", "NOT_FOUND"): "no such device",
    ("set", "PERMISSION_DENIED"): "the election id is not that of the role's primary, or the role is bounded to ids",
    ("set", "INVALID_ARGUMENT"): "the message is not read, or its action and its config do not go together",
    ("set", "FAILED_PRECONDITION"): "no program is saved, or the entries have no place in the new one",
    ("set", "RESOURCE_EXHAUSTED"): "no room for its counters",
    ("set", "UNIMPLEMENTED"): "this action is not served",
    ("get", "NOT_FOUND"): "no such device",
    ("get", "INVALID_ARGUMENT"): "the message is not read, or asks for an unknown part",
    ("stream", "NOT_FOUND"): "no such device",
    ("stream", "FAILED_PRECONDITION"): "the session has another role",
    ("stream", "INVALID_ARGUMENT"): "the message is not read, another session of the role bears this election id, "
                                    "or the role's configuration is not served",
    ("stream", "RESOURCE_EXHAUSTED"): "too many sessions or roles"}
NO_MEMORY = "the switch has no memory for this; it changed nothing"
CONFIG = {
    "I1": "the config or its P4Info is not read",
    "I2": "an id is 0 or stands twice",
    "I3": "an id is not of its kind",
    "I4": "a name is empty or stands twice",
    "I5": "a reference of the P4Info names nothing",
    "I6": "a width is not 1 to 128 bits",
    "I7": "a match kind, a scope or the number of a field is wrong",
    "I8": "a size is negative or above a limit",
    "I9": "two LPM fields in a table, or a controller header that is not whole bytes",
    "L1": "the JSON is not of the shape that is read",
    "L2": "the program uses what is left out",
    "L3": "a limit is passed",
    "L4": "a name or an id of the JSON stands twice",
    "L5": "a name of the JSON means nothing",
    "L6": "the parser has a loop",
    "L7": "the tables have a loop",
    "L8": "an operation is not known",
    "L9": "an expression is not settled where it must be",
    "L10": "a table of the P4Info is not in the JSON, or has another key",
    "L11": "an action of the P4Info is not in the JSON, or has other parameters",
    "L12": "an action profile differs",
    "L13": "a counter differs",
    "L14": "a digest differs",
    "L15": "standard_metadata.egress_spec is not 9 bits wide"}


def of_config(message):
    """The rule of a configuration that the message of a Status names, alone or before its words; empty where it names none."""
    rule = message.partition(":")[0]
    return rule if rule in CONFIG else ""


def of_update(code, number):
    """The rule of an update that is refused, in words."""
    if number == 10:
        return "it is there already" if code == 6 else "it is not there"
    return UPDATE.get(number, "")


# What to do about a refusal, a sentence each.
TO_DO_UPDATE = {
    1: "begin the line with insert, modify or delete, and name an entity",
    2: "leave it out: meters, counters, idle timeouts and clone sessions are not written here, nor are members watched",
    3: "`program ids` lists what the program has",
    4: "name it among the ids of the role (`arbitrate election=N role=N ids=NAME,..`), or write as a role without a list",
    5: "the program fixes it, so only another program changes it; a default action is changed by modify alone",
    6: "give each exact field once, and no field of another kind; `program` lists the keys",
    7: "write a value that fits the width; `program` lists the widths",
    8: "clear the bits behind the prefix or outside of the mask; priority=N is for keys with a ternary, range or optional "
       "field, and for these alone",
    9: "`program` lists the actions of the table and what each takes",
    11: "insert what it names first, and before a delete take it out of what names it",
    12: "delete what is not needed; `program` says how much a table has room for, and `serve --rows` how many rows there are"}
TO_DO_NAMED = {
    "action_profile_member": "take it out of the groups and entries that name it first; `groups` and `entries` list them",
    "action_profile_group": "take it out of the entries that name it first; `entries` lists them"}
TO_DO_MISSING = {
    "action_profile_member": "a profile with one-shot sets has no members: delete the entries with such sets first",
    "action_profile_group": "insert its members first; a profile with one-shot sets has no groups",
    "action_profile_member_id": "insert the member first; `groups` lists those that are there",
    "action_profile_group_id": "insert the group first; `groups` lists those that are there",
    "action_profile_action_set": "a profile with members or groups has no one-shot sets: delete these first"}
TO_DO_PRESENT = "change it by modify, or delete it first"
TO_DO_ABSENT = "insert it; `entries` and `groups` list what is there"
TO_DO_GONE = "`entries` and `groups` list what is there"
TO_DO_PACKET_OUT = {
    1: "arbitrate with a greater election id first (`--election`)",
    2: "load a program first: config verify_and_commit P4INFO JSON",
    3: "give each field of the header packet_out once; `program` lists them",
    4: "with its header a packet has at most 9,216 bytes"}
TO_DO_WHOLE = {
    ("write", "PERMISSION_DENIED"): "arbitrate for the role with a greater election id (--election)",
    ("write", "FAILED_PRECONDITION"): "load one: config verify_and_commit P4INFO JSON",
    ("write", "RESOURCE_EXHAUSTED"): "split it: a batch has at most 4,096 updates",
    ("read", "FAILED_PRECONDITION"): "load one: config verify_and_commit P4INFO JSON",
    ("read", "NOT_FOUND"): "`program ids` lists what the program has; --device N names another device",
    ("set", "PERMISSION_DENIED"): "arbitrate with a greater election id (--election), in a role without a list of ids",
    ("set", "FAILED_PRECONDITION"): "save one first: config verify_and_save P4INFO JSON",
    ("set", "INVALID_ARGUMENT"): "commit takes no files, and the other actions take P4INFO JSON",
    ("set", "UNIMPLEMENTED"): "use verify_and_commit; entries are to be inserted again behind it",
    ("set", "RESOURCE_EXHAUSTED"): "declare fewer or smaller counters, or start the switch anew",
    ("stream", "FAILED_PRECONDITION"): "leave first, or open a connection of its own for the other role",
    ("stream", "INVALID_ARGUMENT"): "use a greater election id (`--election`); a list of ids is for a role other than 0, "
                                    "and has at most 128",
    ("stream", "RESOURCE_EXHAUSTED"): "let another controller leave first; there are 32 sessions and 64 roles"}
TO_DO_DEVICE = "name the device that the switch was started with, --device N; without that option it is 1"
TO_DO_CONFIG = "`p4config --explain P4INFO JSON` says where, and what to write instead"
TO_DO_MEMORY = "the switch found no memory; try it again, or ask for less at a time"
