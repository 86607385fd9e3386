"""`p4config --explain`: what the built program says of a config, and the places that explain it."""
import json
import os
import subprocess

from p4tools import explain as places
from p4tools.messages import Config
from p4tools.trouble import Trouble

TAKEN, REFUSED = 0, 1
TOP = os.path.dirname(os.path.dirname(os.path.dirname(os.path.abspath(__file__))))
BUILT = os.path.join(TOP, "crates", "p4switch", "out", "p4switch")
LONGEST = 120


def need_info(file, data, second):
    """Names a JSON that stands where its P4Info is missing, and a P4Info without its JSON."""
    is_program = is_json(data)
    if is_program:
        raise Trouble(f"{file} is the JSON of a program, and is not read as a P4Info in text form; the P4 compiler writes "
                      "that with --p4runtime-files FILE.p4info.txt: write p4config FILE.p4info.txt FILE.json")
    if second is None:
        raise Trouble(f"the JSON of {file} is missing; the P4 compiler writes it for BMv2: write p4config {file} FILE.json")


def is_json(data):
    """Whether bytes are an object of JSON."""
    try:
        return isinstance(json.loads(data), dict)
    except ValueError:
        return False


def explain(info, device):
    """Prints why a config is refused, and gives the exit status."""
    verdict = verdict_of(Config(p4info=info, p4_device_config=device).SerializeToString())
    found = places.findings(info, device)
    for line in places.tell(found, verdict):
        print(line)
    if verdict is None:
        print("(bin/p4switch has not been built here, so its own answer was not asked for)")
    is_refused = bool(found) if verdict is None else verdict != "ok"
    return REFUSED if is_refused else TAKEN


def verdict_of(config):
    """`ok`, or the rule that the built program names; None where it has not been built."""
    program = os.environ.get("P4SWITCH", BUILT)
    if not os.path.isfile(program):
        return None
    ended = subprocess.run([program, "check"], input=config, capture_output=True, timeout=LONGEST, check=False)
    words = ended.stdout.decode("ascii", "replace").split()
    if words == ["ok"]:
        return "ok"
    return words[1] if words[:1] == ["refused"] and len(words) == 2 else None
