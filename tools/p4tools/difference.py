"""What two reports differ in, in the words of told.py."""
from p4tools import packets, told

SIDES = ("A", "B")


def differences(reports, besides, progress=None):
    """The lines that tell what two reports differ in; none where they say the same."""
    for report, beside in zip(reports, besides):
        beside.follow(report)
    if reports[0].device is not None or reports[1].device is not None:
        devices = [f"device {it.device}" if it.device is not None else "no device named" for it in reports]
        yield from _sides("report of", *devices)
    yield from _calls(reports, besides)
    yield from _packets(reports, besides, progress)
    yield from _keyed("bytes sent", *[{f"c{lane}": f"{len(data):,} bytes {data.hex()}"
                                       for lane, data in it.sent.items()} for it in reports])
    yield from _keyed("count of", *[_figures(it.counts, told.tell_count, beside)
                                    for it, beside in zip(reports, besides)])
    yield from _keyed("count of", *[_figures(it.cells, told.tell_cell, beside)
                                    for it, beside in zip(reports, besides)])
    yield from _sides("end", *[f"{told.counted(it.end[0], 'step')}, {told.counted(it.end[1], 'packet')}"
                             for it in reports])


def _sides(title, one, other):
    """The two sides of what differs."""
    if one == other:
        return []
    return [title] + [f"    {side}: {text}" for side, text in zip(SIDES, (one, other))]


def _keyed(title, one, other):
    """What stands under the same key in both."""
    for key in [*one, *[it for it in other if it not in one]]:
        yield from _sides(f"{title} {key}", one.get(key, "none"), other.get(key, "none"))


def _figures(lines, tell, beside):
    return dict(tell(it, beside).rsplit(": ", 1) for it in lines)


def _calls(reports, besides):
    known = [{(it.lane, it.number): it for it in report.calls} for report in reports]
    for key in [*known[0], *[it for it in known[1] if it not in known[0]]]:
        calls = [it.get(key) for it in known]
        lines = [told.tell_call(it, beside, numbered=False) if it else ["no such call"]
                 for it, beside in zip(calls, besides)]
        if lines[0] == lines[1]:
            continue
        yield f"c{key[0]} call {key[1]}"
        for side, of_side in zip(SIDES, lines):
            yield from [f"    {side}: {of_side[0]}", *[f"       {it}" for it in of_side[1:]]]


def _packets(reports, besides, progress):
    known = [{(it.who, it.number): it for it in report.packets} for report in reports]
    keys = [*known[0], *[it for it in known[1] if it not in known[0]]]
    makers = [_makers(it) for it in reports]
    for done, key in enumerate(keys):
        yield from _packet(key, [it.get(key) for it in known], besides, makers)
        if progress:
            progress.at(done)


def _makers(report):
    """The call that made each step, so that a step more or less is not told of every later packet."""
    found = {0: "before all steps"}
    for call in report.calls:
        for place, step in enumerate(call.steps, 1):
            of = f"step {place} of " * (len(call.steps) > 1)
            found[step.number] = f"after {of}c{call.lane} call {call.number}"
    return found


def _packet(key, pair, besides, makers):
    """The parts of a packet's line that differ."""
    entered = [beside.entered.get(key) for beside in besides]
    port, data = next((it for it in entered if it), (None, None))
    title = f"{key[0]} packet {key[1]}" + ("" if data is None else f": {packets.summary(data)}")
    lines = []
    if None in pair:
        lines = _sides("", *["there" if it else "not there" for it in pair])[1:]
    else:
        if all(entered) and entered[0] != entered[1]:
            lines += ["    the packets that entered differ, so their outcomes say little"]
        after = [of_side.get(it.after, f"after step {it.after}") for it, of_side in zip(pair, makers)]
        lines += _sides("", *after)[1:]
        lines += _outcome(pair, besides)
        digests = [told.tell_digest(it.digest, beside) if it.digest else "no digest"
                   for it, beside in zip(pair, besides)]
        lines += _sides("", *digests)[1:]
        hits = [", ".join(map(beside.hit, it.hits)) or "nothing" for it, beside in zip(pair, besides)]
        lines += _sides("", *[f"hit {it}" for it in hits])[1:]
    return [title, *lines] if lines else []


def _outcome(pair, besides):
    """Where the packets went; by fields where the same packet left at the same port, changed."""
    one, other = pair
    if (one.fate, one.outputs, one.cpu) == (other.fate, other.outputs, other.cpu):
        return []
    if len(one.outputs) == len(other.outputs) == 1 and not one.cpu and not other.cpu:
        fields = packets.differences(one.outputs[0][1], other.outputs[0][1])
        if fields and one.outputs[0][0] == other.outputs[0][0]:
            return [f"    sent to port {one.outputs[0][0]} with {name}: A {first}, B {second}"
                    for name, first, second in fields]
    texts = ["; ".join(told.tell_fate(it, beside)) for it, beside in zip(pair, besides)]
    if texts[0] == texts[1]:
        texts = [" ".join(data.hex() for _, data in [*it.outputs, *it.cpu]) for it in pair]
    return _sides("", *texts)[1:]
