"""`p4ctl listen`, which prints what comes on the stream channel, and `p4ctl play FILE`, which makes the
calls of a scenario on a live switch."""
import os
import queue
import time

from p4tools import advice, scenario, told
from p4tools.ctl import Refused, Session
from p4tools.messages import (SetRequest, StreamRequest, StreamResponse, WriteRequest, code_name, number_of, parse,
                              set_number)
from p4tools.trouble import Trouble
from p4tools.words import nothing_more, options


def listen(session, words):
    """`listen [count=N] [seconds=N]`: packets, digests (acknowledged), idle timeouts and changes of mastership."""
    rest, given = options(words, ("count", "seconds"))
    nothing_more(rest, "listen [count=N] [seconds=N]")
    session.learn()
    yield from _stand(session)
    link = session.caller(0).link
    until = time.monotonic() + given["seconds"] if "seconds" in given else None
    left = given.get("count")
    for data in session.callers[0].waiting:
        yield from _told(session, data)
    session.callers[0].waiting = []
    while left is None or left > 0:
        try:
            data = link.hear(None if until is None else max(until - time.monotonic(), 0))
        except queue.Empty:
            return
        if data is None:
            answer = link.end_of_stream()
            raise Trouble(f"the switch ended the stream: {code_name(answer.code)}")
        yield from _told(session, data)
        left = None if left is None else left - 1


def _stand(session):
    """Becomes the primary where it can, else a backup, and says which."""
    who = session.maker.speaker(0)
    if 0 in session.own or 0 in session.chosen:
        return
    wanted = session.options.election
    greatest, code = session.ask_to_be(0, wanted or 0)
    if code and wanted is None and code_name(code) == "NOT_FOUND":
        wanted = max(greatest, 1)
        greatest, code = session.ask_to_be(0, wanted)
    if code:
        yield (f"{advice.of_election(who.role, wanted or 0, (greatest, code))}; "
               "until then only changes of mastership come here")
        return
    session.chosen[0] = who.election = wanted
    yield f"primary of role {who.role} with election id {greatest}: what the program sends to a controller comes here"


def _told(session, data):
    """A message in words; a digest list is acknowledged."""
    message = parse(StreamResponse, data)
    session.beside.names = session.maker.names
    yield told.tell_notice(data, session.beside)
    if message.WhichOneof("update") == "digest":
        request = StreamRequest()
        request.digest_ack.digest_id = message.digest.digest_id
        request.digest_ack.list_id = message.digest.list_id
        session.caller(0).link.say(request.SerializeToString())


def play(session, words):
    """`play FILE`: the calls and packets of a scenario in their order, each controller on a connection of its own.
    What is refused is told, and the scenario goes on; at its end that is Refused, too. With `--election` the
    election ids of the scenario are raised, so that the least is that one."""
    if len(words) != 1:
        raise Trouble("write play FILE, with the file of a scenario")
    path, lines = os.path.normpath(os.path.join(session.folder, words[0])), []
    session.learn()
    scenario.make(path, session.note, names=session.maker.names,
                  took=lambda file, number, records, names: lines.append((f"{file}:{number}", records, names)))
    # (who holds the connection in the meantime would stand in the way of the scenario's own controllers)
    session.close()
    playing = Session(session.options, session.note)
    asks = any(_is_arbitration(it) for _, records, _ in lines for it in records)
    if asks:
        playing.own |= {it.lane for _, records, _ in lines for it in records}
    if asks and session.options.election:
        lines = raised(lines, session.options.election)
    calls, packets, wrong = 0, 0, 0
    try:
        for place, records, playing.maker.names in lines:
            are_packets = bool(records) and records[0].kind == scenario.tape.PACKET
            calls, packets = calls + (not are_packets) * len(records), packets + are_packets * len(records)
            try:
                yield from playing.send(records)
            except Refused as refusal:
                wrong += 1
                yield f"{place}: refused"
                yield from refusal.lines
    finally:
        playing.close()
    session.forget_names()
    yield f"# {told.counted(calls, 'call')}, {told.counted(packets, 'packet')}, {wrong:,} refused"
    if wrong:
        raise Refused([])


KINDS = {"write": WriteRequest, "set": SetRequest, "stream": StreamRequest}


def raised(lines, least):
    """The same lines with election ids raised, so that the least that is not 0 is `least`."""
    found = [number_of(it.election_id) for _, records, _ in lines for record in records
             for it in [_with_election(record)[1]] if it is not None and number_of(it.election_id)]
    by = least - min(found, default=least)
    return [(place, [_raise(it, by) for it in records], names) for place, records, names in lines]


def _with_election(record):
    """The message of a record and what in it bears an election id, or None."""
    if record.kind != scenario.tape.CALL or record.method() not in KINDS:
        return None, None
    message = parse(KINDS[record.method()], record.message())
    if record.method() != "stream":
        return message, message
    return message, message.arbitration if message.WhichOneof("update") == "arbitration" else None


def _raise(record, by):
    message, bearer = _with_election(record)
    if bearer is None or not number_of(bearer.election_id):
        return record
    set_number(bearer.election_id, number_of(bearer.election_id) + by)
    return record._replace(payload=record.payload[:1] + message.SerializeToString())


def _is_arbitration(record):
    if record.kind != scenario.tape.CALL or record.method() != "stream":
        return False
    return parse(StreamRequest, record.message()).WhichOneof("update") == "arbitration"
