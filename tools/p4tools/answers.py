"""The lines of a report in which calls were refused for memory, and what they must be."""
from p4tools import tape
from p4tools.trouble import Trouble

UNAVAILABLE = b"14"
JOURNAL = (b"step", b"notice", b"reply", b"sent", b"end")
DATA, HEADERS, END_STREAM = 0, 1, 1
CAPABILITIES = bytes([tape.METHOD_NUMBERS["capabilities"]])


def lines_of(report):
    """The lines of a report, each as its words."""
    return [it.split(b" ") for it in report.splitlines()]


def journal_of(report):
    """The lines of the calls, of what lanes were sent, and of the end."""
    return [it for it in lines_of(report) if it[0] in JOURNAL]


def refused_calls(lines):
    """The calls that a report answers UNAVAILABLE, as pairs of lane and number."""
    return [(int(it[1]), int(it[2])) for it in lines if it[0] == b"reply" and it[4] == UNAVAILABLE]


def without_calls(records, calls):
    """The records with Capabilities in the place of these calls."""
    made, numbers = [], {}
    for record in records:
        if record.kind in (tape.CALL, tape.LEAVE):
            numbers[record.lane] = numbers.get(record.lane, 0) + 1
            if (record.lane, numbers[record.lane]) in calls:
                record = tape.Record(tape.CALL, record.lane, CAPABILITIES)
        made.append(record)
    return made


def with_refused(lines, calls):
    """The lines with these calls answered UNAVAILABLE, without a message."""
    return [it[:4] + [UNAVAILABLE, b"-"] if it[0] == b"reply" and (int(it[1]), int(it[2])) in calls else it for it in lines]


def with_refused_transport(lines, calls, shown):
    """The lines with these calls of gRPC clients answered UNAVAILABLE. What their clients are sent is taken from `shown`, where
    it is the same but for the answers on as many streams, and each of these is grpc-status 14 alone."""
    steps = [(int(it[2]), int(it[3])) for it in lines if it[0] == b"step"]
    if any(it in steps for it in calls):
        raise Trouble("a refused call of a gRPC client made a step with all memory, and what is answered without that step "
                      "is not known here: give a tape whose calls on such lanes make none")
    lanes = {lane for lane, _ in calls}
    sent = {int(it[1]): it for it in shown if it[0] == b"sent"}
    made = []
    for line in with_refused(lines, calls):
        if line[0] == b"sent" and int(line[1]) in lanes:
            other = sent.get(int(line[1]), line)
            number = sum(lane == int(line[1]) for lane, _ in calls)
            line = other if _is_refused_alone(line, other, number) else line
        made.append(line)
    return made


def _is_refused_alone(whole, other, number):
    """Whether two lines `sent` differ on so many streams alone, and on each of these the second has grpc-status 14 alone."""
    streams = [_by_stream(bytes.fromhex(it[2].decode())) for it in (whole, other)]
    differing = [it for it in streams[0] if streams[0][it] != streams[1].get(it)]
    is_same = list(streams[0]) == list(streams[1]) and len(differing) == number
    return is_same and all(it != 0 and _is_unavailable(streams[1][it]) for it in differing)


def _by_stream(data):
    """The frames of HTTP/2 in some bytes by their streams, each as its type, flags and payload."""
    found, at = {}, 0
    while at < len(data):
        length, stream = int.from_bytes(data[at:at + 3], "big"), int.from_bytes(data[at + 5:at + 9], "big")
        found.setdefault(stream, []).append((data[at + 3], data[at + 4], data[at + 9:at + 9 + length]))
        at += 9 + length
    return found


def _is_unavailable(frames):
    """Whether frames of a stream are the headers of an answer that ends with grpc-status 14 and has no message."""
    headers = [it for type_, _, payload in frames if type_ == HEADERS for it in _headers(payload)]
    is_ended = bool(frames[-1][1] & END_STREAM)
    return is_ended and all(it[0] == HEADERS for it in frames) and headers.count((b"grpc-status", b"14")) == 1


def _headers(block):
    """The headers of a block of literals without indexing whose names and values have at most 126 bytes, as the server writes
    its answers (RFC 7541, section 6.2.2)."""
    found, at = [], 0
    while at < len(block):
        texts = []
        at += 1
        for _ in range(2):
            texts.append(block[at + 1:at + 1 + block[at]])
            at += 1 + block[at]
        found.append(tuple(texts))
    return found
