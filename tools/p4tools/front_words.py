"""The texts of the table of rules (`rules`) in what a switch answers, its numbers as they are. A switch of this project
answers codes and numbers of rules, and leaves texts empty."""
from google.protobuf.message import DecodeError

from p4tools import rules
from p4tools.messages import Error, Status, StreamResponse, code_name, parse

OK, UNKNOWN, ABORTED, UNAVAILABLE = 0, 2, 10, 14
SPACE = "p4switch"
# The trailers of a call that a client takes where it has set nothing (gRPC's own default), in bytes.
TRAILERS = 8192
OF_A_BATCH = "not done, as another update of the batch is refused"
NO_SUCH_MESSAGE = "a message of this kind is not served"


def of_error(error):
    """What an update is refused for: the rule, and what it says."""
    if error.canonical_code == OK:
        return ""
    if error.space == SPACE and error.code:
        return f"U{error.code}: {rules.of_update(error.canonical_code, error.code)}"
    return OF_A_BATCH if error.canonical_code == ABORTED else ""


def of_whole(method, code, message=""):
    """What a call is refused for as a whole. `message` is the switch's own, which is empty or a rule of configs."""
    if message:
        return f"{message}: {rules.CONFIG[message]}" if message in rules.CONFIG else message
    if code == UNAVAILABLE:
        return rules.NO_MEMORY
    return rules.WHOLE.get((method, code_name(code)), "")


def of_status(method, code, message, details, most=TRAILERS):
    """The texts for a call that is refused: those of grpc-message and of the details (the bytes of a
    google.rpc.Status). Details with texts take at most so many bytes of trailers, or have fewer texts."""
    try:
        status = parse(Status, details) if details else None
        errors = [parse(Error, it.value) for it in status.details] if status else []
    except DecodeError:
        return message, details
    refused = [(number, it) for number, it in enumerate(errors, 1) if it.canonical_code not in (OK, ABORTED)]
    if refused:
        number, first = refused[0]
        failed = f"{len(refused):,} of {len(errors):,} updates are refused, the first of them update {number}: " * (
            len(errors) > 1)
        text = f"{failed}{code_name(first.canonical_code)}, {of_error(first)}"
    else:
        text = of_whole(method, code, message)
    if status:
        details = _worded(status, errors, text, most)
    return text, details


def _worded(status, errors, text, most):
    """The details with as many texts as there is room for, the first first."""
    length = status.ByteSize()
    room = most - trailers_size(text, length)
    if len(text) <= room and status.message != text:
        status.message, room = text, room - 2 * len(text) - 8
    for at, error in enumerate(errors):
        words = of_error(error)
        # (base64 makes four bytes of three; heads of fields may grow by a byte each)
        takes = (len(words.encode()) + 8) * 4 // 3 + 1
        if not words or takes > room:
            continue
        error.message, room = words, room - takes
        status.details[at].value = error.SerializeToString()
    return status.SerializeToString()


def trailers_size(text, length):
    """The bytes of a refused call's trailers with so many bytes of details (RFC 9113 counts 32 beside each header)."""
    base64 = (4 * length + 2) // 3
    sizes = (len("grpc-status") + 2, len("grpc-message") + len(text), len("grpc-status-details-bin") + base64)
    return sum(it + 32 for it in sizes) + len(":status200content-typeapplication/grpc") + 64


def of_stream(data):
    """A message of the stream channel with the text of its error, where it is one."""
    try:
        message = parse(StreamResponse, data)
    except DecodeError:
        return data
    if message.WhichOneof("update") != "error" or message.error.message:
        return data
    error = message.error
    if error.space == SPACE and error.code:
        error.message = f"P{error.code}: {rules.PACKET_OUT.get(error.code, '')}"
    elif error.WhichOneof("details") == "other":
        error.message = NO_SUCH_MESSAGE
    return message.SerializeToString()
