"""A stand-in of the switch for tests of what talks to it: P4Runtime over grpcio at a port of 127.0.0.1, with a
table of entries in memory. It arbitrates role 0 by election ids, sets and gets a program, writes and reads
table entries, and answers packets; it keeps every call as a record of a tape. What it is to refuse is said
beforehand (`errors`, `refusal`). It checks no rule but that an entry is there or not."""
import queue
import threading
from concurrent import futures

import grpc

from p4tools import front_words
from p4tools import messages as p4
from p4tools.tape import CALL, METHOD_NUMBERS, Record

NAMES = {"write": "Write", "read": "Read", "set": "SetForwardingPipelineConfig", "get": "GetForwardingPipelineConfig",
         "capabilities": "Capabilities"}
ALREADY_EXISTS, NOT_FOUND, ABORTED = 6, 5, 10
ERROR_TYPE = "type.googleapis.com/p4.v1.Error"


def _same(data):
    return data


def code_of(number):
    """The grpc.StatusCode of a number."""
    return next(it for it in grpc.StatusCode if it.value[0] == number)


def error_of(code, rule):
    """A p4.v1.Error as the switch gives it."""
    return p4.Error(canonical_code=code, space="p4switch", code=rule)


class Handler(grpc.GenericRpcHandler):
    """Hands each method's bytes to the stand-in."""

    def __init__(self, standin):
        self.standin = standin

    def service(self, details):
        name = details.method.rpartition("/")[2]
        if name == "StreamChannel":
            return grpc.stream_stream_rpc_method_handler(self.standin.channel, _same, _same)
        method = next((it for it, called in NAMES.items() if called == name), None)
        if method == "read":
            return grpc.unary_stream_rpc_method_handler(self.standin.read, _same, _same)
        if method is None:
            return None
        return grpc.unary_unary_rpc_method_handler(
            lambda data, context: self.standin.unary(method, data, context), _same, _same)


class Standin:
    """The switch's state, and what was asked of it."""

    def __init__(self):
        self.lock, self.log = threading.Lock(), []
        self.config, self.entries, self.counts = None, {}, {}
        self.greatest, self.sessions = 0, {}
        # The Errors of the next Write, the code (and the Status's message) of the next call of a method, the
        # Error's rule and code for the next packet.
        self.errors, self.refusal, self.packet_error = [], {}, None
        # Whether refusals have texts, as behind `bin/p4front --words`, and the method that was asked for last.
        self.has_words, self.method = False, None
        self.others = []
        self.server = grpc.server(futures.ThreadPoolExecutor(16))
        self.server.add_generic_rpc_handlers((Handler(self),))
        self.port = self.server.add_insecure_port("127.0.0.1:0")
        self.server.start()

    def stop(self):
        self.server.stop(None).wait()

    def calls(self, *methods):
        """The records of the calls of some methods."""
        return [it for it in self.log if it.method() in methods]

    def _keep(self, method, data):
        with self.lock:
            self.method = method
            self.log.append(Record(CALL, 0, bytes([METHOD_NUMBERS[method]]) + data))

    def _refuse(self, context, code, details=None):
        text, data = "", details.SerializeToString() if details is not None else b""
        if self.has_words:
            text, data = front_words.of_status(self.method, code, details.message if details is not None else "", data, 1 << 20)
        if data:
            context.set_trailing_metadata((("grpc-status-details-bin", data),))
        context.abort(code_of(code), text)

    # Calls.

    def unary(self, method, data, context):
        self._keep(method, data)
        if method in self.refusal:
            code, message = self.refusal.pop(method)
            self._refuse(context, code, p4.Status(code=code, message=message) if message else None)
        return getattr(self, method)(data, context)

    def capabilities(self, _, __):
        return p4.CapabilitiesResponse(p4runtime_api_version="1.3.0").SerializeToString()

    def get(self, _, __):
        response = p4.GetResponse()
        if self.config is not None:
            response.config.CopyFrom(self.config)
        return response.SerializeToString()

    def set(self, data, context):
        request = p4.parse(p4.SetRequest, data)
        self._check_election(request, context)
        if request.HasField("config"):
            self.config, self.entries = request.config, {}
        return b""

    def _check_election(self, request, context):
        if p4.number_of(request.election_id) != self.primary():
            self._refuse(context, 7)

    def write(self, data, context):
        request = p4.parse(p4.WriteRequest, data)
        self._check_election(request, context)
        entries, errors = dict(self.entries), []
        for update in request.updates:
            errors.append(self.errors.pop(0) if self.errors else self._change(entries, update))
        is_atomic = request.atomicity != 0
        if is_atomic and any(it.canonical_code for it in errors):
            first = next(at for at, it in enumerate(errors) if it.canonical_code)
            errors = [it if at == first else p4.Error(canonical_code=ABORTED) for at, it in enumerate(errors)]
        else:
            self.entries = entries
        if any(it.canonical_code for it in errors):
            status = p4.Status(code=2)
            for error in errors:
                status.details.add(type_url=ERROR_TYPE, value=error.SerializeToString())
            self._refuse(context, 2, status)
        return b""

    def _change(self, entries, update):
        entry = update.entity.table_entry
        key = (entry.table_id, entry.is_default_action, entry.priority,
               tuple(it.SerializeToString() for it in entry.match))
        is_there = key in entries or entry.is_default_action
        if update.type == p4.Update.INSERT and is_there:
            return error_of(ALREADY_EXISTS, 10)
        if update.type != p4.Update.INSERT and not is_there:
            return error_of(NOT_FOUND, 10)
        if update.type == p4.Update.DELETE:
            del entries[key]
        else:
            entries[key] = entry
        return p4.Error()

    def read(self, data, context):
        self._keep("read", data)
        if "read" in self.refusal:
            self._refuse(context, self.refusal.pop("read")[0])
        request, response = p4.parse(p4.ReadRequest, data), p4.ReadResponse()
        for asked in request.entities:
            response.entities.extend(self._found(asked))
        yield response.SerializeToString()

    def _found(self, asked):
        if asked.HasField("table_entry"):
            return [p4.Entity(table_entry=it) for it in self._entries(asked.table_entry)]
        if asked.HasField("direct_counter_entry"):
            return [self._counted(it) for it in self._entries(asked.direct_counter_entry.table_entry)
                    if not it.is_default_action]
        return [it for it in self.others if it.WhichOneof("entity") == asked.WhichOneof("entity")]

    def _entries(self, asked):
        return [it for it in self.entries.values() if asked.table_id in (0, it.table_id)
                and it.is_default_action == asked.is_default_action]

    def _counted(self, entry):
        found = p4.Entity()
        it = found.direct_counter_entry
        it.table_entry.table_id, it.table_entry.priority = entry.table_id, entry.priority
        it.table_entry.match.extend(entry.match)
        key = entry.match[0].SerializeToString() if entry.match else b""
        it.data.packet_count, it.data.byte_count = self.counts.get(key, (0, 0))
        return found

    # The stream channel.

    def primary(self):
        """The election id of the primary, or None: the live session that bears the greatest id ever asked for."""
        return self.greatest if self.greatest and self.greatest in self.sessions.values() else None

    def tell(self, message):
        """Sends a message to every open stream."""
        for waiting in list(self.sessions):
            waiting.put(message.SerializeToString())

    def channel(self, requests, context):
        """Serves a stream: what it is told comes from a queue of its own."""
        waiting, ended = queue.Queue(), []
        threading.Thread(target=self._hear, args=(requests, waiting, ended), daemon=True).start()
        while True:
            data = waiting.get()
            if data is None:
                break
            yield data
        with self.lock:
            self.sessions.pop(waiting, None)
        if ended:
            context.abort(code_of(ended[0]), "")

    def _hear(self, requests, waiting, ended):
        try:
            for data in requests:
                self._keep("stream", data)
                code = self._answer(p4.parse(p4.StreamRequest, data), waiting)
                if code:
                    ended.append(code)
                    break
        except grpc.RpcError:
            pass
        waiting.put(None)

    def _answer(self, request, waiting):
        """Answers a message of a stream; a code ends the stream."""
        kind = request.WhichOneof("update")
        if "stream" in self.refusal:
            return self.refusal.pop("stream")[0]
        if kind == "arbitration":
            self._arbitrate(request.arbitration, waiting)
        elif kind == "packet" and self.packet_error:
            code, rule = self.packet_error
            self.packet_error = None
            answer = p4.StreamResponse()
            answer.error.canonical_code, answer.error.space, answer.error.code = code, "p4switch", rule
            answer.error.packet_out.packet_out.CopyFrom(request.packet)
            waiting.put(answer.SerializeToString())
        elif kind == "other":
            answer = p4.StreamResponse()
            answer.error.canonical_code, answer.error.space = 12, "p4switch"
            answer.error.other.SetInParent()
            waiting.put(answer.SerializeToString())
        return 0

    def _arbitrate(self, asked, waiting):
        with self.lock:
            self.sessions[waiting] = p4.number_of(asked.election_id)
            self.greatest = max(self.greatest, self.sessions[waiting])
        answer = p4.StreamResponse()
        answer.arbitration.device_id = asked.device_id
        p4.set_number(answer.arbitration.election_id, self.greatest)
        primary = self.primary()
        answer.arbitration.status.code = (0 if primary == self.sessions[waiting] else
                                          NOT_FOUND if primary is None else ALREADY_EXISTS)
        waiting.put(answer.SerializeToString())
