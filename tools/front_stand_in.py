"""What the tests of bin/p4front stand on: certificates, a stand-in for the switch that answers what it is told to, the
front door as it is run, and a client whose messages are bytes."""
import collections
import contextlib
import os
import queue
import subprocess
import threading
from concurrent import futures

import grpc

HERE = os.path.dirname(os.path.abspath(__file__))
FRONT = os.path.join(HERE, "../bin/p4front")
PYTHON = "/usr/bin/python3"
SERVICE = "/p4.v1.P4Runtime/"
UNARY = {"write": "Write", "set": "SetForwardingPipelineConfig", "get": "GetForwardingPipelineConfig",
         "capabilities": "Capabilities"}
DETAILS = "grpc-status-details-bin"
# How long, in seconds, anything may take on a machine that has other work.
PATIENCE = 120
# The answers of a stand-in to what it is not told of.
VERSION = bytes.fromhex("0a05312e332e30")


# Certificates.

def _openssl(*words):
    subprocess.run(["openssl", *words], check=True, capture_output=True)


def make_certificates(folder):
    """Makes in a folder the certificate of an authority (ca.pem), and of it those of a front door at 127.0.0.1 and of a
    client, with their keys (front.pem, front.key, client.pem, client.key); and one of a stranger, which is its own
    authority (stranger.pem, stranger.key)."""
    def path(name):
        return os.path.join(folder, name)
    key = ["-newkey", "ec", "-pkeyopt", "ec_paramgen_curve:prime256v1", "-nodes"]
    for name in ("ca", "stranger"):
        _openssl("req", "-x509", *key, "-keyout", path(f"{name}.key"), "-out", path(f"{name}.pem"), "-days", "2",
                 "-subj", f"/CN={name}")
    for name, more in (("front", "subjectAltName=IP:127.0.0.1,DNS:localhost"), ("client", "subjectAltName=DNS:client")):
        _openssl("req", *key, "-keyout", path(f"{name}.key"), "-out", path(f"{name}.csr"), "-subj", f"/CN={name}")
        with open(path(f"{name}.txt"), "w", encoding="ascii") as it:
            it.write(more)
        _openssl("x509", "-req", "-in", path(f"{name}.csr"), "-CA", path("ca.pem"), "-CAkey", path("ca.key"),
                 "-CAcreateserial", "-out", path(f"{name}.pem"), "-days", "2", "-extfile", path(f"{name}.txt"))


# The stand-in.

class StandIn(grpc.GenericRpcHandler):
    """Serves at a port of 127.0.0.1. `asked` has what it was asked, in order, as (method, message); `answers` a list of
    what it answers next for a method: the messages, or (code, text, details). Of the stream channel each answer is a
    list of messages, or a refusal that ends it; what is put into `says` is said on all channels."""

    def __init__(self, port=0):
        self.asked, self.answers = [], collections.defaultdict(list)
        self.channels = set()
        self.server = grpc.server(futures.ThreadPoolExecutor(40), options=[
            ("grpc.so_reuseport", 0), ("grpc.max_receive_message_length", -1), ("grpc.max_metadata_size", 1 << 20)])
        self.server.add_generic_rpc_handlers((self,))
        self.port = self.server.add_insecure_port(f"127.0.0.1:{port}")
        self.server.start()

    def service(self, handler_call_details):
        name = handler_call_details.method.removeprefix(SERVICE)
        if name == "StreamChannel":
            return grpc.stream_stream_rpc_method_handler(self._stream)
        if name == "Read":
            return grpc.unary_stream_rpc_method_handler(lambda *it: iter(self._answer("read", [b""], *it)))
        method = next((method for method, known in UNARY.items() if known == name), None)
        usual = [VERSION if method == "capabilities" else b""]
        return grpc.unary_unary_rpc_method_handler(lambda *it: self._answer(method, usual, *it)[0])

    def _next(self, method, usual):
        return self.answers[method].pop(0) if self.answers[method] else usual

    def _answer(self, method, usual, message, context):
        # (p4front asks by itself whether the switch is there, and what program it has)
        if method != "capabilities":
            self.asked.append((method, message))
        answer = self._next(method, usual)
        if isinstance(answer, tuple):
            refuse(context, *answer)
        return answer

    def _stream(self, messages, context):
        says = queue.Queue()
        self.channels.add(says)
        threading.Thread(target=self._hear, args=(messages, says), daemon=True).start()
        try:
            while (said := says.get()) is not None:
                if isinstance(said, tuple):
                    refuse(context, *said)
                yield said
        finally:
            self.channels.discard(says)

    def _hear(self, messages, says):
        with contextlib.suppress(grpc.RpcError):
            for message in messages:
                self.asked.append(("stream", message))
                answer = self._next("stream", [])
                for said in [answer] if isinstance(answer, tuple) else answer:
                    says.put(said)
        self.asked.append(("leave", b""))
        says.put(None)

    def say(self, message):
        """Says a message on all channels."""
        for says in list(self.channels):
            says.put(message)

    def close(self):
        self.server.stop(0).wait()


def refuse(context, code, text, details):
    context.set_trailing_metadata(((DETAILS, details),) if details else ())
    context.abort(next(it for it in grpc.StatusCode if it.value[0] == code), text)


# The front door.

class Door:
    """bin/p4front before a port of 127.0.0.1, with words of its own. `patience` is for clients that take nothing."""

    def __init__(self, to, *words, patience=None):
        script = [FRONT]
        if patience:
            code = ("import sys; sys.path.insert(0, sys.argv.pop(1)); from p4tools import front, front_pass; "
                    f"front_pass.PATIENCE = {patience}; sys.exit(front.p4front(sys.argv[1:]))")
            script = ["-c", code, HERE]
        words = ["--listen", "127.0.0.1:0", "--to", f"127.0.0.1:{to}", *words]
        self.process = subprocess.Popen([PYTHON, "-B", *script, *words], stderr=subprocess.PIPE, text=True)
        self.said = []
        self.port = int(self._line("listens at 127.0.0.1:").split()[0])
        self.metrics = int(self._line("figures at http://127.0.0.1:").partition("/")[0]) if "--metrics" in words else 0
        threading.Thread(target=lambda: self.said.extend(self.process.stderr), daemon=True).start()

    def _line(self, begin):
        """What stands behind the words of a line that is to come."""
        for line in self.process.stderr:
            self.said.append(line)
            if begin in line:
                return line.partition(begin)[2].strip()
        raise AssertionError(f"p4front ended with status {self.process.wait()}: {''.join(self.said)}")

    def close(self):
        """Ends it, and gives its status."""
        self.process.terminate()
        return self.process.wait(PATIENCE)


# A client.

class Client:
    """A client whose messages are bytes, over a connection of its own. With `certificates`, a folder and the name of
    the certificate that it has in it or None, over TLS."""

    def __init__(self, port, certificates=None, options=()):
        options = [("grpc.use_local_subchannel_pool", 1), ("grpc.max_metadata_size", 1 << 20),
                   ("grpc.max_receive_message_length", -1), *options]
        place = f"127.0.0.1:{port}"
        if certificates:
            folder, name = certificates
            files = [_read(folder, it) for it in ("ca.pem", *((f"{name}.key", f"{name}.pem") if name else ()))]
            self.channel = grpc.secure_channel(place, grpc.ssl_channel_credentials(*files), options=options)
        else:
            self.channel = grpc.insecure_channel(place, options=options)
        self.streams = []

    def ask(self, method, message):
        """The messages of an answer, or (code, text, details)."""
        try:
            if method == "read":
                return list(self.channel.unary_stream(SERVICE + "Read")(message, timeout=PATIENCE))
            return [self.channel.unary_unary(SERVICE + UNARY[method])(message, timeout=PATIENCE)]
        except grpc.RpcError as error:
            return refusal_of(error)

    def open(self):
        """A stream channel of it."""
        self.streams.append(Stream(self.channel.stream_stream(SERVICE + "StreamChannel")))
        return self.streams[-1]

    def close(self):
        for it in self.streams:
            it.asked.put(None)
        self.channel.close()


class Stream:
    """A stream channel: what it hears comes as messages, or as a refusal, or as None at its end."""

    def __init__(self, call):
        self.asked, self.heard = queue.SimpleQueue(), queue.Queue()
        self.call = call(iter(self.asked.get, None))
        threading.Thread(target=self._listen, daemon=True).start()

    def _listen(self):
        try:
            for message in self.call:
                self.heard.put(message)
            self.heard.put(None)
        except grpc.RpcError as error:
            self.heard.put(refusal_of(error))

    def say(self, message):
        self.asked.put(message)

    def hear(self, seconds=PATIENCE):
        return self.heard.get(timeout=seconds)

    def end(self):
        """Ends it from this side, and gives what it hears then."""
        self.asked.put(None)
        return self.hear()


def refusal_of(error):
    return error.code().value[0], error.details(), dict(error.trailing_metadata() or ()).get(DETAILS, b"")


def _read(folder, name):
    with open(os.path.join(folder, name), "rb") as it:
        return it.read()


