"""A P4Runtime controller over grpcio, as the clients beside this file use it, and how these are started."""
import argparse
import os
import queue
import sys
import threading
import time

TOP = os.path.dirname(os.path.dirname(os.path.dirname(os.path.abspath(__file__))))
sys.path.insert(0, os.path.join(TOP, "tools"))

import grpc  # noqa: E402

from p4tools import messages as p4  # noqa: E402
from p4tools.entities import read_entity  # noqa: E402
from p4tools.names import Names, read_info  # noqa: E402
from p4tools.words import cut  # noqa: E402

SERVICE = "/p4.v1.P4Runtime/"
DEVICE = 1
CPU_PORT = 255
PATIENCE = 20
INSERT, MODIFY, DELETE = 1, 2, 3
CONTINUE_ON_ERROR, ROLLBACK_ON_ERROR, DATAPLANE_ATOMIC = 0, 1, 2
VERIFY_AND_COMMIT = 3
ERROR_TYPE = "type.googleapis.com/p4.v1.Error"
# Each controller has a connection of its own: by default grpcio shares one among channels to one address.
OPTIONS = [("grpc.use_local_subchannel_pool", 1), ("grpc.max_metadata_size", 1 << 20),
           ("grpc.max_receive_message_length", 1 << 26)]


class Difference(Exception):
    """Something that the switch should have answered otherwise."""


def expect(what, found, wanted):
    """Both are the same, or it is a Difference."""
    if found != wanted:
        raise Difference(f"{what}: {short(found)}, not {short(wanted)}")


def short(thing):
    """What is told of a thing, no more than a few lines."""
    told = repr(thing)
    return told if len(told) < 1_000 else f"{told[:500]} .. {told[-500:]}"


def fresh_election():
    """An election id above those of all clients that were started before: a role's primary bears the greatest id that
    the role was ever asked for."""
    return time.time_ns() // 1_000


def call_out(line):
    """Prints one line at once."""
    print(line, flush=True)


def main(told, run, **options):
    """Runs a client by the words of the command line: the port, --packets, and options of its own with their defaults.
    It ends with status 1 at the first difference."""
    words = argparse.ArgumentParser(description=told, formatter_class=argparse.RawDescriptionHelpFormatter)
    words.add_argument("port", type=int)
    words.add_argument("--packets", type=int, required=True)
    for name, default in options.items():
        words.add_argument("--" + name, type=type(default), default=default)
    try:
        run(words.parse_args())
    except (Difference, grpc.RpcError, OSError) as difference:
        sys.exit(f"{os.path.basename(sys.argv[0])}: {difference}")


class Program:
    """A program of examples/programs, as a compiler wrote it."""

    def __init__(self, name):
        files = os.path.join(TOP, "examples/programs", name)
        with open(files + ".p4info.txt", "rb") as it:
            info = read_info(it.read(), it.name)[0]
        with open(files + ".json", "rb") as it:
            self.json = it.read()
        self.names = Names(info)
        self.config = p4.Config()
        self.config.p4info.CopyFrom(info)
        self.config.p4_device_config = self.json

    def entity(self, words):
        """The Entity of words such as `ipv4_lpm dst=10.1.0.0/16 route(port=3, mac=02:00:00:00:00:03)`."""
        return read_entity(cut(words), self.names)

    def update(self, kind, words):
        made = p4.Update(type=kind)
        made.entity.CopyFrom(self.entity(words))
        return made


def refusal(call, *given):
    """The refusal of a call as its code's name and google.rpc.Status, which is None without details."""
    try:
        call(*given)
    except grpc.RpcError as error:
        details = dict(error.trailing_metadata() or ()).get("grpc-status-details-bin")
        return error.code().name, None if details is None else p4.parse(p4.Status, details)
    return "OK", None


def update_errors(status):
    """The p4.v1.Error of each update that the Status of a Write tells."""
    for detail in status.details:
        expect("type of a detail", detail.type_url, ERROR_TYPE)
    return [p4.parse(p4.Error, detail.value) for detail in status.details]


def channel_to(port, options=()):
    """A channel to a port of 127.0.0.1: over TLS where CERTIFICATES is set, the folder of client.pem, client.key and of the
    certificate ca.pem of who made the server's."""
    folder = os.environ.get("CERTIFICATES")
    place, options = f"127.0.0.1:{port}", [*OPTIONS, *options]
    if not folder:
        return grpc.insecure_channel(place, options=options)
    files = []
    for name in ("ca.pem", "client.key", "client.pem"):
        with open(os.path.join(folder, name), "rb") as it:
            files.append(it.read())
    return grpc.secure_channel(place, grpc.ssl_channel_credentials(*files), options=options)


class Controller:
    """A controller, over one connection of its own. `election` is the election id of its calls."""

    def __init__(self, port, options=()):
        self.channel = channel_to(port, options)
        self.election = 1
        self.asked = self.stream = None
        self.heard = queue.Queue()

    # Unary calls.

    def unary(self, method, request, response):
        """A call's answer; where it is refused, grpc.RpcError."""
        return self.stub(method, response)(request, timeout=PATIENCE)

    def stub(self, method, response):
        """What makes calls of a method, also several at a time (`.future`)."""
        return self.channel.unary_unary(
            SERVICE + method, request_serializer=lambda it: it.SerializeToString(),
            response_deserializer=lambda it: p4.parse(response, it))

    def capabilities(self):
        return self.unary("Capabilities", p4.CapabilitiesRequest(), p4.CapabilitiesResponse)

    def as_primary(self, request):
        """The same request with the device and the election id of this controller."""
        request.device_id = DEVICE
        p4.set_number(request.election_id, self.election)
        return request

    def write_request(self, updates, atomicity=CONTINUE_ON_ERROR):
        return self.as_primary(p4.WriteRequest(updates=updates, atomicity=atomicity))

    def write(self, updates, atomicity=CONTINUE_ON_ERROR):
        return self.unary("Write", self.write_request(updates, atomicity), p4.WriteResponse)

    def set_config(self, config, action=VERIFY_AND_COMMIT):
        request = self.as_primary(p4.SetRequest(action=action))
        request.config.CopyFrom(config)
        return self.unary("SetForwardingPipelineConfig", request, p4.SetResponse)

    def get_config(self):
        return self.unary("GetForwardingPipelineConfig", p4.GetRequest(device_id=DEVICE), p4.GetResponse).config

    def read(self, *entities):
        """What a Read selects, all of its messages."""
        call = self.channel.unary_stream(
            SERVICE + "Read", request_serializer=lambda it: it.SerializeToString(),
            response_deserializer=lambda it: p4.parse(p4.ReadResponse, it))
        request = p4.ReadRequest(device_id=DEVICE, entities=entities)
        return [entity for response in call(request, timeout=PATIENCE) for entity in response.entities]

    # The stream channel.

    def open(self, listening=True):
        """Opens the stream channel. What comes on it waits for `hear`, once it is listened to."""
        call = self.channel.stream_stream(
            SERVICE + "StreamChannel", request_serializer=lambda it: it.SerializeToString(),
            response_deserializer=lambda it: p4.parse(p4.StreamResponse, it))
        self.asked = queue.SimpleQueue()
        self.stream = call(iter(self.asked.get, None))
        if listening:
            self.listen()

    def listen(self):
        threading.Thread(target=self._listen, daemon=True).start()

    def _listen(self):
        try:
            for message in self.stream:
                self.heard.put(message)
        except grpc.RpcError:
            pass
        self.heard.put(None)

    def hear(self, seconds=PATIENCE):
        """The next message of the stream; None behind its end; a Difference where nothing comes."""
        try:
            return self.heard.get(timeout=seconds)
        except queue.Empty:
            raise Difference(f"nothing came on the stream in {seconds} seconds") from None

    def hear_kind(self, kind):
        """The next message of the stream, which is to be of this kind."""
        message = self.hear()
        expect("message of the stream", "its end" if message is None else message.WhichOneof("update"), kind)
        return getattr(message, kind)

    def hears_nothing(self, seconds):
        """Nothing comes on the stream for so long."""
        try:
            message = self.heard.get(timeout=seconds)
        except queue.Empty:
            return
        raise Difference(f"{message} came on the stream")

    def say_arbitration(self, election):
        """Asks for an election id."""
        self.election = election
        request = p4.StreamRequest()
        request.arbitration.device_id = DEVICE
        p4.set_number(request.arbitration.election_id, election)
        self.asked.put(request)

    def arbitrate(self, election):
        """Asks for an election id, and hears the answer."""
        self.say_arbitration(election)
        return self.hear_kind("arbitration")

    def take_charge(self, program):
        """Opens the stream, becomes the primary, and commits a program."""
        self.open()
        election = fresh_election()
        expect_arbitration("arbitration", self.arbitrate(election), election, "OK")
        self.set_config(program.config)

    def packet_out(self, payload):
        request = p4.StreamRequest()
        request.packet.payload = payload
        self.asked.put(request)

    def end_stream(self):
        """Ends the stream from this side, and answers the code's name with which the switch ends it."""
        self.asked.put(None)
        message = self.hear()
        if message is not None:
            raise Difference(f"{message} came on the stream that was ended")
        return self.stream.code().name

    def close(self):
        if self.asked is not None:
            self.asked.put(None)
        self.channel.close()


def expect_arbitration(what, told, election, code):
    """An answer to an arbitration, or what is told of another one: the greatest election id and the code."""
    expect(f"{what}: device", told.device_id, DEVICE)
    expect(f"{what}: election id", p4.number_of(told.election_id), election)
    expect(f"{what}: status is there", told.HasField("status"), True)
    expect(f"{what}: code", p4.code_name(told.status.code), code)
