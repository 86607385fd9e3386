"""The command bin/p4front: its words, what it refuses, and how it runs."""
import argparse
import asyncio
import contextlib
import ipaddress
import signal
import socket
import ssl
import sys

import grpc

from p4tools import front_words
from p4tools.files import stored
from p4tools.front_change import Devices, read_pairs
from p4tools.front_connections import Connections
from p4tools.front_links import OK, Switch
from p4tools.front_log import Log
from p4tools.front_pass import Front
from p4tools.front_record import Tape
from p4tools.front_services import Health, reflection
from p4tools.messages import Config, GetRequest, GetResponse, parse
from p4tools.trouble import Trouble

ENDED, WRONG = 0, 2
CONNECTIONS = 64
LONGEST_MESSAGE = 8 << 20
# How often, in seconds, what came and went is looked at; how long calls may take to end at the end.
LOOK, GRACE = 0.5, 2
# A client that is not there any more is found within 20 seconds.
OPTIONS = [
    ("grpc.so_reuseport", 0),
    ("grpc.max_receive_message_length", LONGEST_MESSAGE), ("grpc.max_send_message_length", -1),
    ("grpc.max_concurrent_streams", 100),
    ("grpc.keepalive_time_ms", 10_000), ("grpc.keepalive_timeout_ms", 10_000),
    ("grpc.http2.max_pings_without_data", 0),
    ("grpc.http2.min_ping_interval_without_data_ms", 1_000), ("grpc.http2.max_ping_strikes", 0),
    ("grpc.http2.write_buffer_size", 0)]


def p4front(words):
    """Runs bin/p4front and gives its exit status: 0 where a signal ended it, 2 for what is wrong with the words, the
    files or the ports."""
    given = _words().parse_args(words)
    try:
        door = Door(given)
        return asyncio.run(door.run())
    except Trouble as trouble:
        say(str(trouble))
        return WRONG
    except KeyboardInterrupt:
        return ENDED


def say(text):
    """A line on standard error."""
    print(f"p4front: {text}", file=sys.stderr, flush=True)


def _words():
    parser = argparse.ArgumentParser(prog="p4front", description="A front door for controllers before a switch that "
                                     "serves on a loopback address. docs/front.md tells of it.")
    parser.add_argument("--listen", metavar="HOST:PORT", required=True, help="where controllers connect")
    parser.add_argument("--to", metavar="HOST:PORT", required=True, help="where the switch serves, as 127.0.0.1:9559")
    parser.add_argument("--cert", metavar="FILE", help="the certificate of this end, in PEM, with those above it")
    parser.add_argument("--key", metavar="FILE", help="its key, in PEM")
    parser.add_argument("--client-ca", metavar="FILE", help="in PEM: only clients with a certificate of it are served")
    parser.add_argument("--insecure", action="store_true", help="listens at any address also without TLS")
    parser.add_argument("--map", metavar="MINE=ITS", action="append", default=[],
                        help="a controller's device id and the switch's that it stands for, as 0=1; more than once")
    parser.add_argument("--words", action="store_true", help="refusals are told in words, too")
    parser.add_argument("--details", metavar="BYTES", type=int, default=front_words.TRAILERS,
                        help="with --words: what clients take of a refusal, 8192 where they have set nothing")
    parser.add_argument("--log", metavar="FILE", help="a line for each call; - for standard error")
    parser.add_argument("--record", metavar="FILE", help="a tape of all calls, made one at a time")
    parser.add_argument("--metrics", metavar="PORT", type=int, help="figures for Prometheus, and /health, at 127.0.0.1")
    return parser


# What the words say.

def read_place(option, word):
    """The host and the port of HOST:PORT."""
    host, _, port = word.rpartition(":")
    if not host or not port.isdigit() or int(port) > 65535 or (":" in host and host[:1] + host[-1:] != "[]"):
        raise Trouble(f"{option} takes HOST:PORT, such as 127.0.0.1:9560 or [::1]:9560, and {word} is none")
    return host.strip("[]"), int(port)


def addresses(option, host):
    """The addresses of a host."""
    try:
        found = socket.getaddrinfo(host, None, type=socket.SOCK_STREAM)
    except OSError as error:
        raise Trouble(f"{option}: {host} is no address, and none is known of it: {error.strerror}") from None
    return [(family, place[0]) for family, _, _, _, place in found]


def is_loopback(found):
    """Whether addresses are of this machine alone."""
    return all(ipaddress.ip_address(address.partition("%")[0]).is_loopback for _, address in found)


def credentials(given):
    """gRPC's credentials for the files that are given, or None without them."""
    if not given.cert and not given.key:
        if given.client_ca:
            raise Trouble("--client-ca is of TLS: give --cert and --key, too")
        return None
    if not given.cert or not given.key:
        raise Trouble("--cert and --key go together: give both")
    files = [stored(it, f"{option} {it}") for option, it in (("--key", given.key), ("--cert", given.cert))]
    authority = stored(given.client_ca, f"--client-ca {given.client_ca}") if given.client_ca else None
    context = ssl.SSLContext(ssl.PROTOCOL_TLS_SERVER)
    try:
        context.load_cert_chain(given.cert, given.key, password=lambda: "")
    except (ssl.SSLError, ValueError) as error:
        raise Trouble(f"--cert {given.cert} and --key {given.key} are no certificate with its key in PEM: "
                      f"{_reason(error)}") from None
    if authority is not None:
        try:
            context.load_verify_locations(given.client_ca)
        except ssl.SSLError as error:
            raise Trouble(f"--client-ca {given.client_ca} is no certificate in PEM: {_reason(error)}") from None
    return grpc.ssl_server_credentials([tuple(files)], authority, authority is not None)


REASONS = {"KEY_VALUES_MISMATCH": "the key is that of another certificate", "PEM_LIB": "it is not in PEM",
           "NO_CERTIFICATE_OR_CRL_FOUND": "there is none in it", "NO_START_LINE": "there is none in it"}


def _reason(error):
    reason = getattr(error, "reason", None) or str(error)
    return REASONS.get(reason, reason)


def try_port(option, family, address, port):
    """Refuses a port that can't be had."""
    with socket.socket(family, socket.SOCK_STREAM) as it:
        it.setsockopt(socket.SOL_SOCKET, socket.SO_REUSEADDR, 1)
        if family == socket.AF_INET6:
            it.setsockopt(socket.IPPROTO_IPV6, socket.IPV6_V6ONLY, 1)
        try:
            it.bind((address, port))
            it.listen()
        except OSError as error:
            raise Trouble(f"{option}: port {port} of {address} can't be had: {error.strerror}"
                          + "; another program has it" * (error.errno == 98)) from None


class Door:
    """A front door: what its words are, and its parts."""

    def __init__(self, given):
        self.given = given
        self.host, self.port = read_place("--listen", given.listen)
        to = read_place("--to", given.to)
        self.target = f"[{to[0]}]:{to[1]}" if ":" in to[0] else f"{to[0]}:{to[1]}"
        self.credentials = credentials(given)
        self.places = addresses("--listen", self.host)
        if not given.insecure:
            if not self.credentials and not is_loopback(self.places):
                raise Trouble(f"--listen {given.listen} is no loopback address, and without TLS anyone may be a "
                              "controller there: give --cert, --key and --client-ca, or say --insecure")
            if not is_loopback(addresses("--to", to[0])):
                raise Trouble(f"--to {given.to} is no loopback address, and the switch has no TLS: run this where it "
                              "runs, or say --insecure")
        if given.details < 0:
            raise Trouble("--details takes a number of bytes")
        if given.metrics is not None and not 0 <= given.metrics <= 65535:
            raise Trouble("--metrics takes a port, from 0 to 65535")
        self.devices = Devices(read_pairs(given.map))
        for family, address in self.places:
            try_port("--listen", family, address, self.port)
        if given.metrics:
            try_port("--metrics", socket.AF_INET, "127.0.0.1", given.metrics)
        self.log = Log(given.log) if given.log else None
        self.tape = Tape(given.record, say) if given.record else None

    async def run(self):
        """Serves until a signal ends it."""
        switch = Switch(self.target)
        front = Front(switch, self.devices, self.given.details if self.given.words else None, self.tape)
        await self._look_at(switch)
        if self.log:
            front.watchers.append(self.log)
            front.counts_entities = True
        try:
            metrics = self._metrics(front)
            server = self._server(front)
        except Trouble:
            if self.tape:
                self.tape.discard()
            raise
        front.connections = Connections(self.port, CONNECTIONS, went=front.went,
                                        refused=self.log.too_many if self.log else lambda peer: None)
        await server.start()
        self._tell(metrics)
        try:
            await self._until_signal(front, metrics)
        finally:
            await front.end(GRACE)
            await server.stop(GRACE)
            self._end(metrics)
        return ENDED

    async def _look_at(self, switch):
        """Says what is to be known of the switch, and learns its program's names."""
        answer = await switch.common.ask("get", GetRequest(device_id=self._device()).SerializeToString(), 2)
        if not answer.is_of_switch():
            say(f"the switch at {self.target} does not answer yet")
        config = parse(GetResponse, answer.messages[0]).config if answer.code == OK else Config()
        if self.log and config.p4info.tables:
            self.log.name(config.p4info)
        if self.tape and config != Config():
            say("the switch has a program already, which the tape has not: start the switch anew where a replay of the "
                "tape is to answer the same")

    def _device(self):
        """The switch's device id, as far as it is known: 1 where no pair names another."""
        return next(iter(self.devices.pairs.values()), 1)

    def _metrics(self, front):
        if self.given.metrics is None:
            return None
        from p4tools.front_metrics import Metrics
        metrics = Metrics(front, self._device())
        front.watchers.append(metrics)
        metrics.listen(self.given.metrics)
        return metrics

    def _server(self, front):
        server = grpc.aio.server(options=OPTIONS)
        health = Health(front.switch)
        server.add_generic_rpc_handlers((Handlers({**front.handlers(), **health.handlers(), **reflection()}),))
        place = f"[{self.host}]:{self.port}" if ":" in self.host else f"{self.host}:{self.port}"
        try:
            self.port = (server.add_secure_port(place, self.credentials) if self.credentials
                         else server.add_insecure_port(place))
        except RuntimeError as error:
            raise Trouble(f"--listen {self.given.listen} can't be had: {error}") from None
        if not self.port:
            raise Trouble(f"--listen {self.given.listen} can't be had")
        return server

    def _tell(self, metrics):
        how = "without TLS"
        if self.credentials:
            how = "with TLS, for clients with a certificate" if self.given.client_ca else "with TLS, for any client"
        host = f"[{self.host}]" if ":" in self.host else self.host
        say(f"listens at {host}:{self.port} {how}; the switch is at {self.target}")
        if metrics:
            say(f"figures at http://127.0.0.1:{metrics.port}/metrics")

    async def _until_signal(self, front, metrics):
        ended = asyncio.Event()
        for number in (signal.SIGTERM, signal.SIGINT):
            asyncio.get_running_loop().add_signal_handler(number, ended.set)
        work = [front.spawn(it.work()) for it in [metrics] if it]
        if front.tape:
            work.append(front.spawn(self._watch(front)))
        while not ended.is_set():
            front.connections.look()
            with contextlib.suppress(asyncio.TimeoutError):
                await asyncio.wait_for(ended.wait(), LOOK)
        for it in work:
            it.cancel()

    async def _watch(self, front):
        """Ends the tape where the switch is no longer there: one that is started anew has another state."""
        channel = front.switch.common.channel
        while True:
            state = channel.get_state()
            if state == grpc.ChannelConnectivity.READY:
                await channel.wait_for_state_change(state)
                front.tape.end("the connection to the switch has ended")
                return
            await channel.wait_for_state_change(state)

    def _end(self, metrics):
        if metrics:
            metrics.close()
        if self.tape:
            self.tape.close()
            say(f"{self.tape.name}: {self.tape.lanes.records:,} records")


class Handlers(grpc.GenericRpcHandler):
    """gRPC's handlers by their paths."""

    def __init__(self, known):
        self.known = known

    def service(self, handler_call_details):
        return self.known.get(handler_call_details.method)


