"""Figures of a front door and of the switch behind it, as Prometheus reads them, and whether the switch answers: HTTP at
a port of 127.0.0.1."""
import asyncio
import http.server
import threading

try:
    import prometheus_client as prometheus
except ImportError:
    prometheus = None

from google.protobuf.message import DecodeError

from p4tools.front_links import OK, PATHS
from p4tools.front_pass import ASKS, kind_of
from p4tools.messages import Config, Entity, GetRequest, GetResponse, ReadRequest, ReadResponse, code_name, parse
from p4tools.names import Names
from p4tools.trouble import Trouble

# How often, in seconds, the switch's figures are read, and how long its answers may take.
EVERY, PATIENCE = 5, 5
RESOURCE_EXHAUSTED = 8
SECONDS = (0.0005, 0.001, 0.002, 0.005, 0.01, 0.02, 0.05, 0.1, 0.2, 0.5, 1, 2, 5, 10)


class Metrics:
    """The figures. It watches a front door, and reads the switch's as device `device`."""

    def __init__(self, front, device):
        if prometheus is None:
            raise Trouble("--metrics needs python3-prometheus-client: apt-get install -y python3-prometheus-client")
        self.front, self.device, self.registry = front, device, prometheus.CollectorRegistry()
        self.server = self.loop = self.port = None
        self._of_calls()
        self._of_switch()

    def _of_calls(self):
        self.calls = prometheus.Counter("p4front_calls", "Calls by method and code.", ["method", "code"],
                                        registry=self.registry)
        self.seconds = prometheus.Histogram("p4front_call_seconds", "Seconds until a call was answered.", ["method"],
                                            buckets=SECONDS, registry=self.registry)
        self.said = prometheus.Counter("p4front_stream_messages", "Messages of stream channels, by who sent them.",
                                       ["sender", "kind"], registry=self.registry)
        for name, told, number in (
                ("p4front_connections", "Clients that are connected.", lambda: len(self.front.clients)),
                ("p4front_stream_channels", "Stream channels that are open.", lambda: len(self.front.channels))):
            prometheus.Gauge(name, told, registry=self.registry).set_function(number)
        self.ended = prometheus.Counter("p4front_clients_given_up", "Clients that took nothing.", registry=self.registry)

    def _of_switch(self):
        def gauge(name, told, labels=()):
            return prometheus.Gauge(f"p4switch_{name}", told, labels, registry=self.registry)
        self.up = gauge("up", "1 where the switch answers, else 0.")
        self.entries = gauge("table_entries", "Entries of a table.", ["table"])
        self.hits = [gauge(f"table_{it}", f"{it.capitalize()} that hit the entries that a table has now.", ["table"])
                     for it in ("packets", "bytes")]
        self.cells = [gauge(f"counter_{it}", f"{it.capitalize()} that the cells of a counter have counted.", ["counter"])
                      for it in ("packets", "bytes")]

    # What passes.

    def passed(self, it):
        """A call, or a message of a client's stream channel."""
        if it.method == "stream":
            self.said.labels("client", kind_of(it.message, ASKS) or "none").inc()
            return
        self.calls.labels(PATHS[it.method], code_name(it.answer.code)).inc()
        self.seconds.labels(PATHS[it.method]).observe(it.seconds)

    def told(self, client, lane, kind, message):
        """A message of the switch."""
        self.said.labels("switch", kind or "none").inc()

    def closed(self, client, lane, answer):
        """A stream channel has ended."""
        self.calls.labels(PATHS["stream"], code_name(answer.code if answer else OK)).inc()

    def given_up(self, client):
        """A client takes nothing."""
        self.ended.inc()

    def connected(self, client):
        """(Counted as it stands.)"""

    disconnected = connected

    def opened(self, client, lane):
        """(Counted as it stands.)"""

    def refused(self, peer, text):
        """A stream channel was not opened."""
        self.calls.labels(PATHS["stream"], code_name(RESOURCE_EXHAUSTED)).inc()

    # What the switch has.

    async def work(self):
        """Reads the switch's figures again and again."""
        while True:
            try:
                await self.look()
            except DecodeError:
                self.up.set(0)
            await asyncio.sleep(EVERY)

    async def look(self):
        """Reads the switch's figures."""
        link = self.front.switch.common
        is_there = await self.front.switch.is_there()
        self.up.set(is_there)
        config = Config()
        if is_there:
            request = GetRequest(device_id=self.device, response_type=GetRequest.P4INFO_AND_COOKIE)
            answer = await link.ask("get", request.SerializeToString(), PATIENCE)
            config = parse(GetResponse, answer.messages[0]).config if answer.code == OK else config
        names = Names(config.p4info)
        found = Found(names)
        if config.p4info.tables:
            request = ReadRequest(device_id=self.device, entities=asked_for(config.p4info))
            answer = await link.ask_all(request.SerializeToString(), PATIENCE)
            for part in answer.messages:
                found.add(await asyncio.to_thread(parse, ReadResponse, part))
        self._show(found)

    def _show(self, found):
        for gauge in (self.entries, *self.hits, *self.cells):
            gauge.clear()
        for name, number in found.entries.items():
            self.entries.labels(name).set(number)
        for gauges, known in ((self.hits, found.hits), (self.cells, found.cells)):
            for name, figures in known.items():
                for gauge, figure in zip(gauges, figures):
                    gauge.labels(name).set(figure)

    # HTTP.

    def listen(self, port):
        """Answers at a port of 127.0.0.1, on threads of its own."""
        self.loop = asyncio.get_running_loop()
        try:
            self.server = http.server.ThreadingHTTPServer(("127.0.0.1", port), self._handler())
        except OSError as error:
            raise Trouble(f"--metrics: port {port} of 127.0.0.1 can't be had: {error.strerror}") from None
        self.server.daemon_threads = True
        self.port = self.server.server_address[1]
        threading.Thread(target=self.server.serve_forever, daemon=True).start()

    def _handler(self):
        metrics = self

        class Handler(http.server.BaseHTTPRequestHandler):
            """/metrics and /health."""
            timeout = 10

            def do_GET(self):
                """Answers a GET."""
                status, kind, body = metrics.page(self.path.partition("?")[0])
                self.send_response(status)
                self.send_header("Content-Type", kind)
                self.send_header("Content-Length", str(len(body)))
                self.end_headers()
                self.wfile.write(body)

            def log_message(self, format, *args):  # noqa: A002 (its name in the library)
                """(Nothing is told of a request.)"""

        return Handler

    def page(self, path):
        """The status, the content type and the bytes of a page."""
        if path == "/metrics":
            return 200, prometheus.CONTENT_TYPE_LATEST, prometheus.generate_latest(self.registry)
        if path == "/health":
            try:
                is_there = asyncio.run_coroutine_threadsafe(self.front.switch.is_there(), self.loop).result(PATIENCE)
            except Exception:  # (the loop has ended, or took too long)
                is_there = False
            text = "ok" if is_there else f"the switch at {self.front.switch.target} does not answer"
            return 200 if is_there else 503, "text/plain; charset=utf-8", f"{text}\n".encode()
        return 404, "text/plain; charset=utf-8", b"there are /metrics and /health\n"

    def close(self):
        """Answers no more."""
        self.server.shutdown()
        self.server.server_close()


def asked_for(info):
    """The entities of a Read of all entries and counters of a program."""
    asked = [Entity() for _ in range(1 + bool(info.direct_counters) + bool(info.counters))]
    asked[0].table_entry.SetInParent()
    if info.direct_counters:
        asked[1].direct_counter_entry.SetInParent()
    if info.counters:
        asked[-1].counter_entry.SetInParent()
    return asked


class Found:
    """Entries and counters by the names of tables and counters, summed."""

    def __init__(self, names):
        self.names = names
        self.entries = {it.preamble.name: 0 for it in names.info.tables}
        with_counters = {it.direct_table_id for it in names.info.direct_counters}
        self.hits = {it.preamble.name: [0, 0] for it in names.info.tables if it.preamble.id in with_counters}
        self.cells = {it.preamble.name: [0, 0] for it in names.info.counters}

    def add(self, response):
        """Adds what a message of a Read has."""
        for entity in response.entities:
            kind = entity.WhichOneof("entity")
            if kind == "table_entry":
                self.entries[self.names.name("table", entity.table_entry.table_id)] += 1
            elif kind == "direct_counter_entry":
                table = self.names.name("table", entity.direct_counter_entry.table_entry.table_id)
                self._count(self.hits[table], entity.direct_counter_entry.data)
            elif kind == "counter_entry":
                name = self.names.name("counter", entity.counter_entry.counter_id)
                self._count(self.cells[name], entity.counter_entry.data)

    def _count(self, figures, data):
        figures[0] += data.packet_count
        figures[1] += data.byte_count
