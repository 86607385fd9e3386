"""A report as a page: one HTML file that needs nothing else. page_parts/ has its frame, its style and its script."""
import json
import os

from google.protobuf.message import DecodeError

from p4tools import packets, report, tape, told
from p4tools.files import bytes_of, names_of, tell, write_text
from p4tools.messages import ReadRequest, WriteRequest, code_name, parse
from p4tools.report import Call, Packet
from p4tools.trouble import Progress, Trouble

PARTS = os.path.join(os.path.dirname(os.path.abspath(__file__)), "page_parts")
# Of so many different packets it is said what changed, field by field; of others the page shows the bytes that differ.
IN_WORDS = 20_000
# So many different packets that entered are named by their addresses; others by their first bytes.
SUMMARIES = 100_000
TABLES = {"table_entry": lambda it: it.table_entry.table_id,
          "direct_counter_entry": lambda it: it.direct_counter_entry.table_entry.table_id}


def add_words(commands):
    """The words of `p4tape page`."""
    parser = commands.add_parser("page", help="a report as a page: one HTML file for a browser")
    parser.add_argument("report", metavar="REPORT", help="a file, or - for standard input")
    parser.add_argument("--tape", required=True, help="the tape that it is the report of")
    parser.add_argument("-o", "--output", metavar="OUT.html", required=True)
    parser.add_argument("--names", metavar="P4INFO", help="the names of the program at the start, as of --bridge")
    parser.add_argument("--title", help="the page's title (the report's name)")
    parser.set_defaults(run=_run)


def _run(given):
    try:
        reports = report.read_reports(bytes_of(given.report).decode("ascii"), given.report)
    except UnicodeDecodeError:
        raise Trouble(f"{given.report} is no report; a report is what `bin/p4switch replay` writes") from None
    beside = told.Beside(bytes_of(given.tape), names_of(given.names))
    text = page_of(reports, beside, given.title or os.path.basename(given.report))
    write_text(given.output, text)
    tell(f"{given.output}: {len(text):,} bytes; open it in a browser")
    return 0


def page_of(reports, beside, title):
    """The page of the reports of a tape."""
    data = {"title": title, "devices": [Drawn(it, beside).data for it in reports]}
    # (`<` would end the script that holds the data)
    text = json.dumps(data, ensure_ascii=False, separators=(",", ":")).replace("<", "\\u003c")
    parts = {"STYLE": _part("page.css"), "SCRIPT": _part("picture.js") + _part("page.js"), "DATA": text}
    page = _part("page.html")
    for name, part in parts.items():
        before, _, behind = page.partition(f"/*{name}*/")
        page = before + part + behind
    return page


def _part(name):
    with open(os.path.join(PARTS, name), encoding="utf-8") as it:
        return it.read()


class Interned:
    """Values by their numbers, each once."""

    def __init__(self):
        self.numbers, self.values = {}, []

    def number(self, key, make):
        """The number of a key; its value is made where it is new."""
        if key not in self.numbers:
            self.numbers[key] = len(self.values)
            self.values.append(make())
        return self.numbers[key]


class Drawn:
    """What the page has of a report: `data` are plain lists, in which a packet's bytes, what became of it and
    the entries that it hit are numbers into lists of their own."""

    def __init__(self, one, beside):
        self.beside = beside
        self.bytes, self.outcomes, self.entries = Interned(), Interned(), Interned()
        self.summaries, self.in_words = {}, 0
        beside.follow(one)
        self.counts = {f"{table}:{number}": (count, size) for number, table, count, size in one.counts}
        self.counts.update({f"@{slot}": (count, size) for slot, _, _, count, size in one.cells})
        marks, order = [], []
        columns = in_columns(one, beside)
        progress = Progress("p4tape", "calls and packets", len(columns))
        found = {"lane": [], "number": [], "after": [], "port": [], "entered": [], "outcome": []}
        lanes = _lanes(one)
        calls = {id(it): number for number, it in enumerate(one.calls)}
        for done, (item, step) in enumerate(columns):
            if isinstance(item, Call):
                order.append(2 * len(marks) + 1)
                marks.append([calls[id(item)], step])
            else:
                order.append(2 * len(found["lane"]))
                self._packet(item, lanes, found)
            progress.at(done)
        progress.end()
        for count in one.counts:
            self._entry(f"{count[1]}:{count[0]}")
        cells = {f"@{it[0]}": told.tell_cell(it, beside).rpartition(": ")[0] for it in one.cells}
        for word in cells:
            self._entry(word)
        for entry in self.entries.values:
            entry["key"] = cells.get(entry["word"], entry["key"])
        self.data = {
            "name": "" if one.device is None else f"device {one.device}", "lanes": lanes,
            "calls": [self._call(it, lanes) for it in one.calls], "packets": found, "order": order, "marks": marks,
            "outcomes": self.outcomes.values, "bytes": self.bytes.values,
            "summaries": [self.summaries.get(it, "") for it in range(len(self.bytes.values))],
            "entries": self.entries.values, "steps": one.end[0]}

    def _bytes(self, data):
        return self.bytes.number(data, data.hex)

    def _packet(self, packet, lanes, found):
        port, data = self.beside.entered.get((packet.who, packet.number), (None, None))
        entered = -1 if data is None else self._bytes(data)
        if data is not None and entered not in self.summaries and len(self.summaries) < SUMMARIES:
            self.summaries[entered] = packets.summary(data)
        key = (data, packet.fate, tuple(packet.outputs), tuple(packet.cpu), packet.digest, tuple(packet.hits))
        outcome = self.outcomes.number(key, lambda: self._outcome(packet))
        for name, value in (("lane", lanes.index(packet.who)), ("number", packet.number), ("after", packet.after),
                            ("port", -1 if port is None else port), ("entered", entered), ("outcome", outcome)):
            found[name].append(value)

    def _outcome(self, packet):
        """What became of a packet: in words, and as numbers for what is searched and drawn."""
        lines = []
        if self.in_words < IN_WORDS or packet.cpu or packet.digest:
            self.in_words += 1
            lines = told.tell_fate(packet, self.beside)
            lines += [f"digest {told.tell_digest(packet.digest, self.beside)}"] if packet.digest else []
        elif packet.fate != "sent":
            lines = [told.FATES[packet.fate]]
        return {"fate": packet.fate, "lines": lines, "outs": [[port, self._bytes(data)] for port, data in packet.outputs],
                "ins": [lane for lane, _ in packet.cpu], "hits": [self._entry(it) for it in packet.hits]}

    def _entry(self, word):
        return self.entries.number(word, lambda: self._new_entry(word))

    def _new_entry(self, word):
        count, size = self.counts.get(word, (None, None))
        name = self.beside.hit(word)
        table, _, key = ("counter", "", name) if word.startswith("@") else name.partition(" ")
        return {"word": word, "table": table, "key": key, "packets": count, "bytes": size}

    def _call(self, call, lanes):
        record, shown = self.beside.calls.get((call.lane, call.number), (None, None))
        failed = any(code for _, code in told.outcomes(record, call)) if _is_call(record) else call.code != 0
        refused = any(told.is_refusal(data) for lane, data in call.notices if lane == call.lane)
        return {"lane": lanes.index(f"c{call.lane}"), "number": call.number, "title": shown.title if shown else "",
                "code": code_name(call.code), "isOk": not (call.code or failed or refused),
                "lines": told.tell_call(call, self.beside), "steps": [list(it) for it in call.steps],
                "before": call.steps_so_far - len(call.steps), "tables": _tables(record, shown)}


def _is_call(record):
    return record is not None and record.kind == tape.CALL


def _tables(record, shown):
    """The tables whose entries a call writes or reads, by name."""
    if not _is_call(record) or record.method() not in ("write", "read"):
        return []
    try:
        if record.method() == "write":
            entities = [it.entity for it in parse(WriteRequest, record.message()).updates]
        else:
            entities = list(parse(ReadRequest, record.message()).entities)
    except DecodeError:
        return []
    found = [TABLES[it.WhichOneof("entity")](it) for it in entities if it.WhichOneof("entity") in TABLES]
    return sorted({shown.names.name("table", it) for it in found if it})


def _lanes(one):
    """The lanes of a report: the controllers' before the workers', each by number."""
    found = {f"c{it.lane}" for it in one.calls} | {it.who for it in one.packets}
    return sorted(found, key=lambda it: (it[0], int(it[1:])))


def in_columns(one, beside):
    """The calls and packets of a report from left to right: pairs of an item and, of a call that makes steps, the
    place of the step; a call stands once for each of its steps. They stand in the tape's order where the run went
    that way, else each packet behind the step after which it ran."""
    items = told.in_tape_order(one, beside)
    if items is not None:
        return [pair for it in items for pair in _of_item(it)]
    behind, sent = {}, _sent_by_calls(one, beside)
    by_calls = {id(it) for it in sent.values()}
    for packet in one.packets:
        if id(packet) not in by_calls:
            behind.setdefault(packet.after, []).append((packet, -1))
    columns = behind.pop(0, [])
    for call in one.calls:
        for item, place in _of_item(call):
            columns.append((item, place))
            columns += behind.pop(call.steps[place].number, []) if place >= 0 else []
        if id(call) in sent:
            columns.append((sent[id(call)], -1))
    return columns


def _sent_by_calls(one, beside):
    """The packets that ran directly behind the calls that sent them: by the call's identity the packet."""
    found = {(it.who, it.number): it for it in one.packets}
    sent = {}
    for call in one.calls:
        packet = found.get((f"c{call.lane}", beside.outs.get((call.lane, call.number))))
        if packet is not None and packet.after == call.steps_so_far:
            sent[id(call)] = packet
    return sent


def _of_item(item):
    if isinstance(item, Packet) or not item.steps:
        return [(item, -1)]
    return [(item, place) for place in range(len(item.steps))]
