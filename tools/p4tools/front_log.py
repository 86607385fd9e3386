"""The log of a front door: a line for each call in the words of p4tape with its answer, time and client, and for what
else there is to know of clients."""
import datetime
import sys

from google.protobuf.message import DecodeError

from p4tools import packets, tape, told
from p4tools.front_words import UNKNOWN, of_whole
from p4tools.messages import code_name
from p4tools.names import Names
from p4tools.report import Call
from p4tools.spell import Speller
from p4tools.tape import Record
from p4tools.trouble import Trouble

# How many refused updates of a Write are told, and how many configs are kept for their names.
UPDATES, CONFIGS = 5, 4


class Log:
    """Writes lines to a file, `-` for standard error."""

    def __init__(self, file):
        try:
            self.file = sys.stderr if file == "-" else open(file, "a", encoding="utf-8", buffering=1)
        except OSError as error:
            raise Trouble(f"{file} can't be written: {error.strerror}") from None
        self.speller = Speller()
        self.wrong = None
        try:
            # (it takes a moment to be loaded, which is not to be within a call)
            packets.summary(bytes(packets.SHORTEST))
        except Trouble as trouble:
            self.line(f"packets are not told: {trouble}")

    def name(self, info):
        """Names what a P4Info names."""
        self.speller.maker.names = Names(info)

    def line(self, text):
        """Writes a line with its moment."""
        now = datetime.datetime.now(datetime.timezone.utc).isoformat(timespec="milliseconds")
        try:
            self.file.write(f"{now} {text}\n")
        except OSError as error:
            if not self.wrong:
                print(f"p4front: the log is not written: {error.strerror}", file=sys.stderr)
            self.wrong = error

    # What is told of clients.

    def connected(self, client):
        """A connection made its first call."""
        self.line(f"{client.title} connects")

    def disconnected(self, client):
        """A connection that had made a call has ended."""
        self.line(f"{client.title} disconnects")

    def too_many(self, peer):
        """A connection was ended at once."""
        self.line(f"{peer} is refused: there are as many connections as are served")

    def refused(self, peer, text):
        """A stream channel was not opened."""
        self.line(f"{peer} is refused a stream channel: {text}")

    def given_up(self, client):
        """A client takes nothing."""
        self.line(f"{client.title} takes nothing: its connection is ended")

    def opened(self, client, lane):
        """A stream channel was opened."""
        self.line(f"{client.title} c{lane} opens a stream channel")

    def closed(self, client, lane, answer):
        """A stream channel ended."""
        end = ""
        if answer is not None and answer.code and not answer.is_of_switch():
            end = f": the switch is not there ({answer.text})"
        elif answer is not None and answer.code:
            end = f" by the switch: {code_name(answer.code)}{_in_brackets('stream', answer)}"
        self.line(f"{client.title} c{lane} leaves{end}")

    def told(self, client, lane, kind, message):
        """The switch said something on a stream channel. Packets and digests are no calls, and are passed over."""
        if kind in ("arbitration", "error"):
            self.line(f"{client.title} c{lane} is told: {self._notice(message)}")

    def _notice(self, message):
        beside = told.Beside(names=self.speller.maker.names)
        try:
            return told.tell_notice(message, beside)
        except (Trouble, DecodeError):
            return f"{len(message)} bytes"

    def passed(self, it):
        """A call."""
        record = Record(tape.CALL, it.lane, bytes([tape.METHOD_NUMBERS[it.method]]) + it.message)
        names = self.speller.maker.names
        shown = self.speller.spell(record)
        if it.answer.code and it.method == "set":
            self.speller.maker.names = names
        if len(self.speller.files) > CONFIGS:
            self.speller.files.clear()
        number = f" call {it.number}" if it.number else ""
        answer = f": {self._answer(it, record, shown)}, {1000 * it.seconds:.1f} ms" if it.method != "stream" else ""
        self.line(f"{it.client.title} c{it.lane}{number} {shown.title}{answer}")

    def _answer(self, it, record, shown):
        answer = it.answer
        if not answer.is_of_switch():
            return f"{code_name(answer.code)} (the switch did not answer: {answer.text})"
        if it.method == "read" and not answer.code:
            return f"OK, {told.counted(it.entities, 'entity').replace('entitys', 'entities')}"
        if answer.code != UNKNOWN:
            return code_name(answer.code) + _in_brackets(it.method, answer)
        beside = told.Beside(names=shown.names)
        beside.calls[it.lane, it.number] = (record, shown)
        try:
            lines = told.tell_call(Call(it.lane, it.number, [], [], 0, answer.code, [answer.details]), beside)
        except DecodeError:
            return code_name(answer.code)
        wrong = [line.strip() for line in lines[1:] if not line.endswith((": OK", ": ABORTED"))]
        more = [f"and {len(wrong) - UPDATES:,} more"] if len(wrong) > UPDATES else []
        return "; ".join([code_name(answer.code), *wrong[:UPDATES], *more])



def _in_brackets(method, answer):
    """Why a call was refused as a whole."""
    text = of_whole(method, answer.code, answer.text) if answer.code else ""
    return f" ({text})" if text else ""
