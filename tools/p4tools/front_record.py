"""A tape of the calls that pass a front door. The file is a whole tape after each call, and so also where its writer
ends in midst of its work."""
import os

from p4tools import tape
from p4tools.tape import Record
from p4tools.trouble import Trouble

TAPE_END = tape.write_record(Record(tape.END, 0, b""))


class Tape:
    """A tape that grows. `tell` takes why it ended, once."""

    def __init__(self, file, tell):
        self.name, self.tell = file, tell
        self.lanes, self.ended = tape.Lanes(), None
        try:
            self.file = open(file, "xb", buffering=0)
        except FileExistsError:
            raise Trouble(f"{file} is there already: name another file for --record, or remove it") from None
        except OSError as error:
            raise Trouble(f"{file} can't be written: {error.strerror}") from None
        self.file.write(tape.MAGIC + TAPE_END)
        self.at = len(tape.MAGIC)

    def call(self, lane, method, message):
        """A call that the switch answered."""
        self.add(Record(tape.CALL, lane, bytes([tape.METHOD_NUMBERS[method]]) + message))

    def leave(self, lane):
        """The end of a lane's stream channel."""
        self.add(Record(tape.LEAVE, lane, b""))

    def add(self, record):
        """Writes a record before the tape's end, unless the tape has ended."""
        if self.ended:
            return
        try:
            self.lanes.take(record)
            data = tape.write_record(record)
            os.pwrite(self.file.fileno(), data + TAPE_END, self.at)
            self.at += len(data)
        except Trouble as trouble:
            self.end(str(trouble))
        except OSError as error:
            self.end(f"{self.name} can't be written: {error.strerror}")

    def end(self, why):
        """Nothing more is written: what stands on the tape is what it has."""
        if not self.ended:
            self.ended = why
            self.tell(f"the tape {self.name} ends here: {why}")

    def close(self):
        """Closes the file."""
        self.file.close()

    def discard(self):
        """Removes the file, to which nothing was written."""
        self.close()
        os.remove(self.name)
