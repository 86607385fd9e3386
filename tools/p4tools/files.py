"""Files that the command line names."""
import os
import sys

from p4tools.names import Names, read_info
from p4tools.trouble import Trouble


def bytes_of(file, called=None):
    """The bytes of a file, or of standard input where it is `-`. Where it is not read, that is said of what it is called,
    which is its own name where nothing else is given."""
    try:
        if file == "-":
            return sys.stdin.buffer.read()
        with open(file, "rb") as it:
            return it.read()
    except OSError as error:
        raise Trouble(f"{called or file} is not read: {error.strerror}") from None


def stored(file, called=None):
    """The bytes of a file, also of one that is named `-`."""
    return bytes_of(os.path.join(os.curdir, file), called or file)


def text_of(file):
    """The text of a file, or of standard input where it is `-`."""
    try:
        return bytes_of(file).decode("utf-8")
    except UnicodeDecodeError:
        raise Trouble(f"{file} is not read: it is no text") from None


def write_text(file, text):
    """Writes a text as a file."""
    try:
        with open(file, "w", encoding="utf-8") as it:
            it.write(text)
    except OSError as error:
        raise Trouble(f"{file} is not written: {error.strerror}") from None


def make_folder(folder):
    """Makes a folder, where it is not there yet."""
    try:
        os.makedirs(folder, exist_ok=True)
    except OSError as error:
        raise Trouble(f"{folder} is no folder and cannot be made one: {error.strerror}") from None


def write_bytes(file, data):
    """Writes bytes as a file."""
    try:
        with open(file, "wb") as it:
            it.write(data)
    except OSError as error:
        raise Trouble(f"{file} is not written: {error.strerror}") from None


def tell(text):
    """A line on standard error."""
    print(f"p4tape: {text}", file=sys.stderr)


def names_of(file):
    """The names of a P4Info's file; None where no file is named."""
    if not file:
        return None
    info, note = read_info(bytes_of(file), file)
    if note:
        tell(note)
    return Names(info)
