"""Byte strings of matches and parameters as people write them: 10.1.0.0, 02:00:00:00:00:03, 0x0a, 7,
and `bytes:0063` for the very bytes. Numbers are sent in P4Runtime's canonical form, without leading
zero bytes (P4Runtime 1.3.0, section 8.4)."""
import ipaddress
import re
from typing import Optional

from p4tools.trouble import Trouble

MAC = re.compile(r"[0-9a-fA-F]{2}(:[0-9a-fA-F]{2}){5}")


def canonical(number: int) -> bytes:
    """The shortest bytes of a number, big-endian; of 0 one byte."""
    return number.to_bytes(max((number.bit_length() + 7) // 8, 1), "big")


def read_number(word: str) -> Optional[int]:
    """The number that a word is, or None."""
    if re.fullmatch(r"[0-9][0-9_]*", word):
        return int(word)
    if re.fullmatch(r"0x[0-9a-fA-F_]+", word):
        return int(word, 16)
    if MAC.fullmatch(word):
        return int(word.replace(":", ""), 16)
    try:
        return int(ipaddress.ip_address(word))
    except ValueError:
        return None


def read_value(word: str) -> bytes:
    """The bytes that a word stands for."""
    if word.startswith("bytes:"):
        return read_hex(word[6:])
    number = read_number(word)
    if number is None:
        raise Trouble(f"{word} is no value; write 7, 0x07, 10.1.0.0, 02:00:00:00:00:03 or bytes:0007")
    return canonical(number)


def read_hex(text: str) -> bytes:
    """The bytes of hex digits, blanks allowed; `.` stands for no bytes."""
    digits = "".join(text.split())
    if digits == ".":
        return b""
    try:
        return bytes.fromhex(digits)
    except ValueError:
        raise Trouble(f"{text[:40]} is not an even number of hex digits") from None


def spell_value(data: bytes, width: int, hexadecimal: bool = False) -> str:
    """The word for a value of so many bits, from which read_value makes the same bytes."""
    if not data or canonical(int.from_bytes(data, "big")) != data:
        return "bytes:" + data.hex()
    number = int.from_bytes(data, "big")
    if number >> width:
        return f"0x{number:x}"
    if width == 48:
        return ":".join(f"{byte:02x}" for byte in number.to_bytes(6, "big"))
    if width == 32:
        return str(ipaddress.IPv4Address(number))
    if width == 128:
        return str(ipaddress.IPv6Address(number))
    if hexadecimal or width > 16:
        return f"0x{number:0{(width + 3) // 4}x}"
    return str(number)
