"""Lines cut into words, and words of the form NAME=VALUE and NAME(..)."""
import re
from collections.abc import Collection
from typing import Optional

from p4tools.trouble import Trouble
from p4tools.values import read_number


def cut(line: str) -> list[str]:
    """The words of a line, parted by blanks outside of parentheses, without a comment."""
    words: list[str] = []
    word, depth = "", 0
    for at, letter in enumerate(line):
        if letter == "#" and depth == 0 and (at == 0 or line[at - 1].isspace()):
            break
        depth += (letter == "(") - (letter == ")")
        if letter.isspace() and depth <= 0:
            words, word = words + [word] * bool(word), ""
        elif not letter.isspace():
            word += letter
    if depth:
        raise Trouble("a parenthesis is not closed, or closed twice")
    return words + [word] * bool(word)


def cut_list(text: str) -> list[str]:
    """The items of a list, parted by commas outside of parentheses."""
    items: list[str] = []
    item, depth = "", 0
    for letter in text:
        depth += (letter == "(") - (letter == ")")
        if letter == "," and depth == 0:
            items, item = items + [item], ""
        else:
            item += letter
    return items + [item] if item or items else []


def call_of(word: str) -> tuple[str, list[str]]:
    """NAME and the items of NAME(ITEM, ..); of a bare NAME no items."""
    found = re.fullmatch(r"([^()=]+)(?:\((.*)\))?", word)
    if not found:
        raise Trouble(f"{word} is no action; write NAME(parameter=value, ..)")
    return found[1], cut_list(found[2] or "")


def pair_of(word: str) -> Optional[tuple[str, str]]:
    """NAME and VALUE of NAME=VALUE, or None where there is no `=` before a parenthesis."""
    name, equals, value = word.partition("=")
    return (name, value) if equals and "(" not in name else None


def options(words: list[str], known: Collection[str]) -> tuple[list[str], dict[str, int]]:
    """The rest of the words, and the numbers of the known NAME=NUMBER among them."""
    rest, given = [], {}
    for word in words:
        name, value = pair_of(word) or ("", "")
        if name in known:
            given[name] = whole_number(name, value)
        else:
            rest.append(word)
    return rest, given


def whole_number(what: str, word: str) -> int:
    """A number where one is needed."""
    number = read_number(word)
    if number is None:
        raise Trouble(f"{what} takes a number, and {word or 'nothing'} is none")
    return number


def nothing_more(words: list[str], form: str) -> None:
    """Refuses words that are left over."""
    if words:
        raise Trouble(f"{words[0]} is not expected here; write {form}")
