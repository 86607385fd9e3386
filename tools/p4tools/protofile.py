"""Reads the part of the .proto language that the files in protos/ are written in."""
import re
from typing import Any

from google.protobuf import descriptor_pb2

Field = descriptor_pb2.FieldDescriptorProto
SCALARS = {"bool": Field.TYPE_BOOL, "bytes": Field.TYPE_BYTES, "string": Field.TYPE_STRING,
           "int32": Field.TYPE_INT32, "int64": Field.TYPE_INT64,
           "uint32": Field.TYPE_UINT32, "uint64": Field.TYPE_UINT64}
TOKEN = re.compile(r'"[^"]*"|[\w.]+|[{}=;]')


def read_proto(name: str, text: str) -> Any:
    """The FileDescriptorProto of a .proto text."""
    file = descriptor_pb2.FileDescriptorProto(name=name)
    words = TOKEN.findall(re.sub(r"//.*", "", text))
    words.reverse()
    while words:
        word = words.pop()
        if word == "syntax":
            file.syntax = _after_equals(words).strip('"')
        elif word == "package":
            file.package = words.pop()
            _expect(words, ";")
        elif word == "import":
            file.dependency.append(words.pop().strip('"'))
            _expect(words, ";")
        elif word == "message":
            _read_message(words, file.message_type.add())
        else:
            raise ValueError(f"{name}: {word!r} is not read")
    return file


def _expect(words: list[str], wanted: str) -> None:
    if words.pop() != wanted:
        raise ValueError(f"{wanted!r} is missing")


def _after_equals(words: list[str]) -> str:
    """Takes `= VALUE ;` and gives the value."""
    _expect(words, "=")
    value = words.pop()
    _expect(words, ";")
    return value


def _read_message(words: list[str], message: Any) -> None:
    message.name = words.pop()
    _expect(words, "{")
    while (word := words.pop()) != "}":
        if word == "message":
            _read_message(words, message.nested_type.add())
        elif word == "enum":
            _read_enum(words, message.enum_type.add())
        elif word == "oneof":
            _read_choice(words, message)
        else:
            _read_field(words, message, word)


def _read_enum(words: list[str], enum: Any) -> None:
    enum.name = words.pop()
    _expect(words, "{")
    while (word := words.pop()) != "}":
        enum.value.add(name=word, number=int(_after_equals(words)))


def _read_choice(words: list[str], message: Any) -> None:
    index = len(message.oneof_decl)
    message.oneof_decl.add(name=words.pop())
    _expect(words, "{")
    while (word := words.pop()) != "}":
        _read_field(words, message, word).oneof_index = index


def _read_field(words: list[str], message: Any, word: str) -> Any:
    """Takes `[repeated] TYPE NAME = NUMBER ;`. A type that is no scalar is left to be resolved by its name."""
    field = message.field.add(label=Field.LABEL_OPTIONAL)
    if word == "repeated":
        field.label = Field.LABEL_REPEATED
        word = words.pop()
    if word in SCALARS:
        field.type = SCALARS[word]
    else:
        field.type_name = word
    field.name = words.pop()
    field.number = int(_after_equals(words))
    return field
