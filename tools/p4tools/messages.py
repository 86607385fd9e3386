"""The message classes of P4Runtime 1.3.0, P4Info and google.rpc.Status, made from protos/."""
import os
import warnings
from collections.abc import Iterable
from typing import Any as Anything

from google.protobuf import descriptor_pool, message_factory
from google.protobuf.message import DecodeError

from p4tools.protofile import read_proto

PROTOS = os.path.join(os.path.dirname(os.path.abspath(__file__)), "protos")


def proto(name: str) -> Anything:
    """The FileDescriptorProto of a file of protos/."""
    with open(os.path.join(PROTOS, name), encoding="utf-8") as it:
        return read_proto(name, it.read())


def classes(files: Iterable[Anything]) -> dict[str, Anything]:
    """The classes of FileDescriptorProtos, those that they import first, by their full names."""
    pool = descriptor_pool.DescriptorPool()
    for file in files:
        pool.Add(file)
    made: dict[str, Anything] = {}
    for file in files:
        for message in pool.FindFileByName(file.name).message_types_by_name.values():
            made[message.full_name] = _class_of(pool, message)
    return made


def _class_of(pool: Anything, message: Anything) -> Anything:
    """message_factory's name for this changed with the library's releases."""
    if hasattr(message_factory, "GetMessageClass"):
        return message_factory.GetMessageClass(message)
    return message_factory.MessageFactory(pool).GetPrototype(message)


CLASSES = classes([proto(it) for it in ("p4types.proto", "p4info.proto", "status.proto", "p4runtime.proto")])
P4Info = CLASSES["p4.config.v1.P4Info"]
Status = CLASSES["google.rpc.Status"]
Any = CLASSES["google.rpc.Any"]
Uint128 = CLASSES["p4.v1.Uint128"]
WriteRequest = CLASSES["p4.v1.WriteRequest"]
WriteResponse = CLASSES["p4.v1.WriteResponse"]
Update = CLASSES["p4.v1.Update"]
Entity = CLASSES["p4.v1.Entity"]
TableEntry = CLASSES["p4.v1.TableEntry"]
ReadRequest = CLASSES["p4.v1.ReadRequest"]
ReadResponse = CLASSES["p4.v1.ReadResponse"]
SetRequest = CLASSES["p4.v1.SetForwardingPipelineConfigRequest"]
SetResponse = CLASSES["p4.v1.SetForwardingPipelineConfigResponse"]
Config = CLASSES["p4.v1.ForwardingPipelineConfig"]
GetRequest = CLASSES["p4.v1.GetForwardingPipelineConfigRequest"]
GetResponse = CLASSES["p4.v1.GetForwardingPipelineConfigResponse"]
CapabilitiesRequest = CLASSES["p4.v1.CapabilitiesRequest"]
CapabilitiesResponse = CLASSES["p4.v1.CapabilitiesResponse"]
StreamRequest = CLASSES["p4.v1.StreamMessageRequest"]
StreamResponse = CLASSES["p4.v1.StreamMessageResponse"]
PacketIn = CLASSES["p4.v1.PacketIn"]
P4Data = CLASSES["p4.v1.P4Data"]
Error = CLASSES["p4.v1.Error"]

CODES = {0: "OK", 1: "CANCELLED", 2: "UNKNOWN", 3: "INVALID_ARGUMENT", 5: "NOT_FOUND",
         6: "ALREADY_EXISTS", 7: "PERMISSION_DENIED", 8: "RESOURCE_EXHAUSTED",
         9: "FAILED_PRECONDITION", 10: "ABORTED", 11: "OUT_OF_RANGE", 12: "UNIMPLEMENTED",
         13: "INTERNAL", 14: "UNAVAILABLE"}


def parse(kind: Anything, data: bytes) -> Anything:
    """The message of a kind that bytes are, or a DecodeError."""
    with warnings.catch_warnings(record=True) as told:
        warnings.simplefilter("always")
        made = kind.FromString(data)
    if told:
        raise DecodeError(str(told[0].message))
    return made


def code_name(code: int) -> str:
    """A canonical code in words."""
    return CODES.get(code, f"code {code}")


def number_of(uint128: Anything) -> int:
    """An election id as one number."""
    return uint128.high << 64 | uint128.low


def set_number(uint128: Anything, number: int) -> None:
    """Sets an election id, which is given also where it is 0."""
    uint128.SetInParent()
    uint128.high, uint128.low = number >> 64, number & (1 << 64) - 1
