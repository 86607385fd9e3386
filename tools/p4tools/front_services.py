"""What a front door serves beside P4Runtime: grpc.health.v1, and server reflection, by which tools such as grpcurl know
the calls and messages."""
import asyncio
import time

import grpc
from google.protobuf import descriptor_pb2, descriptor_pool
from google.protobuf.message import DecodeError

from p4tools.front_links import PATHS, SERVICE
from p4tools.messages import CLASSES, classes, parse, proto

P4RUNTIME = SERVICE.strip("/")
HEALTH = "grpc.health.v1.Health"
REFLECTION = ("grpc.reflection.v1alpha.ServerReflection", "grpc.reflection.v1.ServerReflection")
SERVING, NOT_SERVING, SERVICE_UNKNOWN = 1, 2, 3
# For how many seconds an answer of the switch says that it is there; how often one is asked for who watches.
KNOWN, LOOK = 1, 2
STREAMED = {"Read": (False, True), "StreamChannel": (True, True), "Watch": (False, True),
            "ServerReflectionInfo": (True, True)}


class Health:
    """Whether the switch behind answers."""

    def __init__(self, switch):
        self.switch, self.asked, self.is_there = switch, 0, False
        made = classes([proto("health.proto")])
        self.request = made["grpc.health.v1.HealthCheckRequest"]
        self.response = made["grpc.health.v1.HealthCheckResponse"]

    async def status(self, service):
        """The status of a service, None of one that is not there."""
        if service not in ("", P4RUNTIME):
            return None
        if time.monotonic() > self.asked + KNOWN:
            self.is_there = await self.switch.is_there()
            self.asked = time.monotonic()
        return SERVING if self.is_there else NOT_SERVING

    def handlers(self):
        """gRPC's handlers of the service, by their paths."""
        return {f"/{HEALTH}/Check": grpc.unary_unary_rpc_method_handler(self._check),
                f"/{HEALTH}/Watch": grpc.unary_stream_rpc_method_handler(self._watch)}

    async def _service(self, message, context):
        try:
            return parse(self.request, message).service
        except DecodeError:
            return await context.abort(grpc.StatusCode.INVALID_ARGUMENT, "the message is not read")

    async def _check(self, message, context):
        status = await self.status(await self._service(message, context))
        if status is None:
            await context.abort(grpc.StatusCode.NOT_FOUND, "no such service")
        return self.response(status=status).SerializeToString()

    async def _watch(self, message, context):
        service, last = await self._service(message, context), None
        while True:
            status = await self.status(service) or SERVICE_UNKNOWN
            if status != last:
                last = status
                await context.write(self.response(status=status).SerializeToString())
            await asyncio.sleep(LOOK)


def _add_service(file, name, methods):
    """Adds a service to a FileDescriptorProto: its methods' names, requests and responses."""
    service = file.service.add(name=name)
    for method, request, response in methods:
        asked, answered = STREAMED.get(method, (False, False))
        service.method.add(name=method, input_type=f".{file.package}.{request}", client_streaming=asked,
                           output_type=f".{file.package}.{response}", server_streaming=answered)


def _files():
    """The FileDescriptorProtos of all that is served, each behind those that it imports."""
    found = []
    pool = CLASSES["p4.v1.WriteRequest"].DESCRIPTOR.file.pool
    for name in ("p4types.proto", "p4info.proto", "status.proto", "p4runtime.proto"):
        found.append(descriptor_pb2.FileDescriptorProto())
        pool.FindFileByName(name).CopyToProto(found[-1])
    asks = {"StreamChannel": "StreamMessage"}
    _add_service(found[-1], "P4Runtime", [
        (it, f"{asks.get(it, it)}Request", f"{asks.get(it, it)}Response") for it in PATHS.values()])
    found.append(proto("health.proto"))
    _add_service(found[-1], "Health", [(it, "HealthCheckRequest", "HealthCheckResponse") for it in ("Check", "Watch")])
    for service in REFLECTION:
        found.append(proto("reflection.proto"))
        found[-1].package = service.rpartition(".")[0]
        found[-1].name = f"{found[-1].package}.proto"
        _add_service(found[-1], "ServerReflection", [
            ("ServerReflectionInfo", "ServerReflectionRequest", "ServerReflectionResponse")])
    return found


class Reflection:
    """Server reflection of one version, whose package is named."""

    def __init__(self, package, pool):
        made = classes([it for it in _files() if it.package == package])
        self.request = made[f"{package}.ServerReflectionRequest"]
        self.response = made[f"{package}.ServerReflectionResponse"]
        self.pool = pool

    async def serve(self, _, context):
        """The call: an answer to each request."""
        while (message := await context.read()) is not grpc.aio.EOF:
            try:
                asked = parse(self.request, message)
            except DecodeError:
                await context.abort(grpc.StatusCode.INVALID_ARGUMENT, "the message is not read")
            await context.write(self.answer(asked).SerializeToString())

    def answer(self, asked):
        """The answer to a request."""
        answer = self.response(valid_host=asked.host, original_request=asked)
        kind = asked.WhichOneof("message_request")
        try:
            if kind == "list_services":
                for name in (P4RUNTIME, HEALTH, *REFLECTION):
                    answer.list_services_response.service.add(name=name)
            elif kind == "file_by_filename":
                self._add(answer, self.pool.FindFileByName(asked.file_by_filename))
            elif kind == "file_containing_symbol":
                self._add(answer, self.pool.FindFileContainingSymbol(asked.file_containing_symbol))
            elif kind == "all_extension_numbers_of_type":
                self.pool.FindMessageTypeByName(asked.all_extension_numbers_of_type)
                answer.all_extension_numbers_response.base_type_name = asked.all_extension_numbers_of_type
            else:
                raise KeyError
        except KeyError:
            answer.error_response.error_code = grpc.StatusCode.NOT_FOUND.value[0]
            answer.error_response.error_message = "nothing is named so"
        return answer

    def _add(self, answer, file):
        """Adds a file, and what it imports behind it."""
        waiting, known = [file], set()
        while waiting:
            one = waiting.pop(0)
            if one.name not in known:
                known.add(one.name)
                answer.file_descriptor_response.file_descriptor_proto.append(one.serialized_pb)
                waiting += one.dependencies


def reflection():
    """gRPC's handlers of server reflection, by their paths."""
    pool = descriptor_pool.DescriptorPool()
    for file in _files():
        pool.Add(file)
    return {f"/{service}/ServerReflectionInfo": grpc.stream_stream_rpc_method_handler(
        Reflection(service.rpartition(".")[0], pool).serve) for service in REFLECTION}
