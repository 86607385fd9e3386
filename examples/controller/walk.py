#!/usr/bin/python3
"""walk.py PORT PACKETS

A controller of one router, step by step, at a switch that serves at 127.0.0.1:PORT and takes packets at the UDP port
PACKETS. README.md beside this file says what to look at. The messages come from tools/p4tools; a controller of your own
takes the classes that protoc makes of P4Runtime's .proto files, and the fields are the same.
"""
import os
import queue
import socket
import sys

TOP = os.path.join(os.path.dirname(os.path.abspath(__file__)), "../..")
sys.path.insert(0, os.path.join(TOP, "tools"))

import grpc  # noqa: E402

from p4tools import messages as p4  # noqa: E402
from p4tools.names import read_info  # noqa: E402

SERVICE = "/p4.v1.P4Runtime/"
DEVICE, ELECTION, CPU_PORT = 1, 1, 255
IPV4_LPM, ROUTE = 0x02000002, 0x01000003  # the ids of the table and the action in router.p4info.txt
INSERT, MODIFY = 1, 2
DATAPLANE_ATOMIC, VERIFY_AND_COMMIT = 2, 3
FIRST_MAC, SECOND_MAC = "02:00:00:00:00:03", "02:00:00:00:00:04"

# What a controller should set: answers about many updates need more metadata than a client takes by default.
OPTIONS = [("grpc.max_metadata_size", 1 << 20)]


class Switch:
    """The calls of P4Runtime, over one connection."""

    def __init__(self, port):
        self.channel = grpc.insecure_channel(f"127.0.0.1:{port}", options=OPTIONS)
        grpc.channel_ready_future(self.channel).result(timeout=20)
        self.to_send = queue.SimpleQueue()
        self.stream = None

    def call(self, method, request, response):
        unary = self.channel.unary_unary(SERVICE + method, type(request).SerializeToString, response.FromString)
        return unary(request, timeout=20)

    def read(self, *entities):
        stub = self.channel.unary_stream(
            SERVICE + "Read", p4.ReadRequest.SerializeToString, p4.ReadResponse.FromString)
        answers = stub(p4.ReadRequest(device_id=DEVICE, entities=entities), timeout=20)
        return [entity for answer in answers for entity in answer.entities]

    def write(self, updates, atomicity=0):
        request = p4.WriteRequest(device_id=DEVICE, updates=updates, atomicity=atomicity)
        request.election_id.low = ELECTION
        return self.call("Write", request, p4.WriteResponse)

    def open_stream(self):
        """What `to_send` is given goes out; what comes is the next of `stream`."""
        channel = self.channel.stream_stream(
            SERVICE + "StreamChannel", p4.StreamRequest.SerializeToString, p4.StreamResponse.FromString)
        self.stream = channel(iter(self.to_send.get, None), timeout=300)

    def arbitrate(self):
        request = p4.StreamRequest()
        request.arbitration.device_id = DEVICE
        request.arbitration.election_id.low = ELECTION
        self.to_send.put(request)
        return next(self.stream).arbitration

    def packet_out(self, packet):
        request = p4.StreamRequest()
        request.packet.payload = packet
        self.to_send.put(request)

    def close(self):
        """Ends the stream: the controller leaves."""
        self.to_send.put(None)
        for message in self.stream:
            print(f"still told: {message}")
        print(f"    end of the stream: {self.stream.code().name}")
        self.channel.close()


class Network:
    """What is behind the switch's ports. A datagram is a port in two bytes and a packet; packets go in at one UDP port,
    and what leaves comes at the port above it."""

    def __init__(self, port):
        self.entry = ("127.0.0.1", port)
        self.socket = socket.socket(socket.AF_INET, socket.SOCK_DGRAM)
        self.socket.bind(("127.0.0.1", port + 1))
        self.socket.settimeout(20)

    def send(self, port, packet):
        self.socket.sendto(port.to_bytes(2, "big") + packet, self.entry)

    def take(self):
        data = self.socket.recv(65536)
        return int.from_bytes(data[:2], "big"), data[2:]


# The program and its entries.

def router():
    """The router as a compiler wrote it: a P4Info, and the JSON of BMv2 as the device's configuration."""
    files = os.path.join(TOP, "examples/programs/router")
    config = p4.Config()
    with open(files + ".p4info.txt", "rb") as info, open(files + ".json", "rb") as program:
        config.p4info.CopyFrom(read_info(info.read(), info.name)[0])
        config.p4_device_config = program.read()
    return config


def route(kind, prefix, port, mac):
    """An update of a route, `prefix` as 10.1.0.0/16. Byte strings have no zero bytes in front."""
    address, length = prefix.split("/")
    update = p4.Update(type=kind)
    entry = update.entity.table_entry
    entry.table_id = IPV4_LPM
    match = entry.match.add(field_id=1)
    match.lpm.value, match.lpm.prefix_len = socket.inet_aton(address), int(length)
    action = entry.action.action
    action.action_id = ROUTE
    action.params.add(param_id=1, value=bytes([port]))
    action.params.add(param_id=2, value=bytes.fromhex(mac.replace(":", "")))
    return update


def prefix_of(entry):
    lpm = entry.match[0].lpm
    return f"{socket.inet_ntoa(lpm.value)}/{lpm.prefix_len}"


def show_errors(error):
    """A Write that failed says of each update how it went."""
    details = dict(error.trailing_metadata())["grpc-status-details-bin"]
    codes = [p4.Error.FromString(it.value).canonical_code for it in p4.Status.FromString(details).details]
    print(f"    {error.code().name}, its updates: {', '.join(p4.code_name(it) for it in codes)}")


def show_entries(switch):
    """The routes, and what each has counted. Counts are asked for as direct counter entries: an entry has none."""
    routes, counters = p4.Entity(), p4.Entity()
    routes.table_entry.table_id = IPV4_LPM
    counters.direct_counter_entry.table_entry.table_id = IPV4_LPM
    found = switch.read(routes, counters)
    counts = {prefix_of(it.direct_counter_entry.table_entry): it.direct_counter_entry.data
              for it in found if it.HasField("direct_counter_entry")}
    for entity in found:
        if entity.HasField("table_entry"):
            prefix, (port, mac) = prefix_of(entity.table_entry), entity.table_entry.action.action.params
            count = counts[prefix]
            print(f"    {prefix} to port {port.value[0]} and {mac.value.hex(':')}: "
                  f"{count.packet_count} packets, {count.byte_count} bytes")


# Packets.

def packet(destination, text):
    """A packet to an address, its sum left to be written by the router."""
    ip = bytes.fromhex("4500") + (20 + len(text)).to_bytes(2, "big") + bytes.fromhex("0000400040fd0000")
    addresses = socket.inet_aton("10.0.0.1") + socket.inet_aton(destination)
    return bytes.fromhex("02000000000a0200000000010800") + ip + addresses + text


def told(data):
    """A packet in words."""
    return f"to {socket.inet_ntoa(data[30:34])} at {data[:6].hex(':')}, {data[22]} hops left: {data[34:].decode()}"


def main():
    port, packets = map(int, sys.argv[1:])
    switch, network = Switch(port), Network(packets)

    print("== 1. Connect")
    capabilities = switch.call("Capabilities", p4.CapabilitiesRequest(), p4.CapabilitiesResponse)
    print(f"    the switch speaks P4Runtime {capabilities.p4runtime_api_version}")

    print("== 2. Arbitrate")
    switch.open_stream()
    answer = switch.arbitrate()
    election, code = p4.number_of(answer.election_id), p4.code_name(answer.status.code)
    print(f"    device {answer.device_id}, election id {election}: {code}")

    print("== 3. Load the router")
    request = p4.SetRequest(device_id=DEVICE, action=VERIFY_AND_COMMIT, config=router())
    request.election_id.low = ELECTION
    switch.call("SetForwardingPipelineConfig", request, p4.SetResponse)
    active = switch.call("GetForwardingPipelineConfig", p4.GetRequest(device_id=DEVICE), p4.GetResponse).config
    print(f"    its tables: {', '.join(it.preamble.name for it in active.p4info.tables)}")

    print("== 4. Insert routes, and one of them again")
    first, second = "10.1.0.0/16", "10.2.0.0/16"
    switch.write([route(INSERT, first, 3, FIRST_MAC), route(INSERT, second, CPU_PORT, FIRST_MAC)])
    try:
        switch.write([route(INSERT, first, 3, FIRST_MAC)])
    except grpc.RpcError as error:
        show_errors(error)
    show_entries(switch)

    print("== 5. A packet out")
    switch.packet_out(packet("10.1.2.3", b"from the controller"))
    left, data = network.take()
    print(f"    left at port {left}, {told(data)}")

    print("== 6. A packet through")
    network.send(1, packet("10.1.2.3", b"from port 1"))
    left, data = network.take()
    print(f"    left at port {left}, {told(data)}")

    print("== 7. A packet in")
    network.send(1, packet("10.2.0.9", b"for the controller"))
    print(f"    came on the stream, {told(next(switch.stream).packet.payload)}")

    print("== 8. Both routes changed in one step")
    switch.write([route(MODIFY, first, 5, SECOND_MAC), route(MODIFY, second, 6, SECOND_MAC)], DATAPLANE_ATOMIC)
    for destination in ("10.1.2.3", "10.2.0.9"):
        network.send(1, packet(destination, b"from port 1"))
        left, data = network.take()
        print(f"    left at port {left}, {told(data)}")

    print("== 9. What was counted")
    show_entries(switch)

    print("== 10. Leave")
    switch.close()


if __name__ == "__main__":
    main()
