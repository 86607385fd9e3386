#!/usr/bin/python3
"""controller.py PORT --packets N [--writes N]

A controller over grpcio, and a second one beside it, at a switch that serves at 127.0.0.1:PORT and takes packets at the
UDP port N: each answer, and each packet that leaves, is compared with what P4Runtime 1.3.0 and the programs of
examples/programs make it. It prints a line for each step and ends with status 1 at the first difference. --writes is
the number of Writes that are timed, 10,000 without it.
"""
import time

from ipv4 import Network, packet, routed
from p4client import (CPU_PORT, DELETE, INSERT, MODIFY, PATIENCE, ROLLBACK_ON_ERROR, Controller, Difference, Program,
                      call_out, expect, expect_arbitration, fresh_election, main, p4, refusal, update_errors)

MAC = "02:00:00:00:00:03"
TO_PORT = f"ipv4_lpm dst=10.1.0.0/16 route(port=3, mac={MAC})"
TO_CONTROLLER = f"ipv4_lpm dst=10.2.0.0/16 route(port={CPU_PORT}, mac={MAC})"
COOKIE = 0x1234


def counter_of(controller, program, key):
    """The packets and bytes that an entry has counted."""
    asked = program.entity(f"direct_counter_entry {key}")
    found = controller.read(asked)
    expect("counters read", len(found), 1)
    counter = found[0].direct_counter_entry
    expect("table of the counter", counter.table_entry.table_id, asked.direct_counter_entry.table_entry.table_id)
    expect("entry of the counter", list(counter.table_entry.match), list(asked.direct_counter_entry.table_entry.match))
    return counter.data.packet_count, counter.data.byte_count


def expect_count(controller, program, key, wanted):
    """An entry's counter comes to so many packets and bytes, and goes through nothing above."""
    until = time.monotonic() + PATIENCE
    while (found := counter_of(controller, program, key)) != wanted:
        if found > wanted or time.monotonic() > until:
            raise Difference(f"counter of {key}: {found}, not {wanted}")
        time.sleep(0.01)


def expect_errors(what, answer, wanted):
    """A Write was refused with UNKNOWN and one p4.v1.Error for each update, with these codes."""
    code, status = answer
    expect(f"{what}: code", code, "UNKNOWN")
    expect(f"{what}: details are there", status is not None, True)
    expect(f"{what}: code of the details", p4.code_name(status.code), "UNKNOWN")
    expect(f"{what}: updates", [p4.code_name(it.canonical_code) for it in update_errors(status)], wanted)


def expect_leaves(network, port, data):
    """A packet leaves the switch, and no other before it."""
    found = network.take(PATIENCE)
    if found is None:
        raise Difference(f"no packet left in {PATIENCE} seconds")
    expect("port of what left", found[0], port)
    expect("packet that left", found[1].hex(), data.hex())


def start(primary, program):
    """Capabilities, arbitration and the program."""
    expect("version", primary.capabilities().p4runtime_api_version, "1.3.0")
    call_out("capabilities: 1.3.0")
    primary.open()
    election = fresh_election()
    expect_arbitration("first arbitration", primary.arbitrate(election), election, "OK")
    call_out("arbitration: primary")
    program.config.cookie.cookie = COOKIE
    primary.set_config(program.config)
    expect("configuration read back", primary.get_config() == program.config, True)
    call_out("program: router committed, and the same read back")


def entries(primary, program):
    """An INSERT, refusals, and what is there."""
    one = [program.update(INSERT, TO_PORT)]
    primary.write(one)
    call_out(f"insert: {TO_PORT}")
    expect_errors("the same INSERT", refusal(primary.write, one), ["ALREADY_EXISTS"])
    call_out("the same again: UNKNOWN, its update ALREADY_EXISTS")
    two = [program.update(INSERT, TO_CONTROLLER), one[0]]
    answer = refusal(primary.write, two, ROLLBACK_ON_ERROR)
    expect_errors("batch that rolls back", answer, ["ABORTED", "ALREADY_EXISTS"])
    expect("entries", primary.read(program.entity("ipv4_lpm")), [program.entity(TO_PORT)])
    call_out("a batch with it that rolls back: nothing of it is left")
    expect_errors("batch that goes on", refusal(primary.write, two), ["OK", "ALREADY_EXISTS"])
    expect("entries", primary.read(program.entity("ipv4_lpm")), [program.entity(it) for it in (TO_PORT, TO_CONTROLLER)])
    call_out("a batch with it that goes on: its other update is done")
    stranger = Controller.write_request(primary, one)
    stranger.election_id.low -= 1
    code, _ = refusal(primary.unary, "Write", stranger, p4.WriteResponse)
    expect("Write with an election id that is not the primary's", code, "PERMISSION_DENIED")
    call_out("a Write with another election id: PERMISSION_DENIED")
    expect("counter", counter_of(primary, program, "ipv4_lpm dst=10.1.0.0/16"), (0, 0))
    call_out("read: the two entries, and a counter of 0")


def packets(primary, program, network):
    """Packets out and in, and what they are counted as."""
    data = packet("10.1.2.3", b"out")
    primary.packet_out(data)
    expect_count(primary, program, "ipv4_lpm dst=10.1.0.0/16", (1, len(data)))
    call_out(f"packet out: counted as 1 packet of {len(data)} bytes")
    expect_leaves(network, 3, routed("10.1.2.3", MAC, b"out"))
    call_out("packet out: left at port 3 with the route's address")
    network.send(1, packet("10.1.2.3", b"through"))
    expect_leaves(network, 3, routed("10.1.2.3", MAC, b"through"))
    call_out("packet through: from port 1 to port 3")
    network.send(1, packet("10.2.0.9", b"in"))
    expect_packet_in(primary, routed("10.2.0.9", MAC, b"in"))
    call_out("packet in: from port 1 to the controller")
    time_packets_in(primary, network)
    primary.packet_out(packet("10.2.0.9", b"there and back"))
    expect_packet_in(primary, routed("10.2.0.9", MAC, b"there and back"))
    call_out("packet out and in: from the controller to the controller")
    primary.packet_out(packet("10.9.0.1"))
    primary.hears_nothing(0.3)
    call_out("packet out without a route: dropped")
    refused = p4.StreamRequest()
    refused.packet.payload = packet("10.1.2.3")
    refused.packet.metadata.add(metadata_id=1, value=b"\x01")
    primary.asked.put(refused)
    error = primary.hear_kind("error")
    expect("code of the refused packet", p4.code_name(error.canonical_code), "INVALID_ARGUMENT")
    expect("the refused packet", error.packet_out.packet_out, refused.packet)
    call_out("packet out with metadata that the program has not: told as INVALID_ARGUMENT with the packet")


def time_packets_in(controller, network):
    """How long packets take to the controller, one at a time."""
    taken = []
    for number in range(50):
        payload = number.to_bytes(4, "big")
        begun = time.monotonic()
        network.send(1, packet("10.2.0.9", payload))
        expect_packet_in(controller, routed("10.2.0.9", MAC, payload))
        taken.append(1000 * (time.monotonic() - begun))
    taken.sort()
    call_out(f"{len(taken)} packets in, one at a time: half of them in {taken[len(taken) // 2]:.1f} ms, "
             f"all in {taken[-1]:.1f} ms")


def expect_packet_in(controller, data):
    told = controller.hear_kind("packet")
    expect("packet in", told.payload.hex(), data.hex())
    expect("metadata of a packet in", list(told.metadata), [])


def backup_takes_over(primary, backup, program):
    """A backup is told that its primary left, and takes its place by a greater election id."""
    backup.open()
    greatest = primary.election
    expect_arbitration("the backup's arbitration", backup.arbitrate(greatest - 1), greatest, "ALREADY_EXISTS")
    call_out("backup: arbitration with a lower election id, told that there is a primary")
    one = [program.update(DELETE, "ipv4_lpm dst=10.2.0.0/16")]
    expect("Write of the backup", refusal(backup.write, one)[0], "PERMISSION_DENIED")
    call_out("backup: its Write is refused with PERMISSION_DENIED")
    primary.hears_nothing(0.2)
    expect("the primary's end of the stream", primary.end_stream(), "OK")
    expect_arbitration("told that the primary left", backup.hear_kind("arbitration"), greatest, "NOT_FOUND")
    call_out("backup: told that there is no primary any more")
    expect("Write of a backup without a primary", refusal(backup.write, one)[0], "PERMISSION_DENIED")
    expect_arbitration("the backup as primary", backup.arbitrate(greatest + 1), greatest + 1, "OK")
    backup.write(one)
    expect("entries", backup.read(program.entity("ipv4_lpm")), [program.entity(TO_PORT)])
    expect("Write of the former primary", refusal(primary.write, one)[0], "PERMISSION_DENIED")
    call_out("backup: primary with a greater election id, and its Write is done; the former primary's is refused")


def digests(primary):
    """Another program takes the router's place; what it learns is told once, and again behind an acknowledgement."""
    lab = Program("lab")
    primary.set_config(lab.config)
    expect("entries", primary.read(lab.entity("acl")), [])
    call_out("program: lab committed in the router's place, and no entry is there")
    words = "digest_entry seen max_list_size=1 ack_timeout_ns=600000000000"
    primary.write([lab.update(INSERT, words),
                   lab.update(INSERT, "acl a=0xaa&&&0xff learn(port=4) priority=1")])
    primary.packet_out(bytes.fromhex("aa050000"))
    expect_digest(primary, lab.entity(words), 1, ["aa", "05"])
    call_out("digest: a list of one sample came on the stream")
    primary.packet_out(bytes.fromhex("aa050000"))
    primary.hears_nothing(0.3)
    call_out("digest: the same again is not told while it is not acknowledged")
    request = p4.StreamRequest()
    request.digest_ack.digest_id, request.digest_ack.list_id = lab.entity(words).digest_entry.digest_id, 1
    primary.asked.put(request)
    primary.packet_out(bytes.fromhex("aa050000"))
    expect_digest(primary, lab.entity(words), 2, ["aa", "05"])
    call_out("digest: once it was acknowledged the same is told again, as the second list")


def expect_digest(controller, entity, number, members):
    told = controller.hear_kind("digest")
    expect("id of the digest", told.digest_id, entity.digest_entry.digest_id)
    expect("number of the list", told.list_id, number)
    expect("samples", [[it.bitstring.hex() for it in sample.struct.members] for sample in told.data], [members])


def many_writes(primary, program, count):
    """A stream of Writes, one behind the other."""
    requests = []
    for number in range(count):
        mac = ":".join(f"{it:02x}" for it in (0x020000000000 + number).to_bytes(6, "big"))
        words = f"ipv4_lpm dst=10.1.0.0/16 route(port={1 + number % 8}, mac={mac})"
        requests.append(primary.write_request([program.update(MODIFY, words)]))
    write = primary.stub("Write", p4.WriteResponse)
    begun = time.monotonic()
    for request in requests:
        write(request, timeout=PATIENCE)
    took = time.monotonic() - begun
    expect("entries", primary.read(program.entity("ipv4_lpm")), [requests[-1].updates[0].entity])
    call_out(f"{count:,} Writes, one at a time: {count / took:,.0f} a second, and the last is there")


def run(given):
    program = Program("router")
    primary, backup = Controller(given.port), Controller(given.port)
    network = Network(given.packets)
    try:
        start(primary, program)
        entries(primary, program)
        packets(primary, program, network)
        backup_takes_over(primary, backup, program)
        many_writes(backup, program, given.writes)
        digests(backup)
        expect("the end of the stream", backup.end_stream(), "OK")
        call_out("end of the stream: OK")
    finally:
        primary.close()
        backup.close()
        network.close()


if __name__ == "__main__":
    main(__doc__, run, writes=10_000)
