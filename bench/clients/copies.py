#!/usr/bin/python3
"""copies.py PORT --packets N

A controller over grpcio at a switch that serves at 127.0.0.1:PORT and takes packets at the UDP port N. It loads the program
`flood`, writes a multicast group and reads it back, and each packet that is sent to the group is compared with what leaves: one
datagram for each replica, in their order. It prints a line for each step and ends with status 1 at the first difference.
"""
from controller import expect_errors, expect_leaves, expect_packet_in
from ipv4 import Network
from p4client import CPU_PORT, DELETE, INSERT, MODIFY, Controller, Difference, Program, call_out, expect, main, refusal

GROUP = "multicast 7 replicas 1, 2, 3:5"
TO_GROUP = "bridge dst=ff:ff:ff:ff:ff:ff flood(group=7)"
FRAME = bytes.fromhex("ffffffffffff" "020000000001" "0800")


def nothing_leaves(network):
    found = network.take(0.3)
    if found is not None:
        raise Difference(f"a packet left at port {found[0]}: {found[1].hex()}")


def leaves_at(network, payload, *ports):
    """A packet to the group leaves once at each of these ports, in this order, and nowhere else."""
    network.send(4, FRAME + payload)
    for port in ports:
        expect_leaves(network, port, FRAME + payload)
    nothing_leaves(network)


def groups(controller, program):
    """A group that is written is read, and what is wrong with one is told."""
    every = program.entity("multicast *")
    expect("groups before", controller.read(every), [])
    controller.write([program.update(INSERT, GROUP), program.update(INSERT, "multicast 2")])
    expect("group 7", controller.read(program.entity("multicast 7")), [program.entity(GROUP)])
    expect("all groups", controller.read(every), [program.entity("multicast 2"), program.entity(GROUP)])
    call_out(f"insert: {GROUP}, and the same read back")
    wrong = [program.update(INSERT, it) for it in (GROUP, "multicast 8 replicas 1:5, 1:5", "multicast 65536 replicas 1")]
    expect_errors("wrong groups", refusal(controller.write, wrong), ["ALREADY_EXISTS", "INVALID_ARGUMENT", "INVALID_ARGUMENT"])
    call_out("the same again, a group with a replica twice, and one of the id 65,536: refused, each with its code")


def packets(controller, program, network):
    """What leaves of a packet to the group, as the group is changed and goes."""
    controller.write([program.update(INSERT, TO_GROUP)])
    leaves_at(network, b"three", 1, 2, 3)
    call_out("one packet in: left at the ports 1, 2 and 3")
    controller.write([program.update(MODIFY, f"multicast 7 replicas 9, {CPU_PORT}, 9:1")])
    leaves_at(network, b"two", 9, 9)
    expect_packet_in(controller, FRAME + b"two")
    call_out("the group changed: left at port 9 twice, and once to the controller")
    controller.write([program.update(DELETE, "multicast 7")])
    leaves_at(network, b"none")
    expect("all groups", controller.read(program.entity("multicast *")), [program.entity("multicast 2")])
    call_out("the group deleted while an entry names it: nothing left")


def run(given):
    program, controller, network = Program("flood"), Controller(given.port), Network(given.packets)
    try:
        controller.take_charge(program)
        groups(controller, program)
        packets(controller, program, network)
        expect("the end of the stream", controller.end_stream(), "OK")
    finally:
        controller.close()
        network.close()


if __name__ == "__main__":
    main(__doc__, run)
