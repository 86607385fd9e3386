#!/usr/bin/python3
"""triangle.py [--preview]

The triangle of the p4lang tutorials: three switches, each with a host, all joined. Each switch runs the router program, and a
controller writes its routes; then all hosts ping one another.
"""
import os
import re
import sys

HERE = os.path.dirname(os.path.abspath(__file__))
TOP = os.path.join(HERE, "../..")
sys.path.insert(0, os.path.join(TOP, "bench/clients"))

from mininet.log import setLogLevel  # noqa: E402
from mininet.net import Mininet  # noqa: E402
from mininet.topo import Topo  # noqa: E402
from p4client import INSERT, Controller, Program, fresh_election  # noqa: E402

from p4switch import P4Switch  # noqa: E402

NUMBERS = (1, 2, 3)
ROUTER = os.path.join(TOP, "examples/programs/router.json")
# By which port a switch reaches the host of a number: its own by 1.
PORTS = {1: {1: 1, 2: 2, 3: 3}, 2: {2: 1, 1: 2, 3: 3}, 3: {3: 1, 1: 2, 2: 3}}


def host_mac(number):
    return f"08:00:00:00:0{number}:{number}{number}"


def switch_mac(number):
    return f"08:00:00:00:0{number}:00"


class Triangle(Topo):
    def build(self, words=()):
        for it in NUMBERS:
            # Each is device 1, at ports of its own.
            self.addSwitch(f"s{it}", json_path=ROUTER, device_id=1, words=words, log_file="/dev/null")
            self.addHost(f"h{it}", ip=f"10.0.{it}.{it}/24", mac=host_mac(it), defaultRoute=f"via 10.0.{it}.10")
            self.addLink(f"h{it}", f"s{it}", port2=1)
        self.addLink("s1", "s2", port1=2, port2=2)
        self.addLink("s1", "s3", port1=3, port2=2)
        self.addLink("s2", "s3", port1=3, port2=3)


def write_routes(switch, number):
    controller, program = Controller(switch.grpc_port), Program("router")
    controller.open()
    controller.arbitrate(fresh_election())
    for other, port in PORTS[number].items():
        mac = host_mac(other) if other == number else switch_mac(other)
        words = f"ipv4_lpm dst=10.0.{other}.0/24 route(port={port}, mac={mac})"
        controller.write([program.update(INSERT, words)])
    controller.end_stream()
    controller.close()


def main():
    setLogLevel("output")
    net = Mininet(topo=Triangle(words=sys.argv[1:]), switch=P4Switch, controller=None)
    net.start()
    try:
        for it in NUMBERS:
            net[f"h{it}"].cmd(f"ip neigh add 10.0.{it}.10 lladdr {switch_mac(it)} dev h{it}-eth0")
            write_routes(net[f"s{it}"], it)
        print("== Each host pings each other", flush=True)
        net.pingAll(timeout=10)
        print("== Hops that are left behind two switches", flush=True)
        for one, other in ((1, 2), (1, 3), (2, 3)):
            told = net[f"h{one}"].cmd(f"ping -n -c 1 -W 10 10.0.{other}.{other}")
            print(f"    h{one} to h{other}: {', '.join(re.findall(r'ttl=([0-9]+)', told))}", flush=True)
    finally:
        net.stop()


if __name__ == "__main__":
    main()
