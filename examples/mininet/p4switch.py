"""p4switch as a switch of Mininet: a topology runs with it where its switch class is exchanged for this one.

    net = Mininet(topo=MyTopo(), switch=P4Switch, controller=None)
    topo.addSwitch("s1", json_path="build/basic.json", grpc_port=50051)

Each switch is a bin/p4lab: port N of the switch is interface N of the node, as s1-eth1 is port 1. The words are those that the
P4RuntimeSwitch of the p4lang tutorials takes; those that have nothing to stand for here are passed over.
"""
import os
import signal
import subprocess

from mininet.log import error, info
from mininet.node import Switch

HERE = os.path.dirname(os.path.realpath(__file__))
P4LAB = os.environ.get("P4LAB", os.path.join(HERE, "../../bin/p4lab"))
FIRST_GRPC, FIRST_PACKETS = 50051, 9000
PATIENCE = 10


class P4Switch(Switch):
    """A switch of Mininet that is a lab of p4switch.

    json_path, p4info_path: the program; without one a controller loads it.
    device_id: from 1 on in the order of the switches, where none is given.
    grpc_port: TCP port of 127.0.0.1; from 50051 on.
    packets: the UDP port of packets, and the one above; from 9000 on.
    pcap_dump: a folder for captures, or True for the folder that the node's name names.
    log_file: a file; else what is told goes to standard error.
    words: more words of p4lab, as ["--preview"].
    """

    made = 0

    def __init__(self, name, json_path=None, p4info_path=None, device_id=None, grpc_port=None, packets=None, cpu_port=None,
                 pcap_dump=None, log_file=None, words=(), sw_path=None, thrift_port=None, log_console=None, verbose=None,
                 enable_debugger=None, **given):
        super().__init__(name, **given)
        P4Switch.made += 1
        self.json_path, self.p4info_path = json_path, p4info_path
        self.device_id = device_id or P4Switch.made
        self.grpc_port = grpc_port or FIRST_GRPC + P4Switch.made - 1
        self.packets = packets or FIRST_PACKETS + 2 * (P4Switch.made - 1)
        self.cpu_port, self.log_file, self.words = cpu_port, log_file, list(words)
        self.pcap_dump = name if pcap_dump is True else pcap_dump
        self.lab = None

    def lab_words(self):
        """What is run: p4lab with the node's interfaces. One that has an address is the node's own, as lo is."""
        words = [P4LAB, *self.words, "--device-id", self.device_id, "--grpc-server-addr", f"127.0.0.1:{self.grpc_port}",
                 "--packets", self.packets]
        for port, interface in sorted(self.intfs.items()):
            if not interface.IP():
                words += ["-i", f"{port}@{interface.name}"]
        for name, value in (("--cpu-port", self.cpu_port), ("--pcap", self.pcap_dump), ("--log-file", self.log_file),
                            ("--p4info", self.p4info_path)):
            words += [name, value] if value else []
        return [str(it) for it in words + ([self.json_path] if self.json_path else ["--no-p4"])]

    def start(self, _controllers):
        """Starts the lab and waits until it serves, with its program."""
        words = self.lab_words()
        info(f"{self.name}: {' '.join(words)}\n")
        self.lab = self.popen(words, stdin=subprocess.DEVNULL, stdout=subprocess.PIPE, stderr=None, text=True)
        line = self.lab.stdout.readline()
        if not line.startswith("p4lab: device"):
            error(f"{self.name} did not start: {' '.join(words)}\n")
            raise RuntimeError(f"{self.name} did not start")

    def stop(self, deleteIntfs=True):
        """Takes the lab down, and the node with it."""
        if self.lab:
            self.lab.send_signal(signal.SIGTERM)
            try:
                self.lab.wait(PATIENCE)
            except subprocess.TimeoutExpired:
                self.lab.kill()
            self.lab.stdout.close()
            self.lab = None
        super().stop(deleteIntfs)
