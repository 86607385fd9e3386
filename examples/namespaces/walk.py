#!/usr/bin/python3
"""walk.py [--bytes N] [--batches N]

The walk itself, in the switch's namespace, where `run` has made three hosts and a lab: it writes routes, lets the hosts send,
and says what came. A line that begins with # has figures of this run; the others are the same each time.
"""
import argparse
import json
import os
import re
import subprocess
import sys
import time

TOP = os.path.join(os.path.dirname(os.path.abspath(__file__)), "../..")
sys.path.insert(0, os.path.join(TOP, "bench/clients"))

from p4client import DATAPLANE_ATOMIC, DELETE, INSERT, Controller, Program, fresh_election  # noqa: E402

HOSTS = (1, 2, 3)
PORT = 9559
# The two paths to the second host: the prefix of its route, its port, and the address that marks what goes there.
PATHS = (("10.0.2.0/24", 2, "02:00:00:00:02:01"), ("10.0.2.0/25", 4, "02:00:00:00:02:02"))
ENDS = ("eth0", "eth1")


def in_host(number, *words):
    """A process in a host's namespace."""
    return subprocess.Popen(["ip", "netns", "exec", f"h{number}", *words], stdin=subprocess.PIPE, stdout=subprocess.PIPE,
                            stderr=subprocess.STDOUT, text=True)


def helper(number, *words):
    """hosts.py in a host."""
    return in_host(number, sys.executable, "-B", "hosts.py", *words)


def wait_ready(process):
    line = process.stdout.readline()
    if line != "ready\n":
        sys.exit(f"walk.py: {line}{process.stdout.read()}")


def end(process):
    """Ends the input of a helper, and gives what it found."""
    told = process.communicate(timeout=120)[0]
    if process.returncode:
        sys.exit(f"walk.py: {told}")
    return json.loads(told.splitlines()[-1])


def route(prefix, port, mac):
    return f"ipv4_lpm dst={prefix} route(port={port}, mac={mac})"


def pings():
    for one in HOSTS:
        for other in HOSTS:
            if one == other:
                continue
            told = in_host(one, *f"ping -n -c 3 -i 0.2 -W 10 10.0.{other}.2".split()).communicate(timeout=60)[0]
            received = re.search(r"(\d+) received", told)
            hops = sorted(set(re.findall(r"ttl=(\d+)", told)))
            print(f"    h{one} to h{other}: {received and received[1]} of 3 answered, hops left: {', '.join(hops)}", flush=True)


def tcp(count):
    server = helper(2, "receive", "5001")
    wait_ready(server)
    sent = end(helper(1, "send", "10.0.2.2", "5001", str(count)))
    came = end(server)
    is_same = came["digest"] == sent["digest"]
    print(f"    {came['bytes']:,} bytes came, {'as they were sent' if is_same else 'and not as they were sent'}")
    print(f"    # {came['bytes'] * 8 / sent['seconds'] / 1e6:,.0f} Mbit/s", flush=True)


def traceroute():
    told = in_host(1, *"traceroute -n -q 1 -w 10 -m 5 10.0.3.2".split()).communicate(timeout=120)[0]
    hops = re.findall(r"^ *\d+ +(\S+)", told, re.MULTILINE)
    print(f"    from h1 to 10.0.3.2 by: {', '.join(hops)}", flush=True)


def replace(controller, program, count):
    """The route of the second host is replaced, again and again, while the first one pings it."""
    watchers = [helper(2, "watch", *ENDS), helper(3, "watch", "eth0")]
    for it in watchers:
        wait_ready(it)
    pinger = helper(1, "ping", "10.0.2.2")
    wait_ready(pinger)
    begun = time.monotonic()
    for number in range(count):
        old, new = PATHS[number % 2], PATHS[(number + 1) % 2]
        controller.write([program.update(DELETE, f"ipv4_lpm dst={old[0]}"), program.update(INSERT, route(*new))],
                         DATAPLANE_ATOMIC)
    took = time.monotonic() - begun
    pinged, (seen, elsewhere) = end(pinger), map(end, watchers)
    tell_paths(count, took, pinged, seen, sum(elsewhere.values()))


def tell_paths(count, took, pinged, seen, elsewhere):
    right = [seen.pop(f"{end_of} {mac}", 0) for end_of, (_, _, mac) in zip(ENDS, PATHS)]
    lost = pinged["sent"] - pinged["answered"]
    print(f"    {count:,} batches, each a route gone and another there")
    print(f"    pings lost: {lost}")
    print(f"    pings by the route behind: {elsewhere}, by a wrong path: {sum(seen.values())}, "
          f"not seen: {pinged['sent'] - sum(right) - sum(seen.values()) - elsewhere}")
    print(f"    both paths were taken: {'yes' if all(right) else 'no'}")
    print(f"    # {pinged['sent']:,} pings, {right[0]:,} by one path and {right[1]:,} by the other, in {took:.1f} s, "
          f"{1000 * took / count:.2f} ms a batch", flush=True)


def main():
    words = argparse.ArgumentParser(description=__doc__, formatter_class=argparse.RawDescriptionHelpFormatter)
    words.add_argument("--bytes", type=int, default=100_000_000)
    words.add_argument("--batches", type=int, default=1_000)
    given = words.parse_args()
    os.chdir(os.path.dirname(os.path.abspath(__file__)))
    controller, program = Controller(PORT), Program("router")
    controller.open()
    controller.arbitrate(fresh_election())
    print("== 1. Routes to three hosts")
    controller.write([program.update(INSERT, route(f"10.0.{it}.0/24", it, f"02:00:00:00:0{it}:01")) for it in HOSTS])
    print("== 2. Pings between all pairs")
    pings()
    print("== 3. TCP from h1 to h2")
    tcp(given.bytes)
    print("== 4. traceroute")
    traceroute()
    print("== 5. The route to h2 replaced while h1 pings it")
    # Behind them stands a route that leads to the third host: a packet that meets half of a batch goes there.
    controller.write([program.update(INSERT, route("10.0.0.0/16", 3, "02:00:00:00:03:01"))])
    replace(controller, program, given.batches)
    controller.end_stream()
    controller.close()


if __name__ == "__main__":
    main()
