"""The built program p4switch, as tests find and start it: what P4SWITCH names, else as it was built here."""
import os
import socket
import subprocess
import time
import unittest

TOP = os.path.dirname(os.path.dirname(os.path.abspath(__file__)))
# As LLVM builds it, and as Rattle's own compiler does.
BUILDS = [os.path.join(TOP, "crates", "p4switch", "out", it) for it in ("p4switch", "p4switch.by-rattle")]
SAID: list[str] = []


def program():
    """The path of the built program, or the test is skipped with a word."""
    found = os.environ.get("P4SWITCH") or next((it for it in BUILDS if os.path.isfile(it)), None)
    if found is None:
        why = "crates/p4switch/out/p4switch has not been built, so nothing is tried on it: bin/p4switch or rt ci builds it"
        if not SAID:
            SAID.append(why)
            print(f"tools/test: {why}", flush=True)
        raise unittest.SkipTest(why)
    return found


def free_port(kind, count=1):
    """A port of 127.0.0.1 that nobody has, nor those behind it, so many in all."""
    while True:
        taken = []
        try:
            taken.append(socket.socket(socket.AF_INET, kind))
            taken[0].bind(("127.0.0.1", 0))
            port = taken[0].getsockname()[1]
            for more in range(1, count):
                taken.append(socket.socket(socket.AF_INET, kind))
                taken[-1].bind(("127.0.0.1", port + more))
            return port
        except OSError:
            continue
        finally:
            for it in taken:
                it.close()


class Switch:
    """A switch that serves, at ports of its own."""

    def __init__(self, *words):
        self.port, self.packets = free_port(socket.SOCK_STREAM), free_port(socket.SOCK_DGRAM, 2)
        words = [program(), "serve", "--port", str(self.port), "--packets", str(self.packets), *words]
        self.process = subprocess.Popen(words, stdout=subprocess.DEVNULL, stderr=subprocess.DEVNULL)
        until = time.monotonic() + 60
        while True:
            try:
                socket.create_connection(("127.0.0.1", self.port)).close()
                return
            except ConnectionRefusedError:
                if self.process.poll() is not None or time.monotonic() > until:
                    self.end()
                    raise AssertionError("the switch does not serve") from None
                time.sleep(0.05)

    def end(self):
        """Ends it."""
        if self.process.poll() is None:
            self.process.kill()
        self.process.wait()
