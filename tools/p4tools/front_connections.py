"""The connections of this process at the port where it listens, as the system has them: gRPC for Python neither counts
them nor ends one."""
import contextlib
import os
import socket
import urllib.parse


def peer_of(word):
    """The address and port of gRPC's word for a peer, such as `ipv4:127.0.0.1:4321` or `ipv6:%5B::1%5D:4321`, as
    `ADDRESS:PORT`."""
    _, _, place = urllib.parse.unquote(word).partition(":")
    address, _, port = place.rpartition(":")
    return spell_peer(address.strip("[]"), port)


def spell_peer(address, port):
    """`ADDRESS:PORT`, with brackets around an address of IPv6."""
    address = address.removeprefix("::ffff:") if "." in address else address
    return f"[{address}]:{port}" if ":" in address else f"{address}:{port}"


class Connections:
    """The connections at a port. The first `most` that came are served, and others are ended. `came`, `went` and
    `refused` are told of each by its peer."""

    def __init__(self, port, most, came=lambda peer: None, went=lambda peer: None, refused=lambda peer: None):
        self.port, self.most = port, most
        self.came, self.went, self.refused = came, went, refused
        self.served = {}

    def look(self):
        """Takes in what came and went since, and ends what is too much."""
        found = dict(self._found())
        for peer in [it for it in self.served if it not in found]:
            del self.served[peer]
            self.went(peer)
        for peer, handle in found.items():
            if peer in self.served:
                continue
            if len(self.served) < self.most:
                self.served[peer] = handle
                self.came(peer)
            else:
                self.refused(peer)
                _shut(handle, peer)

    def serves(self, peer):
        """Whether a peer is among those that are served."""
        if peer not in self.served:
            self.look()
        return peer in self.served

    def end(self, peer):
        """Ends the connection of a peer, with all its calls."""
        for known, handle in self._found():
            if known == peer:
                _shut(handle, peer)

    def _found(self):
        """Each connection's peer and handle, by rising handle."""
        for handle in sorted(map(int, os.listdir("/proc/self/fd"))):
            with contextlib.suppress(OSError, ValueError):
                if not os.readlink(f"/proc/self/fd/{handle}").startswith("socket:"):
                    continue
                with _copy(handle) as it:
                    if it.family in (socket.AF_INET, socket.AF_INET6) and it.getsockname()[1] == self.port:
                        yield spell_peer(*it.getpeername()[:2]), handle


def _copy(handle):
    return socket.socket(fileno=os.dup(handle))


def _shut(handle, peer):
    with contextlib.suppress(OSError), _copy(handle) as it:
        # (another connection may have taken the handle meanwhile)
        if spell_peer(*it.getpeername()[:2]) == peer:
            it.shutdown(socket.SHUT_RDWR)
