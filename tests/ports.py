"""Free ports: blocks of some in a row, which no other test of this machine has.

Ports for outgoing connections are never taken, since a client of another program could get such a port at any time. While
a block is in use, a Unix socket of its name in the abstract namespace is bound, so that another ./test takes another block.
The kernel drops it with the process, and it leaves no file. A port may still be taken by a program that isn't a test:
`services` starts a service again at another block then.
"""

import itertools
import os
import socket
import threading

# How many ports a block has: ten for nodes, counted from 0, and two more.
SIZE = 12
LOWEST, HIGHEST = 10_000, 60_000
_counter = itertools.count(os.getpid() * 7)
_lock = threading.Lock()


def _outgoing():
    with open("/proc/sys/net/ipv4/ip_local_port_range", encoding="ascii") as it:
        first, last = map(int, it.read().split())
    return first, last


def _blocks():
    """The first ports of all blocks. If outgoing connections may have nearly any port, so may a block."""
    first, last = _outgoing()
    blocks = [it for it in range(LOWEST, HIGHEST, SIZE) if it + SIZE <= first or last < it]
    return blocks if len(blocks) >= 100 else list(range(LOWEST, HIGHEST, SIZE))


def _is_free(port):
    with socket.socket() as it:
        it.setsockopt(socket.SOL_SOCKET, socket.SO_REUSEADDR, 1)
        try:
            it.bind(("127.0.0.1", port))
        except OSError:
            return False
    return True


class Ports:
    """A block that is in use until it is released."""

    def __init__(self, first, lock):
        self.first, self._lock = first, lock

    def release(self):
        self._lock.close()


def take():
    """Takes a block."""
    blocks = _blocks()
    with _lock:
        for _ in blocks:
            first = blocks[next(_counter) % len(blocks)]
            lock = socket.socket(socket.AF_UNIX)
            try:
                lock.bind(f"\0maildropd-test-ports-{first}")
            except OSError:
                lock.close()
                continue
            if all(_is_free(first + place) for place in range(SIZE)):
                return Ports(first, lock)
            lock.close()
    raise OSError("there are no free ports")
