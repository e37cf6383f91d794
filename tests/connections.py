"""Connections of clients and operators. Each records what it sends and receives."""

import contextlib
import select
import socket
import struct

from tests.expectations import PATIENCE, Failed, expect, shown, wait_until

# How many seconds a client that must wait is watched.
SILENCE = 0.3


class Connection:
    def __init__(self, transcript, name, stream):
        self.transcript, self.name, self.stream = transcript, name, stream
        stream.settimeout(PATIENCE)

    def send(self, given):
        self.transcript.add(f"{self.name} sends", given)
        self.stream.sendall(given)

    def _receive(self, most):
        try:
            came = self.stream.recv(most)
        except socket.timeout:
            raise Failed(f"{self.name}: nothing came within {PATIENCE} s") from None
        self.transcript.add(f"{self.name} gets", came)
        return came

    def expect(self, wanted):
        """Reads as many bytes as are wanted, and fails at the first that differs, or if nothing more comes."""
        expect(wanted, "a row that wants nothing can't fail")
        came = b""
        with contextlib.suppress(Failed):
            while len(came) < len(wanted) and wanted.startswith(came):
                more = self._receive(len(wanted) - len(came))
                if not more:
                    break
                came += more
        if came != wanted:
            raise Failed(f"{self.name}\n    wanted {shown(wanted)}\n    got    {shown(came)}")

    def read_line(self):
        line = b""
        while not line.endswith(b"\n"):
            byte = self.stream.recv(1)
            expect(byte, f"{self.name}: the connection ends after {line!r}")
            line += byte
        self.transcript.add(f"{self.name} gets", line)
        return line

    def read_all(self, may_be_reset=False):
        """All that comes up to the end of the connection."""
        came = b""
        with contextlib.suppress(ConnectionResetError) if may_be_reset else contextlib.nullcontext():
            while True:
                more = self._receive(1 << 16)
                if not more:
                    break
                came += more
        return came

    def expect_end(self):
        came = self.read_all()
        expect(not came, f"{self.name}: the connection was to end, and got {shown(came)}")

    def shut(self):
        """Ends what this side sends."""
        self.transcript.add(self.name, "ends what it sends")
        self.stream.shutdown(socket.SHUT_WR)

    def hang_up(self):
        self.transcript.add(self.name, "hangs up")
        self.stream.shutdown(socket.SHUT_RDWR)

    def reset(self):
        self.transcript.add(self.name, "resets the connection")
        self.stream.setsockopt(socket.SOL_SOCKET, socket.SO_LINGER, struct.pack("ii", 1, 0))
        self.stream.close()

    def close(self):
        self.stream.close()

    def _is_read(self):
        """Whether the other side has read all that was sent: the kernel's queues of both ends are empty."""
        local, remote = [f"0100007F:{end[1]:04X}" for end in (self.stream.getsockname(), self.stream.getpeername())]
        with open("/proc/net/tcp", encoding="ascii") as it:
            rows = [line.split()[1:5] for line in it]
        queues = [(tuple(ends), queue.split(":")) for *ends, _, queue in rows]
        sent = [queue[0] for ends, queue in queues if ends == (local, remote)]
        unread = [queue[1] for ends, queue in queues if ends == (remote, local)]
        return sent == unread == ["00000000"]

    def expect_read(self):
        wait_until(self._is_read, f"what {self.name} sent is read")

    def expect_silence(self, seconds=SILENCE):
        """The service has read what was sent, and answers nothing for some seconds."""
        self.expect_read()
        if select.select([self.stream], [], [], seconds)[0]:
            raise Failed(f"{self.name} was to wait, and got {shown(self._receive(999))}")

    def __enter__(self):
        return self

    def __exit__(self, *_):
        self.close()


def connected(transcript, name, port):
    return Connection(transcript, name, socket.create_connection(("127.0.0.1", port), timeout=PATIENCE))
