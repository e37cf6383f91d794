"""What a test is called with."""

import contextlib
import os
import shutil
import socket
import tempfile

from tests import connections, ports, processes
from tests.expectations import PATIENCE, octets


class Fixture:
    """A test's folder, its ports and processes, and what was said. All of them are gone after `close`."""

    def __init__(self, program, folder, transcript):
        self.program, self.transcript = program, transcript
        self.folder = tempfile.mkdtemp(dir=folder)
        self._ends = contextlib.ExitStack()
        self._ends.callback(shutil.rmtree, self.folder, ignore_errors=True)

    def at_end(self, call, *words):
        """Calls this at the test's end. What was last registered is called first."""
        self._ends.callback(call, *words)

    def close(self):
        self._ends.close()

    def path(self, name):
        """A path in the test's folder. Nothing is there."""
        return os.path.join(self.folder, name)

    def file(self, name, content):
        """Writes a file of the test's folder. Returns its path."""
        path = self.path(name)
        with open(path, "wb") as it:
            it.write(octets(content))
        return path

    def subfolder(self):
        return tempfile.mkdtemp(dir=self.folder)

    def ports(self):
        """The first of twelve free ports in a row."""
        block = ports.take()
        self.at_end(block.release)
        return block.first

    def run(self, *words, given=b"", **how):
        """Runs the program to its end, with these bytes on its standard input."""
        self.transcript.add("$ maildropd", " ".join(map(str, words)))
        ran = processes.run([self.program, *words], given, cwd=self.folder, **how)
        self.transcript.add(f"  status {ran.status},", ran.output)
        if ran.errors:
            self.transcript.add("  standard error", ran.errors)
        return ran

    def connect(self, port, name="a client"):
        connection = connections.connected(self.transcript, name, port)
        self.at_end(connection.close)
        return connection

    def listen(self, port):
        """A port of this process at which nothing is read."""
        listener = socket.create_server(("127.0.0.1", port))
        listener.settimeout(PATIENCE)
        self.at_end(listener.close)
        return listener

    def answer(self, port, lines, shuts=True):
        """All that a port sends to these bytes, up to the connection's end. `shuts`: the client ends what it sends after them."""
        with connections.connected(self.transcript, f"a client of port {port}", port) as connection:
            connection.send(octets(lines))
            if shuts:
                connection.shut()
            return connection.read_all()
