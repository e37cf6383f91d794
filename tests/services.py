"""Services that a test starts: `maildropd serve`, with one process for all nodes or for one."""

import os
import socket
import subprocess

from tests import processes
from tests.expectations import PATIENCE, Failed, expect, expect_equal, wait_until

ACCOUNTS = "alice pass s3\nbob pass s4\n"
# How often a service is started again at other ports if another program has one of its own.
STARTS = 5
# Three nodes whose maildrops hold three messages. Nothing ends by itself, and a new leader comes within a second.
OPTIONS = {
    "nodes": 3, "messages": 3, "octets": 1_000_000, "tick-ms": 20, "idle-seconds": 0, "no-majority-seconds": 0, "epoch-sessions": 0,
    "epoch-bytes": 0,
}


class Service:
    """A process of `serve`. An option that is None isn't given."""

    def __init__(self, fixture, accounts=ACCOUNTS, umask=-1, **options):
        self.fixture, self.accounts, self.umask, self.options = fixture, accounts, umask, {name.replace("_", "-"): it for name, it in options.items()}
        self.folder = fixture.subfolder()
        self.accounts_path = os.path.join(self.folder, "accounts")
        self.write_accounts(accounts)
        self.start()
        fixture.at_end(lambda: processes.end(self.process))

    def write_accounts(self, accounts):
        with open(self.accounts_path, "w", encoding="utf-8") as it:
            it.write(accounts)

    def start(self):
        """Starts it at ports of its own, unless the options name some."""
        given = {**OPTIONS, "accounts": self.accounts_path, **self.options}
        if "pop-port" not in given or "ctl-port" not in given:
            first = self.fixture.ports()
            given = {**given, "pop-port": given.get("pop-port", first), "ctl-port": given.get("ctl-port", first + 10)}
        self.pop, self.ctl_port, self.ctl_socket = given["pop-port"], given["ctl-port"], given.get("ctl-socket")
        words = self.words(given)
        self.fixture.transcript.add("$ maildropd serve", " ".join(map(str, words)))
        with open(self._path("stdout"), "wb") as output, open(self._path("stderr"), "wb") as errors:
            self.process = processes.start([self.fixture.program, "serve", *words], stdout=output, stderr=errors, umask=self.umask)

    def words(self, given):
        """What gives these options after the command `serve`."""
        return [word for name, value in given.items() if value is not None for word in (f"--{name}", value)]

    def begin(self, node=1):
        """Waits until it answers its operator. If another program has one of its ports, it is started at others."""
        for _ in range(STARTS):
            wait_until(lambda: self.process.poll() is not None or self._answers(node), "the service answers its operator")
            if self.process.returncode is None:
                return self
            lost = b"cannot listen on 127." in self.errors() and self.ctl_port is not None and "pop-port" not in self.options
            expect(lost, f"the service ended with status {self.process.returncode}: {self.errors()!r}")
            processes.end(self.process)
            self.start()
        raise Failed("no ports were free")

    def _answers(self, node):
        with socket.socket(socket.AF_UNIX if self.ctl_socket else socket.AF_INET) as stream:
            stream.settimeout(PATIENCE)
            try:
                stream.connect(self.ctl_socket or ("127.0.0.1", self.ctl_port))
                stream.sendall(b"status\n")
                return stream.recv(99).startswith(b"node %d up " % node)
            except OSError:
                return False

    def _path(self, name):
        return os.path.join(self.folder, name)

    def _read(self, name):
        with open(self._path(name), "rb") as it:
            return it.read()

    def errors(self):
        """What it has written on standard error."""
        return self._read("stderr")

    def output(self):
        return self._read("stdout")

    def node(self, number):
        """The port of a node for clients."""
        return self.pop + number

    def ctl(self, *words, given=b"", waits=False):
        place = ["--socket", self.ctl_socket] if self.ctl_socket else ["--port", self.ctl_port]
        return self.fixture.run("ctl", *place, *["--wait"] * waits, *words, given=given)

    def expect_ctl(self, words, output, status=0):
        ran = self.ctl(*words.split(" "))
        expect_equal((ran.status, ran.output), (status, output.encode()), f"ctl {words}")

    def expect_end(self, output, status=0, errors=b""):
        """Waits for its end, with what it has written to both outputs."""
        try:
            self.process.wait(timeout=PATIENCE)
        except subprocess.TimeoutExpired:
            raise Failed(f"the service hasn't ended after {PATIENCE} s") from None
        self.fixture.transcript.add(f"serve ends with status {self.process.returncode},", self.output())
        got = (self.process.returncode, self.output(), self.errors())
        expect_equal(got, (status, output, errors), "the end of the service")

    def stop(self, output=b"audit ok\n"):
        self.expect_ctl("stop", "stopping\n")
        self.expect_end(output)

    def work(self):
        """How many seconds of a processor it has taken."""
        with open(f"/proc/{self.process.pid}/stat", encoding="utf-8") as it:
            fields = it.read().rpartition(")")[2].split()
        return (int(fields[11]) + int(fields[12])) / os.sysconf("SC_CLK_TCK")

    def holds(self, what):
        """How many descriptors (`fd`) or threads (`task`) it has."""
        return len(os.listdir(f"/proc/{self.process.pid}/{what}"))


def serve(fixture, accounts=ACCOUNTS, umask=-1, **options):
    """A service that answers its operator. With a umask of -1 it has that of the tests."""
    return Service(fixture, accounts, umask, **options).begin()
