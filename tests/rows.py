"""Rows of a scene: what clients and operators do at a service, one after another, and what each must get.

Clients are numbered from 0, in the order in which they connect, operators among them.
"""

import contextlib
import os
import re
from dataclasses import dataclass

from tests.connections import Connection
from tests.expectations import Failed, expect, expect_equal, octets
from tests.services import ACCOUNTS, serve

GREETING = re.compile(rb"\+OK POP3 server ready <([0-9a-f]{16})\.([0-9]+)@localhost>\r\n")


class Stage:
    """A service at which a scene is played: its fixture, the port below those of its nodes, and its operator's port."""

    def __init__(self, fixture, pop, ctl_port, mailbox=""):
        self.fixture, self.pop, self.ctl_port = fixture, pop, ctl_port
        self.clients, self.greeted = [], 0
        self.mailbox = os.path.join(fixture.subfolder(), "mailbox")
        with open(self.mailbox, "w", encoding="utf-8") as it:
            it.write(mailbox)

    def connect(self, port) -> Connection:
        self.clients.append(self.fixture.connect(port, f"client {len(self.clients)}"))
        return self.clients[-1]

    def ctl(self, words):
        given = [self.mailbox if word == "FILE" else word for word in words.split(" ")]
        return self.fixture.run("ctl", "--port", self.ctl_port, *given)


@dataclass
class Ctl:
    """`maildropd ctl` with these words; FILE is the scene's mailbox file."""

    words: str
    status: int
    output: str

    def play(self, stage):
        ran = stage.ctl(self.words)
        expect_equal((ran.status, ran.output), (self.status, octets(self.output)), f"ctl {self.words}")


@dataclass
class StatusHas:
    """What `ctl status` prints has this part."""

    part: str

    def play(self, stage):
        ran = stage.ctl("status")
        expect(ran.status == 0 and octets(self.part) in ran.output, f"{self.part!r} isn't in {ran.output!r}")


@dataclass
class CtlAtNode:
    """`ctl status` at the port of a node, where clients are served, has this status."""

    node: int
    status: int

    def play(self, stage):
        expect_equal(stage.fixture.run("ctl", "--port", stage.pop + self.node, "status").status, self.status, "ctl status")


@dataclass
class Asks:
    """An operator with a connection of its own sends these bytes, and gets these and the connection's end."""

    lines: str
    wanted: str
    shuts = False

    def play(self, stage):
        expect_equal(stage.fixture.answer(stage.ctl_port, self.lines, self.shuts), octets(self.wanted), self.lines)


@dataclass
class AsksAndShuts(Asks):
    """The same, and the operator ends what it sends."""

    shuts = True


@dataclass
class Connects:
    """A client connects to the port of a node, and is greeted with the number of this greeting."""

    node: int

    def play(self, stage):
        line = stage.connect(stage.pop + self.node).read_line()
        stage.greeted += 1
        greeting = GREETING.fullmatch(line)
        expect(greeting and int(greeting[2]) == stage.greeted, f"{line!r} greets client {stage.greeted}")


@dataclass
class OperatorConnects:
    """An operator connects."""

    def play(self, stage):
        stage.connect(stage.ctl_port)


@dataclass
class IsRefused:
    """Who connects to the port of this node is refused, or cut without a greeting."""

    node: int

    def play(self, stage):
        with contextlib.suppress(ConnectionRefusedError, ConnectionResetError):
            with stage.fixture.connect(stage.pop + self.node) as connection:
                expect_equal(connection.read_all(may_be_reset=True), b"", "a client that is refused")


@dataclass
class Says:
    """A client sends these bytes, and gets these."""

    client: int
    lines: str
    wanted: str

    def play(self, stage):
        stage.clients[self.client].send(octets(self.lines))
        stage.clients[self.client].expect(octets(self.wanted))


@dataclass
class Sends:
    """A client sends these bytes. What it gets is in a later row: `Waits`, `Gets` or `Ends`."""

    client: int
    lines: str

    def play(self, stage):
        stage.clients[self.client].send(octets(self.lines))


@dataclass
class IsRead:
    """The service has read all that a client has sent."""

    client: int

    def play(self, stage):
        stage.clients[self.client].expect_read()


@dataclass
class Waits:
    """The service has read all that a client has sent, and doesn't answer it yet."""

    client: int

    def play(self, stage):
        stage.clients[self.client].expect_silence()


@dataclass
class Gets:
    """A client gets these bytes."""

    client: int
    wanted: str

    def play(self, stage):
        stage.clients[self.client].expect(octets(self.wanted))


@dataclass
class Ends:
    """The service ends the connection of a client, which gets nothing more."""

    client: int

    def play(self, stage):
        stage.clients[self.client].expect_end()


@dataclass
class HangsUp:
    """A client closes its connection."""

    client: int

    def play(self, stage):
        stage.clients[self.client].hang_up()


# An operator has the service stopped.
STOP = Ctl("stop", 0, "stopping\n")


def play(stage, rows):
    """Plays rows. A failure says at which row it came."""
    for place, row in enumerate(rows):
        stage.fixture.transcript.add(f"-- row {place}", row)
        try:
            row.play(stage)
        except (Failed, OSError) as error:
            raise Failed(f"row {place}, {row}: {error}") from error


def play_to_end(service, rows, mailbox="", output=b"audit ok\n"):
    """Plays rows at a service, of which one stops it, and looks at its end."""
    play(Stage(service.fixture, service.pop, service.ctl_port, mailbox), rows)
    service.expect_end(output)


def add_scene(group, name, rows, mailbox="", accounts=ACCOUNTS, **options):
    """Adds a test: these rows at a service with these options."""
    group.add(name, lambda fixture: play_to_end(serve(fixture, accounts, **options), rows, mailbox))
