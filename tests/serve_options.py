"""Options of `serve`, each with a value that changes what clients, operators or files show. `epochs`, `data`, `bounds` and `nodes`
have the others."""

import hashlib
import socket

from tests.expectations import PATIENCE, expect, expect_equal
from tests.groups import Group
from tests.rows import STOP, Ctl, OperatorConnects, Sends, Stage, Waits, play, play_to_end
from tests.services import Service, serve
from tests.texts import SHORT

OPTIONS = Group("options")
GROUPS = [OPTIONS]

# Ticks of this length bring no new leader in any test.
NEVER_MS = 1_000_000
# With the default of 200 ms another node leads after 12 ticks. A busy machine takes longer.
DEFAULT_LEADER_SECONDS = 2.4
# How many seconds a client waits that must not be answered: more than twice as long.
WATCHED_SECONDS = 6


@OPTIONS.test
def nodes(fixture):
    """One to nine nodes."""
    for count in (1, 2, 9):
        service = serve(fixture, nodes=count)
        lines = service.ctl("status").output.split(b"\n")
        expect_equal([line.split(b" up ")[0] for line in lines[:-2]], [b"node %d" % (place + 1) for place in range(count)], "status")
        service.stop()


@OPTIONS.test
def limits_of_a_maildrop(fixture):
    """Two unique ids, five messages, and ten octets: a message of 4 octets fits twice, one of 11 never, and the ids are used then."""
    service = serve(fixture, messages=5, octets=10, ids=2)
    for given, status, outcome in [
        (b"x" * 9, 65, b"too large"),
        (b"hi", 0, b"stored 1"),
        (b"h" * 5, 75, b"full"),
        (b"ho", 0, b"stored 2"),
        (b"", 75, b"ids used"),
    ]:
        ran = service.ctl("put", "1", "alice", given=given)
        expect_equal((ran.status, ran.output.split(b" ", 3)[3:]), (status, [outcome + b"\nend\n"]), given)
    service.stop()


@OPTIONS.test
def messages_of_a_maildrop(fixture):
    rows = [
        Ctl("deliver 1 alice FILE", 0, "op alice 1/1 stored 1\nend\n"),
        Ctl("deliver 1 alice FILE", 0, "op alice 1/2 full\nend\n"),
        STOP,
    ]
    play_to_end(serve(fixture, messages=1), rows, SHORT)


@OPTIONS.test
def host(fixture):
    service = serve(fixture, host="mail.test")
    greeting = fixture.connect(service.node(1)).read_line()
    expect(greeting.startswith(b"+OK POP3 server ready <") and greeting.endswith(b".1@mail.test>\r\n"), f"{greeting!r}")
    service.ctl("stop", "now")
    service.expect_end(b"audit ok\n")


def greets(address, port):
    try:
        with socket.create_connection((address, port), timeout=PATIENCE) as stream:
            return stream.recv(99).startswith(b"+OK POP3 server ready <")
    except OSError:
        return False


@OPTIONS.test
def listen(fixture):
    """Clients are served at this address and at no other, operators at 127.0.0.1."""
    service = serve(fixture, listen="127.0.0.2")
    expect(greets("127.0.0.2", service.node(1)), "no greeting at 127.0.0.2")
    expect(not greets("127.0.0.1", service.node(1)), "a greeting at 127.0.0.1")
    service.stop()


@OPTIONS.test
def port_and_pop_port(fixture):
    """Clients are served at the port for all, and at each node's."""
    first = fixture.ports()
    service = Service(fixture, pop_port=first, port=first + 9, ctl_port=first + 10).begin()
    for place in (1, 2, 3, 9):
        expect(greets("127.0.0.1", first + place), f"no greeting at port {place} of the block")
    service.stop()


@OPTIONS.long_test
def tick_ms(fixture):
    """Without ticks nobody comes to lead after the leader has stopped: an operator waits for longer than it takes by default."""
    service = serve(fixture, tick_ms=NEVER_MS)
    stage = Stage(fixture, service.pop, service.ctl_port)
    play(stage, [Ctl("crash 1", 0, "crashed\n"), OperatorConnects(), Sends(0, "break 2 alice\n"), Waits(0)])
    expect(WATCHED_SECONDS > 2 * DEFAULT_LEADER_SECONDS, "it is watched for too short a time")
    stage.clients[0].expect_silence(WATCHED_SECONDS)
    service.ctl("crash", "2")
    stage.clients[0].expect(b"down\n")
    service.ctl("crash", "3")
    service.stop()


@OPTIONS.test
def log_on_standard_error(fixture):
    service = serve(fixture, log="-")
    service.expect_ctl("crash 3", "crashed\n")
    service.expect_ctl("stop", "stopping\n")
    service.process.wait(timeout=PATIENCE)
    errors = service.errors()
    expect(b" event=crash node=3\n" in errors and b" event=stop\n" in errors, f"standard error: {errors!r}")


@OPTIONS.test
def accounts_by_apop(fixture):
    """An account logs in only by its own method. The digest is that of RFC 1939: MD5 over the greeting's timestamp and the secret."""
    service = serve(fixture, "alice apop tanstaaf\nbob pass s4\n")
    client = fixture.connect(service.node(1))
    stamp = client.read_line().split(b" ")[-1].strip()
    client.send(b"APOP alice " + _digest(stamp + b"tanstaaf") + b"\r\nQUIT\r\n")
    client.expect(b"+OK maildrop has 0 messages (0 octets)\r\n+OK signing off\r\n")
    client.expect_end()
    client = fixture.connect(service.node(1))
    client.read_line()
    client.send(b"USER alice\r\nPASS tanstaaf\r\nQUIT\r\n")
    client.expect(b"+OK send PASS\r\n-ERR invalid login\r\n+OK signing off\r\n")
    client.expect_end()
    service.stop()


def _digest(text):
    return hashlib.md5(text, usedforsecurity=False).hexdigest().encode()
