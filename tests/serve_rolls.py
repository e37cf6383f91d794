"""Rolls: nobody is refused for one, operators are heard while an epoch ends, and one that can't begin changes nothing."""

import contextlib
import itertools
import os
import resource
import time

from tests.expectations import Failed, expect, expect_equal, wait_until
from tests.groups import Group
from tests.services import serve
from tests.texts import ALICE, BYE, EMPTY, QUIT, SHORT

ROLLS = Group("rolls")
GROUPS = [ROLLS]

# A message, and how often a client asks for it. The system holds less than these bytes for a client that takes nothing.
LARGE, TIMES = b"x" * 900_000, 20
# What operators ask for while an epoch ends in which alice has the one session, at node 1, and what must be in the answer. Her first
# operation there was a delivery, and the second one is the login.
MEANWHILE = [
    ("locks\n", b"user alice node 1 ticket 2\nend\n"), ("stats\n", b"\nepoch 1\n"), ("status\n", b"node 3 up passive slot "),
    ("sessions\n", b" user alice seconds "), ("users\n", b"user alice messages 1 octets 900002 next_id 2\n"),
]
# Within how many seconds an operator's line must come, and how often it is tried to be as fast with two rolls between its parts.
LINE_SECONDS, TRIES = 10, 5
# How a socket that listens is shown in /proc/net/tcp.
LISTENS = "0A"


@ROLLS.test
def lines_are_carried_over(fixture):
    """Who hasn't said all as an epoch ends says the rest in the next one, or in the one after that."""
    for _ in range(TRIES):
        begun = time.monotonic()
        try:
            carry_over(fixture)
            return
        except Failed:
            # On a busy machine the rolls may take longer than a line may.
            if time.monotonic() - begun < LINE_SECONDS:
                raise
    raise Failed(f"in {TRIES} tries two rolls took {LINE_SECONDS} s")


def carry_over(fixture):
    service = serve(fixture)
    halves = [
        ("put 1 alice", " 2 monday\nhi", "op alice 1/1 stored 1\nend\n"),
        ("deliver 2 bo", f"b {len(SHORT)}\n{SHORT}", "op bob 2/1 stored 1\nend\n"),
        ("kick zoe", "\n", "kicked 0\n"),
        ("", "break 1 zoe\n", "no such user\n"),
    ]
    operators = [fixture.connect(service.ctl_port, f"operator {number}") for number in range(len(halves))]
    slow = fixture.connect(service.ctl_port, "a slow operator")
    for operator, half in [*zip(operators, (front for front, _, _ in halves)), (slow, "b")]:
        operator.send(half.encode())
        operator.expect_read()
    service.expect_ctl("roll", "rolled\n")
    for operator, (_, rest, wanted) in zip(operators, halves):
        operator.send(rest.encode())
        expect_equal(operator.read_all(), wanted.encode(), operator.name)
    slow.send(b"reak 1 al")
    slow.expect_read()
    service.expect_ctl("roll", "rolled\n")
    slow.send(b"ice\n")
    expect_equal(slow.read_all(), b"done\n", slow.name)
    service.expect_ctl("users", "user alice messages 1 octets 4 next_id 2\nuser bob messages 1 octets 4 next_id 2\nend\n")
    service.stop(b"epoch 1: audit ok\nepoch 2: audit ok\naudit ok\n")


def hold_up(fixture, service):
    """A client that takes nothing of its replies, for which the end of an epoch waits some seconds. Returns an operator who asks for
    this end, and waits."""
    put = service.ctl("put", "1", "alice", given=LARGE)
    expect_equal(put.output, b"op alice 1/1 stored 1\nend\n", "put")
    client = fixture.connect(service.node(1))
    client.read_line()
    client.send((ALICE + "RETR 1\r\n" * TIMES).encode())
    client.expect_read()
    rolling = fixture.connect(service.ctl_port, "an operator who rolls")
    rolling.send(b"roll\n")
    rolling.expect_silence()
    return rolling


@ROLLS.test
def operators_are_heard_while_an_epoch_ends(fixture):
    """They see this epoch, and may cut its session. What is delivered meanwhile is stored in the next one."""
    service = serve(fixture)
    rolling = hold_up(fixture, service)
    sender = fixture.connect(service.ctl_port, "a sender")
    sender.send(b"put 3 bob 2\nhi")
    for request, wanted in MEANWHILE:
        came = fixture.answer(service.ctl_port, request, shuts=False)
        expect(wanted in came, f"{request!r}: {wanted!r} isn't in {came!r}")
    expect_equal(fixture.answer(service.ctl_port, "kick alice\n", shuts=False), b"kicked 1\n", "kick")
    expect_equal(rolling.read_all(), b"rolled\n", "roll")
    expect_equal(sender.read_all(), b"op bob 3/1 stored 1\nend\n", "what was put meanwhile")
    service.expect_ctl("users", "user alice messages 1 octets 900002 next_id 2\nuser bob messages 1 octets 4 next_id 2\nend\n")
    service.stop(b"epoch 1: audit ok\naudit ok\n")


@ROLLS.test
def a_service_stops_while_an_epoch_ends(fixture):
    """It ends without waiting for the session that holds up the epoch. The next epoch may have begun, or not."""
    service = serve(fixture)
    rolling = hold_up(fixture, service)
    came = fixture.answer(service.ctl_port, "stats\n", shuts=False)
    expect(b"\nepoch 1\n" in came, f"stats: {came!r}")
    expect_equal(fixture.answer(service.ctl_port, "stop now\n", shuts=False), b"stopping\n", "stop now")
    came = rolling.read_all()
    expect(came in (b"down\n", b"rolled\n"), f"roll: {came!r}")
    service.expect_end(b"epoch 1: audit ok\naudit ok\n" if came == b"rolled\n" else b"audit ok\n")


def sockets(service):
    """The sockets that it has, as the system names them."""
    found, folder = set(), f"/proc/{service.process.pid}/fd"
    for name in os.listdir(folder):
        with contextlib.suppress(OSError):
            found.add(os.readlink(f"{folder}/{name}"))
    return found


def connections(service):
    """How many connections it has open."""
    with open("/proc/net/tcp", encoding="ascii") as it:
        rows = [line.split() for line in it][1:]
    return len({f"socket:[{row[9]}]" for row in rows if row[3] != LISTENS} & sockets(service))


@contextlib.contextmanager
def no_descriptors(service):
    """In this block it gets none beside those that it has, which it doesn't close."""
    number, pid = resource.RLIMIT_NOFILE, service.process.pid
    used = {int(name) for name in os.listdir(f"/proc/{pid}/fd")}
    before = resource.prlimit(pid, number)
    resource.prlimit(pid, number, (next(it for it in itertools.count() if it not in used), before[1]))
    try:
        yield
    finally:
        resource.prlimit(pid, number, before)


@ROLLS.test
def a_roll_without_descriptors_fails(fixture):
    """It can't read the accounts. The epoch goes on, with its session, and ends once there are some."""
    log = fixture.path("log")
    service = serve(fixture, log=log)
    client = fixture.connect(service.node(1))
    client.read_line()
    client.send(ALICE.encode())
    client.expect(EMPTY.encode())
    operator = fixture.connect(service.ctl_port, "an operator")
    operator.send(b"rol")
    operator.expect_read()
    wait_until(lambda: connections(service) == 2, "only the client and the operator are connected")
    with no_descriptors(service):
        operator.send(b"l\n")
        came = operator.read_all()
    expect(came.startswith(b"roll failed: ") and came.count(b"\n") == 1, f"roll: {came!r}")
    client.send(QUIT.encode())
    client.expect(BYE.encode())
    cause = came[len(b"roll failed: "):].decode()
    wait_until(lambda: f" event=roll_failed cause={cause}" in logged(log), "the failure is in the log")
    expect(b"\nepoch 1\n" in service.ctl("stats").output, "another epoch has begun")
    service.expect_ctl("roll", "rolled\n")
    service.stop(b"epoch 1: audit ok\naudit ok\n")


def logged(path):
    with open(path, encoding="utf-8") as it:
        return it.read()
