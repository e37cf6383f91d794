"""Operators and clients that send garbage, break off, or come in crowds."""

import contextlib
import socket
import struct
import threading
import time

from tests.expectations import expect, expect_equal, octets, wait_until
from tests.groups import Group
from tests.rows import STOP, Asks, StatusHas, play_to_end
from tests.services import serve
from tests.texts import ALICE, EMPTY

ATTACKS = Group("attacks")
GROUPS = [ATTACKS]

ALICE_ALONE = "alice pass s3\n"
REFUSED = b"bad request\n"
# A request of each kind, with each number of words that it may have.
REQUESTS = [
    b"status", b"sessions", b"stats", b"locks", b"users", b"roll", b"crash 1", b"kick alice", b"break 1 alice", b"deliver 1 alice 0",
    b"deliver 1 alice 0 k", b"put 1 alice 0", b"put 1 alice 0 k", b"stop", b"stop now", b"stop wait", b"stop now wait",
]
# Bytes that are in no word of a request.
BYTES = [0x00, 0x80, 0xff]
# How many bytes a long request has. It has no line feed.
LONG = 1_000_000
# Of all that was sent before, one message was stored, whose line of three octets has five with its end. That is the only slot that
# was decided.
ONE_STORED = [
    Asks("users\n", "user alice messages 1 octets 5 next_id 2\nend\n"),
    StatusHas("node 1 up active slot 2\n"),
    STOP,
]
# How often a connection is reset at each of these places.
RESETS = 300
# What an operator sends, and after how many lines of the answer it resets its connection: in a request, in a file, in a message, and
# in the answer to a file of three messages.
RESET_AFTER = [
    (b"deliver 1 ali", 0),
    (b"deliver 1 alice 23\nFrom x\n\nFr", 0),
    (b"put 1 alice 9\nabc", 0),
    (b"deliver 1 alice 23\nFrom x\n\nFrom x\n\nFrom x\n", 1),
]
# At least the first message of each whole file was stored, up to the three messages that a maildrop may have. They have no lines.
THREE_STORED = [Asks("users\n", "user alice messages 3 octets 0 next_id 4\nend\n"), STOP]
# A file that is no mailbox, as it has no From line. A connection of which little is read holds far fewer bytes.
NO_MAILBOX = b"hello\n" + b"x" * 16_000_000
LARGEST_FILE = 1 << 30


@ATTACKS.test
def bytes_of_no_request_are_refused(fixture):
    """Each request, with each of these bytes before or in place of each of its own."""
    service = serve(fixture, ALICE_ALONE)
    for request in REQUESTS:
        for byte in BYTES:
            for place in range(len(request) + 1):
                for rest in {request[place:], request[place + 1:]}:
                    line = request[:place] + bytes([byte]) + rest + b"\n"
                    expect_equal(fixture.answer(service.ctl_port, line, shuts=False), REFUSED, line)
    operator = fixture.connect(service.ctl_port)
    with contextlib.suppress(ConnectionError):
        operator.send(b"x" * LONG)
    expect_equal(operator.read_all(may_be_reset=True), REFUSED, "a long request")
    operator = fixture.connect(service.ctl_port)
    operator.stream.setsockopt(socket.IPPROTO_TCP, socket.TCP_NODELAY, 1)
    for byte in b"put 1 alice 3 k\nabc":
        operator.send(bytes([byte]))
        time.sleep(0.001)
    expect_equal(operator.read_all(), b"op alice 1/1 stored 1\nend\n", "a request byte by byte")
    play_to_end(service, ONE_STORED)


@ATTACKS.test
def resets_leave_no_descriptor(fixture):
    service = serve(fixture, ALICE_ALONE)
    before = service.holds("fd")
    for _ in range(RESETS):
        for given, lines in RESET_AFTER:
            operator = fixture.connect(service.ctl_port)
            operator.send(given)
            for _line in range(lines):
                operator.read_line()
            time.sleep(0.001)
            operator.reset()
    wait_until(lambda: service.holds("fd") <= before, "descriptors fall")
    play_to_end(service, THREE_STORED)


@ATTACKS.test
def a_large_file_is_refused_early(fixture):
    service = serve(fixture, ALICE_ALONE)
    operator = fixture.connect(service.ctl_port)
    operator.send(b"deliver 1 alice %d\n" % len(NO_MAILBOX))
    with contextlib.suppress(ConnectionError):
        operator.send(NO_MAILBOX)
        expect(False, "all of a file was taken that is no mailbox")
    expect_equal(operator.read_all(may_be_reset=True), b"bad mbox\n", "a file that is no mailbox")
    path = fixture.file("large", NO_MAILBOX)
    service.expect_ctl(f"deliver 1 alice {path}", "bad mbox\n", 3)
    with open(path, "r+b") as it:
        it.truncate(LARGEST_FILE + 1)
    service.expect_ctl(f"deliver 1 alice {path}", "bad request\n", 3)
    service.stop()


# A crowd: how many attackers of a kind there are, for how many seconds, and how often each acts in this time.
CROWD, STAY, ACTS = 300, 2.0, 20
# How many threads of those that wait for clients the service may keep at each port of a node.
WAITING_THREADS = 64
# Nine of ten answers beside attackers must come within these seconds. All must come within the patience of the tests.
USUAL_SECONDS = 5.0
# What the attackers of each kind do.
KINDS = [
    {},
    {"then": b"x"},
    {"then": b"NOOP\r\n" * 5_000},
    {"first": b"USER al", "resets": True},
    {"first": b"CAPA\r\n" * 2_000, "is_half_open": True},
]


def send_some(stream, given):
    """Sends as much as the connection takes now. Returns whether it is still there."""
    try:
        return not given or stream.send(given) >= 0
    except BlockingIOError:
        return True
    except OSError:
        return False


class Crowd:
    """Attackers of a kind, at some ports in turn. None of them reads anything."""

    def __init__(self, ports, first=b"", then=b"", is_half_open=False, resets=False):
        self.ports, self.first, self.then, self.is_half_open, self.resets = ports, first, then, is_half_open, resets
        self.streams = []

    def come(self, number):
        stream = socket.create_connection(("127.0.0.1", self.ports[number % len(self.ports)]), timeout=30)
        stream.setblocking(False)
        send_some(stream, self.first)
        if self.is_half_open:
            with contextlib.suppress(OSError):
                stream.shutdown(socket.SHUT_WR)
        return stream

    def act(self, turn):
        """Each sends something. In turn they reset their connections; who has none any more comes again."""
        for number, stream in enumerate(self.streams):
            is_reset = self.resets and number % ACTS == turn
            if is_reset:
                stream.setsockopt(socket.SOL_SOCKET, socket.SO_LINGER, struct.pack("ii", 1, 0))
            if is_reset or not send_some(stream, self.then):
                stream.close()
                self.streams[number] = self.come(number)

    def attack(self):
        try:
            for number in range(CROWD):
                self.streams.append(self.come(number))
            end = time.monotonic() + STAY
            for turn in range(ACTS):
                if time.monotonic() < end:
                    self.act(turn)
                    time.sleep(STAY / ACTS)
        finally:
            for stream in self.streams:
                stream.close()


class Attack(threading.Thread):
    """Crowds of all kinds, one after another."""

    def __init__(self, ports):
        super().__init__(daemon=True)
        self.ports, self.failure = ports, None

    def run(self):
        try:
            for kind in KINDS:
                Crowd(self.ports, **kind).attack()
        except OSError as error:
            self.failure = error


def timed_answers(service, client, attack):
    """How many seconds each answer took, to a client and an operator beside an attack."""
    seconds = []
    while attack.is_alive():
        since = time.monotonic()
        client.send(b"NOOP\r\n")
        client.expect(b"+OK\r\n")
        seconds.append(time.monotonic() - since)
        if len(seconds) % 20 == 1:
            since = time.monotonic()
            ran = service.ctl("status")
            expect(ran.status == 0 and ran.output.endswith(b"\nend\n"), f"status: {ran.output!r}")
            seconds.append(time.monotonic() - since)
        time.sleep(0.05)
    return sorted(seconds)


@ATTACKS.long_test
def a_client_is_answered_beside_attackers(fixture):
    service = serve(fixture, ALICE_ALONE)
    client = fixture.connect(service.node(1))
    client.read_line()
    client.send(octets(ALICE))
    client.expect(octets(EMPTY))
    descriptors, threads = service.holds("fd"), service.holds("task") + 3 * WAITING_THREADS
    attack = Attack([service.ctl_port, *map(service.node, (1, 2, 3))])
    attack.start()
    seconds = timed_answers(service, client, attack)
    expect(attack.failure is None, f"an attacker can't come: {attack.failure}")
    expect(seconds[len(seconds) * 9 // 10] <= USUAL_SECONDS, f"one of ten answers took over {USUAL_SECONDS} s")
    wait_until(lambda: service.holds("fd") <= descriptors, "descriptors fall")
    wait_until(lambda: service.holds("task") <= threads, "threads fall")
    client.send(b"QUIT\r\n")
    client.expect(b"+OK signing off\r\n")
    client.expect_end()
    service.stop()
