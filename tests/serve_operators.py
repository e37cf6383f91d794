"""What operators ask for and get, by `ctl` and by connections of their own."""

import os
import select
import signal
import socket
import time

from tests.expectations import PATIENCE, expect, expect_equal, wait_until
from tests.groups import Group
from tests.rows import (
    STOP, Asks, AsksAndShuts, Connects, Ctl, CtlAtNode, Ends, Gets, HangsUp, IsRead, IsRefused, OperatorConnects, Says, Sends, StatusHas,
    Waits, add_scene,
)
from tests.services import Service, serve
from tests.texts import ALICE, EMPTY, QUIT

OPERATORS = Group("operators")
GROUPS = [OPERATORS]

ALICE_ALONE = "alice pass s3\n"
# How long an operator has for a line, and a client.
LINE_SECONDS, IDLE_SECONDS = 10, 5

REQUESTS = [
    AsksAndShuts("", "bad request\n"),
    Asks("\n", "bad request\n"),
    AsksAndShuts("status", "bad request\n"),
    Asks("status \n", "bad request\n"),
    Asks("status 1\n", "bad request\n"),
    Asks("status\r\n", "bad request\n"),
    Asks("STATUS\n", "bad request\n"),
    Asks(" status\n", "bad request\n"),
    Asks("stop soon\n", "bad request\n"),
    Asks("stop wait now\n", "bad request\n"),
    Asks("kick zoe\n", "kicked 0\n"),
    Asks("sessions\n", "end\n"),
    Asks("locks\n", "end\n"),
    Asks("locks 1\n", "bad request\n"),
    Asks("users\n", "user alice messages 0 octets 0 next_id 1\nend\n"),
    Asks("users alice\n", "bad request\n"),
    Asks("halt\n", "bad request\n"),
    Asks("USER alice\r\n", "bad request\n"),
    Asks("crash\n", "bad request\n"),
    Asks("crash 0\n", "bad request\n"),
    Asks("crash 10\n", "bad request\n"),
    Asks("crash 01\n", "bad request\n"),
    Asks("crash 1 1\n", "bad request\n"),
    Asks("crash 4\n", "down\n"),
    Asks("crash 9\n", "down\n"),
    Asks("break 1\n", "bad request\n"),
    Asks("break 0 alice\n", "bad request\n"),
    Asks("break 10 alice\n", "bad request\n"),
    Asks("break  1 alice\n", "bad request\n"),
    Asks("break 1 alice bob\n", "bad request\n"),
    Asks("break 1 alice\n", "done\n"),
    Asks("break 1 zoe\n", "no such user\n"),
    Asks("break 1 -x\n", "no such user\n"),
    Asks("break 4 alice\n", "down\n"),
    Asks("break 9 zoe\n", "down\n"),
    # A second request in a connection is not heard.
    Asks("break 1 alice\nbreak 1 alice\n", "done\n"),
    Asks("kick zoe\nstop\n", "kicked 0\n"),
    # Nor are bytes after the announced ones: the message has a line of three octets, which are five with its end.
    Asks("put 1 alice 3\nabcdef", "op alice 1/3 stored 1\nend\n"),
    Asks("users\n", "user alice messages 1 octets 5 next_id 2\nend\n"),
    Ctl("break 1 zoe", 0, "no such user\n"),
    Ctl("deliver 1 alice FILE", 3, "bad mbox\n"),
    # The file is read before its user is looked for, who isn't there either.
    Ctl("deliver 1 bob FILE", 3, "bad mbox\n"),
    OperatorConnects(),
    # A line is too long once it has 512 octets without its line feed: the answer comes before its end does.
    Says(0, "x" * 512, "bad request\n"),
    # A reply to a POP3 client is no answer to an operator.
    CtlAtNode(1, 1),
    # Six slots were decided: one for the message, and one for each `break` above that is answered `done` or `no such
    # user`.
    StatusHas("node 1 up active slot 7\nnode 2 up passive slot "),
    STOP,
]

DELIVERIES = [
    Asks("deliver 1 alice 5\nFrom ", "op alice 1/1 stored 1\nend\n"),
    Asks("deliver 1 alice 0\n", "end\n"),
    Asks("deliver 1 alice 0\nFrom x\n", "end\n"),
    Asks("deliver 4 alice 0\n", "down\n"),
    Asks("deliver 1 zoe 7\nFrom x\n", "op zoe 1/1 no such user\nend\n"),
    AsksAndShuts("deliver 1 alice 8\nFrom x\n", "bad request\n"),
    # Nothing is read of a file for a node that isn't there.
    Asks("deliver 4 alice 8\nFrom x\n", "down\n"),
    Asks("deliver 1 alice 05\nFrom ", "bad request\n"),
    Asks("deliver 1 alice -5\nFrom ", "bad request\n"),
    Asks("deliver 1 alice 1073741825\n", "bad request\n"),
    AsksAndShuts("deliver 1 alice 1073741824\n", "bad request\n"),
    AsksAndShuts("deliver 1 alice 1073741824\nFrom ", "bad request\n"),
    Asks("deliver 1 alice 5\nhello", "bad mbox\n"),
    Asks("deliver 4 alice 5\nhello", "down\n"),
    Asks("deliver 1 alice 1073741824\nhello", "bad mbox\n"),
    Asks("deliver 1 alice 3\nFro", "bad mbox\n"),
    Asks("deliver 1 alice 5 \nFrom ", "bad request\n"),
    Asks("deliver 1 alice 5 a b\nFrom ", "bad request\n"),
    Asks("deliver 1 alice\n", "bad request\n"),
    Asks("deliver 0 alice 5\nFrom ", "bad request\n"),
    Asks("deliver 10 alice 5\nFrom ", "bad request\n"),
    Asks("deliver 4 alice 5\nFrom ", "down\n"),
    Asks("deliver 1 alice 5 k\nFrom ", "op alice 1/2 stored 2\nend\n"),
    Ctl("deliver 1 alice FILE", 0, "op alice 1/3 stored 3\nop alice 1/4 full\nend\n"),
    Asks("deliver 1 alice 5 k\nFrom ", "op alice 1/5 stored 2\nend\n"),
    # Nothing is read after the five bytes: there is one message.
    Asks("deliver 1 alice 5 k\nFrom x\n\nFrom y\n", "op alice 1/6 stored 2\nend\n"),
    STOP,
]

# A file waits until one that came before it is given up, since both have more bytes than may come at a time. Bytes of the first
# file are read only once it has its room. Operators who go before their answer is there leave nothing.
WAITING_FILES = [
    OperatorConnects(),
    Sends(0, "deliver 1 alice 8\n"),
    IsRead(0),
    Sends(0, "From"),
    IsRead(0),
    OperatorConnects(),
    Sends(1, "deliver 1 alice 5\nFrom "),
    Waits(1),
    OperatorConnects(),
    Sends(2, "put 1 bob 3\nabc"),
    Waits(2),
    # Nobody waits for the bytes of a user who isn't there.
    OperatorConnects(),
    Says(3, "put 1 zoe 8\n", "no such user\n"),
    HangsUp(2),
    HangsUp(0),
    Gets(1, "op alice 1/1 stored 1\nend\n"),
    Ends(1),
    Ctl("crash 2", 0, "crashed\n"),
    Ctl("crash 3", 0, "crashed\n"),
    Connects(1),
    OperatorConnects(),
    Sends(5, "break 1 alice\n"),
    Waits(5),
    HangsUp(5),
    StatusHas("node 2 down\nnode 3 down\nend\n"),
    HangsUp(4),
    STOP,
]

# After `stop` clients are refused, and operators are answered until the last session ends. No epoch begins, so `roll` is answered
# at once.
STOPPED = [
    Connects(1),
    STOP,
    IsRefused(1),
    IsRefused(3),
    StatusHas("node 1 up "),
    Ctl("roll", 3, "down\n"),
    STOP,
    Says(0, QUIT, "+OK signing off\r\n"),
    Ends(0),
]

add_scene(OPERATORS, "requests_are_refused", REQUESTS, "hello\n", ALICE_ALONE)
add_scene(OPERATORS, "deliveries_are_refused", DELIVERIES, "From x\na\n\nFrom x\nb\n", ALICE_ALONE)
add_scene(OPERATORS, "files_wait_for_one_another", WAITING_FILES, delivery_bytes=8)
add_scene(OPERATORS, "operators_are_answered_until_sessions_have_ended", STOPPED)

# A message whose lines end in both ways, and that looks like a mailbox. Its last line has no end.
MESSAGE = b"Subject: x\r\n\nFrom me\n.\nhi"
# What alice gets when she fetches it, of three messages with 30, 7 and 5 octets.
MESSAGE_FETCHED = (
    b"+OK send PASS\r\n+OK maildrop has 3 messages (42 octets)\r\n+OK 30 octets\r\nSubject: x\r\n\r\nFrom me\r\n..\r\nhi\r\n.\r\n"
    b"+OK signing off\r\n"
)
# A word that is no key, since it has spaces.
NO_KEY = "<1@host> of monday"
# The words after `ctl put`, the message, and the status and lines.
PUTS = [
    (["0", "alice"], MESSAGE, 0, b"op alice 1/1 stored 1\nend\n"),
    (["1", "alice", NO_KEY], b"one\n\n", 0, b"op alice 1/2 stored 2\nend\n"),
    (["2", "alice", NO_KEY], b"other\n", 0, b"op alice 2/1 stored 2\nend\n"),
    (["1", "alice", "monday"], b"two", 0, b"op alice 1/3 stored 3\nend\n"),
    (["1", "alice"], b"three", 75, b"op alice 1/4 full\nend\n"),
    (["1", "zoe"], b"four", 67, b"no such user\n"),
    (["4", "alice"], b"five", 75, b"down\n"),
    (["3", "bob"], b"x" * 1_000_001, 65, b"op bob 3/1 too large\nend\n"),
]


@OPERATORS.test
def messages_are_put(fixture):
    service = serve(fixture)
    for words, given, status, lines in PUTS:
        ran = service.ctl("put", *words, given=given)
        expect_equal((ran.status, ran.output), (status, lines), words)
    came = fixture.answer(service.node(3), b"USER alice\r\nPASS s3\r\nRETR 1\r\nQUIT\r\n")
    expect_equal(came.partition(b"\r\n")[2], MESSAGE_FETCHED, "what alice gets")
    service.stop()


@OPERATORS.test
def a_message_is_put_whatever_becomes_of_the_output(fixture):
    """A mail system sends a message again after status 75, so each try would store it once more."""
    service = serve(fixture)
    place = ["--port", str(service.ctl_port)]
    with open("/dev/full", "wb") as full:
        for user, status in (("alice", 0), ("zoe", 67)):
            ran = fixture.run("ctl", *place, "put", "1", user, given=b"hi\n", stdout=full)
            expect_equal(ran.status, status, f"put 1 {user}")
        ran = fixture.run("ctl", *place, "status", stdout=full)
        expect_equal((ran.status, ran.errors), (1, b"maildropd: write failed\n"), "status")
    service.expect_ctl("users", "user alice messages 1 octets 4 next_id 2\nuser bob messages 0 octets 0 next_id 1\nend\n")
    service.stop()


@OPERATORS.test
def the_verdict_is_waited_for(fixture):
    service = serve(fixture)
    client = fixture.connect(service.node(1))
    fixture.connect(service.ctl_port, "a silent operator")
    client.read_line()
    client.send(ALICE.encode())
    client.expect(EMPTY.encode())
    ran = service.ctl("stop", "now", waits=True)
    expect_equal((ran.status, ran.output), (0, b"stopping\naudit ok\n"), "--wait stop now")
    client.expect_end()
    service.expect_end(b"audit ok\n")


@OPERATORS.test
def operators_come_by_a_socket(fixture):
    """A socket that was left behind is replaced, and only its owner may use it. It is gone at the end."""
    path = fixture.path("ctl")
    with socket.socket(socket.AF_UNIX) as left:
        left.bind(path)
    service = Service(fixture, pop_port=fixture.ports(), ctl_socket=path, ctl_port=None).begin()
    service.expect_ctl("break 1 alice", "done\n")
    expect_equal(os.stat(path).st_mode & 0o777, 0o600, "the socket's mode")
    ran = service.ctl("stop", waits=True)
    expect_equal((ran.status, ran.output), (0, b"stopping\naudit ok\n"), "--wait stop")
    service.expect_end(b"audit ok\n")
    expect(not os.path.exists(path), "the socket is left behind")


@OPERATORS.test
def a_socket_that_another_process_made_stays(fixture):
    """A service that ends removes only the file that it made itself."""
    path = fixture.path("ctl")
    service = Service(fixture, pop_port=fixture.ports(), ctl_socket=path, ctl_port=None).begin()
    with socket.socket(socket.AF_UNIX) as operator, socket.socket(socket.AF_UNIX) as other:
        operator.settimeout(PATIENCE)
        operator.connect(path)
        os.unlink(path)
        other.bind(path)
        operator.sendall(b"stop\n")
        expect_equal(operator.recv(99), b"stopping\n", "stop")
        service.expect_end(b"audit ok\n")
        expect(os.path.exists(path), "the socket of another process was removed")


@OPERATORS.test
def requests_outlast_a_process_that_was_stopped(fixture):
    """Linux interrupts each read with a time limit of a process that goes on after it was stopped. Nobody notices."""
    service = serve(fixture)
    client = fixture.connect(service.node(1))
    client.read_line()
    # An operator has ten seconds for a line, so each round has one of its own.
    for request, line in ((b"sta", b"USER al"), (b"stat", b"ice")):
        operator = fixture.connect(service.ctl_port)
        operator.send(request)
        client.send(line)
        operator.expect_read()
        client.expect_read()
        for _ in range(2):
            service.process.send_signal(signal.SIGSTOP)
            wait_until(lambda: os.waitid(os.P_PID, service.process.pid, os.WSTOPPED | os.WNOHANG), "the service is stopped")
            service.process.send_signal(signal.SIGCONT)
            # Its threads read again before they are interrupted once more.
            time.sleep(0.05)
        operator.send(b"status\n"[len(request):])
        operator.expect(b"node 1 up ")
    client.send(b"\r\n")
    client.expect(b"+OK send PASS\r\n")
    service.ctl("stop", "now")
    service.expect_end(b"audit ok\n")


@OPERATORS.long_test
def interruptions_lengthen_no_wait(fixture):
    """An operator has ten seconds for a line, and a client its own time, however often the process is stopped meanwhile."""
    service = serve(fixture, idle_seconds=IDLE_SECONDS)
    client = fixture.connect(service.node(1))
    client.read_line()
    # On a busy machine a wait may have begun long before this script goes on.
    earliest = {client: time.monotonic()}
    client.send(ALICE.encode())
    client.expect(EMPTY.encode())
    operator = fixture.connect(service.ctl_port)
    earliest[operator] = time.monotonic()
    operator.send(b"sta")
    operator.expect_read()
    since, ends = time.monotonic(), {}
    bounds = {operator: LINE_SECONDS, client: IDLE_SECONDS}
    while len(ends) < len(bounds):
        waiting = {it.stream: it for it in bounds if it not in ends}
        for stream in select.select(list(waiting), [], [], 0.4)[0]:
            ends[waiting[stream]] = time.monotonic()
        expect(time.monotonic() - since < LINE_SECONDS + 5, "somebody isn't cut")
        service.process.send_signal(signal.SIGSTOP)
        wait_until(lambda: os.waitid(os.P_PID, service.process.pid, os.WSTOPPED | os.WNOHANG), "the service is stopped")
        service.process.send_signal(signal.SIGCONT)
    for it, seconds in bounds.items():
        most, least = ends[it] - earliest[it], ends[it] - since
        expect(seconds - 1 <= most and least < seconds + 3, f"after {least:.1f} to {most:.1f} s of {seconds}")
    operator.expect(b"bad request\n")
    service.stop()


@OPERATORS.test
def sessions_are_listed(fixture):
    """A line for each open session, with its number, node, peer, user, age and bytes. Before the login the user is `-`."""
    service = serve(fixture)
    first = fixture.connect(service.node(2))
    greetings = [len(first.read_line())]
    second = fixture.connect(service.node(3))
    greetings.append(len(second.read_line()))
    first.send(ALICE.encode())
    first.expect(EMPTY.encode())
    peers = [it.stream.getsockname()[1] for it in (first, second)]
    lines = service.ctl("sessions").output.decode().split("\n")
    wanted = [
        (f"session 1 node 2 peer 127.0.0.1:{peers[0]} user alice seconds ", f" bytes {greetings[0] + len(EMPTY)}"),
        (f"session 2 node 3 peer 127.0.0.1:{peers[1]} user - seconds ", f" bytes {greetings[1]}"),
    ]
    expect_equal(lines[2:], ["end", ""], "the end of the sessions")
    for line, (front, back) in zip(lines, wanted):
        is_right = line.startswith(front) and line.endswith(back) and line[len(front):-len(back)].isdigit()
        expect(is_right, f"{line!r} is not {front!r}, a number, and {back!r}")
    service.expect_ctl("kick alice", "kicked 1\n")
    first.expect_end()
    second.hang_up()
    service.stop()
