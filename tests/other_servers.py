"""`ctl` at servers that aren't the service, or that break off: what it prints, and its status."""

import contextlib
import threading

from tests.expectations import expect_equal
from tests.groups import Group

OTHER_SERVERS = Group("other_servers")
GROUPS = [OTHER_SERVERS]

READ_FAILED = b"maildropd: read failed\n"
NO_MEMORY = b"maildropd: no memory\n"
POP_PORT = b"maildropd: 127.0.0.1:PORT is a POP3 port, not the operator's\n"
# The words after `ctl --port PORT`, what the server sends before it closes, and the status, output and standard error of `ctl`.
ANSWERS = [
    ("status", b"", 1, b"", READ_FAILED),
    # Lines are printed as they come.
    ("status", b"+OK POP3 server ready\r\n", 1, b"+OK POP3 server ready\r\n", READ_FAILED + POP_PORT),
    ("status", b"node 1 up active slot 1\n", 1, b"node 1 up active slot 1\n", READ_FAILED),
    ("status", b"node 1 up active slot 1\nend\n", 0, b"node 1 up active slot 1\nend\n", b""),
    # A line is too long once over 1,000,000 bytes have come, with those that come in one read.
    ("status", b"x" * 2_000_000 + b"\nend\n", 1, b"", NO_MEMORY),
    ("break 1 alice", b"done\n", 0, b"done\n", b""),
    ("break 1 alice", b"no such user\n", 0, b"no such user\n", b""),
    ("kick alice", b"kicked 2\n", 0, b"kicked 2\n", b""),
    ("crash 1", b"crashed\n", 0, b"crashed\n", b""),
    ("crash 1", b"down\n", 3, b"down\n", b""),
    ("roll", b"bad request\n", 3, b"bad request\n", b""),
    ("--wait stop", b"stopping\naudit ok\n", 0, b"stopping\naudit ok\n", b""),
    ("--wait stop", b"stopping\nstopped\n", 0, b"stopping\nstopped\n", b""),
    ("--wait stop", b"stopping\naudit no order at node 2\n", 1, b"stopping\naudit no order at node 2\n", b""),
    ("--wait stop", b"stopping\naudit wrong answer in session 3\n", 1, b"stopping\naudit wrong answer in session 3\n", b""),
    ("--wait stop now", b"stopping\naudit no memory\n", 1, b"stopping\naudit no memory\n", b""),
    ("--wait stop", b"stopping\n", 1, b"stopping\n", READ_FAILED),
    ("put 1 alice", b"op alice 1/1 stored 7\nend\n", 0, b"op alice 1/1 stored 7\nend\n", b""),
    ("put 1 alice", b"op alice 1/1 ids used\nend\n", 75, b"op alice 1/1 ids used\nend\n", b""),
    ("put 1 alice", b"op alice 1/1 stored 7\n", 75, b"op alice 1/1 stored 7\n", READ_FAILED),
    ("put 1 alice", b"bad request\n", 75, b"bad request\n", b""),
]


def answer_once(listener, lines, answer):
    """Sends this to the next client after so many lines, and closes."""
    with contextlib.suppress(OSError):
        stream, _ = listener.accept()
        with stream:
            came = b""
            while came.count(b"\n") < lines:
                came += stream.recv(1 << 16)
            stream.sendall(answer)


@OTHER_SERVERS.test
def answers_are_read(fixture):
    first = fixture.ports()
    listener = fixture.listen(first)
    for words, answer, status, output, errors in ANSWERS:
        message = b"hi\n" if words.startswith("put") else b""
        server = threading.Thread(target=answer_once, args=(listener, 1 + message.count(b"\n"), answer), daemon=True)
        server.start()
        ran = fixture.run("ctl", "--port", first, *words.split(" "), given=message)
        server.join()
        errors = errors.replace(b"PORT", b"%d" % first)
        expect_equal((ran.status, ran.output, ran.errors), (status, output, errors), f"ctl {words} at a server that sends {answer[:80]!r}")
