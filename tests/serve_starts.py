"""How `serve` and `ctl` start or refuse to: options at the ends of their ranges, words, accounts, ports, and texts of faults. `mistakes`
has the second lines of these texts."""

from tests.expectations import expect_equal, first_line
from tests.groups import Group
from tests.services import OPTIONS, Service

STARTS = Group("starts")
GROUPS = [STARTS]

# Values at the ends of their ranges, and the exit status of a service with them whose accounts file can't be read: 1, or 2 if the
# value is out of its range. Node 3 is at the third port above `pop-port`.
EDGES = [
    ("pop-port", 0, 1),
    ("pop-port", 65_532, 1),
    ("pop-port", 65_533, 2),
    ("pop-port", 65_535, 2),
    ("pop-port", 2**64 - 1, 2),
    ("ctl-port", 0, 2),
    ("ctl-port", 1, 1),
    ("ctl-port", 65_535, 1),
    ("ctl-port", 65_536, 2),
    ("nodes", 0, 2),
    ("nodes", 1, 1),
    ("nodes", 9, 1),
    ("nodes", 10, 2),
    ("nodes", 257, 2),
    ("window", 0, 2),
    ("window", 1, 1),
    ("window", 1_000, 1),
    ("window", 1_001, 2),
    ("tick-ms", 0, 2),
    ("tick-ms", 1, 1),
    ("tick-ms", 1_000_000, 1),
    ("tick-ms", 1_000_001, 2),
    ("messages", 0, 1),
    ("messages", 999_999_999, 1),
    ("messages", 1_000_000_000, 2),
    ("octets", 0, 1),
    ("octets", 2**40, 1),
    ("octets", 2**40 + 1, 2),
    ("ids", 0, 1),
    ("ids", 2**63, 1),
    ("ids", 2**63 + 1, 2),
    ("port", 0, 2),
    ("port", 1, 1),
    ("port", 65_535, 1),
    ("port", 65_536, 2),
    ("idle-seconds", 1_000_000, 1),
    ("idle-seconds", 1_000_001, 2),
    ("no-majority-seconds", 1_000_000, 1),
    ("no-majority-seconds", 1_000_001, 2),
    ("delivery-bytes", 0, 2),
    ("delivery-bytes", 1, 1),
    ("delivery-bytes", 2**40, 1),
    ("delivery-bytes", 2**40 + 1, 2),
    ("epoch-sessions", 2**40, 1),
    ("epoch-sessions", 2**40 + 1, 2),
    ("epoch-bytes", 2**40, 1),
    ("epoch-bytes", 2**40 + 1, 2),
    ("keys", 2**40, 1),
    ("keys", 2**40 + 1, 2),
    ("listen", "::1", 1),
    ("listen", "localhost", 2),
    ("host", "mail.test", 1),
    ("host", "-a", 2),
    ("on-fault", "go-on", 1),
    ("on-fault", "wait", 2),
    # Without a folder, or without --node.
    ("sync", "process", 2),
    ("keep", 2, 2),
    ("mark", "marks", 2),
    ("ctl-socket", "ctl", 2),
]

# Words of `maildropd ctl`, with `/` between two, and the exit status if nobody listens at the port and no file can be read: 1, or 2
# for words that are no request, or 3 for a malformed key.
WORDS = [
    ("", 2),
    ("status", 1),
    ("status/1", 2),
    ("Status", 2),
    ("stop", 1),
    ("halt", 2),
    ("crash", 2),
    ("crash/0", 2),
    ("crash/1", 1),
    ("crash/9", 1),
    ("crash/10", 2),
    ("crash/01", 2),
    ("crash/-1", 2),
    ("crash/one", 2),
    ("break/1", 2),
    ("break/1/alice", 1),
    ("break/1/-x", 1),
    ("break/1/", 2),
    ("break/1/a b", 2),
    ("break/0/alice", 2),
    ("break/1/0123456789012345678901234567890123456789", 1),
    ("break/1/01234567890123456789012345678901234567890", 2),
    ("deliver/1/alice", 2),
    ("deliver/1/alice/absent", 1),
    ("deliver/0/alice/absent", 2),
    ("deliver/1/alice/absent/", 3),
    ("deliver/1/alice/absent/a b", 3),
    ("deliver/0/alice/absent/a b", 2),
    ("deliver/1/a b/absent/a b", 2),
    ("deliver/1/alice/absent/012345678901234567890123456789012345678901234567890123", 1),
    ("deliver/1/alice/absent/0123456789012345678901234567890123456789012345678901234", 3),
    ("deliver/1/alice/absent/k/k", 2),
    ("stop/now", 1),
    ("stop/wait", 2),
    ("sessions", 1),
    ("stats", 1),
    ("locks", 1),
    ("locks/alice", 2),
    ("users", 1),
    ("users/", 2),
    ("kick/alice", 1),
    ("kick", 2),
    # The words of `put` have statuses of their own: 64 for words that are no request, and 75 if nobody listens.
    ("put", 64),
    ("put/0/alice", 75),
    ("put/9/alice/any key is one", 75),
    ("put/10/alice", 64),
    ("put/1/a b", 64),
    ("put/1/alice/k/k", 64),
]

IN_USE = "cannot listen on 127.0.0.1:{port}\nmaildropd: the port is in use, given twice or forbidden, or this machine hasn't the address"
# Accounts files, and the exit status and the text of a service that has one port twice: 1, or 2 if the file is malformed.
ACCOUNTS_FILES = [
    ("alice pass s3\n", 1, IN_USE),
    ("alice pass s3\n\nbob apop s4", 1, IN_USE),
    ("alice pass s3\r\n", 1, IN_USE),
    ("-x pass s3\n", 1, IN_USE),
    ("alice pass\n", 2, "accounts line 1\nmaildropd: accounts line 1: a line is NAME METHOD SECRET, with one space between"),
    ("alice PASS s3\n", 2, "accounts line 1\nmaildropd: accounts line 1: the method is pass or apop"),
    ("alice pass s3\n\nbob  pass s4\n", 2, "accounts line 3\nmaildropd: accounts line 3: a line is NAME METHOD SECRET, with one space between"),
    ("alice pass s3\nalice apop s4\n", 2, "accounts line 2: name twice"),
]

# How many nodes there are, the port below theirs, if they have any, and the exit status of a service with these whose accounts file
# can't be read: 1, or 2 if the last node has no port.
PEER_PORTS = [
    (3, None, 1),
    (3, 0, 1),
    (3, 65_532, 1),
    (3, 65_533, 2),
    (3, 65_535, 2),
    (3, 65_536, 2),
    (3, 2**64 - 1, 2),
    (1, 65_534, 1),
    (1, 65_535, 2),
    (9, 65_526, 1),
    (9, 65_527, 2),
]

# The same with a node's number, for a process of its own.
NODES = [
    (3, 12_000, 0, 2),
    (3, 12_000, 1, 1),
    (3, 12_000, 3, 1),
    (3, 12_000, 4, 2),
    (3, 12_000, 257, 2),
    (3, 12_000, 2**64 - 1, 2),
    (9, 12_000, 9, 1),
    (9, 12_000, 10, 2),
    (1, 12_000, 1, 1),
    (1, 12_000, 2, 2),
    (3, 0, 1, 1),
    (3, 65_532, 3, 1),
    # The last node has no port, though node 1 has one.
    (3, 65_533, 1, 2),
    (3, 65_536, 1, 2),
    # Without ports no node runs in a process of its own.
    (3, None, 1, 2),
    (1, None, 1, 2),
]


def start_without_accounts(fixture, **options):
    """The status of a service whose accounts file can't be read, and the fault that it writes on standard error."""
    given = {**OPTIONS, "accounts": "absent", "pop-port": 10_000, "ctl-port": 10_009, **options}
    ran = fixture.run("serve", *[word for name, value in given.items() if value is not None for word in (f"--{name}", value)])
    expect_equal(ran.output, b"", "its standard output")
    return ran.status, first_line(ran.errors)


REASONS = {1: b"maildropd: read failed\n", 2: b"maildropd: bad value\n"}


@STARTS.test
def options_are_in_their_ranges(fixture):
    for name, value, status in EDGES:
        if name in ("port", "listen"):
            # (a service needs a port for clients, and all its ports differ)
            given = {"pop-port": None, "port": 10_000, name: value}
        else:
            given = {name: value}
        expect_equal(start_without_accounts(fixture, **given), (status, REASONS[status]), f"--{name} {value}")


@STARTS.test
def a_service_has_a_port_for_clients_and_one_for_operators(fixture):
    for without in ("pop-port", "ctl-port"):
        expect_equal(start_without_accounts(fixture, **{without: None}), (2, REASONS[2]), f"without --{without}")


@STARTS.test
def ports_of_nodes_are_in_their_range(fixture):
    for nodes, port, status in PEER_PORTS:
        given = {"nodes": nodes, "peer-port": port}
        expect_equal(start_without_accounts(fixture, **given), (status, REASONS[status]), given)


@STARTS.test
def numbers_of_nodes_are_in_their_range(fixture):
    for nodes, port, node, status in NODES:
        given = {"nodes": nodes, "peer-port": port, "node": node}
        expect_equal(start_without_accounts(fixture, **given), (status, REASONS[status]), given)


@STARTS.test
def accounts_are_read(fixture):
    """Node 3 is to listen at the operator's port, which fails after the accounts were read."""
    for accounts, status, text in ACCOUNTS_FILES:
        first = fixture.ports()
        service = Service(fixture, accounts, pop_port=first, ctl_port=first + 3)
        service.expect_end(b"", status, f"maildropd: {text.format(port=first + 3)}\n".encode())


@STARTS.test
def accounts_have_at_most_64_mebibytes(fixture):
    path = fixture.file("accounts", b"\n" * ((64 << 20) + 1))
    ran = fixture.run("serve", "--accounts", path, "--pop-port", 10_000, "--ctl-port", 10_009)
    wanted = REASONS[2] + b"maildropd: the accounts file has more than 64 MiB\n"
    expect_equal((ran.status, ran.output, ran.errors), (2, b"", wanted), "an accounts file of 64 MiB and a byte")


@STARTS.test
def a_port_is_in_use(fixture):
    first = fixture.ports()
    fixture.listen(first + 2)
    service = Service(fixture, pop_port=first, ctl_port=first + 10)
    mistake = b"maildropd: the port is in use, given twice or forbidden, or this machine hasn't the address\n"
    service.expect_end(b"", 1, b"maildropd: cannot listen on 127.0.0.1:%d\n" % (first + 2) + mistake)


@STARTS.test
def the_operators_socket_cannot_be_made(fixture):
    path = fixture.path("absent/ctl")
    service = Service(fixture, pop_port=fixture.ports(), ctl_port=None, ctl_socket=path)
    mistake = f"maildropd: {path} can't be made: its folder is missing or forbidden, or somebody listens there\n"
    service.expect_end(b"", 1, b"maildropd: cannot listen on the operator's socket\n" + mistake.encode())


@STARTS.test
def the_log_cannot_be_opened(fixture):
    first = fixture.ports()
    path = fixture.path("absent/log")
    service = Service(fixture, pop_port=first, ctl_port=first + 10, log=path)
    mistake = f"maildropd: {path} can't be opened: its folder is missing or forbidden, or it is no file\n"
    service.expect_end(b"", 1, b"maildropd: cannot open the log\n" + mistake.encode())


@STARTS.test
def words_of_ctl_are_requests_or_refused(fixture):
    nobody = fixture.ports()
    reasons = {1: b"maildropd: cannot reach 127.0.0.1:%d\n" % nobody, 2: b"maildropd: bad value\n", 64: b"maildropd: bad value\n"}
    for words, status in WORDS:
        ran = fixture.run("ctl", "--port", nobody, *words.split("/"))
        wanted = (status, b"bad request\n" if status == 3 else b"")
        expect_equal((ran.status, ran.output), wanted, words)
        if "absent" in words and status == 1:
            expect_equal(first_line(ran.errors), b"maildropd: read failed\n", words)
        elif status in reasons:
            expect_equal(first_line(ran.errors), reasons[status], words)


@STARTS.test
def ports_and_sockets_of_ctl(fixture):
    nobody = fixture.ports()
    for port, status, text in [
        (0, 2, "bad value"), (nobody, 1, f"cannot reach 127.0.0.1:{nobody}"), (65_536, 2, "bad value"), (2**64 - 1, 2, "bad value"),
    ]:
        ran = fixture.run("ctl", "--port", port, "status")
        expect_equal((ran.status, ran.output, first_line(ran.errors)), (status, b"", f"maildropd: {text}\n".encode()), port)
    ran = fixture.run("ctl", "--socket", "absent", "status")
    expect_equal((ran.status, first_line(ran.errors)), (1, b"maildropd: cannot reach the operator's socket\n"), "a socket that isn't there")
    ran = fixture.run("ctl", "--port", nobody, "--wait", "locks")
    expect_equal((ran.status, first_line(ran.errors)), (2, b"maildropd: bad value\n"), "--wait before another request than stop or status")
