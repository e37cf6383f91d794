"""Nodes that send to ports: in one process, and each in a process of its own."""

import hashlib
import os

from tests.expectations import Failed, expect, expect_equal
from tests.groups import Group
from tests.rows import Connects, Ctl, Ends, Says, Stage, play
from tests.services import ACCOUNTS, STARTS, Service, serve
from tests.texts import ALICE, BYE, FETCHED, MAILBOX, ONE, QUIT

NODES = Group("nodes")
GROUPS = [NODES]

MORE_ACCOUNTS = ACCOUNTS + "zoe pass s5\n"
IN_USE = b"maildropd: the port is in use, given twice or forbidden, or this machine hasn't the address\n"
# Unlike the default, so that a process that ignores it has other settings.
WINDOW = 7
# What a client sends that mistakes the port for another one.
NO_FRAME = b"GET / HTTP/1.0\r\n\r\n"
# How many messages are delivered beside a node that reads nothing, and their bytes. Each is sent to it as a proposal, to be accepted
# and as decided: 18 MB in all. A connection that isn't read holds far less.
MANY, BYTES = 60, 100_000

# Alice gets a message at node 1, and her session at node 2 reads and removes it.
READ_ELSEWHERE = [
    Ctl("deliver 1 alice FILE", 0, "op alice 1/1 stored 1\nend\n"),
    Connects(2),
    Says(0, ALICE, ONE),
    Says(0, "STAT\r\n", "+OK 1 30\r\n"),
    Says(0, "RETR 1\r\n", FETCHED),
    Says(0, "DELE 1\r\n", "+OK message 1 deleted\r\n"),
    Says(0, QUIT, BYE),
    Ends(0),
]

# What node 1 answers its operator if neither of the other two nodes runs. Nothing is asked that nodes must agree on.
ALONE = [
    Ctl("status", 0, "node 1 up passive slot 1\nend\n"),
    Ctl("crash 2", 3, "down\n"),
    Ctl("break 2 alice", 3, "down\n"),
    Ctl("deliver 2 alice FILE", 3, "down\n"),
    Ctl("crash 4", 3, "down\n"),
    Ctl("status", 0, "node 1 up passive slot 1\nend\n"),
    Ctl("crash 1", 0, "crashed\n"),
    Ctl("crash 1", 3, "down\n"),
    Ctl("status", 0, "node 1 down\nend\n"),
]


def settings(accounts):
    """The line `settings`: the first digits of the SHA-256 of the numbers of nodes, window and limits, and of a line for each user."""
    names = "".join(line.split(" ")[0] + "\n" for line in accounts.splitlines())
    digest = hashlib.sha256(f"3 {WINDOW} 3 1000000 1000000000\n{names}".encode()).hexdigest()
    return f"\nsettings {digest[:16]}\nend\n".encode()


class Nodes:
    """Some nodes of a service of three, each in a process of its own. `mark`: the folder of their marks."""

    def __init__(self, fixture, members, mark=None):
        self.fixture, self.members, self.mark, self.running = fixture, dict(members), mark, {}
        self.take_ports()

    def take_ports(self):
        self.pop, self.peers, self.ctl = [self.fixture.ports() for _ in range(3)]

    def start(self, number, accounts=ACCOUNTS):
        return Service(
            self.fixture, accounts, window=WINDOW, node=number, pop_port=self.pop, ctl_port=self.ctl + number, peer_port=self.peers,
            mark=self.mark,
        )

    def begin(self):
        """Starts all of them. If another program has one of their ports, they are started at others."""
        for _ in range(STARTS):
            self.running = {number: self.start(number, accounts) for number, accounts in self.members.items()}
            try:
                for number, node in self.running.items():
                    node.begin(number)
                return self
            except Failed:
                if not any(b"cannot listen" in node.errors() for node in self.running.values()):
                    raise
                for node in self.running.values():
                    node.process.kill()
                    node.process.wait()
                self.take_ports()
        raise Failed("no ports were free")

    def play(self, rows):
        play(Stage(self.fixture, self.pop, self.ctl + 1, MAILBOX), rows)

    def expect_settings(self, number, accounts):
        stats = self.running[number].ctl("stats")
        expect(stats.status == 0 and stats.output.endswith(settings(accounts)), f"the settings of node {number}: {stats.output!r}")

    def stop(self):
        for node in self.running.values():
            node.stop(b"stopped\n")


def all_with(accounts, *numbers):
    return [(number, accounts) for number in numbers]


@NODES.test
def nodes_in_one_process(fixture):
    peers = fixture.ports()
    service = serve(fixture, peer_port=peers, window=WINDOW)
    for number in (1, 2, 3):
        stranger = fixture.connect(peers + number)
        stranger.send(NO_FRAME)
        expect_equal(stranger.read_all(may_be_reset=True), b"", "garbage at a peer port")
    play(Stage(fixture, service.pop, service.ctl_port, MAILBOX), READ_ELSEWHERE)
    stats = service.ctl("stats").output
    expect(stats.endswith(settings(ACCOUNTS)), f"the settings: {stats!r}")
    service.stop()


@NODES.test
def nodes_in_processes_of_their_own(fixture):
    nodes = Nodes(fixture, all_with(ACCOUNTS, 1, 2, 3)).begin()
    nodes.play(READ_ELSEWHERE)
    for number in (1, 2, 3):
        nodes.expect_settings(number, ACCOUNTS)
    nodes.stop()


@NODES.test
def settings_differ(fixture):
    nodes = Nodes(fixture, [(1, ACCOUNTS), (2, MORE_ACCOUNTS)]).begin()
    nodes.expect_settings(1, ACCOUNTS)
    nodes.expect_settings(2, MORE_ACCOUNTS)
    nodes.stop()


@NODES.test
def a_node_reads_nothing(fixture):
    nodes = Nodes(fixture, all_with(ACCOUNTS, 1, 2))
    listener = fixture.listen(nodes.peers + 3)
    nodes.begin()
    unread, _ = listener.accept()
    with unread:
        nodes.play(READ_ELSEWHERE)
        path = fixture.file("many", (b"From x\n" + b"x" * BYTES + b"\n\n") * MANY)
        wanted = "".join(f"op zoe 1/{number} no such user\n" for number in range(1, MANY + 1)) + "end\n"
        nodes.running[1].expect_ctl(f"deliver 1 zoe {path}", wanted)
        came = fixture.answer(nodes.pop + 2, b"USER alice\r\nPASS s3\r\nSTAT\r\nQUIT\r\n")
        wanted = b"+OK send PASS\r\n+OK maildrop has 0 messages (0 octets)\r\n+OK 0 0\r\n+OK signing off\r\n"
        expect_equal(came.partition(b"\r\n")[2], wanted, "a session at node 2")
        nodes.stop()


@NODES.test
def a_node_is_absent(fixture):
    nodes = Nodes(fixture, all_with(ACCOUNTS, 1, 2)).begin()
    nodes.play(READ_ELSEWHERE)
    nodes.stop()


@NODES.test
def a_process_reports_only_its_node(fixture):
    nodes = Nodes(fixture, all_with(ACCOUNTS, 1)).begin()
    nodes.play(ALONE)
    ran = nodes.running[1].ctl("stop", waits=True)
    expect_equal((ran.status, ran.output), (0, b"stopping\nstopped\n"), "--wait stop")
    nodes.running[1].expect_end(b"stopped\n")


@NODES.test
def a_node_starts_once(fixture):
    """A second start of a node is refused, beside the first and after it. One that can't listen leaves no mark."""
    mark = fixture.subfolder()
    for number in (1, 2):
        nodes = Nodes(fixture, all_with(ACCOUNTS, number), mark).begin()
        text = b"maildropd: node %d was started before\n" % number
        Nodes(fixture, [], mark).start(number).expect_end(b"", 2, text)
        nodes.stop()
        nodes.start(number).expect_end(b"", 2, text)
    nodes = Nodes(fixture, all_with(ACCOUNTS, 3), mark)
    listener = fixture.listen(nodes.ctl + 3)
    nodes.start(3).expect_end(b"", 1, b"maildropd: cannot listen on 127.0.0.1:%d\n" % (nodes.ctl + 3) + IN_USE)
    listener.close()
    nodes.begin()
    nodes.stop()
    expect_equal(sorted(os.listdir(mark)), ["1", "2", "3"], "the marks")


@NODES.test
def a_mark_has_a_folder(fixture):
    absent = fixture.path("absent")
    nodes = Nodes(fixture, [], absent)
    mistake = f"maildropd: no file can be made in {absent}\n"
    nodes.start(1).expect_end(b"", 1, b"maildropd: cannot make the node's mark\n" + mistake.encode())
