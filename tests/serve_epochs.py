"""Epochs: mail stays when new nodes take over, at an operator's request, at a bound, or without a majority."""

import os
import time

from tests.expectations import expect, expect_equal, wait_until
from tests.groups import Group
from tests.rows import STOP, Asks, Connects, Ctl, Ends, Says, Stage, StatusHas, play, play_to_end
from tests.services import ACCOUNTS, Service, serve
from tests.texts import ALICE, BYE, EMPTY, QUIT, SHORT

EPOCHS = Group("epochs")
GROUPS = [EPOCHS]

# Within how many seconds an epoch without a majority for one second has ended. By default it takes 30.
SOON = 20
LOGIN = b"USER alice\r\nPASS s3\r\nQUIT\r\n"

# Mail, unique ids and keys stay, whichever nodes were down. A session that is silent ends, and what it marked stays. Tickets begin
# at 1 again.
FOUR_EPOCHS = [
    Ctl("deliver 2 alice FILE monday", 0, "op alice 2/1 stored 1\nend\n"),
    Ctl("crash 2", 0, "crashed\n"),
    Ctl("roll", 0, "rolled\n"),
    StatusHas("node 2 up "),
    Ctl("deliver 2 alice FILE monday", 0, "op alice 2/1 stored 1\nend\n"),
    Ctl("deliver 2 alice FILE tuesday", 0, "op alice 2/2 stored 2\nend\n"),
    Connects(3),
    Says(
        0,
        "USER alice\r\nPASS s3\r\nDELE 1\r\n",
        "+OK send PASS\r\n+OK maildrop has 2 messages (8 octets)\r\n+OK message 1 deleted\r\n",
    ),
    Ctl("crash 1", 0, "crashed\n"),
    Ctl("crash 2", 0, "crashed\n"),
    Ctl("roll", 0, "rolled\n"),
    Ends(0),
    StatusHas("node 1 up "),
    Connects(2),
    Says(
        1,
        "USER alice\r\nPASS s3\r\nUIDL\r\nDELE 1\r\nQUIT\r\n",
        "+OK send PASS\r\n+OK maildrop has 2 messages (8 octets)\r\n+OK\r\n1 1\r\n2 2\r\n.\r\n+OK message 1 deleted\r\n+OK signing off\r\n",
    ),
    Ctl("roll", 0, "rolled\n"),
    Ctl("deliver 1 alice FILE monday", 0, "op alice 1/1 stored 1\nend\n"),
    Ctl("deliver 1 alice FILE", 0, "op alice 1/2 stored 3\nend\n"),
    Asks("roll now\n", "bad request\n"),
    STOP,
]

# A service whose nodes send to ports has one epoch.
ONE_EPOCH = [
    Ctl("roll", 3, "bad request\n"),
    Ctl("deliver 1 alice FILE", 0, "op alice 1/1 stored 1\nend\n"),
    STOP,
]


@EPOCHS.test
def mail_stays_over_epochs(fixture):
    play_to_end(serve(fixture), FOUR_EPOCHS, SHORT, b"epoch 1: audit ok\nepoch 2: audit ok\nepoch 3: audit ok\naudit ok\n")


@EPOCHS.test
def a_service_whose_nodes_have_ports_has_one_epoch(fixture):
    play_to_end(serve(fixture, peer_port=fixture.ports()), ONE_EPOCH, SHORT)


@EPOCHS.test
def accounts_are_read_anew(fixture):
    """A new user has a maildrop. One who isn't listed any more has none, but his mail stays. A faulty file is in the log."""
    log = fixture.path("log")
    service = serve(fixture, log=log)
    mailbox = fixture.file("mailbox", SHORT)
    service.expect_ctl(f"deliver 1 bob {mailbox}", "op bob 1/1 stored 1\nend\n")
    service.write_accounts("alice pass s3\ncarol pass s5\n")
    service.expect_ctl("roll", "rolled\n")
    service.expect_ctl("users", "user alice messages 0 octets 0 next_id 1\nuser carol messages 0 octets 0 next_id 1\nend\n")
    play(Stage(fixture, service.pop, service.ctl_port), [
        Ctl("put 1 bob", 67, "no such user\n"),
        Asks("kick bob\n", "kicked 0\n"),
    ])
    service.write_accounts(ACCOUNTS)
    service.expect_ctl("roll", "rolled\n")
    service.expect_ctl("users", "user alice messages 0 octets 0 next_id 1\nuser bob messages 1 octets 4 next_id 2\nend\n")
    service.write_accounts("alice\n")
    service.expect_ctl("roll", "roll failed: accounts line 1\n", 3)
    service.expect_ctl(f"deliver 1 bob {mailbox}", "op bob 1/1 stored 2\nend\n")
    wait_until(lambda: " event=roll_failed cause=accounts line 1\n" in logged(log), "the failure is in the log")
    service.stop(b"epoch 1: audit ok\nepoch 2: audit ok\naudit ok\n")


@EPOCHS.test
def an_accounts_file_without_an_account_is_faulty(fixture):
    """It may be one that is being written: the users of the epoch stay, and their mail is taken. An operator's roll fails, and cuts nobody.
    An epoch that ends by itself goes on with the old accounts."""
    log = fixture.path("log")
    service = serve(fixture, log=log, epoch_sessions=2)
    client = fixture.connect(service.node(1))
    client.read_line()
    for content in ("", "\n\n"):
        service.write_accounts(content)
        service.expect_ctl("roll", "roll failed: accounts: none\n", 3)
    os.remove(service.accounts_path)
    service.expect_ctl("roll", "roll failed: read failed\n", 3)
    client.send((ALICE + QUIT).encode())
    client.expect((EMPTY + BYE).encode())
    service.write_accounts("")
    expect_served(fixture, service.node(1))
    wait_until(lambda: epoch(service) == 2, "the second epoch begins")
    ran = service.ctl("put", "1", "bob", given=b"hi\n")
    expect_equal((ran.status, ran.output), (0, b"op bob 1/1 stored 1\nend\n"), "put")
    for event, count in (("roll_failed cause=accounts: none", 2), ("roll_failed cause=read failed", 1), ("fault text=accounts: none", 1)):
        wait_until(lambda: logged(log).count(f" event={event}\n") == count, f"the log has {event!r} {count} times")
    service.write_accounts(ACCOUNTS)
    service.expect_ctl("roll", "rolled\n")
    service.stop(b"epoch 1: audit ok\nepoch 2: audit ok\naudit ok\n")


def logged(path):
    with open(path, encoding="utf-8") as it:
        return it.read()


def expect_served(fixture, port):
    came = fixture.answer(port, LOGIN)
    expect_equal(came.partition(b"\r\n")[2], EMPTY.encode() + b"+OK signing off\r\n", "a session")


def epoch(service):
    lines = service.ctl("stats").output.split(b"\n")
    return next((int(line[6:]) for line in lines if line.startswith(b"epoch ")), None)


@EPOCHS.long_test
def a_service_without_a_majority_goes_on_with_all_nodes(fixture):
    """Who is connected is cut, and the next client is served in the next epoch. The port for all clients leads to any node that is up."""
    first, log = fixture.ports(), fixture.path("log")
    service = Service(fixture, "alice pass s3\n", pop_port=None, port=first, ctl_port=first + 1, no_majority_seconds=1, log=log).begin()
    expect_served(fixture, first)
    service.expect_ctl("crash 1", "crashed\n")
    expect_served(fixture, first)
    silent = fixture.connect(first)
    expect(silent.read_line().startswith(b"+OK POP3 server ready <"), "no greeting")
    service.expect_ctl("crash 2", "crashed\n")
    crashed = time.monotonic()
    silent.expect_end()
    wait_until(lambda: epoch(service) == 2, "the second epoch begins")
    expect(time.monotonic() - crashed < SOON, "the second epoch begins too late")
    expect_served(fixture, first)
    service.expect_ctl("crash 1", "crashed\n")
    for event in (" event=no_majority\n", " event=roll epoch=2\n"):
        wait_until(lambda event=event: event in logged(log), f"the log has {event!r}")
    service.stop(b"epoch 1: audit ok\naudit ok\n")


@EPOCHS.long_test
def nodes_with_ports_end_without_a_majority(fixture):
    """A service whose nodes have ports has one epoch, so it ends."""
    service = serve(fixture, peer_port=fixture.ports(), no_majority_seconds=1)
    service.expect_ctl("crash 2", "crashed\n")
    service.expect_ctl("crash 3", "crashed\n")
    service.expect_end(b"audit ok\n", 1, b"maildropd: no majority\n")


def quit_sessions(service, count):
    rows = []
    for number in range(count):
        rows += [Connects(1), Says(number, "USER alice\r\nPASS s3\r\n", EMPTY), Says(number, QUIT, "+OK signing off\r\n"), Ends(number)]
    play(Stage(service.fixture, service.pop, service.ctl_port), rows)


@EPOCHS.test
def an_epoch_ends_after_its_sessions(fixture):
    service = serve(fixture, epoch_sessions=2)
    quit_sessions(service, 2)
    wait_until(lambda: epoch(service) == 2, "the second epoch begins")
    service.stop(b"epoch 1: audit ok\naudit ok\n")


@EPOCHS.test
def an_epoch_ends_after_its_bytes(fixture):
    service = serve(fixture, epoch_bytes=10_000)
    expect_equal(epoch(service), 1, "the number of the epoch")
    message = b"x" * 10_000
    expect_equal(service.ctl("put", "1", "alice", given=message).output, b"op alice 1/1 stored 1\nend\n", "put")
    wait_until(lambda: epoch(service) == 2, "the second epoch begins")
    service.stop(b"epoch 1: audit ok\naudit ok\n")


def stat(service, name):
    lines = service.ctl("stats").output.decode().split("\n")
    return next(int(line.split()[1]) for line in lines if line.startswith(f"{name} "))


@EPOCHS.test
def short_lines_count_with_their_room(fixture):
    """A line that a session sent is kept with 8 bytes beside its own."""
    service = serve(fixture)
    count = 20_000
    fixture.answer(service.node(1), ALICE + "NOOP\r\n" * count + QUIT, shuts=False)
    wait_until(lambda: stat(service, "sessions_served") == 1, "the session is counted")
    kept = stat(service, "epoch_bytes")
    expect(kept >= count * (len("NOOP") + 8), f"{kept} bytes for {count} lines")
    service.stop()


@EPOCHS.test
def only_the_last_keys_stay(fixture):
    """Of two keys one stays at a new epoch, so what comes again under the other is stored again."""
    service = serve(fixture, keys=1)
    mailbox = fixture.file("mailbox", SHORT)
    service.expect_ctl(f"deliver 1 alice {mailbox} monday", "op alice 1/1 stored 1\nend\n")
    service.expect_ctl(f"deliver 1 alice {mailbox} tuesday", "op alice 1/2 stored 2\nend\n")
    service.expect_ctl(f"deliver 1 alice {mailbox} monday", "op alice 1/3 stored 1\nend\n")
    service.expect_ctl("roll", "rolled\n")
    service.expect_ctl(f"deliver 1 alice {mailbox} tuesday", "op alice 1/1 stored 2\nend\n")
    service.expect_ctl(f"deliver 1 alice {mailbox} monday", "op alice 1/2 stored 3\nend\n")
    service.stop(b"epoch 1: audit ok\naudit ok\n")
