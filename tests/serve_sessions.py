"""Scenes of sessions: mail is delivered, read and removed, locks are taken and broken, nodes stop, and so does the service."""

from tests.expectations import expect, wait_until
from tests.groups import Group
from tests.rows import (
    STOP, Asks, Connects, Ctl, Ends, Gets, HangsUp, IsRefused, OperatorConnects, Says, Sends, Stage, StatusHas, Waits, add_scene, play,
)
from tests.services import serve
from tests.texts import ALICE, BOB, BOTH, BYE, EMPTY, FETCHED, LOCKED, MAILBOX, ONE, QUIT, TWO_MESSAGES

SESSIONS = Group("sessions")
GROUPS = [SESSIONS]

ONE_MESSAGE = [
    Ctl("deliver 1 alice FILE", 0, "op alice 1/1 stored 1\nend\n"),
    Connects(2),
    Says(0, ALICE, ONE),
    Says(0, "DELE 1\r\n", "+OK message 1 deleted\r\n"),
    Says(0, QUIT, BYE),
    Ends(0),
    Ctl("crash 3", 0, "crashed\n"),
    Ctl("crash 3", 3, "down\n"),
    Connects(1),
    Says(1, ALICE, EMPTY),
    Says(1, QUIT, BYE),
    Ends(1),
    STOP,
]

# Two sessions that ask for something, and between them one that only quits.
THREE = [
    Connects(1),
    Says(0, ALICE, EMPTY),
    Says(0, QUIT, BYE),
    Ends(0),
    Connects(2),
    Says(1, QUIT, BYE),
    Ends(1),
    Connects(3),
    Says(2, BOB, EMPTY),
    Says(2, QUIT, BYE),
    Ends(2),
]

# Neither a client that is logged in nor an operator says anything, and another client is answered.
SILENCE = [
    Connects(1),
    Says(0, ALICE, EMPTY),
    OperatorConnects(),
    Connects(1),
    Says(2, BOB, EMPTY),
    Says(2, "STAT\r\n", "+OK 0 0\r\n"),
    Says(2, QUIT, BYE),
    Ends(2),
    HangsUp(0),
    STOP,
    Gets(1, "down\n"),
    Ends(1),
]

# A file is delivered under one key again and again: at each node, for another user, and after its messages were removed.
KEYS = [
    Ctl("deliver 1 alice FILE monday", 0, "op alice 1/1 stored 1\nop alice 1/2 stored 2\nend\n"),
    Ctl("deliver 1 alice FILE monday", 0, "op alice 1/3 stored 1\nop alice 1/4 stored 2\nend\n"),
    Ctl("deliver 2 alice FILE monday", 0, "op alice 2/1 stored 1\nop alice 2/2 stored 2\nend\n"),
    Ctl("deliver 1 bob FILE monday", 0, "op bob 1/1 stored 1\nop bob 1/2 stored 2\nend\n"),
    Connects(3),
    Says(0, ALICE, BOTH),
    Says(0, "DELE 1\r\nDELE 2\r\n", "+OK message 1 deleted\r\n+OK message 2 deleted\r\n"),
    Says(0, QUIT, BYE),
    Ends(0),
    Ctl("deliver 3 alice FILE monday", 0, "op alice 3/3 stored 1\nop alice 3/4 stored 2\nend\n"),
    Connects(1),
    Says(1, ALICE, EMPTY),
    Says(1, QUIT, BYE),
    Ends(1),
    Ctl("deliver 1 alice FILE tuesday", 0, "op alice 1/7 stored 3\nop alice 1/8 stored 4\nend\n"),
    # A key of 54 characters, the longest.
    Ctl(
        "deliver 1 alice FILE 012345678901234567890123456789012345678901234567890123",
        0,
        "op alice 1/9 stored 5\nop alice 1/10 full\nend\n",
    ),
    Ctl("deliver 1 alice FILE 0123456789012345678901234567890123456789012345678901234", 3, "bad request\n"),
    STOP,
]

# A lock is broken: the next session gets it, and the one that had it goes on and removes nothing.
LOCKS = [
    Ctl("deliver 1 alice FILE", 0, "op alice 1/1 stored 1\nend\n"),
    Connects(1),
    Says(0, ALICE, ONE),
    Connects(2),
    Says(1, ALICE, LOCKED),
    Ends(1),
    Ctl("break 3 alice", 0, "done\n"),
    Connects(2),
    Says(2, ALICE, ONE),
    Says(0, "STAT\r\nDELE 1\r\n", "+OK 1 30\r\n+OK message 1 deleted\r\n"),
    Says(0, QUIT, "-ERR some deleted messages not removed\r\n"),
    Ends(0),
    Connects(3),
    Says(3, ALICE, LOCKED),
    Ends(3),
    Says(2, "STAT\r\n", "+OK 1 30\r\n"),
    Says(2, QUIT, BYE),
    Ends(2),
    Ctl("break 1 alice", 0, "done\n"),
    Connects(1),
    Says(4, ALICE, ONE),
    Says(4, QUIT, BYE),
    Ends(4),
    STOP,
]

# A node stops that isn't the leader. Its sessions go on until they need it, but their users can log in elsewhere.
CRASH = [
    Ctl("deliver 1 alice FILE", 0, "op alice 1/1 stored 1\nend\n"),
    Connects(2),
    Says(0, ALICE, ONE),
    Connects(2),
    Ctl("crash 2", 0, "crashed\n"),
    Ctl("crash 2", 3, "down\n"),
    Ctl("break 2 alice", 3, "down\n"),
    Ctl("deliver 2 alice FILE", 3, "down\n"),
    Ctl("deliver 2 alice FILE monday", 3, "down\n"),
    Asks("deliver 2 alice 0\n", "down\n"),
    Asks("deliver 2 alice 5\nhello", "down\n"),
    StatusHas("\nnode 2 down\nnode 3 up "),
    Says(0, "RETR 1\r\n", FETCHED),
    Says(0, "DELE 1\r\n", "+OK message 1 deleted\r\n"),
    Sends(0, QUIT),
    Ends(0),
    Says(1, BOB, "+OK send PASS\r\n"),
    Ends(1),
    # Whoever comes to its port from then on is served at a node that is up.
    Connects(2),
    Says(2, BOB, EMPTY),
    Says(2, QUIT, BYE),
    Ends(2),
    Connects(1),
    Says(3, ALICE, ONE),
    Says(3, QUIT, BYE),
    Ends(3),
    STOP,
]

# A session has marked a message at the leader, and the leader stops. Its user logs in at once at another node, which then
# has the lock, and all messages are there.
FREED = [
    Ctl("deliver 1 alice FILE", 0, "op alice 1/1 stored 1\nop alice 1/2 stored 2\nend\n"),
    Connects(1),
    Says(0, ALICE, BOTH),
    Says(0, "DELE 1\r\n", "+OK message 1 deleted\r\n"),
    Connects(3),
    Says(1, BOB, EMPTY),
    Ctl("locks", 0, "user alice node 1 ticket 3\nuser bob node 3 ticket 1\nend\n"),
    Ctl("crash 1", 0, "crashed\n"),
    # The lock of a session whose node is up stays.
    Ctl("locks", 0, "user bob node 3 ticket 1\nend\n"),
    Connects(2),
    Says(2, ALICE, BOTH),
    Sends(0, QUIT),
    Ends(0),
    Connects(3),
    Says(3, ALICE, LOCKED),
    Ends(3),
    Says(2, QUIT, BYE),
    Ends(2),
    Says(1, QUIT, BYE),
    Ends(1),
    Ctl("users", 0, "user alice messages 2 octets 36 next_id 3\nuser bob messages 0 octets 0 next_id 1\nend\n"),
    STOP,
]

# The leader stops, and another node leads: what was stored is there, and more is.
LEADER = [
    Ctl("deliver 1 alice FILE", 0, "op alice 1/1 stored 1\nend\n"),
    Ctl("crash 1", 0, "crashed\n"),
    Ctl("deliver 2 alice FILE", 0, "op alice 2/1 stored 2\nend\n"),
    Connects(3),
    Says(0, ALICE, "+OK send PASS\r\n+OK maildrop has 2 messages (60 octets)\r\n"),
    Says(0, QUIT, BYE),
    Ends(0),
    STOP,
]

# Two of three nodes stop, and nothing is agreed on. Whoever waits gets the answer that the last one has stopped.
NOBODY = [
    Connects(1),
    Says(0, "USER alice\r\n", "+OK send PASS\r\n"),
    Ctl("crash 2", 0, "crashed\n"),
    Ctl("crash 3", 0, "crashed\n"),
    Sends(0, "PASS s3\r\n"),
    Waits(0),
    OperatorConnects(),
    Sends(1, "break 1 bob\n"),
    Waits(1),
    OperatorConnects(),
    Sends(2, "deliver 1 bob 5\nFrom "),
    Waits(2),
    Ctl("crash 1", 0, "crashed\n"),
    Ends(0),
    Gets(1, "down\n"),
    Ends(1),
    Gets(2, "down\n"),
    Ends(2),
    Ctl("status", 0, "node 1 down\nnode 2 down\nnode 3 down\nend\n"),
    Ctl("locks", 3, "down\n"),
    Ctl("users", 3, "down\n"),
    STOP,
]

# Two of three nodes stop, and then the service. Operators who wait for what nobody can agree on get the answer that their
# node has stopped.
UNDECIDED = [
    Connects(1),
    Ctl("crash 2", 0, "crashed\n"),
    Ctl("crash 3", 0, "crashed\n"),
    OperatorConnects(),
    Sends(1, "break 1 bob\n"),
    Waits(1),
    OperatorConnects(),
    Sends(2, "deliver 1 bob 5\nFrom "),
    Waits(2),
    StatusHas("\nnode 2 down\nnode 3 down\n"),
    STOP,
    Says(0, "STAT\r\n", "-ERR not in this state\r\n"),
    Says(0, QUIT, BYE),
    Ends(0),
    Gets(1, "down\n"),
    Ends(1),
    Gets(2, "down\n"),
    Ends(2),
]

# The leader stops, and then the service. The nodes get ticks until the last session has ended, so another node comes to
# lead, which a session needs at its end.
LED_ANEW = [
    Ctl("deliver 2 alice FILE", 0, "op alice 2/1 stored 1\nend\n"),
    Connects(2),
    Says(0, ALICE, ONE),
    Ctl("crash 1", 0, "crashed\n"),
    STOP,
    Says(0, "DELE 1\r\n", "+OK message 1 deleted\r\n"),
    Says(0, QUIT, BYE),
    Ends(0),
]

# A session that is open when the service is stopped goes on to its end. Nobody else is taken any more.
STILL_OPEN = [
    Ctl("deliver 3 alice FILE", 0, "op alice 3/1 stored 1\nend\n"),
    Connects(1),
    Says(0, ALICE, ONE),
    STOP,
    IsRefused(1),
    IsRefused(2),
    IsRefused(3),
    # Operators are heard until its end, but no mail is taken that would be lost.
    StatusHas("node 1 up "),
    Ctl("deliver 3 alice FILE", 3, "down\n"),
    Says(0, "STAT\r\nDELE 1\r\n", "+OK 1 30\r\n+OK message 1 deleted\r\n"),
    Says(0, QUIT, BYE),
    Ends(0),
]

SCENES = [
    ("a_message_is_delivered_read_and_removed", ONE_MESSAGE, MAILBOX),
    ("silent_clients_hold_up_nobody", SILENCE, ""),
    ("a_delivery_under_a_key_is_stored_once", KEYS, TWO_MESSAGES),
    ("a_lock_is_broken", LOCKS, MAILBOX),
    ("a_node_stops", CRASH, MAILBOX),
    ("a_lock_goes_with_its_node", FREED, TWO_MESSAGES),
    ("the_leader_stops", LEADER, MAILBOX),
    ("all_nodes_stop", NOBODY, ""),
    ("operators_who_wait_are_told_of_the_end", UNDECIDED, ""),
    ("another_node_leads_after_the_stop", LED_ANEW, MAILBOX),
    ("an_open_session_ends_after_the_stop", STILL_OPEN, MAILBOX),
]
for _name, _rows, _mailbox in SCENES:
    add_scene(SESSIONS, _name, _rows, _mailbox)


@SESSIONS.test
def sessions_and_slots_are_counted(fixture):
    """Three clients are greeted, and two of them log in. All nodes hear of both logins and of both ends."""
    service = serve(fixture)
    play(Stage(fixture, service.pop, service.ctl_port), THREE)
    lines = service.ctl("stats").output.split(b"\n")
    expect(b"sessions_served 3" in lines and b"epoch_sessions 2" in lines, f"stats: {lines}")
    wait_until(lambda: service.ctl("status").output.count(b" slot 5\n") == 3, "all nodes hear of four commands")
    service.stop()
