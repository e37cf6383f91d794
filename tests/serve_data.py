"""Mail in a data folder: it outlives the process, and `begin`, `check` and `export` do what they are for."""

import base64
import os
import shutil

from tests.expectations import PATIENCE, expect_equal, wait_until
from tests.groups import Group
from tests.rows import STOP, Asks, Connects, Ctl, Says, play_to_end
from tests.services import Service, serve
from tests.texts import TWO_SHORT

DATA = Group("data")
GROUPS = [DATA]

# Mail comes and goes in two epochs.
BEFORE = [
    Ctl("deliver 1 alice FILE monday", 0, "op alice 1/1 stored 1\nop alice 1/2 stored 2\nend\n"),
    Ctl("roll", 0, "rolled\n"),
    Connects(3),
    Says(
        0,
        "USER alice\r\nPASS s3\r\nDELE 1\r\nQUIT\r\n",
        "+OK send PASS\r\n+OK maildrop has 2 messages (8 octets)\r\n+OK message 1 deleted\r\n+OK signing off\r\n",
    ),
    # At the leader: at a node that lags, unique ids may have another order than the file.
    Ctl("deliver 1 alice FILE tuesday", 0, "op alice 1/1 stored 3\nop alice 1/2 stored 4\nend\n"),
    Connects(1),
    Says(
        1,
        "USER alice\r\nPASS s3\r\nDELE 3\r\nQUIT\r\n",
        "+OK send PASS\r\n+OK maildrop has 3 messages (12 octets)\r\n+OK message 3 deleted\r\n+OK signing off\r\n",
    ),
    STOP,
]

# In the next process the same mail is there, under the same unique ids. Keys are known, and no unique id comes again.
AFTER = [
    Connects(1),
    Says(
        0,
        "USER alice\r\nPASS s3\r\nUIDL\r\nRETR 2\r\nQUIT\r\n",
        "+OK send PASS\r\n+OK maildrop has 2 messages (8 octets)\r\n"
        "+OK\r\n1 2\r\n2 3\r\n.\r\n+OK 4 octets\r\nhi\r\n.\r\n+OK signing off\r\n",
    ),
    Ctl("deliver 3 alice FILE tuesday", 0, "op alice 3/1 stored 3\nop alice 3/2 stored 4\nend\n"),
    Ctl("deliver 1 alice FILE", 0, "op alice 1/3 stored 5\nop alice 1/4 full\nend\n"),
    Ctl("deliver 1 bob FILE", 0, "op bob 1/1 stored 1\nop bob 1/2 stored 2\nend\n"),
    Asks("users\n", "user alice messages 3 octets 12 next_id 6\nuser bob messages 2 octets 8 next_id 3\nend\n"),
    STOP,
]


# A segment of the first format, which grew by records: alice got `hi` under the key monday and `ho` under tuesday, and removed
# the first message. It was made by the last program that wrote this format.
FIRST_FORMAT = base64.b64decode(
    "bWRyb3BkAAFiPQnA/PIvxwAAAAnWIT50faPjgwEAAAAAAAAAAd+BZW7P/mM7AAAAARk7qrFWbOG4Bk9iQBBDFg9SAAAAKEtF9Ja0"
    "y2OAAgAAAAAAAAABBWFsaWNlAAAAAAAAAAEAAAABAAAAAmhpBm1vbmRheUbU2Rh3WCCJAAAAKZxiIgjm+9hDAgAAAAAAAAACBWFs"
    "aWNlAAAAAAAAAAIAAAABAAAAAmhvB3R1ZXNkYXnDpqX7Dfgq8AAAABvoTRS0EglI/QMAAAAAAAAABAVhbGljZQAAAAEAAAAAAAAA"
    "AUi0hraHAMqP"
)
# Where a segment has the number of its format, and how many bytes its head has.
FORMAT_AT, HEAD = 7, 16


def begun(fixture):
    folder = fixture.path("data")
    expect_run(fixture, ["begin", "--data", folder])
    return folder


def expect_run(fixture, words, output=b"", status=0, errors=b""):
    ran = fixture.run(*words)
    expect_equal((ran.status, ran.output, ran.errors), (status, output, errors), " ".join(words))


@DATA.test
def a_message_that_never_fits(fixture):
    """It is refused for good before it comes, but only for who has an account. A file may be sent in parts."""
    folder, most = fixture.path("mail"), 240 << 20
    expect_equal(fixture.run("begin", "--data", folder).status, 0, "begin")
    service = serve(fixture, data=folder)
    play_to_end(service, [
        Asks(f"put 1 alice {most + 1}\n", "op alice 1/0 too large\nend\n"),
        Asks(f"put 1 zoe {most + 1}\n", "no such user\n"),
        Asks(f"deliver 1 alice {most + 1}\n", "bad request\n"),
        STOP,
    ])


@DATA.test
def only_its_owner_uses_a_folder(fixture):
    """Also if it was there, and others could look into it."""
    folder = fixture.path("data")
    os.mkdir(folder)
    os.chmod(folder, 0o755)
    expect_run(fixture, ["begin", "--data", folder])
    expect_equal(os.stat(folder).st_mode & 0o777, 0o700, "the folder's mode")
    for name in os.listdir(folder):
        expect_equal(os.stat(os.path.join(folder, name)).st_mode & 0o777, 0o600, f"the mode of {name}")


@DATA.test
def mail_outlives_the_process(fixture):
    folder = begun(fixture)
    play_to_end(serve(fixture, data=folder), BEFORE, TWO_SHORT, b"epoch 1: audit ok\naudit ok\n")
    play_to_end(serve(fixture, data=folder), AFTER, TWO_SHORT)


@DATA.test
def mail_outlives_a_kill(fixture):
    """What was answered is there after the process was killed, however a change is answered."""
    folder = begun(fixture)
    for place, sync in enumerate(("disk", "process")):
        service = serve(fixture, data=folder, sync=sync)
        ran = service.ctl("put", "1", "alice", f"key-{sync}", given=b"hi\n")
        expect_equal(ran.output, b"op alice 1/1 stored %d\nend\n" % (place + 1), "put")
        service.process.kill()
        service.process.wait()
    service = serve(fixture, data=folder)
    service.expect_ctl("users", "user alice messages 2 octets 8 next_id 3\nuser bob messages 0 octets 0 next_id 1\nend\n")
    service.stop()


@DATA.test
def segments_are_checked_and_mail_is_exported(fixture):
    """Two messages of 4 octets are changes of the segment that the start made, and are in the next from its beginning. A line has what
    is kept after all changes of a segment."""
    folder = begun(fixture)
    service = serve(fixture, data=folder)
    mailbox = fixture.file("mailbox", TWO_SHORT)
    service.expect_ctl(f"deliver 1 alice {mailbox}", "op alice 1/1 stored 1\nop alice 1/2 stored 2\nend\n")
    service.expect_ctl("roll", "rolled\n")
    service.stop(b"epoch 1: audit ok\naudit ok\n")
    expect_run(fixture, ["check", "--data", folder], (
        b"segment 2 messages 2 octets 8 changes 2 whole\n"
        b"segment 3 messages 2 octets 8 changes 0 whole\n"
    ))
    exported = b"From maildropd Thu Jan  1 00:00:00 1970\nhi\n\nFrom maildropd Thu Jan  1 00:00:00 1970\nho\n\n"
    expect_run(fixture, ["export", "--data", folder, "alice"], exported)
    expect_run(fixture, ["export", "--data", folder, "bob"], b"", 1, f"maildropd: {folder} never had mail for bob\n".encode())
    expect_run(fixture, ["export", "--data", folder, "a b"], b"", 2, b"maildropd: bad value\nmaildropd: NAME is 1 to 40 visible ASCII characters\n")


@DATA.test
def the_last_segments_stay(fixture):
    """The first start and each roll make a segment; a start after a stop goes on. `--keep 1` leaves the newest, `--keep 3` three."""
    folder = begun(fixture)
    service = serve(fixture, data=folder, keep=1)
    for _ in range(2):
        service.expect_ctl("roll", "rolled\n")
    wait_until(lambda: segments(folder) == ["00000004.log"], "the newest segment is left")
    service.stop(b"epoch 1: audit ok\nepoch 2: audit ok\naudit ok\n")
    service = serve(fixture, data=folder, keep=3)
    for _ in range(3):
        service.expect_ctl("roll", "rolled\n")
    wait_until(lambda: segments(folder) == [f"0000000{number}.log" for number in (5, 6, 7)], "three segments are left")
    service.stop(b"epoch 1: audit ok\nepoch 2: audit ok\nepoch 3: audit ok\naudit ok\n")


def segments(folder):
    return sorted(name for name in os.listdir(folder) if name.endswith(".log"))


def newest(folder):
    return os.path.join(folder, segments(folder)[-1])


def expect_refused(fixture, folder, text, status=1):
    """A start on this folder is refused."""
    first = fixture.ports()
    Service(fixture, data=folder, pop_port=first, ctl_port=first + 10).expect_end(b"", status, f"maildropd: {text}\n".encode())


def changed(path, place):
    """Changes a byte of a file."""
    with open(path, "r+b") as it:
        it.seek(place)
        byte = it.read(1)[0]
        it.seek(place)
        it.write(bytes([byte ^ 1]))


@DATA.test
def folders_are_refused(fixture):
    """One that is in use, wasn't begun, isn't empty, or has a segment that was changed."""
    folder = begun(fixture)
    service = serve(fixture, data=folder)
    expect_equal(service.ctl("put", "1", "alice", given=b"hi\n").status, 0, "put")
    expect_refused(fixture, folder, f"{folder} is in use")
    service.stop()
    text = f"maildropd: {folder} is not empty\nmaildropd: name a folder that is empty, or isn't there\n"
    expect_run(fixture, ["begin", "--data", folder], b"", 1, text.encode())
    absent = fixture.path("absent")
    for word in ("check", "export"):
        words = [word, "--data", absent] + ["alice"] * (word == "export")
        text = f"maildropd: {absent} was not begun\nmaildropd: make it once: maildropd begin --data {absent}\n"
        expect_run(fixture, words, b"", 1, text.encode())
    file = fixture.file("file", b"")
    for words in (["begin"], ["check"], ["export", "alice"]):
        expect_run(fixture, [words[0], "--data", file, *words[1:]], b"", 1, f"maildropd: {file} can't be read\n".encode())
    inside = f"{absent}/inside"
    text = f"maildropd: {inside} can't be written\nmaildropd: there is no folder {absent}\n"
    expect_run(fixture, ["begin", "--data", inside], b"", 1, text.encode())
    changed(newest(folder), 0)
    damaged = f"{newest(folder)} is damaged at byte 0"
    ran = fixture.run("check", "--data", folder)
    expect_equal((ran.status, ran.errors), (1, f"maildropd: {damaged}\n".encode()), "check")
    expect_refused(fixture, folder, damaged)
    expect_refused(fixture, absent, f"{absent} was not begun\nmaildropd: make it once: maildropd begin --data {absent}")


@DATA.test
def a_clean_stop_is_noted(fixture):
    """The note is there while the folder is at rest. A start goes on in the segment that it names. After a kill there is none, and a
    start makes the next segment."""
    folder = begun(fixture)
    note = os.path.join(folder, "clean")
    for stop in (["stop"], ["stop", "now"]):
        service = serve(fixture, data=folder)
        expect_equal(os.path.exists(note), False, "a note while it serves")
        expect_equal(segments(folder), ["00000001.log", "00000002.log"], "the segments")
        expect_equal(service.ctl("put", "1", "alice", given=b"hi\n").status, 0, "put")
        expect_equal(service.ctl(*stop).output, b"stopping\n", "stop")
        service.expect_end(b"audit ok\n")
        expect_equal(os.stat(note).st_mode & 0o777, 0o600, "the permissions of the note")
    service = serve(fixture, data=folder)
    service.expect_ctl("users", "user alice messages 2 octets 8 next_id 3\nuser bob messages 0 octets 0 next_id 1\nend\n")
    service.process.kill()
    service.process.wait()
    expect_equal(os.path.exists(note), False, "a note after a kill")
    service = serve(fixture, data=folder)
    expect_equal(segments(folder), ["00000002.log", "00000003.log"], "the segments after a kill")
    service.stop()


@DATA.test
def a_folder_at_rest_is_compared(fixture):
    """After a clean stop nobody may have changed the newest segment or the note. The last batch is empty: 20 bytes."""
    rest = begun(fixture)
    service = serve(fixture, data=rest)
    expect_equal(service.ctl("put", "1", "alice", given=b"hi\n").status, 0, "put")
    service.stop()
    size, last = os.path.getsize(newest(rest)), batches(content(newest(rest)))[-1]
    expect_equal(last, (size - 20, size, 0), "the last batch")

    def append(folder):
        with open(newest(folder), "ab") as it:
            it.write(b"\0")

    def lose_all(folder):
        for name in segments(folder):
            os.remove(os.path.join(folder, name))

    damaged = "/00000002.log is damaged at byte"
    for number, (change, text) in enumerate((
        (lambda folder: os.truncate(newest(folder), size - 1), f"{damaged} {size - 20}"),
        (lambda folder: os.truncate(newest(folder), size - 20), f"{damaged} {size - 20}"),
        (append, f"{damaged} {size}"),
        (lambda folder: changed(newest(folder), size - 1), f"{damaged} {size - 20}"),
        (lambda folder: os.remove(newest(folder)), "/00000002.log is missing"),
        (lose_all, "/00000002.log is missing"),
        (lambda folder: changed(f"{folder}/clean", os.path.getsize(f"{folder}/clean") // 2), "/clean is damaged"),
        (lambda folder: os.truncate(f"{folder}/clean", 0), "/clean is damaged"),
    )):
        folder = fixture.path(f"copy-{number}")
        shutil.copytree(rest, folder)
        change(folder)
        before = {name: content(os.path.join(folder, name)) for name in os.listdir(folder)}
        ran = fixture.run("check", "--data", folder)
        expect_equal((ran.status, ran.errors), (1, f"maildropd: {folder}{text}\n".encode()), "check")
        expect_refused(fixture, folder, f"{folder}{text}")
        expect_equal({name: content(os.path.join(folder, name)) for name in os.listdir(folder)}, before, "a folder that was refused")
    serve(fixture, data=rest).stop()


@DATA.test
def what_others_write_is_noticed(fixture):
    """A process that has no lock adds to the segment, or the lock is removed: nothing is written any more, and nobody is answered. The
    same holds if the next write is that of the service's end."""
    def append(folder):
        with open(newest(folder), "ab") as it:
            it.write(b"\0")

    def remove_lock(folder):
        os.remove(os.path.join(folder, "lock"))

    cases = [(change, is_stopped) for change in (append, remove_lock) for is_stopped in (False, True)]
    for number, (change, is_stopped) in enumerate(cases):
        folder = fixture.path(f"data-{number}")
        expect_run(fixture, ["begin", "--data", folder])
        service = serve(fixture, data=folder)
        expect_equal(service.ctl("put", "1", "alice", given=b"hi\n").status, 0, "put")
        change(folder)
        before = content(newest(folder))
        if is_stopped:
            service.expect_ctl("stop", "stopping\n")
        else:
            expect_equal(b"stored" in service.ctl("put", "1", "alice", given=b"ho\n").output, False, "a put is answered")
        service.process.wait(timeout=PATIENCE)
        expect_equal((service.process.returncode, service.errors()), (1, f"maildropd: {folder} is in use\n".encode()), "the end of the service")
        expect_equal((content(newest(folder)), os.path.exists(os.path.join(folder, "clean"))), (before, False), "the folder")


@DATA.test
def a_torn_end_is_told(fixture):
    """A process may be killed while it writes: what isn't whole at the end of the last segment was never answered. A start drops it,
    and says so in the log, or without one on standard error."""
    left = begun(fixture)
    service = serve(fixture, data=left)
    for message in (b"hi\n", b"ho\n"):
        expect_equal(service.ctl("put", "1", "alice", given=message).status, 0, "put")
    service.process.kill()
    service.process.wait()
    os.truncate(newest(left), os.path.getsize(newest(left)) - 1)
    at, size = batches(content(newest(left)))[-1][0], os.path.getsize(newest(left))
    expect_equal(fixture.run("check", "--data", left).output.splitlines()[-1], b"segment 2 messages 1 octets 4 changes 1 cut", "check")
    for is_logged in (False, True):
        folder, log = fixture.path(f"copy-{is_logged}"), fixture.path("log")
        shutil.copytree(left, folder)
        service = serve(fixture, data=folder, log=log if is_logged else None)
        service.expect_ctl("users", "user alice messages 1 octets 4 next_id 2\nuser bob messages 0 octets 0 next_id 1\nend\n")
        expect_equal(f"torn_bytes {size - at}\n" in service.ctl("stats").output.decode(), True, "stats")
        expect_equal(service.ctl("stop").output, b"stopping\n", "stop")
        told = f"maildropd: {folder}/00000002.log: {size - at} bytes are dropped from byte {at} on\n".encode()
        service.expect_end(b"audit ok\n", errors=b"" if is_logged else told)
        if is_logged:
            lines = [line.partition(b" ")[2] for line in content(log).split(b"\n")]
            expect_equal(lines.count(f"event=torn segment=2 at={at} bytes={size - at}".encode()), 1, "the log")
        service = serve(fixture, data=folder)
        expect_equal("torn_bytes 0\n" in service.ctl("stats").output.decode(), True, "stats of the next start")
        service.stop()


@DATA.test
def a_segment_of_the_first_format_is_read(fixture):
    """A start after an upgrade has its mail, unique ids and keys, leaves it as it is, and makes a new segment."""
    folder = begun(fixture)
    path = os.path.join(folder, "00000001.log")
    with open(path, "wb") as it:
        it.write(FIRST_FORMAT)
    expect_run(fixture, ["check", "--data", folder], b"segment 1 messages 1 octets 4 changes 3 whole\n")
    service = serve(fixture, data=folder)
    expect_equal(service.ctl("put", "1", "alice", "tuesday", given=b"ho\n").output, b"op alice 1/1 stored 2\nend\n", "a known key")
    expect_equal(service.ctl("put", "1", "alice", given=b"hey\n").output, b"op alice 1/2 stored 3\nend\n", "another message")
    service.stop()
    expect_equal(content(path), FIRST_FORMAT, "the old segment")
    expect_equal(content(os.path.join(folder, "00000002.log"))[FORMAT_AT], 2, "the format of the new one")
    expect_run(fixture, ["check", "--data", folder], (
        b"segment 1 messages 1 octets 4 changes 3 whole\n"
        b"segment 2 messages 2 octets 9 changes 1 whole\n"
    ))


def content(path):
    with open(path, "rb") as it:
        return it.read()


def batches(segment):
    """The batches of a segment: where each begins and ends, and how many payloads it has. A batch is a record, which has 20 bytes
    beside its content. The content is its payloads, each after its length."""
    found, place = [], HEAD
    while place < len(segment):
        size, count = number(segment, place), 0
        inside, end = place + 12, place + 12 + size
        while inside < end:
            inside, count = inside + 4 + number(segment, inside), count + 1
        found.append((place, end + 8, count))
        place = end + 8
    return found


def number(segment, place):
    return int.from_bytes(segment[place:place + 4], "big")


@DATA.test
def a_commit_is_read_whole_or_not_at_all(fixture):
    """Messages of one file share commits. Of a segment that is cut in one, `check` counts what the commits before it have."""
    folder = begun(fixture)
    service = serve(fixture, data=folder, messages=1000)
    path, mailbox = newest(folder), fixture.file("mailbox", b"From x\nm\n\n" * 30)
    first = len(batches(content(path)))
    for _ in range(20):
        expect_equal(service.ctl("deliver", "1", "alice", mailbox).status, 0, "deliver")
        if any(count > 1 for _, _, count in batches(content(path))[first:]):
            break
    service.process.kill()
    service.process.wait()
    whole, changes = content(path), 0
    commits = batches(whole)[first:]
    expect_equal(any(count > 1 for _, _, count in commits), True, "a commit has several changes")
    for begin, end, count in commits:
        for place in (begin + 1, (begin + end) // 2, end - 1):
            with open(path, "wb") as it:
                it.write(whole[:place])
            line = b"segment 2 messages %d octets %d changes %d cut" % (changes, 3 * changes, changes)
            expect_equal(fixture.run("check", "--data", folder).output.splitlines()[-1], line, "check")
        changes += count
