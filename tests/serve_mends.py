"""Data folders that are damaged, and `mend`: what is lost is what was told, the folder starts, and unique ids stay.

What a segment has is read here as the documents describe it, without sums. The expected values follow from where the damage is."""

import os
import re
import shutil
import time

from tests.expectations import expect, expect_equal
from tests.groups import Group
from tests.services import ACCOUNTS, serve

MENDS = Group("mend")
GROUPS = [MENDS]

# The head of a segment; where a batch's content stands in its record, and how many bytes stand after it.
HEAD, BEFORE, AFTER = 16, 12, 8
# The kind of a payload that stores a message, and of the one after a snapshot.
STORED, OPENED = 2, 6
# The fewest bytes that a stored message takes in a segment.
SMALLEST = 28
USERS = ("alice", "bob")
# Without the opening of a segment next unique ids become first what earlier mends have raised them to, and if the segment just before
# isn't whole either at least the seconds since the begin of 2020.
LEAST = re.compile(rb"first next ids become at least (\d+)\n")
BEGIN_OF_2020 = 1_577_836_800


def number(segment, place, size=4):
    return int.from_bytes(segment[place:place + size], "big")


def payloads(content):
    place = 0
    while place < len(content):
        end = place + 4 + number(content, place)
        yield content[place + 4:end]
        place = end


class Batch:
    """A batch of a segment: where it begins and ends, and the messages that it stores, each a user and a unique id."""

    def __init__(self, segment, begin):
        self.begin, self.end = begin, begin + BEFORE + number(segment, begin) + AFTER
        content = list(payloads(segment[begin + BEFORE:self.end - AFTER]))
        self.opens = any(payload[0] == OPENED for payload in content)
        self.stored = [self.message(payload) for payload in content if payload[0] == STORED]

    @staticmethod
    def message(payload):
        end = 10 + payload[9]
        return payload[10:end].decode(), number(payload, end, 8)

    @property
    def middle(self):
        return (self.begin + self.end) // 2


def batches(segment):
    """The batches of the snapshot, and those after it."""
    found, place = [], HEAD
    while place < len(segment):
        found.append(Batch(segment, place))
        place = found[-1].end
    first = next(i for i, batch in enumerate(found) if batch.opens) + 1
    return found[:first], found[first:]


def content(path):
    with open(path, "rb") as it:
        return it.read()


class Scene:
    """A folder after an orderly stop: three messages in the segment before the newest, eight in the newest, one a batch."""

    def __init__(self, fixture, first=b"a line\n"):
        self.fixture, self.folder = fixture, fixture.path("at-rest")
        expect_equal(fixture.run("begin", "--data", self.folder).status, 0, "begin")
        service = started(fixture, self.folder)
        for _ in range(3):
            put(service, "alice", first)
        service.expect_ctl("roll", "rolled\n")
        for turn in range(8):
            put(service, USERS[turn % 2])
        service.stop(b"epoch 1: audit ok\naudit ok\n")
        self.bytes = self.file(3)
        self.snapshot, changes = batches(self.bytes)
        # (an orderly end adds a batch without a message)
        self.changes = [batch for batch in changes if batch.stored]
        expect_equal([batch.stored for batch in self.changes],
                     [[(USERS[turn % 2], turn // 2 + (4 if turn % 2 == 0 else 1))] for turn in range(8)], "the newest segment")
        self.all = {"alice": set(range(1, 8)), "bob": set(range(1, 5))}

    def file(self, segment):
        return content(os.path.join(self.folder, f"0000000{segment}.log"))

    def copy(self, name, damaged, note=False):
        """A copy of the folder with these bytes in the newest segment. Without its note it is as after a kill."""
        folder = self.fixture.path(name)
        shutil.copytree(self.folder, folder)
        path = os.path.join(folder, "00000003.log")
        if damaged is None:
            os.remove(path)
        else:
            with open(path, "wb") as it:
                it.write(damaged)
        if not note:
            os.remove(os.path.join(folder, "clean"))
        return folder

    def changed(self, *places):
        changed = bytearray(self.bytes)
        for place in places:
            changed[place] ^= 0x55
        return bytes(changed)

    def without(self, lost):
        """What is left, by users, if the messages of these batches are lost."""
        gone = {message for batch in lost for message in batch.stored}
        return {user: sorted(uid for uid in self.all[user] if (user, uid) not in gone) for user in USERS}


def spoil_opening(path):
    with open(path, "r+b") as it:
        it.seek(HEAD + BEFORE)
        it.write(b"\xff\xff")


def started(fixture, folder):
    return serve(fixture, data=folder, messages=1000, octets=10_000_000)


def put(service, user, text=b"a line\n"):
    ran = service.ctl("put", "1", user, given=text)
    expect_equal(ran.status, 0, "put")
    return int(ran.output.split()[4])


def listed(service, user):
    """The unique ids that a client sees."""
    secret = {"alice": "s3", "bob": "s4"}[user]
    with service.fixture.connect(service.node(1)) as client:
        client.send(f"USER {user}\r\nPASS {secret}\r\nUIDL\r\nQUIT\r\n".encode())
        lines = client.read_all().split(b"\r\n")
    start = lines.index(b"+OK") + 1
    return [int(line.split()[1]) for line in lines[start:lines.index(b".")]]


def mend(fixture, folder, *words):
    return fixture.run("mend", "--data", folder, *words)


def mend_for_users(fixture, folder, *words):
    return mend(fixture, folder, *words, "--accounts", fixture.file("accounts", ACCOUNTS))


def seconds():
    return int(time.time()) - BEGIN_OF_2020


def least_in(output):
    """The least next unique id that `mend` has reported, or 0."""
    found = LEAST.search(output)
    return int(found[1]) if found else 0


def expect_least_by_time(output, before):
    """The least next unique id that `mend` has reported is the time since then. Returns it."""
    expect(before <= least_in(output) <= seconds(), f"the least next id in {output!r}")
    return least_in(output)


def files_of(folder):
    return {name: content(os.path.join(folder, name)) for name in sorted(os.listdir(folder)) if name != "lock"}


def expect_mended(fixture, folder, way, left, raised):
    """`mend` in this way: status 0, and a second run has nothing to do. Then a start has what is left, and each next unique id is
    raised by so many."""
    damaged = files_of(folder)
    ran = mend_for_users(fixture, folder, way)
    expect_equal((ran.status, ran.errors, ran.output.endswith(b"mended\n")), (0, b"", True), f"mend {way}: {ran.output!r} {ran.errors!r}")
    after = files_of(folder)
    old = damaged.get("00000003.log")
    expect_equal(after.get("00000003.log.damaged"), old, "the damaged segment stays")
    expect_equal(after["00000002.log"], damaged["00000002.log"], "the segment before")
    names = {"00000002.log", "00000003.log", "mended"} | ({"00000003.log.damaged"} if old is not None else set())
    expect_equal(sorted(after), sorted(names), "files")
    expect_equal(mend(fixture, folder).output, b"nothing to mend\n", "mend again")
    service = started(fixture, folder)
    for user in USERS:
        expect_equal(listed(service, user), left[user], f"{user} after {way}")
        expect_equal(put(service, user), max([0, *left[user]]) + 1 + raised, f"the next unique id of {user} after {way}")
    service.stop()


def expect_told(fixture, folder, fault, lines, accounts=", with --accounts FILE"):
    """Without a word `mend` reports this, changes nothing, and a start refuses the folder for the same."""
    files = files_of(folder)
    ran = mend(fixture, folder)
    text = f"maildropd: {folder}{fault}\nmaildropd: nothing was changed; say --cut or --salvage{accounts}\n"
    expect_equal((ran.status, ran.errors, ran.output), (1, text.encode(), "".join(f"{line}\n" for line in lines).encode()), "mend")
    expect_equal(files_of(folder), files, "the files after mend without a word")


def told(scene, base, gaps, whole, users, cut, salvaged, refused=0):
    """The lines of `mend` without a word."""
    return [
        base,
        *(f"unreadable bytes {end - begin} from byte {begin} on, at most {(end - begin) // SMALLEST} messages" for begin, end in gaps),
        f"after the damage whole batches {whole}, not taken whole {refused}",
        *(f"user {user} messages {count} removed 0" for user, count in users),
        f"--cut drops bytes {cut}, raises next ids by {cut // SMALLEST}",
        f"--salvage drops bytes {salvaged}, raises next ids by {salvaged // SMALLEST}",
    ]


def behind(scene, place):
    """How many whole batches stand from this place on."""
    _, changes = batches(scene.bytes)
    return sum(batch.begin >= place for batch in changes)


@MENDS.long_test
def a_batch_in_the_middle(fixture):
    """A byte of the fourth change is another: the four behind it are kept by a salvage."""
    scene = Scene(fixture)
    bad = scene.changes[3]
    damaged, size = scene.changed(bad.middle), len(scene.bytes)
    folder = scene.copy("told", damaged)
    gone, lost = size - bad.begin, bad.end - bad.begin
    expect_told(fixture, folder, f"/00000003.log is damaged at byte {bad.begin}", told(
        scene, f"segment 3 is kept up to byte {bad.begin}", [(bad.begin, bad.end)], behind(scene, bad.end),
        [("alice", 2), ("bob", 2)], gone, lost,
    ))
    expect_mended(fixture, scene.copy("cut", damaged), "--cut", scene.without(scene.changes[3:]), gone // SMALLEST)
    expect_mended(fixture, scene.copy("salvage", damaged), "--salvage", scene.without([bad]), lost // SMALLEST)


@MENDS.long_test
def two_damages(fixture):
    scene = Scene(fixture)
    bad = [scene.changes[1], scene.changes[4]]
    damaged, size = scene.changed(bad[0].middle, bad[1].begin), len(scene.bytes)
    folder = scene.copy("told", damaged)
    gone, lost = size - bad[0].begin, sum(batch.end - batch.begin for batch in bad)
    expect_told(fixture, folder, f"/00000003.log is damaged at byte {bad[0].begin}", told(
        scene, f"segment 3 is kept up to byte {bad[0].begin}", [(batch.begin, batch.end) for batch in bad],
        behind(scene, bad[0].end) - 1, [("alice", 2), ("bob", 3)], gone, lost,
    ))
    expect_mended(fixture, scene.copy("cut", damaged), "--cut", scene.without(scene.changes[1:]), gone // SMALLEST)
    expect_mended(fixture, scene.copy("salvage", damaged), "--salvage", scene.without(bad), lost // SMALLEST)


@MENDS.long_test
def zeros(fixture):
    """Zeros stand over the end of the third change and the beginning of the fourth: both are lost."""
    scene = Scene(fixture)
    first, second = scene.changes[2:4]
    damaged = scene.bytes[:first.middle] + bytes(second.middle - first.middle) + scene.bytes[second.middle:]
    gone, lost = len(scene.bytes) - first.begin, second.end - first.begin
    expect_mended(fixture, scene.copy("cut", damaged), "--cut", scene.without(scene.changes[2:]), gone // SMALLEST)
    expect_mended(fixture, scene.copy("salvage", damaged), "--salvage", scene.without([first, second]), lost // SMALLEST)


@MENDS.long_test
def the_snapshot(fixture):
    """The opening is damaged, so the segment before is taken. Its mail is the snapshot's: a salvage loses nothing."""
    scene = Scene(fixture)
    bad = scene.snapshot[0]
    damaged, size = scene.changed(bad.middle), len(scene.bytes)
    folder = scene.copy("told", damaged)
    lost = bad.end - bad.begin
    expect_told(fixture, folder, f"/00000003.log is damaged at byte {HEAD}", told(
        scene, "segment 3 has a damaged opening, so segment 2 is taken", [(bad.begin, bad.end)], behind(scene, bad.end),
        [("alice", 4), ("bob", 4)], size, lost,
    ))
    expect_mended(fixture, scene.copy("cut", damaged), "--cut", scene.without(scene.changes), size // SMALLEST)
    expect_mended(fixture, scene.copy("salvage", damaged), "--salvage", scene.without([]), lost // SMALLEST)


@MENDS.long_test
def a_large_snapshot(fixture):
    """Of a snapshot of several batches the first is damaged. The others have mail that the segment before has too: nothing is lost."""
    scene = Scene(fixture, (b"x" * 70 + b"\n") * 8000)
    bad = scene.snapshot[0]
    expect(len(scene.snapshot) > 2, f"the snapshot has {len(scene.snapshot)} batches")
    damaged, size = scene.changed(bad.middle), len(scene.bytes)
    lost = bad.end - bad.begin
    expect_told(fixture, scene.copy("told", damaged), f"/00000003.log is damaged at byte {HEAD}", told(
        scene, "segment 3 has a damaged opening, so segment 2 is taken", [(bad.begin, bad.end)],
        len(scene.snapshot) - 1 + behind(scene, bad.end), [("alice", 4), ("bob", 4)], size, lost,
    ))
    expect_mended(fixture, scene.copy("salvage", damaged), "--salvage", scene.without([]), lost // SMALLEST)


@MENDS.long_test
def the_head_or_the_salt(fixture):
    """Without a whole head nothing of a segment can be found, and with another salt none of its sums is right. After an orderly stop
    the note has the salt."""
    scene = Scene(fixture)
    size = len(scene.bytes)
    for place in (0, 10):
        damaged = scene.changed(place)
        for way in ("--cut", "--salvage"):
            dropped = size if way == "--cut" or place == 0 else size - HEAD
            expect_mended(fixture, scene.copy(f"{place}{way}", damaged), way, scene.without(scene.changes), dropped // SMALLEST)
        expect_mended(fixture, scene.copy(f"{place}-noted", damaged, note=True), "--cut", scene.without([]), 0)


@MENDS.long_test
def the_last_batch(fixture):
    """After a kill that is a torn end, which a start drops. After an orderly stop it is damage."""
    scene = Scene(fixture)
    last, size = scene.changes[-1], len(scene.bytes)
    rest = scene.bytes[:last.end]
    damaged = scene.changed(last.middle)[:last.end]
    folder = scene.copy("killed", damaged)
    expect_equal(mend(fixture, folder, "--cut").output, b"nothing to mend\n", "mend")
    ran = fixture.run("check", "--data", folder)
    text = f"maildropd: {folder}/00000003.log: a start drops {len(rest) - last.begin} bytes from byte {last.begin} on\n"
    expect_equal((ran.status, ran.errors), (0, text.encode()), "check")
    damaged = scene.changed(last.middle)
    for way in ("--cut", "--salvage"):
        dropped = size - last.begin if way == "--cut" else last.end - last.begin
        folder = scene.copy(f"noted{way}", damaged, note=True)
        expect_mended(fixture, folder, way, scene.without([last]), dropped // SMALLEST)


@MENDS.long_test
def a_missing_tail_or_file(fixture):
    """After an orderly stop a segment that is too short, or missing, is damage. The note has its size."""
    scene = Scene(fixture)
    last, size = scene.changes[5], len(scene.bytes)
    for way in ("--cut", "--salvage"):
        folder = scene.copy(f"short{way}", scene.bytes[:last.middle], note=True)
        expect_mended(fixture, folder, way, scene.without(scene.changes[5:]), (size - last.begin) // SMALLEST)
        # (nothing that can be read has the name of bob)
        folder = scene.copy(f"missing{way}", None, note=True)
        expect_mended(fixture, folder, way, scene.without(scene.changes), size // SMALLEST)


@MENDS.long_test
def a_damaged_note(fixture):
    """The segment is whole: nothing is lost, and only the note goes."""
    scene = Scene(fixture)
    folder = scene.copy("note", scene.bytes, note=True)
    note = os.path.join(folder, "clean")
    text = bytearray(content(note))
    text[-1] ^= 1
    with open(note, "wb") as it:
        it.write(text)
    expect_told(fixture, folder, "/clean is damaged", ["the newest segment is whole"], accounts="")
    expect_equal(mend(fixture, folder, "--cut").output, b"the newest segment is whole\nmended\n", "mend")
    expect_equal(sorted(files_of(folder)), ["00000002.log", "00000003.log"], "files")
    service = started(fixture, folder)
    expect_equal([listed(service, user) for user in USERS], [sorted(scene.all[user]) for user in USERS], "all mail")
    service.stop()


@MENDS.long_test
def a_mended_opening_is_damaged_again(fixture):
    """After a mend, a start and a kill two openings are damaged. The segment that is taken knows nothing of the ids that were raised."""
    scene = Scene(fixture)
    folder = scene.copy("twice", scene.changed(scene.snapshot[0].middle))
    ran = mend_for_users(fixture, folder, "--cut")
    expect_equal((ran.status, least_in(ran.output)), (0, 0), "the first mend")
    # Before any start: alice has the most, three messages in the segment before.
    spoil_opening(os.path.join(folder, "00000003.log"))
    os.remove(os.path.join(folder, "00000003.log.damaged"))
    ran = mend_for_users(fixture, folder, "--cut")
    expect_equal((ran.status, least_in(ran.output)), (0, 4 + len(scene.bytes) // SMALLEST), "the second mend")
    service = serve(fixture, data=folder, messages=1000, octets=10_000_000, keep=3)
    given = [put(service, user) for user in USERS for _ in range(3)]
    service.process.kill()
    service.process.wait()
    for segment in (3, 4):
        spoil_opening(os.path.join(folder, f"0000000{segment}.log"))
    os.remove(os.path.join(folder, "00000003.log.damaged"))
    before = seconds()
    ran = mend_for_users(fixture, folder, "--cut")
    expect(b"segment 4 has a damaged opening, so segment 2 is taken\n" in ran.output, f"mend: {ran.output!r} {ran.errors!r}")
    expect_least_by_time(ran.output, before)
    service = started(fixture, folder)
    again = [put(service, user) for user in USERS]
    expect(min(again) > max(given), f"unique ids after the first mend {given}, and after the second {again}")
    service.stop()


@MENDS.long_test
def an_older_segment(fixture):
    """Of three segments the newest has a damaged opening, and the one before it is missing: the oldest is taken."""
    folder = fixture.path("three")
    expect_equal(fixture.run("begin", "--data", folder).status, 0, "begin")
    service = serve(fixture, data=folder, messages=1000, octets=10_000_000, keep=3)
    for _ in range(2):
        put(service, "alice")
        service.expect_ctl("roll", "rolled\n")
    service.stop(b"epoch 1: audit ok\nepoch 2: audit ok\naudit ok\n")
    names = sorted(name for name in os.listdir(folder) if name.endswith(".log"))
    os.remove(os.path.join(folder, names[-2]))
    spoil_opening(os.path.join(folder, names[-1]))
    before, size = seconds(), os.path.getsize(os.path.join(folder, names[-1]))
    ran = mend_for_users(fixture, folder, "--cut")
    least, oldest = expect_least_by_time(ran.output, before), int(names[-3][:8])
    expect(f"so segment {oldest} is taken\n".encode() in ran.output, f"mend: {ran.output!r}")
    service = started(fixture, folder)
    expect_equal([put(service, user) for user in USERS], [least + size // SMALLEST] * 2, "the next unique ids")
    service.stop()


@MENDS.long_test
def names_that_cannot_be_read(fixture):
    """Without the accounts a user whose name can't be read would be given unique ids again."""
    scene = Scene(fixture)
    # A change, and all: of an empty file nobody can tell what it had.
    for name, damaged, ways in (
        ("nameless", scene.changed(scene.changes[3].middle), ("--cut", "--salvage")),
        ("empty", b"", ("--cut",)),
    ):
        folder = scene.copy(name, damaged)
        before = files_of(folder)
        for way in ways:
            ran = mend(fixture, folder, way)
            text = f"maildropd: {folder}: say --accounts FILE: what can't be read may have names of users\n"
            expect_equal((ran.status, ran.errors), (1, text.encode()), f"mend {way} of {name}")
        expect_equal(files_of(folder), before, f"the files of {name}")
    expect_mended(fixture, folder, "--cut", scene.without(scene.changes), 0)


@MENDS.long_test
def export_writes_what_can_be_read(fixture):
    scene = Scene(fixture)
    bad = scene.changes[2]
    folder = scene.copy("damaged", scene.changed(bad.middle))
    ran = fixture.run("export", "--data", folder, "alice")
    text = f"maildropd: {folder}/00000003.log is damaged at byte {bad.begin}\n"
    expect_equal((ran.status, ran.errors), (1, text.encode()), "export")
    expect_equal(ran.output.count(b"a line\n"), 6, "all of seven messages but the damaged one")


@MENDS.long_test
def mends_are_refused(fixture):
    """A folder in use, one that is none, both words, a name that is taken, and a damaged opening without a segment before."""
    scene = Scene(fixture)
    service = started(fixture, scene.folder)
    ran = mend(fixture, scene.folder, "--cut")
    expect_equal((ran.status, ran.errors), (1, f"maildropd: {scene.folder} is in use\n".encode()), "a folder in use")
    service.stop()
    absent = fixture.path("absent")
    ran = mend(fixture, absent)
    text = f"maildropd: {absent} was not begun\nmaildropd: make it once: maildropd begin --data {absent}\n"
    expect_equal((ran.status, ran.errors), (1, text.encode()), "no folder")
    ran = mend(fixture, scene.folder, "--cut", "--salvage")
    expect_equal((ran.status, ran.errors), (2, b"maildropd: bad value\nmaildropd: say --cut or --salvage, not both\n"), "both words")
    folder = scene.copy("taken", scene.changed(scene.changes[0].middle))
    with open(os.path.join(folder, "00000003.log.damaged"), "wb") as it:
        it.write(b"another file")
    before = files_of(folder)
    ran = mend_for_users(fixture, folder, "--cut")
    expect_equal((ran.status, ran.errors), (1, f"maildropd: {folder}/00000003.log.damaged is in the way\n".encode()), "a name that is taken")
    expect(all(files_of(folder)[name] == text for name, text in before.items()), "the files after it")
    folder = scene.copy("alone", scene.changed(3))
    os.remove(os.path.join(folder, "00000002.log"))
    for way in ("--cut", "--salvage"):
        ran = mend(fixture, folder, way)
        expect_equal((ran.status, ran.errors), (1, f"maildropd: {folder} has no whole segment before 00000003.log\n".encode()), "nothing is left")
