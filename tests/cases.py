"""The worked cases of crates/cases/data, each played at the program: a session of `lone`, or a script of `sim`.

crates/cases/src/reading.rt says what the lines of a case mean. All that is sent comes at once first. If the status is 0 and all
lines count, a client then sends each line only after the replies to those before it, and one sends the first byte of the next
line ahead.

Ten cases aren't played and aren't counted. In six, with `meanwhile` or `left`, others come to the maildrop of a session of `lone`,
which has no way in from outside; `sessions` has such scenes at `serve`. In four the secret isn't UTF-8, so no command line can
have it. The crate `cases` also has reads and writes fail, which only it can.
"""

import os
import re
import select
import subprocess
import time

from tests import processes
from tests.expectations import PATIENCE, Failed, expect, expect_equal, first_line, shown
from tests.groups import Group

DATA = os.path.join(os.path.dirname(os.path.dirname(os.path.abspath(__file__))), "crates", "cases", "data")
# The options of `lone` if a case doesn't say others.
OPTIONS = {"user": b"alice", "method": b"pass", "secret": b"s", "nonce": b"1.1", "host": b"localhost"}
ESCAPES = {b"n": b"\n", b"r": b"\r"}
# Keys whose values are bytes that are sent or wanted, with what each ends in.
SENT = {"C": b"\r\n", "raw": b"", "in": b"\n"}
WANTED = {"S": b"\r\n", "got": b"", "out": b"\n"}


def unescaped(text):
    """The bytes that a text of a case stands for."""

    def byte_of(match):
        word = match[1]
        return bytes([int(word[1:], 16)]) if len(word) == 3 else ESCAPES.get(word, word)

    return re.sub(rb"\\(x[0-9a-fA-F]{2}|.)", byte_of, text, flags=re.DOTALL)


class Case:
    def __init__(self, name):
        self.name, self.options, self.mailbox = name, dict(OPTIONS), None
        self.is_script, self.is_shared, self.only = False, False, None
        self.sent, self.wanted, self.told, self.status = b"", b"", b"", 0
        # How many bytes are sent before a client waits, and how many it awaits there.
        self.turns = []

    def add(self, key, count, value):
        """Adds a line of the file."""
        if key in SENT:
            if key != "raw":
                self.turns.append((len(self.sent), len(self.wanted)))
            self.is_script |= key == "in"
            self.sent += (value + SENT[key]) * count
        elif key in WANTED:
            self.wanted += (value + WANTED[key]) * count
        elif key == "told":
            self.told += (value + b"\n") * count
        elif key == "mbox":
            self.mailbox = (self.mailbox or b"") + value * count
        elif key in ("meanwhile", "left"):
            self.is_shared = True
        else:
            self.set(key, value)

    def set(self, key, value):
        if key in OPTIONS:
            self.options[key] = value
        elif key == "status":
            self.status = int(value)
        elif key == "only":
            self.only = value
        else:
            raise ValueError(f"{self.name}: a case has no line {key!r}")

    def is_playable(self):
        """Whether it can be played from outside."""
        return not self.is_shared and all(_is_text(value) for value in self.options.values())

    def is_patient(self):
        """Whether its replies can be awaited."""
        return self.status == 0 and self.only is None

    def words(self, fixture):
        """The program's arguments."""
        if self.is_script:
            return ["sim"]
        words = ["lone"]
        for key, value in self.options.items():
            words += [f"--{key}", value.decode()]
        if self.mailbox is not None:
            words += ["--mbox", fixture.file("mailbox", self.mailbox)]
        return words


def _is_text(value):
    try:
        return b"\0" not in value and value.decode() is not None
    except UnicodeDecodeError:
        return False


def read_cases(path):
    """The cases of a file."""
    found = []
    with open(path, "rb") as it:
        lines = it.read().split(b"\n")
    for line in lines:
        if not line or line.startswith(b"#"):
            continue
        head, _, value = line.partition(b":")
        value = value[1:] if value.startswith(b" ") else value
        if head == b"case":
            found.append(Case(value.decode()))
        else:
            key, _, count = head.decode().partition(" x ")
            found[-1].add(key, int(count or 1), unescaped(value))
    return found


def counting(case, output):
    """The lines of an output that count."""
    if case.only is None:
        return output
    return b"".join(line for line in output.splitlines(keepends=True) if line.startswith(case.only))


def play_at_once(fixture, case, words):
    ran = fixture.run(*words, given=case.sent)
    got = (ran.status, ran.errors, counting(case, ran.output))
    if case.status == 2:
        # The program also names the mistake, in a line of its own.
        expect(ran.errors.count(b"\n") == case.told.count(b"\n") + 1, f"no line, or too many, below the fault: {ran.errors!r}")
        got = (ran.status, first_line(ran.errors), counting(case, ran.output))
    expect_equal(got, (case.status, case.told, case.wanted), "status, standard error and output")


class PatientClient:
    """A client of a process: it reads what it awaits before it sends more."""

    def __init__(self, fixture, words):
        pipe = subprocess.PIPE
        fixture.transcript.add("$ maildropd", " ".join(words))
        self.transcript = fixture.transcript
        self.process = processes.start([fixture.program, *words], stdin=pipe, stdout=pipe, stderr=pipe, cwd=fixture.folder, bufsize=0)
        fixture.at_end(self.close)
        self.came = b""

    def close(self):
        processes.end(self.process)
        for pipe in (self.process.stdin, self.process.stdout, self.process.stderr):
            pipe.close()

    def send(self, given):
        """Sends bytes. A session that has ended takes no more."""
        self.transcript.add("sends", given)
        try:
            self.process.stdin.write(given)
        except BrokenPipeError:
            pass

    def await_bytes(self, count):
        """Reads until so many bytes have come in all."""
        end = time.monotonic() + PATIENCE
        while len(self.came) < count:
            ready = select.select([self.process.stdout], [], [], max(0.0, end - time.monotonic()))[0]
            more = ready and self.process.stdout.read(1 << 16)
            expect(more, f"{count} bytes were awaited, and {len(self.came)} came: {shown(self.came)}")
            self.transcript.add("gets", more)
            self.came += more

    def end(self):
        """Ends what is sent. Returns the status, standard error and all output."""
        try:
            output, errors = self.process.communicate(timeout=PATIENCE)
        except subprocess.TimeoutExpired:
            raise Failed(f"it hasn't ended after {PATIENCE} s") from None
        return self.process.returncode, errors, self.came + output


def play_patiently(fixture, case, words, ahead):
    """Plays it by a client that awaits the replies to each line, but sends so many bytes of the next line before."""
    client, sent = PatientClient(fixture, words), 0
    for place, wanted in case.turns:
        place = min(place + ahead, len(case.sent))
        client.send(case.sent[sent:place])
        sent = max(sent, place)
        client.await_bytes(wanted)
    client.send(case.sent[sent:])
    expect_equal(client.end(), (case.status, case.told, case.wanted), f"with a client that awaits replies, {ahead} bytes ahead")


def play(fixture, case):
    words = case.words(fixture)
    play_at_once(fixture, case, words)
    if case.is_patient():
        for ahead in (0, 1):
            play_patiently(fixture, case, words, ahead)


def group_of(name):
    """The cases of a file that can be played."""
    group = Group(f"cases.{name[:-4]}")
    names = set()
    for case in read_cases(os.path.join(DATA, name)):
        if case.is_playable():
            test_name = re.sub(r"[^a-z0-9]+", "_", case.name.lower()).strip("_")
            if test_name in names:
                raise ValueError(f"{name}: two cases have the name {test_name}")
            names.add(test_name)
            group.add(test_name, lambda fixture, case=case: play(fixture, case))
    return group


GROUPS = [group_of(_name) for _name in sorted(os.listdir(DATA)) if _name.endswith(".txt")]
