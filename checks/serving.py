"""A service over a data folder, in a room of its own: its process, its operator's socket and its POP3 sessions. The system picks
its port. What ends a script, also an interruption, ends the processes."""

import atexit
import contextlib
import glob
import os
import re
import shutil
import signal
import socket
import subprocess
import sys
import tempfile
import time

ROOT = os.path.dirname(os.path.dirname(os.path.abspath(__file__)))
FROM = b"From a@b Thu Jan  1 00:00:00 1970\n"
# How long any answer and the end of a process may take, and a start, in seconds.
PATIENCE, LONGEST_START = 30, 20
# The processes that may run, by id.
RUNNING = {}


class Failed(Exception):
    pass


class Refused(Failed):
    """A service has ended before it was heard."""

    def __init__(self, status, said):
        super().__init__(f"the service has ended with status {status}: {said.strip()}")
        self.status, self.said = status, said


class Lost(Exception):
    """The service has ended a connection, or doesn't listen."""


def check(is_right, seen):
    if not is_right:
        raise Failed(seen)


def until(holds, seconds, seen):
    """Waits until it holds, and returns how many seconds that took."""
    start = time.monotonic()
    while not holds():
        check(time.monotonic() - start < seconds, f"{seen} after {seconds} s")
        time.sleep(0.002)
    return time.monotonic() - start


def program_at(path):
    """The program itself, if the path is that of the script which runs it. So a process is the program's from its start."""
    with open(path, "rb") as it:
        if it.read(2) != b"#!":
            return path
    said = subprocess.run([path, "--version"], capture_output=True, text=True, env={**os.environ, "MAILDROPD_VERBOSE": "1"}, check=True)
    return re.match(r"maildropd: running (\S+), ", said.stderr)[1]


def spawned(words, **options):
    """Starts a process, which ends with the script."""
    process = subprocess.Popen(words, **options)
    RUNNING[process.pid] = process
    return process


def ended(process, seconds=PATIENCE):
    """Waits for the end of a process."""
    process.wait(seconds)
    RUNNING.pop(process.pid, None)
    return process.returncode


def end_all():
    for process in list(RUNNING.values()):
        with contextlib.suppress(OSError):
            process.kill()
            process.wait(PATIENCE)


def end_with_the_script():
    """Has the processes end when the script does, also by a signal."""
    atexit.register(end_all)
    for number in (signal.SIGTERM, signal.SIGHUP):
        signal.signal(number, lambda *_: sys.exit(1))


def free_port():
    with socket.socket() as it:
        it.bind(("127.0.0.1", 0))
        return it.getsockname()[1]


def listing(data):
    """The names and contents of a folder's files."""
    files = {}
    for path in sorted(glob.glob(f"{data}/*")):
        with open(path, "rb") as it:
            files[os.path.basename(path)] = it.read()
    return files


def make_folder(data, files):
    """Makes a folder with these files in it."""
    shutil.rmtree(data, ignore_errors=True)
    os.mkdir(data, 0o700)
    for name, text in files.items():
        with open(f"{data}/{name}", "wb", opener=lambda path, flags: os.open(path, flags, 0o600)) as it:
            it.write(text)


@contextlib.contextmanager
def room_of(folder, what):
    """A folder for files, which are kept if something is wrong."""
    room = tempfile.mkdtemp(prefix=f"{what}-", dir=folder)
    try:
        yield room
    except Exception as error:
        error.args = (f"{error} (files in {room})",)
        raise
    except BaseException:
        end_all()
        shutil.rmtree(room, ignore_errors=True)
        raise
    shutil.rmtree(room)


class Service:
    """A service over a folder. Its process may end and start again."""

    def __init__(self, program, room, data, users, *options):
        self.program, self.room, self.data, self.options, self.process = program, room, data, options, None
        self.ctl, self.port = f"{room}/ctl", free_port()
        with open(f"{room}/accounts", "w", encoding="ascii") as it:
            it.writelines(f"{user} pass s\n" for user in users)

    def begin(self):
        said = subprocess.run([self.program, "begin", "--data", self.data], capture_output=True, timeout=PATIENCE)
        check(said.returncode == 0, f"begin: status {said.returncode}, {said.stderr}")

    def words(self):
        words = [self.program, "serve", "--data", self.data, "--accounts", f"{self.room}/accounts", "--port", str(self.port)]
        return words + ["--ctl-socket", self.ctl, "--tick-ms", "20", "--log", f"{self.room}/log", *self.options]

    def spawn(self, tracer=()):
        heap = {**os.environ, "MALLOC_ARENA_MAX": "2", "MALLOC_TRIM_THRESHOLD_": "131072"}
        with open(f"{self.room}/told", "wb") as told, open(f"{self.room}/said", "wb") as said:
            self.process = spawned([*tracer, *self.words()], stdout=told, stderr=said, env=heap)

    def start(self, tracer=(), seconds=LONGEST_START):
        """Starts it, and returns once it is heard."""
        self.spawn(tracer)
        until(self.is_heard, seconds, "the service doesn't begin")

    def is_heard(self):
        if self.process.poll() is not None:
            ended(self.process)
            raise Refused(self.process.returncode, self.said())
        with contextlib.suppress(OSError, Lost):
            return request(self.ctl, "status")[-1:] == ["end"]
        return False

    def said(self):
        with open(f"{self.room}/said", encoding="utf-8", errors="replace") as it:
            return it.read()

    def logged(self):
        with contextlib.suppress(OSError), open(f"{self.room}/log", encoding="utf-8") as it:
            return it.read()
        return ""

    def kill(self):
        if self.process:
            self.process.kill()
            ended(self.process)

    def stop(self, how="stop"):
        """Stops it. It ends well."""
        said = request(self.ctl, how)
        check(said == ["stopping"], f"{how}: {said}")
        ended(self.process)
        check(self.process.returncode == 0 and not self.said(), f"{how}: status {self.process.returncode}, {self.said()}")


def connected(ctl, seconds=PATIENCE):
    stream = socket.socket(socket.AF_UNIX)
    stream.settimeout(seconds)
    stream.connect(ctl)
    return stream


def request(ctl, line, body=b"", seconds=PATIENCE):
    """The lines of the answer to a request at the operator's socket, up to where it breaks off."""
    text = b""
    with connected(ctl, seconds) as stream:
        try:
            stream.sendall(line.encode() + b"\n" + body)
            while piece := stream.recv(65536):
                text += piece
        except TimeoutError as error:
            raise Failed(f"no answer to {line} within {seconds} s") from error
        except ConnectionError:
            pass
    return text.decode().split("\n")[:-1]


def text_of(marker):
    """The message that is known by a marker, whose last number is how many lines it has. In a file a dot and its place follow."""
    count = int(marker.rpartition("-")[2].partition(".")[0])
    lines = b"".join(b"%07d %s\n" % (n * 7919 + len(marker), b"y" * (n % 61)) for n in range(count))
    return f"Subject: {marker}\n\n".encode() + lines


def mailbox(texts):
    """A mailbox file with these messages, of which no line begins with `From `."""
    return b"".join(FROM + text + b"\n" for text in texts)


def stored_in(said, user):
    """The unique ids under which messages were stored of which an answer's lines speak."""
    found = [re.fullmatch(rf"op {user} \d+/\d+ stored (\d+)", line) for line in said]
    return [int(it[1]) for it in found if it]


class Session:
    """A POP3 session of a user. Each of its lines that isn't answered by `+OK` is a fault."""

    def __init__(self, port, user):
        try:
            self.stream = socket.create_connection(("127.0.0.1", port), PATIENCE)
        except ConnectionError as error:
            raise Lost(str(error)) from error
        self.own_port = self.stream.getsockname()[1]
        self.replies = self.stream.makefile("rb")
        self.line()
        self.ask(f"USER {user}", "PASS s")

    def __enter__(self):
        return self

    def __exit__(self, *_):
        self.replies.close()
        self.stream.close()

    def line(self):
        line = self.part()
        check(line.startswith(b"+OK"), f"reply {line}")

    def part(self):
        try:
            line = self.replies.readline()
        except TimeoutError as error:
            raise Failed(f"no reply within {PATIENCE} s") from error
        except ConnectionError as error:
            raise Lost(str(error)) from error
        if not line.endswith(b"\r\n"):
            raise Lost(f"closed after {line}")
        return line[:-2]

    def ask(self, *lines):
        """Sends lines together, each with one line as reply."""
        self.send(*lines)
        for _ in lines:
            self.line()

    def send(self, *lines):
        try:
            self.stream.sendall("".join(f"{line}\r\n" for line in lines).encode())
        except ConnectionError as error:
            raise Lost(str(error)) from error

    def parts(self):
        """The lines after a reply's first one."""
        self.line()
        parts = []
        while (line := self.part()) != b".":
            parts.append(line)
        return parts

    def unique_ids(self):
        self.send("UIDL")
        return [int(line.split()[1]) for line in self.parts()]

    def markers(self, count):
        """The markers of so many messages, of which each has the text that its marker says."""
        self.send(*(f"RETR {number + 1}" for number in range(count)))
        markers = []
        for number in range(count):
            parts = self.parts()
            marker = parts[0].decode(errors="replace").removeprefix("Subject: ") if parts else ""
            is_right = re.fullmatch(r"[a-z0-9-]+-\d+(\.\d+)?", marker) and b"".join(it + b"\n" for it in parts) == text_of(marker)
            check(is_right, f"message {number + 1} is {parts[:3]}, of {len(parts)} lines")
            markers.append(marker)
        return markers
