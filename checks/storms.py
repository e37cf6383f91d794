"""A service that rolls under a storm of senders, POP3 sessions and operators, over the helpers of checks/rolls. checks/torture uses it."""

import collections
import contextlib
import importlib.machinery
import importlib.util
import itertools
import os
import random
import re
import shutil
import socket
import subprocess
import threading
import time
import types

from serving import room_of
from takings import user_of_service

ROOT = os.path.dirname(os.path.dirname(os.path.abspath(__file__)))


def script(name):
    """A script of this folder as a module."""
    loader = importlib.machinery.SourceFileLoader(name, f"{ROOT}/checks/{name}")
    module = importlib.util.module_from_spec(importlib.util.spec_from_loader(name, loader))
    loader.exec_module(module)
    return module


rolls = script("rolls")
check, until, Failed, Lost = rolls.check, rolls.until, rolls.Failed, rolls.Lost

# How long an operator may wait who doesn't wait for nodes, in seconds; any other answer; an end with all its audits.
HEARD, PATIENCE, LONGEST_END = 2, 60, 300
SENDERS, READERS, PAUSE, STATUS_PAUSE = 16, 8, 0.01, 0.1
STATUS = re.compile(r"(node \d (down|up (active|passive) slot \d+)\n){3}end\n")
VERDICT = re.compile(r"(?:epoch (\d+): )?audit (?:ok|(no memory))")


class Service(rolls.Service):
    """A service of three nodes with its files in a room, over a data folder or not. `other_user`: it isn't root's."""

    def __init__(self, room, *options, data=False, other_user=False, log="log"):
        self.room, self.rolls = types.SimpleNamespace(name=room, cleanup=lambda: None), 0
        self.log, self.told = f"{room}/{log}", f"{room}/told"
        os.makedirs(os.path.dirname(self.log), exist_ok=True)
        self.set_accounts(dict.fromkeys(rolls.USERS, "s"))
        # The other user may have no way to where the program is.
        program = shutil.copy(rolls.PROGRAM, f"{room}/program")
        words = [program, "serve", "--accounts", f"{room}/accounts", "--pop-port", str(rolls.POP), "--port", str(rolls.ONE)]
        words += ["--ctl-port", str(rolls.CTL), "--log", self.log, "--tick-ms", "20", *options]
        if data:
            subprocess.run([program, "begin", "--data", f"{room}/mail"], check=True)
            words += ["--data", f"{room}/mail"]
        self.words, self.how = words, self.given_to_user(user_of_service()) if other_user else {}
        self.start()

    def start(self):
        """Starts it, also again."""
        heap = {**os.environ, "MALLOC_ARENA_MAX": "2", "MALLOC_TRIM_THRESHOLD_": "131072"}
        with open(self.told, "wb") as told:
            self.process = subprocess.Popen(self.words, stdout=told, stderr=subprocess.PIPE, env=heap, **self.how)
        try:
            until(self.is_heard, 20, lambda: "the service doesn't begin")
        except Failed:
            self.kill()
            raise

    def given_to_user(self, user):
        """Gives the room to a user. Returns how a process is started by this one."""
        if user is None:
            return {}
        for folder, _, names in os.walk(self.room.name):
            for path in [folder, *(f"{folder}/{name}" for name in names)]:
                os.chown(path, user, user)
        return {"user": user, "group": user, "extra_groups": []}

    def lives(self):
        if self.process.poll() is not None:
            said = self.process.stderr.read()
            raise Failed(f"the service has ended with status {self.process.returncode} {said}, {self.verdicts()!r}")

    def kill(self):
        self.process.kill()
        self.process.wait()
        self.process.stderr.close()

    def heard_epoch(self, seconds=PATIENCE):
        """The number of the epoch, once an operator can be heard."""
        found = []

        def hears():
            self.lives()
            found[:] = re.findall(r"^epoch (\d+)$", answer("stats", seconds=seconds), re.MULTILINE)
            return found

        until(hears, seconds, lambda: "stats aren't answered")
        return int(found[0])

    def rolled_on(self):
        """It has rolled as often as its number says."""
        self.rolls = self.heard_epoch() - 1

    def finish(self):
        """Stops it. Audits may have lacked memory, and nothing else is wrong. Returns how many did."""
        self.ctl("--wait", "stop", seconds=LONGEST_END)
        _, said = self.process.communicate(timeout=LONGEST_END)
        found = [VERDICT.fullmatch(line) for line in self.verdicts().splitlines()]
        seen = f"status {self.process.returncode} {said} after {self.rolls} rolls: {self.verdicts()[-300:]}"
        check(all(found), seen)
        wanted = [str(number) for number in range(1, self.rolls + 1)] + [None]
        lacking = sum(it[2] is not None for it in found)
        check([it[1] for it in found] == wanted and not said and self.process.returncode == (lacking > 0), seen)
        return lacking


@contextlib.contextmanager
def service_of(*options, **how):
    """A service of this block. If something is wrong its files are kept."""
    with room_of(None, "torture") as room:
        service = Service(room, *options, **how)
        try:
            yield service
        finally:
            service.kill()


class Operator:
    """An operator who says what he has to say in parts."""

    def __init__(self, said=b""):
        self.stream = socket.create_connection(("127.0.0.1", rolls.CTL), PATIENCE)
        self.says(said)

    def says(self, part):
        with contextlib.suppress(ConnectionError):
            self.stream.sendall(part)

    def hears(self, seconds=PATIENCE):
        """All that the service answers, which may be nothing or torn."""
        self.stream.settimeout(seconds)
        text = b""
        with self.stream, contextlib.suppress(ConnectionError, TimeoutError):
            while piece := self.stream.recv(65536):
                text += piece
        return text.decode()


def answer(line, body=b"", seconds=PATIENCE):
    """All that an operator is answered, which may be nothing or torn."""
    try:
        return Operator(line.encode() + b"\n" + body).hears(seconds)
    except (ConnectionError, TimeoutError):
        return ""


def said_in_parts(line, body, rng):
    """The same for an operator who pauses somewhere in the line or after it."""
    said = line.encode() + b"\n" + body
    place = rng.randrange(len(line) + 2)
    try:
        operator = Operator(said[:place])
        time.sleep(rng.random() * 0.1)
        operator.says(said[place:])
        return operator.hears()
    except (ConnectionError, TimeoutError):
        return ""


class Storm(rolls.Clients):
    """Senders, readers and an operator who asks for `status`. `is_excused(start, end)`: what wasn't answered between these moments
    has a cause."""

    def __init__(self, service, rng, is_excused=lambda *_: False):
        self.ledger, self.users, self.service, self.is_excused = rolls.Ledger(), rolls.USERS[:SENDERS], service, is_excused
        self.is_abandoned = False
        self.ends, self.failures, self.slowest = threading.Event(), [], 0.0
        self.counts = collections.Counter()
        # The nodes that were shown as down, and when.
        self.downs = []
        # What was answered wrongly, with the first of each kind.
        self.wrong, self.first = collections.Counter(), {}
        jobs = [(self.send, k, PAUSE) for k in range(SENDERS)] + [(self.read, k, PAUSE) for k in range(READERS)]
        jobs.append((self.watch, 0, STATUS_PAUSE))
        self.threads = [threading.Thread(target=self.go_on, args=(*job, random.Random(rng.random())), daemon=True) for job in jobs]
        for it in self.threads:
            it.start()

    def __enter__(self):
        return self

    def __exit__(self, kind, *_):
        self.ends.set()
        if kind:
            # Nobody of them goes on at the next service.
            self.is_abandoned = True
            self.service.process.kill()
        for it in self.threads:
            it.join(2 * PATIENCE)

    def go_on(self, job, k, pause, rng):
        try:
            for turn in itertools.count():
                if self.ends.wait(pause) or self.is_abandoned:
                    return
                job(k, turn, rng)
        except Exception as error:  # pylint: disable=broad-except
            if isinstance(error, ConnectionError) and self.is_abandoned:
                return
            self.failures.append(f"{job.__name__} {k}: {type(error).__name__} {error}")

    def note(self, kind, seen, since):
        """Something was answered wrongly that was asked for then."""
        excused = self.is_excused(since, time.monotonic())
        with self.ledger.lock:
            self.counts[f"{kind}, excused"] += excused
            self.wrong[kind] += not excused
            if not excused:
                self.first.setdefault(kind, f"{seen[-200:]!r} after {time.monotonic() - since:.2f} s")

    def send(self, k, turn, rng):
        """Sends a message, or a file of five, under a key until all are stored."""
        user, key = self.users[(k + rng.randrange(2)) % SENDERS], f"{k}-{turn}"
        markers = [f"{key}-{place}" for place in range(rng.choice((1, 1, 1, 5)))]
        texts = [rolls.text_of(it) for it in markers]
        start = time.monotonic()
        while not self.is_stored(user, key, markers, texts, rng):
            if self.is_abandoned:
                return
            check(time.monotonic() - start < PATIENCE, f"{key} isn't stored after {PATIENCE} s")
            self.count("sent again")
            time.sleep(PAUSE)
        self.count("stored", len(markers))

    def is_stored(self, user, key, markers, texts, rng):
        since, n = time.monotonic(), rng.randrange(4)
        if len(texts) == 1:
            body, line = texts[0], f"put {n} {user} {len(texts[0])} {key}"
        else:
            n = n or 1
            body = rolls.mbox_of(texts)
            line = f"deliver {n} {user} {len(body)} {key}"
        said = said_in_parts(line, body, rng) if rng.randrange(4) == 0 else answer(line, body)
        uniques = [int(it) for it in re.findall(rf"^op {user} \d+/\d+ stored (\d+)$", said, re.MULTILINE)]
        for unique, marker in zip(uniques, markers):
            self.ledger.has(user, unique, marker)
        if re.fullmatch(rf"(op {user} \d+/\d+ stored \d+\n){{{len(markers)}}}end\n", said):
            return True
        self.judge(line, said, n, since)
        return False

    def judge(self, line, said, n, since):
        """Notes an answer by which not all is stored. Nothing excuses `bad request`, and only a node that is down `down`."""
        last = said.rstrip("\n").rpartition("\n")[2]
        if last == "down" and self.is_excused(since, time.monotonic()) and self.was_down(n, since):
            self.count("answers of a node that is down")
        elif last in ("down", "bad request"):
            with self.ledger.lock:
                self.wrong[last] += 1
                self.first.setdefault(last, f"{line}: {said[-100:]!r} after {time.monotonic() - since:.2f} s")
        else:
            self.note("torn" if said else "empty", f"{line}: {said}", since)

    def was_down(self, n, since):
        """Whether `status` has shown this node as down since then, or all nodes for 0. It lacked memory, and is up after a roll."""
        self.see(answer("status"))
        shown = [downs for moment, downs in self.downs if moment > since - 2 * STATUS_PAUSE]
        return any(n in downs if n else len(downs) == 3 for downs in shown) or self.had_no_memory(since)

    def had_no_memory(self, since):
        """Whether the log has noted since then that all nodes stopped since a write had no memory. They may be up again at once."""
        begin = time.time() - (time.monotonic() - since) - HEARD
        return any(float(line.split()[0].removeprefix("time=")) > begin for line in self.service.events("fault text=no memory"))

    def see(self, status):
        if downs := {int(it) for it in re.findall(r"^node (\d) down$", status, re.MULTILINE)}:
            self.downs.append((time.monotonic(), downs))

    def read(self, k, _, rng):
        """A session of a user that no other reader has."""
        user, since = rng.choice(self.users[k::READERS]), time.monotonic()
        try:
            self.session(user, rng)
        except Lost:
            self.count("sessions cut")
        except Failed as error:
            if not re.search("without a greeting|IN-USE", str(error)):
                raise
            self.note("sessions refused", str(error), since)

    def watch(self, *_):
        since = time.monotonic()
        said = answer("status", seconds=10 * HEARD)
        took = time.monotonic() - since
        self.count("status")
        self.see(said)
        self.slowest = max(self.slowest, took)
        if took > HEARD or not STATUS.fullmatch(said):
            self.note("status", said, since)

    def end(self):
        """Ends them all. Nothing was answered wrongly."""
        self.ends.set()
        for it in self.threads:
            it.join(2 * PATIENCE)
        check(not any(it.is_alive() for it in self.threads), "a client doesn't end")
        wrong = [f"{count} times {kind}, first {self.first[kind]}" for kind, count in self.wrong.items() if count]
        check(not self.failures and not wrong, "; ".join([*self.failures[:3], *wrong]))

    def seen(self):
        return ", ".join(f"{what} {count}" for what, count in sorted(self.counts.items()) if count) + f", status in {self.slowest:.2f} s at most"
