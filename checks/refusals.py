"""Plays runs of the program some of whose requests for memory or threads are refused. checks/refused and checks/refused_serve use it."""

import argparse
import collections
import concurrent.futures
import mmap
import os
import queue
import re
import struct
import subprocess
import sys
import tempfile

ROOT = os.path.dirname(os.path.dirname(os.path.abspath(__file__)))
LIBRARY = f"{ROOT}/checks/out/refused.so"
NO_MEMORY = b"maildropd: no memory\n"
# The number of the last request of all.
ALL = 2**64 - 1
# How many runs there are at a time. Each has ten ports of its own.
LANES, FIRST_PORT = 4, 24000
# How many seconds a run may take.
PATIENCE = 30

Ended = collections.namedtuple("Ended", "status output errors")


class Failed(Exception):
    pass


def check(is_right, seen):
    if not is_right:
        raise Failed(seen)


class Lane:
    """Room for one run at a time: a folder, ports, and the numbers that checks/refused.c shares with the run."""

    def __init__(self, number, room, program):
        self.program = program
        self.room = f"{room}/{number}"
        os.mkdir(self.room)
        self.ports = FIRST_PORT + 10 * number
        with open(f"{self.room}/numbers", "w+b") as it:
            it.write(bytes(40))
            it.flush()
            self.numbers = mmap.mmap(it.fileno(), 40)
        self.environment = {**os.environ, "LD_PRELOAD": LIBRARY, "REFUSED": f"{self.room}/numbers"}

    def begin(self, first, last):
        """The next run's requests from the first to the last are refused. They are counted from 1."""
        struct.pack_into("=5Q", self.numbers, 0, first, last, 0, 0, 0)

    def refuse_all(self):
        """All are refused from now on."""
        struct.pack_into("=2Q", self.numbers, 0, 1, ALL)

    def refuse_thread(self):
        """The next thread is refused."""
        struct.pack_into("=Q", self.numbers, 32, 1)

    def requests(self):
        """How many there were."""
        return struct.unpack_from("=Q", self.numbers, 16)[0]

    def refused(self):
        """How many of them were refused."""
        return struct.unpack_from("=Q", self.numbers, 24)[0]

    def file(self, name, text):
        with open(f"{self.room}/{name}", "wb") as it:
            it.write(text)
        return f"{self.room}/{name}"


class Lanes:
    """Plays runs side by side."""

    def __init__(self, room, program, most):
        self.free = queue.SimpleQueue()
        for number in range(LANES):
            self.free.put(Lane(number, room, program))
        self.pool = concurrent.futures.ThreadPoolExecutor(LANES)
        self.most = most

    def evenly(self, count):
        """The numbers of so many requests, or of as many of them as are refused at most."""
        return [1 + n * count // self.most for n in range(self.most)] if count > self.most else list(range(1, count + 1))

    def play(self, run):
        """Returns what a run returns, and no error; or nothing, and why it has failed."""
        lane = self.free.get()
        try:
            return run(lane), None
        except (Failed, OSError, subprocess.TimeoutExpired) as error:
            return None, error
        finally:
            self.free.put(lane)

    def play_each(self, run, places):
        """Plays a run for each place. Returns what the right ones return, and where and why the others have failed."""
        results = list(self.pool.map(lambda place: self.play(lambda lane: run(lane, place)), places))
        right = [result for result, error in results if error is None]
        return right, [(place, error) for place, (_, error) in zip(places, results) if error is not None]


def report(name, seen, failures):
    """Prints what was seen, and what has failed: where, and at how many places. Returns whether nothing has."""
    print(f"{'FAILED' if failures else 'ok'} {name}{': ' if seen else ''}{seen}", flush=True)
    places = collections.defaultdict(list)
    for place, error in failures:
        places[str(error)].append(place)
    for error, found in places.items():
        print(f"    {len(found)} times, first at {found[0]}: {error}", flush=True)
    return not failures


def program():
    """The program that ./maildropd runs. That script asks for memory too."""
    ran = subprocess.run([f"{ROOT}/maildropd", "--version"], capture_output=True, env={**os.environ, "MAILDROPD_VERBOSE": "1"})
    said = re.match(r"maildropd: running (.*?), (?:proved|of dist)", ran.stderr.decode())
    if not said:
        sys.exit(ran.stderr.decode().strip())
    return said[1]


def run_parts(doc, parts):
    """Runs the parts that the command line names, or all. The status is 1 if one has failed."""
    words = argparse.ArgumentParser(description=doc.split("\n\n")[0])
    words.add_argument("--program")
    words.add_argument("--most", type=int, default=400)
    words.add_argument("parts", nargs="*", metavar="PART")
    said = words.parse_args()
    if not parts.keys() >= set(said.parts):
        words.error(f"the parts are {', '.join(parts)}")
    os.makedirs(os.path.dirname(LIBRARY), exist_ok=True)
    subprocess.run(["cc", "-O1", "-shared", "-fPIC", "-o", LIBRARY, f"{ROOT}/checks/refused.c", "-ldl"], check=True)
    with tempfile.TemporaryDirectory() as room:
        lanes = Lanes(room, os.path.abspath(said.program) if said.program else program(), said.most)
        are_right = [part(lanes) for name, part in parts.items() if not said.parts or name in said.parts]
    sys.exit(not all(are_right))
