"""What a service has of descriptors, threads and memory, and how a script takes the rest away for a while: it lowers the soft limit of the
service's process to just above what is in use, and gives it back."""

import contextlib
import glob
import math
import os
import subprocess
import threading
import time

# The user of a service whose threads are limited, if the script is root's: the system doesn't count those of root.
OTHER_USER = 65534
# How much is left of each kind, in descriptors, threads and bytes.
SPARE = {"descriptors": 8, "threads": 0, "memory": 1 << 20}
LIMITS = {"descriptors": "nofile", "threads": "nproc", "memory": "as"}
# How long a taking lasts, the pause before the next one, and how long after it a roll may still fail for it, in seconds.
LASTS, PAUSE, AFTER = 1.0, (0.3, 1.5), 2.0


def user_of_service():
    """The user by whom a service runs whose threads are limited; None is that of the script."""
    return OTHER_USER if os.geteuid() == 0 else None


def descriptors_of(pid):
    return {int(name) for name in os.listdir(f"/proc/{pid}/fd")}


def number_above(used, spare):
    """The number below which so many are free: a new descriptor gets the lowest free one."""
    number = 0
    while spare or number in used:
        spare -= number not in used
        number += 1
    return number


def field_of(path, name):
    """The first number of this line of a file in /proc, or 0 if the process has gone."""
    with contextlib.suppress(OSError), open(path, encoding="utf-8", errors="replace") as it:
        return next((int(line.split()[1]) for line in it if line.startswith(f"{name}:")), 0)
    return 0


def threads_of(user):
    """How many threads a user has."""
    paths = glob.glob("/proc/[0-9]*/status")
    return sum(field_of(path, "Threads") for path in paths if field_of(path, "Uid") == user)


def bound_of(pid, kind, spare):
    """The limit at which so much is left to a process."""
    if kind == "descriptors":
        return number_above(descriptors_of(pid), spare)
    if kind == "threads":
        return threads_of(field_of(f"/proc/{pid}/status", "Uid")) + spare
    return field_of(f"/proc/{pid}/status", "VmSize") * 1024 + spare


def prlimit(pid, *words):
    """Asks or sets a limit of a process, as its user: root may lack the right to."""
    user = field_of(f"/proc/{pid}/status", "Uid")
    how = {"user": user, "group": user, "extra_groups": []} if user != os.geteuid() else {}
    return subprocess.run(["prlimit", "--pid", str(pid), *words], capture_output=True, text=True, check=True, **how).stdout


def set_soft(pid, name, soft):
    """Sets a soft limit, and keeps the hard one. Returns what the soft one was."""
    before, hard = prlimit(pid, "--raw", "--noheadings", "--output", "SOFT,HARD", f"--{name}").split()
    if hard != "unlimited" and soft != "unlimited":
        soft = min(int(soft), int(hard))
    prlimit(pid, f"--{name}={soft}:{hard}")
    return before


@contextlib.contextmanager
def taking(process, kind, bound=None):
    """In this block a process has hardly more of a resource than it uses, or so much as the bound says."""
    bound = bound_of(process.pid, kind, SPARE[kind]) if bound is None else bound
    before = set_soft(process.pid, LIMITS[kind], bound)
    try:
        yield
    finally:
        if process.poll() is None:
            set_soft(process.pid, LIMITS[kind], before)


class Taker:
    """Takes one resource of these kinds for a second, again and again, until it is ended."""

    def __init__(self, process, kinds, rng):
        self.process, self.kinds, self.rng = process, kinds, rng
        # The kind of each taking, its beginning and its end.
        self.spans, self.ends, self.failure = [], threading.Event(), None
        self.thread = threading.Thread(target=self.run, daemon=True)
        self.thread.start()

    def run(self):
        while not self.ends.wait(self.rng.uniform(*PAUSE)):
            kind = self.rng.choice(self.kinds)
            span = [kind, time.monotonic(), math.inf]
            self.spans.append(span)
            try:
                with taking(self.process, kind):
                    self.ends.wait(LASTS)
            except (OSError, subprocess.SubprocessError) as error:
                self.failure = f"{kind}: {error}"
                return
            finally:
                span[2] = time.monotonic()

    def covers(self, start, end, after=AFTER):
        """Whether something was taken between these moments, or shortly before."""
        return any(begin <= end and start <= last + after for _, begin, last in self.spans)

    def end(self):
        self.ends.set()
        self.thread.join()
        if self.failure and self.process.poll() is None:
            raise OSError(f"nothing could be taken: {self.failure}")

    def seen(self):
        kinds = [kind for kind, _, _ in self.spans]
        return ", ".join(f"{kind} {kinds.count(kind)}" for kind in self.kinds)
