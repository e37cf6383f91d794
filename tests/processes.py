"""Processes of the tests: each is started here, and none outlives ./test, also if that is interrupted."""

import os
import signal
import subprocess
import threading

from tests.expectations import PATIENCE, Failed

# As ./maildropd sets them.
ENVIRONMENT = {"MALLOC_ARENA_MAX": "2", "MALLOC_TRIM_THRESHOLD_": "131072"}
# No service is named: `ctl` takes an empty value as none.
UNNAMED = {"MAILDROPD_CTL": ""}

_running = set()
# (a signal may come while its own thread holds the lock)
_lock = threading.RLock()
_state = {"ends": False}


class Ran:
    """What a process ended with."""

    def __init__(self, status, output, errors):
        self.status, self.output, self.errors = status, output, errors


def start(words, **how):
    """Starts a process in a process group of its own."""
    given = {"stdin": subprocess.DEVNULL, "env": {**ENVIRONMENT, **os.environ, **UNNAMED}, **how}
    with _lock:
        if _state["ends"]:
            raise Failed("interrupted")
        process = subprocess.Popen([os.fspath(word) if isinstance(word, (bytes, os.PathLike)) else str(word) for word in words],
                                   start_new_session=True, **given)
        _running.add(process)
    return process


def end(process):
    """Ends a process and its children, if it hasn't ended."""
    if process.returncode is None:
        _kill(process)
        process.wait()
    with _lock:
        _running.discard(process)


def _kill(process):
    try:
        os.killpg(process.pid, signal.SIGKILL)
    except ProcessLookupError:
        pass


def end_all():
    """Ends all processes, and lets no more be started."""
    with _lock:
        _state["ends"] = True
        for process in _running:
            if process.returncode is None:
                _kill(process)


def run(words, given=b"", **how):
    """Runs a process to its end, with these bytes on its standard input."""
    pipe = subprocess.PIPE
    process = start(words, **{"stdin": pipe, "stdout": pipe, "stderr": pipe, **how})
    try:
        output, errors = process.communicate(given, timeout=PATIENCE)
    except subprocess.TimeoutExpired:
        raise Failed(f"it hasn't ended after {PATIENCE} s: {words}") from None
    finally:
        end(process)
        for stream in (process.stdin, process.stdout, process.stderr):
            if stream:
                stream.close()
    return Ran(process.returncode, output or b"", errors)
