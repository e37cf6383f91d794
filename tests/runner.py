"""Runs tests, several at a time, and prints a line for each."""

import argparse
import os
import queue
import shutil
import signal
import subprocess
import sys
import tempfile
import threading
import time
import traceback

from tests import all_tests, processes
from tests.expectations import Failed
from tests.fixture import Fixture
from tests.groups import selected
from tests.transcript import Transcript

ROOT = os.path.dirname(os.path.dirname(os.path.abspath(__file__)))
USAGE = """./test [--program PROGRAM] [--jobs N] [--list] [-v] [NAME..]

Tests the program that ./maildropd runs, or another one. A NAME is that of a test, or its front up to a dot, such as
`sessions` or `cases.login`. The status is 1 if a test failed, or if no test has such a name."""


# How often a folder is removed if something is still being written there.
REMOVALS = 100


class Result:
    def __init__(self, test, seconds, failure, transcript):
        self.test, self.seconds, self.failure, self.transcript = test, seconds, failure, transcript


def program_of_checkout():
    """The path of the program that ./maildropd runs. The first time ./maildropd unpacks it."""
    environment = {**os.environ, "MAILDROPD_VERBOSE": "1"}
    ran = subprocess.run([f"{ROOT}/maildropd", "--version"], capture_output=True, text=True, env=environment, check=False)
    path = ran.stderr.partition("maildropd: running ")[2].partition(", ")[0]
    if ran.returncode or not path:
        sys.exit(f"./test: ./maildropd runs no program:\n{ran.stderr}")
    return path


def failure_of(test, fixture):
    """How a test fails, or nothing."""
    try:
        test.function(fixture)
    except Failed as failed:
        return str(failed)
    except Exception:  # pylint: disable=broad-except
        return traceback.format_exc()
    return None


def run_test(test, program, folder):
    transcript = Transcript()
    since = time.monotonic()
    try:
        fixture = Fixture(program, folder, transcript)
        try:
            failure = failure_of(test, fixture)
        finally:
            fixture.close()
    except Exception:  # pylint: disable=broad-except
        failure = traceback.format_exc()
    return Result(test, time.monotonic() - since, failure, transcript)


def start_threads(tests, jobs, program, folder):
    """Starts threads that run the tests. Their results come in a queue."""
    waiting, results = queue.SimpleQueue(), queue.SimpleQueue()
    for test in sorted(tests, key=lambda test: not test.is_long):
        waiting.put(test)

    def work():
        while True:
            try:
                test = waiting.get_nowait()
            except queue.Empty:
                return
            results.put(run_test(test, program, folder))

    for _ in range(min(jobs, len(tests))):
        threading.Thread(target=work, daemon=True).start()
    return results


class Report:
    """What is printed: a line for each test that has ended, and on a terminal how many are left."""

    def __init__(self, count, is_verbose):
        self.left, self.passed, self.failed, self.is_verbose = count, 0, 0, is_verbose
        self.is_terminal = sys.stdout.isatty()

    def show_counter(self):
        if self.is_terminal and self.left:
            print(f"\r{self.left} left, {self.failed} failed ", end="", flush=True)

    def add(self, result):
        self.left -= 1
        self.failed += result.failure is not None
        self.passed += result.failure is None
        clear = "\r\033[K" if self.is_terminal else ""
        word = "ok" if result.failure is None else "FAILED"
        print(f"{clear}{word} {result.test.name} {result.seconds:.2f} s")
        if self.is_verbose:
            print(result.transcript.text())
        if result.failure is not None:
            print("    " + result.failure.rstrip("\n"))
        sys.stdout.flush()
        self.show_counter()


def remove(folder):
    """Removes the folder, in which tests may still be making files: under another name they don't find it."""
    other = folder + ".old"
    os.rename(folder, other)
    for _ in range(REMOVALS):
        shutil.rmtree(other, ignore_errors=True)
        if not os.path.exists(other):
            break


def end_at_signals(folder):
    """A signal ends all processes, and removes the folder."""

    def end(number, _):
        processes.end_all()
        remove(folder)
        print(f"\n./test: ended by {signal.Signals(number).name}", file=sys.stderr, flush=True)
        os._exit(128 + number)

    for number in (signal.SIGINT, signal.SIGTERM, signal.SIGHUP):
        signal.signal(number, end)


def run_all(tests, jobs, program, is_verbose):
    """Runs these tests. Returns how many passed and how many failed."""
    folder = tempfile.mkdtemp(prefix="maildropd-test-")
    end_at_signals(folder)
    report = Report(len(tests), is_verbose)
    report.show_counter()
    try:
        results = start_threads(tests, jobs, program, folder)
        for _ in tests:
            report.add(results.get())
    finally:
        processes.end_all()
        remove(folder)
    return report.passed, report.failed


def arguments():
    parser = argparse.ArgumentParser(usage=USAGE)
    parser.add_argument("--program", help="tests this program")
    parser.add_argument("--jobs", type=int, default=2 * len(os.sched_getaffinity(0)), help="runs so many tests at a time")
    parser.add_argument("--list", action="store_true", help="prints the names of the tests, and runs none")
    parser.add_argument("-v", action="store_true", help="prints what was said on both sides")
    parser.add_argument("names", nargs="*", metavar="NAME")
    return parser.parse_args()


def main():
    given = arguments()
    tests = selected(all_tests.ALL, given.names)
    for name in given.names:
        if not selected(all_tests.ALL, [name]):
            print(f"./test: no test is named {name}; ./test --list prints the names")
            return 1
    if given.list:
        print("\n".join(test.name for test in tests))
        return 0
    program = os.path.abspath(given.program) if given.program else program_of_checkout()
    passed, failed = run_all(tests, max(given.jobs, 1), program, given.v)
    print(f"{passed} passed, {failed} failed")
    return 1 if failed else 0
