"""The command line: help, version, words that are none, and the stored run of the crate `maildropd`."""

import os
import re

from tests.expectations import expect, expect_equal
from tests.groups import Group

COMMAND_LINE = Group("command_line")
GROUPS = [COMMAND_LINE]

ROOT = os.path.dirname(os.path.dirname(os.path.abspath(__file__)))
STORED = os.path.join(ROOT, "crates", "maildropd")
COMMANDS = ["lone", "sim", "serve", "ctl", "begin", "check", "export", "mend"]


def _read(*path):
    with open(os.path.join(*path), "rb") as it:
        return it.read()


@COMMAND_LINE.test
def stored_run(fixture):
    """crates/maildropd/args, stdin and stdout; the status is 0."""
    words = _read(STORED, "args").decode().splitlines()
    ran = fixture.run(*words, given=_read(STORED, "stdin"))
    expect_equal((ran.status, ran.output, ran.errors), (0, _read(STORED, "stdout"), b""), " ".join(words))


@COMMAND_LINE.test
def help_and_version(fixture):
    ran = fixture.run("--version")
    expect_equal((ran.status, ran.output), (0, b"maildropd 0.2.0\n"), "--version")
    lines = fixture.run("--help").output.decode()
    for command in COMMANDS:
        expect(re.search(rf"^  {command} +[A-Z]", lines, re.MULTILINE), f"--help doesn't list {command}: {lines}")
        ran = fixture.run(command, "--help")
        expect(ran.status == 0 and b"\nOptions:\n" in ran.output and not ran.errors, f"{command} --help: {ran.output!r}")


def documented_options():
    """The options of `serve` that headings of docs/OPERATING.md name, each with its default, or nothing if it has none."""
    page = _read(ROOT, "docs", "OPERATING.md").decode()
    for part in page.split("\n#### ")[1:]:
        heading, _, text = part.partition("\n")
        found = re.search(r"[Dd]efault:? `?([a-z0-9.,]+)", text.partition("\n#")[0])
        default = found[1].rstrip(".,").replace(",", "") if found else "none"
        for name in re.findall(r"`--([a-z-]+)", heading):
            yield name, "" if default == "none" else default


@COMMAND_LINE.test
def help_shows_documented_options(fixture):
    """`serve --help` has just the options of the documentation's headings, each with its default."""
    text = fixture.run("serve", "--help").output.decode()
    options = list(documented_options())
    shown = re.findall(r"^ +--([a-z-]+)", text, re.MULTILINE)
    expect_equal(sorted(name for name, _ in options), sorted(shown), "the headings, and the options of serve --help")
    for name, default in options:
        line = re.search(rf"^ +--{name} .*$", text, re.MULTILINE)[0]
        is_right = f"[default: {default}]" in line if default else "[default: " not in line
        expect(is_right, f"the default of --{name} is {default or 'none'}, and serve --help has: {line}")


@COMMAND_LINE.test
def words_that_are_none(fixture):
    """The status is 2, and standard error names the word."""
    for words, part in [
        ([], "Usage: "),
        (["halt"], "halt"),
        (["serve", "--halt"], "--halt"),
        (["serve"], "--accounts <FILE>"),
        (["serve", "--accounts"], "--accounts <FILE>"),
        (["serve", "--accounts", "a", "--nodes", "three"], "three"),
        (["serve", "--accounts", "a", "--nodes", "-1"], "-1"),
        (["ctl", "status"], "--port <PORT>"),
        (["ctl", "--port", "1", "--socket", "a", "status"], "--socket <PATH>"),
        (["ctl", "--port", "1"], "REQUEST"),
        (["lone"], "--user <NAME>"),
        (["sim", "script"], "script"),
        (["begin"], "--data <FOLDER>"),
        (["mend", "--cut"], "--data <FOLDER>"),
        (["export", "--data", "a"], "<NAME>"),
    ]:
        ran = fixture.run(*words)
        expect((ran.status, ran.output) == (2, b"") and part.encode() in ran.errors, f"{words}: status {ran.status}, {ran.errors!r}")


@COMMAND_LINE.test
def words_that_are_not_utf_8(fixture):
    for words in ([b"\xff"], [b"lone", b"--user", b"\x80"]):
        ran = fixture.run(*map(os.fsdecode, words))
        expect_equal((ran.status, ran.errors), (2, b"maildropd: a word of the command line is not UTF-8\n"), words)


@COMMAND_LINE.test
def output_that_cannot_be_written(fixture):
    """/dev/full refuses each write."""
    for words, given in (["lone", "--user", "alice", "--secret", "s"], b"QUIT\r\n"), (["sim"], b"order 1\n"):
        with open("/dev/full", "wb") as full:
            ran = fixture.run(*words, given=given, stdout=full)
        expect_equal((ran.status, ran.errors), (1, b"maildropd: write failed\n"), words)


@COMMAND_LINE.test
def a_mailbox_that_cannot_be_read(fixture):
    ran = fixture.run("lone", "--user", "alice", "--secret", "s", "--mbox", "absent")
    expect_equal((ran.status, ran.output, ran.errors), (1, b"", b"maildropd: read failed\nmaildropd: cannot read absent: no such file\n"), "lone --mbox absent")
