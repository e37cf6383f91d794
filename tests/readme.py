"""README's story, `Crash the leader`, with other ports: each command, and what the page shows below it."""

import os
import poplib
import re
import shutil
import subprocess

from tests import processes
from tests.expectations import PATIENCE, Failed, expect, expect_equal, wait_until
from tests.groups import Group

README = Group("readme")
GROUPS = [README]

PAGE = os.path.join(os.path.dirname(os.path.dirname(os.path.abspath(__file__))), "README.md")
HEADING = "## Crash the leader\n"
# The page's ports for clients begin at 11000, and operators connect to 11999.
FIRST_PORT, OPERATOR_PORT = 11_000, 11_999
# After each command the shell prints this byte.
END = b"\x01"


def steps():
    """The commands of the story, each with the lines below it."""
    with open(PAGE, encoding="utf-8") as it:
        section = it.read().partition(HEADING)[2].partition("\n## ")[0]
    found = []
    for block in re.findall(r"(?:^    .*\n|^\n(?=    [^$]))+", section, re.MULTILINE):
        for step in re.split(r"^    \$ ", block, flags=re.MULTILINE)[1:]:
            command, _, lines = re.sub(r"^    ", "", step, flags=re.MULTILINE).partition("\n")
            found.append((command, lines))
    return found


def with_ports(command, first):
    """A command with ports of a block in place of the page's."""

    def port(match):
        number = int(match[0])
        return str(first + 10 if number == OPERATOR_PORT else first + number - FIRST_PORT)

    return re.sub(r"\b11[0-9]{3}\b", port, command)


class Shell:
    """A shell in a folder in which ./maildropd is the program."""

    def __init__(self, fixture):
        self.fixture, self.folder = fixture, fixture.subfolder()
        os.symlink(fixture.program, os.path.join(self.folder, "maildropd"))
        pipe = subprocess.PIPE
        self.process = processes.start(["sh"], stdin=pipe, stdout=pipe, stderr=subprocess.STDOUT, cwd=self.folder, bufsize=0)
        fixture.at_end(self.close)

    def close(self):
        processes.end(self.process)
        self.process.stdin.close()
        self.process.stdout.close()

    def run(self, command):
        """What a command prints."""
        self.fixture.transcript.add("$", command)
        self.process.stdin.write(f"{command}\nprintf '\\001'\n".encode())
        printed = b""
        while not printed.endswith(END):
            more = self.process.stdout.read(1 << 16)
            expect(more, f"the shell ended after {printed!r}")
            printed += more
        self.fixture.transcript.add("prints", printed[:-1])
        return printed[:-1].replace(b"\r\n", b"\n").decode()


def fetch(url):
    """What `curl -sS URL` prints, by the client of Python's library."""
    user, secret, host, port, number = re.fullmatch(r"pop3://(\w+):(\w+)@([\d.]+):(\d+)/(\d+)", url).groups()
    client = poplib.POP3(host, int(port), timeout=PATIENCE)
    try:
        client.apop(user, secret)
        lines = client.retr(int(number))[1]
        client.quit()
    finally:
        client.close()
    return b"".join(line + b"\n" for line in lines).decode()


def is_served(fixture, shell, first):
    """Whether the service answers its operator. It fails if the service can't listen."""
    printed = shell.run(":")
    expect(not printed, printed)
    return fixture.run("ctl", "--port", first + 10, "status").status == 0


def printed_by(fixture, shell, command, first):
    """What a command prints. `curl` need not be here."""
    if command.startswith("curl ") and not shutil.which("curl"):
        fixture.transcript.add("without curl:", command)
        return fetch(command.split(" ")[-1])
    if command.startswith("sleep "):
        # The page waits until the service listens.
        wait_until(lambda: is_served(fixture, shell, first), "the service answers its operator")
        return ""
    return shell.run(command)


def play(fixture, found):
    first, shell = fixture.ports(), Shell(fixture)
    for command, lines in found:
        command = with_ports(command, first)
        expect_equal(printed_by(fixture, shell, command, first), lines, command)
    shell.run("wait")
    with open(os.path.join(shell.folder, "verdict"), encoding="utf-8") as it:
        expect_equal(it.read(), "epoch 1: audit ok\naudit ok\n", "the file `verdict`")


@README.test
def crash_the_leader(fixture):
    """If another program has one of its ports, the story is played again at others."""
    found = steps()
    expect(len(found) >= 8 and sum(bool(lines) for _, lines in found) >= 5, f"the story is not in README.md any more: {found}")
    try:
        play(fixture, found)
    except Failed:
        if "cannot listen" not in fixture.transcript.text():
            raise
        play(fixture, found)
