"""Options in a file (`serve --config`), and starts that are only tried (`serve --check`)."""

import hashlib
import json
import os
import re

from tests.expectations import expect, expect_equal, first_line
from tests.groups import Group
from tests.serve_data import begun, changed, newest
from tests.serve_starts import EDGES, NODES, PEER_PORTS, REASONS
from tests.services import ACCOUNTS, Service, serve

CONFIG = Group("config")
GROUPS = [CONFIG]

EXAMPLE = os.path.join(os.path.dirname(os.path.dirname(os.path.abspath(__file__))), "contrib", "maildropd.toml")
MEBIBYTE = 1 << 20

# Files, each with the second line on standard error after the file's name. The first is `maildropd: bad value`, the status is 2.
MISTAKES = [
    ("tick-ms = 20\n\n# ticks\ntick = 20\n", "line 4: no such option: tick"),
    ("--tick-ms = 20\n", "line 1: no such option: --tick-ms"),
    ("Tick-ms = 20\n", "line 1: no such option: Tick-ms"),
    ("tick_ms = 20\n", "line 1: no such option: tick_ms"),
    ("[serve]\ntick-ms = 20\n", "line 1: no such option: serve"),
    ("a.tick-ms = 20\n", "line 1: no such option: a"),
    ("config = 'other.toml'\n", "line 1: no such option: config"),
    ("check = true\n", "line 1: no such option: check"),
    ("tick-ms = 20\nnodes = 3\ntick-ms = 20\n", "line 3: tick-ms twice"),
    ("\"tick-ms\" = 20\r\ntick-ms = 30\r\n", "line 2: tick-ms twice"),
    ("nodes = 3\naccounts = true\n", "line 2: a value is a number or a text"),
    ("nodes = 3.0\n", "line 1: a value is a number or a text"),
    ("nodes = [3]\n", "line 1: a value is a number or a text"),
    ("nodes = { low = 3 }\n", "line 1: a value is a number or a text"),
    ("nodes = 2026-12-01\n", "line 1: a value is a number or a text"),
    ("nodes.low = 3\n", "line 1: a value is a number or a text"),
    ("nodes = 'three'\n", "line 1: nodes is a number from 0 to 18446744073709551615"),
    ("nodes = ''\n", "line 1: nodes is a number from 0 to 18446744073709551615"),
    ("nodes = -1\n", "line 1: nodes is a number from 0 to 18446744073709551615"),
    ("ids = '18446744073709551616'\n", "line 1: ids is a number from 0 to 18446744073709551615"),
    ("ids = 9223372036854775808\n", "line 1: not TOML"),
    ("nodes 3\n", "line 1: not TOML"),
    ("nodes =\n", "line 1: not TOML"),
    ("nodes = three\n", "line 1: not TOML"),
    ("nodes = 3 tick-ms = 20\n", "line 1: not TOML"),
    ("# mail\nhost = 'mail.test\n", "line 2: not TOML"),
    ("host = '''\nmail.test'''\n", "line 1: not TOML"),
    (b"nodes = 3\nhost = '\xff'\n", "line 2: not TOML"),
    (b"#" * (MEBIBYTE + 1), "has over 1048576 bytes"),
]

# What `--check` prints of a service with three options in a file and one on the command line, which the others' defaults follow.
THREE_OPTIONS = "accounts = 'accounts'\n# Node 2 leads soon.\ntick-ms = 20\nctl-port = 11_999\n"
SETTINGS = """\
accounts accounts, settings.toml:1
port 11000, command line
listen 127.0.0.1, default
ctl-port 11999, settings.toml:4
host localhost, default
nodes 3, default
window 10, default
tick-ms 20, settings.toml:3
messages 10000, default
octets 50000000, default
ids 1000000000, default
idle-seconds 600, default
no-majority-seconds 30, default
delivery-bytes 1073741824, default
epoch-sessions 20000, default
epoch-bytes 268435456, default
keys 10000, default
on-fault stop, default
"""
# Enough for a start.
PLACES = ("--accounts", "accounts", "--port", "11000", "--ctl-port", "11999")


class ConfiguredService(Service):
    """A service that finds its options in a file, but for these words."""

    def __init__(self, fixture, *words, **options):
        self.more = words
        super().__init__(fixture, **options)

    def words(self, given):
        lines = [f"{name} = {json.dumps(value)}\n" for name, value in given.items() if value is not None]
        return ["--config", self.fixture.file("settings.toml", "".join(lines)), *self.more]


def status_lines(service):
    return service.ctl("status").output.count(b"\n") - 1


def expect_check(fixture, words, settings=None, status=0, errors=b""):
    """`serve --check` prints these settings, if they are given, and ends so."""
    ran = fixture.run("serve", "--check", *words)
    expect_equal((ran.status, ran.errors), (status, errors), words)
    if settings is not None:
        expect_equal(ran.output.decode(), settings, words)
    return ran.output.decode().split("\n")


def sums(folder):
    """The names, sizes, times and sums of the files of a folder."""
    found = {}
    for name in sorted(os.listdir(folder)):
        path = os.path.join(folder, name)
        with open(path, "rb") as it:
            found[name] = (os.path.getsize(path), os.stat(path).st_mtime_ns, hashlib.sha256(it.read()).hexdigest())
    return found, os.stat(folder).st_mtime_ns


@CONFIG.test
def a_file_has_all_options(fixture):
    """A service that is started by --config alone: it has two nodes and its host."""
    service = ConfiguredService(fixture, nodes=2, host="mail.test").begin()
    expect_equal(status_lines(service), 2, "nodes")
    greeting = fixture.connect(service.node(1)).read_line()
    expect(greeting.endswith(b".1@mail.test>\r\n"), f"{greeting!r}")
    service.ctl("stop", "now")
    service.expect_end(b"audit ok\n")


@CONFIG.test
def the_command_line_wins(fixture):
    for words in (("--nodes", "1"), ("--nodes=1",)):
        service = ConfiguredService(fixture, *words, nodes=3).begin()
        expect_equal(status_lines(service), 1, words)
        service.stop()


@CONFIG.test
def files_that_are_refused(fixture):
    for content, text in MISTAKES:
        fixture.file("settings.toml", content)
        for words in (PLACES, ("--check", *PLACES)):
            ran = fixture.run("serve", *words, "--config", "settings.toml")
            errors = f"maildropd: bad value\nmaildropd: settings.toml {text}\n".encode()
            expect_equal((ran.status, ran.output, ran.errors), (2, b"", errors), content[:60])


@CONFIG.test
def files_that_cannot_be_read(fixture):
    os.mkdir(fixture.path("folder"))
    for name, reason in (("absent", "no such file"), ("folder", "it is a folder"), ("absent/a", "no such file")):
        ran = fixture.run("serve", *PLACES, f"--config={name}")
        errors = f"maildropd: read failed\nmaildropd: cannot read {name}: {reason}\n".encode()
        expect_equal((ran.status, ran.output, ran.errors), (1, b"", errors), name)


@CONFIG.test
def words_beside_a_file(fixture):
    """Those that are refused are refused as ever, and no file is read for them, nor for a word that only looks like the option."""
    fixture.file("settings.toml", "nodes = 3\n")
    fixture.file("accounts", ACCOUNTS)
    for words, part in [
        (["--config"], "--config <FILE>"),
        (["--config", "settings.toml"], "--accounts <FILE>"),
        (["--config", "settings.toml", "--config", "settings.toml"], "--config <FILE>"),
        (["--config", "settings.toml", "--halt"], "--halt"),
        ([*PLACES, "--", "--config", "absent"], "--config"),
    ]:
        ran = fixture.run("serve", *words)
        expect((ran.status, ran.output) == (2, b"") and part.encode() in ran.errors, f"{words}: status {ran.status}, {ran.errors!r}")
    lines = expect_check(fixture, ["--log", "--config", *PLACES])
    expect("log --config, command line" in lines, f"{lines}")
    expect_check(fixture, ["--config", "settings.toml", *PLACES, "--"])


@CONFIG.test
def files_that_are_taken(fixture):
    """Line ends, comments, a byte order mark, quotes, hyphens, large numbers, and 1 MiB."""
    fixture.file("accounts", ACCOUNTS)
    for content, setting in [
        ("", "nodes 3, default"),
        ("nodes = 5", "nodes 5, settings.toml:1"),
        ("\r\nnodes = 5 # five\r\n", "nodes 5, settings.toml:2"),
        (b"\xef\xbb\xbfnodes = 5\n", "nodes 5, settings.toml:1"),
        ("'nodes' = '5'\n", "nodes 5, settings.toml:1"),
        ("nodes = 0x5\n", "nodes 5, settings.toml:1"),
        ("ids = '9223372036854775808'\n", "ids 9223372036854775808, settings.toml:1"),
        ("log = '-'\n", "log -, settings.toml:1"),
        ("log = '--check'\n", "log --check, settings.toml:1"),
        ("log = '=a b'\n", "log =a b, settings.toml:1"),
        ("host = \"mail\\u002etest\"\n", "host mail.test, settings.toml:1"),
        ("host = 5\n", "host 5, settings.toml:1"),
        (b"#" * (MEBIBYTE - 10) + b"\nnodes = 5", "nodes 5, settings.toml:2"),
    ]:
        fixture.file("settings.toml", content)
        lines = expect_check(fixture, [*PLACES, "--config", "settings.toml"])
        expect(setting in lines, f"{content[:60]!r}: {lines}")


@CONFIG.test
def settings_and_where_they_came_from(fixture):
    fixture.file("accounts", ACCOUNTS)
    fixture.file("settings.toml", THREE_OPTIONS)
    expect_check(fixture, ["--config", "settings.toml", "--port", "11000"], SETTINGS)
    wins = SETTINGS.replace("tick-ms 20, settings.toml:3", "tick-ms 30, command line")
    expect_check(fixture, ["--tick-ms=30", "--port", "11000", "--config", "settings.toml"], wins)
    folder = begun(fixture)
    ends = f"data {folder}, command line\nsync disk, default\nkeep 2, default\n"
    expect_check(fixture, ["--data", folder, "--config", "settings.toml", "--port", "11000"], SETTINGS + ends)


@CONFIG.test
def a_check_refuses_what_a_start_refuses(fixture):
    """Options at the ends of their ranges, as `starts` has them. The accounts file isn't there: a good value brings the status 1."""
    places = {"accounts": "absent", "nodes": 3, "pop-port": 10_000, "ctl-port": 10_009}
    cases = [({name: value}, status) for name, value, status in EDGES]
    cases = [({"pop-port": None, "port": 10_000, **it} if {"port", "listen"} & set(it) else it, status) for it, status in cases]
    cases += [({"pop-port": None}, 2), ({"ctl-port": None}, 2)]
    cases += [({"nodes": nodes, "peer-port": port}, status) for nodes, port, status in PEER_PORTS]
    cases += [({"nodes": nodes, "peer-port": port, "node": node}, status) for nodes, port, node, status in NODES]
    for options, status in cases:
        given = {**places, **options}
        words = [word for name, value in given.items() if value is not None for word in (f"--{name}", str(value))]
        ran = fixture.run("serve", "--check", *words)
        expect_equal((ran.status, first_line(ran.errors)), (status, REASONS[status]), words)
        # Which mistake that is `mistakes` has.
        expect_equal(ran.errors.count(b"\n"), 2, words)
        expect(ran.output.startswith(b"accounts absent, command line\n"), f"{options}: {ran.output!r}")


@CONFIG.test
def a_check_reads_the_accounts(fixture):
    for accounts, status, text in [
        ("alice pass s3\n", 0, b""),
        ("alice pass s3\nbob\n", 2, b"maildropd: accounts line 2\nmaildropd: accounts line 2: a line is NAME METHOD SECRET, with one space between\n"),
        ("alice pass s3\nalice apop s4\n", 2, b"maildropd: accounts line 2: name twice\n"),
        ("\n" * ((64 << 20) + 1), 2, b"maildropd: bad value\nmaildropd: the accounts file has more than 64 MiB\n"),
    ]:
        fixture.file("accounts", accounts)
        expect_check(fixture, PLACES, None, status, text)


@CONFIG.test
def a_check_looks_for_marks(fixture):
    os.mkdir(fixture.path("marks"))
    fixture.file("accounts", ACCOUNTS)
    fixture.file("marks/2", b"")
    for node, folder, status, text in [
        ("1", "marks", 0, b""),
        ("2", "marks", 2, b"maildropd: node 2 was started before\n"),
        ("1", "absent", 1, b"maildropd: cannot make the node's mark\nmaildropd: no file can be made in absent\n"),
    ]:
        expect_check(fixture, [*PLACES, "--peer-port", "12000", "--node", node, "--mark", folder], None, status, text)
    expect_equal(os.listdir(fixture.path("marks")), ["2"], "marks")


@CONFIG.test
def a_check_takes_nothing(fixture):
    """A port that is in use, a log, and a socket: none of them is touched."""
    fixture.file("accounts", ACCOUNTS)
    port = fixture.ports()
    fixture.listen(port)
    expect_check(fixture, ["--accounts", "accounts", "--port", str(port), "--ctl-socket", "ctl", "--log", "log"])
    expect_equal(sorted(os.listdir(fixture.folder)), ["accounts"], "files")


@CONFIG.test
def a_check_that_cannot_be_printed(fixture):
    fixture.file("accounts", ACCOUNTS)
    with open("/dev/full", "wb") as full:
        ran = fixture.run("serve", "--check", *PLACES, stdout=full)
    expect_equal((ran.status, ran.errors), (1, b"maildropd: write failed\n"), "--check")


@CONFIG.test
def a_check_beside_a_service(fixture):
    """The folder stays as it is, while it is served and after an orderly end, and the service goes on."""
    folder = begun(fixture)
    service = serve(fixture, data=folder)
    service.expect_ctl("put 1 alice", "op alice 1/1 stored 1\nend\n")
    fixture.file("accounts", ACCOUNTS)
    before = sums(folder)
    expect_check(fixture, [*PLACES, "--data", folder])
    expect_equal(sums(folder), before, "the folder of a service")
    service.expect_ctl("put 1 alice", "op alice 1/2 stored 2\nend\n")
    service.stop()
    before = sums(folder)
    expect("clean" in before[0], f"{before}")
    expect_check(fixture, [*PLACES, "--data", folder])
    expect_equal(sums(folder), before, "a folder at rest")


@CONFIG.test
def a_check_reads_the_data_folder(fixture):
    fixture.file("accounts", ACCOUNTS)
    absent = fixture.path("absent")
    errors = f"maildropd: {absent} was not begun\nmaildropd: make it once: maildropd begin --data {absent}\n".encode()
    expect_check(fixture, [*PLACES, "--data", absent], None, 1, errors)
    expect(not os.path.exists(absent), "a folder was made")
    folder = begun(fixture)
    expect_check(fixture, [*PLACES, "--data", folder])
    changed(newest(folder), 0)
    before = sums(folder)
    errors = f"maildropd: {newest(folder)} is damaged at byte 0\n".encode()
    lines = expect_check(fixture, [*PLACES, "--data", folder], None, 1, errors)
    expect_equal(lines[0], "accounts accounts, command line", "settings before the fault")
    expect_equal(sums(folder), before, "a damaged folder")


def example_settings():
    """The settings of the example, each a name and a value."""
    with open(EXAMPLE, encoding="utf-8") as it:
        return re.findall(r"^#([a-z-]+) = (.*)$", it.read(), re.MULTILINE)


@CONFIG.test
def the_example_has_each_option(fixture):
    """contrib/maildropd.toml has the options of `serve --help` in its order, each with its default."""
    shown = fixture.run("serve", "--help").output.decode()
    options = [name for name in re.findall(r"^ +--([a-z-]+) <", shown, re.MULTILINE) if name != "config"]
    expect_equal([name for name, _ in example_settings()], options, "options")
    for name, value in example_settings():
        default = re.search(rf"^ +--{name} <.*\[default: (.*)\]$", shown, re.MULTILINE)
        if default:
            expect_equal(value.strip('"'), default[1], name)


@CONFIG.test
def the_example_is_taken(fixture):
    """All of its lines at once, but for those that exclude one another, and with paths of the test's own."""
    paths = {"accounts": fixture.file("accounts", ACCOUNTS), "data": begun(fixture), "log": fixture.path("log")}
    lines = [
        f"{name} = {json.dumps(paths[name]) if name in paths else value}\n" for name, value in example_settings()
        if name not in ("ctl-socket", "node", "mark")
    ]
    expect(len(lines) > 20, f"{lines}")
    fixture.file("settings.toml", "".join(lines))
    output = expect_check(fixture, ["--config", "settings.toml"])
    expect(all("settings.toml:" in line for line in output[:-1]) and len(output) == len(lines) + 1, f"{output}")
    fixture.file("settings.toml", open(EXAMPLE, "rb").read())
    expect_check(fixture, [*PLACES, "--config", "settings.toml"])
