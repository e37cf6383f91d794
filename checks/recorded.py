"""Records what a process does with the files of a folder, by `strace`, and makes the disks that a power cut may leave of it.

A recording is a row of calls. A cut is a place in it: all calls that began before may have reached the disk, at once or in parts.
What is sure is what a file had when a sync of it began which has ended before the cut, and the names that the folder had when a
sync of it began which has ended. An answer that was sent after call n rests on calls up to n."""

import os
import re
import time

from serving import spawned, until

SECTOR, LONGEST_ATTACHING = 512, 20
CHANGES = "openat,open,creat,write,pwrite64,writev,ftruncate,rename,renameat,renameat2,unlink,unlinkat,link,linkat".split(",")
CALLS = ",".join([*CHANGES, "close", "fdatasync", "fsync", "sendto"])
TEXT = r'"((?:\\x[0-9a-f]{2})*)"(?:\.\.\.)?'


def tracer(path, *options):
    """The words before a command which is recorded in a file. The command is the process that starts, and the tracer its child."""
    return ["strace", "-D", "-qq", "--seccomp-bpf", "-f", "-yy", "-xx", "-s", "4194304", "-ttt", "-o", path, "-e", f"trace={CALLS}", *options]


def delayer(path, microseconds):
    """The words before a command whose syncs take so long."""
    return ["strace", "-D", "-qq", "--seccomp-bpf", "-f", "-o", path, "-e", "trace=fdatasync", "-e", f"inject=fdatasync:delay_enter={microseconds}"]


def attached(process, path, traces, fault, paths=()):
    """Attaches a recorder or injector to a process that runs, for all calls, or those on these paths, and returns once it is there.
    It ends with the process."""
    said = f"{path}.said"
    words = ["strace", "--quiet=path-resolution,exit", "-f", "-o", path, "-e", traces, *(word for it in paths for word in ("-P", it))]
    with open(said, "wb") as it:
        spawned([*words, *(["-e", fault] if fault else []), "-p", str(process.pid)], stderr=it, stdout=it)

    def is_attached():
        with open(said, encoding="utf-8") as it:
            return re.search(rf"Process {process.pid} attached", it.read())

    until(is_attached, LONGEST_ATTACHING, "strace doesn't attach")


def decoded(text):
    return bytes.fromhex(text.replace("\\x", ""))


class Call:
    """A call: its name, the text of its arguments and its result, when it began, and the places in the recording where it began
    and ended. A call that has not ended has no result."""

    def __init__(self, name, text, moment, begin, end):
        self.name, self.moment, self.begin, self.end = name, moment, begin, end
        front, found, result = text.rpartition(" = ")
        self.text = front if found else text
        number = re.match(r"-?\d+", result)
        self.result = int(number[0]) if number and found else None

    def descriptor(self):
        """The number of the descriptor that is its first argument."""
        found = re.match(r"(\d+)<", self.text)
        return int(found[1]) if found else None

    def bytes(self):
        return [decoded(it) for it in re.findall(TEXT, self.text)]

    def paths(self):
        """Absolute paths of the names that it has."""
        folder = re.search(r"<((?:\\x[0-9a-f]{2})+)>, \"", self.text)
        base = decoded(folder[1]).decode() if folder else "/"
        return [os.path.normpath(os.path.join(base, it.decode(errors="replace"))) for it in self.bytes()]

    def peer(self):
        """The port of the other side of the connection that it writes to."""
        port = re.search(r"->127\.0\.0\.1:(\d+)\]>", self.text.split(", ", 1)[0])
        return int(port[1]) if port else None


def calls_of(path, first=0):
    """The calls of a recording, whose first line has this place, and the place after the last one."""
    begun, calls, place = {}, [], first
    with open(path, encoding="ascii") as it:
        for place, line in enumerate(it, first):
            found = re.match(r"(\d+) +(\d+\.\d+) (.*)$", line)
            if not found:
                continue
            thread, moment, text = found[1], float(found[2]), found[3]
            if resumed := re.match(r"<\.\.\. (\w+) resumed>(.*)$", text):
                name, front, moment, begin = begun.pop(thread)
                calls.append(Call(name, front + resumed[2], moment, begin, place))
            elif called := re.match(r"(\w+)\((.*)$", text):
                if called[2].endswith(" <unfinished ...>"):
                    begun[thread] = called[1], called[2].removesuffix(" <unfinished ...>"), moment, place
                else:
                    calls.append(Call(called[1], called[2], moment, place, place))
    calls += [Call(name, text, moment, begin, None) for name, text, moment, begin in begun.values()]
    return sorted(calls, key=lambda call: call.begin), place + 1


def wait_for_recording(path, process):
    """Waits until the recorder has written the end of a process that has ended."""
    for _ in range(2000):
        if not any(os.path.exists(f"/proc/{pid}") for pid in tracers_of(path)):
            return
        time.sleep(0.005)
    raise RuntimeError(f"the recorder of process {process.pid} doesn't end")


def tracers_of(path):
    found = []
    for pid in filter(str.isdigit, os.listdir("/proc")):
        try:
            with open(f"/proc/{pid}/cmdline", "rb") as it:
                words = it.read().split(b"\0")
        except OSError:
            continue
        if words[0] == b"strace" and path.encode() in words:
            found.append(pid)
    return found


class File:
    """A file: what it has at first, which is on the disk, its changes, and when its syncs began and ended. A change is a writing
    of bytes at a place, or a new size without bytes."""

    def __init__(self, text=b""):
        self.text, self.changes, self.syncs, self.size = text, [], [], len(text)

    def write(self, call, at, text):
        self.changes.append((call, at, text))
        self.size = max(self.size, at + len(text))

    def resize(self, call, size):
        self.changes.append((call, size, None))
        self.size = size

    def versions(self, cut):
        """What is surely on the disk at a cut, and then what the file has after each further change that began before."""
        sure = max((begin for begin, end in self.syncs if end is not None and end <= cut), default=-1)
        versions, text = [], bytearray(self.text)
        synced = [it for it in self.changes if it[0].end is not None and it[0].end <= sure]
        later = [it for it in self.changes if it not in synced and it[0].begin <= cut]
        for change in synced:
            changed(text, change)
        versions.append(bytes(text))
        for change in later:
            changed(text, change)
            versions.append(bytes(text))
        return versions


def changed(text, change):
    _, at, new = change
    if new is None:
        text[at:] = b"" if at < len(text) else bytes(at - len(text))
        return
    text.extend(bytes(max(0, at - len(text))))
    text[at : at + len(new)] = new


class Disk:
    """The files of a folder. What it has at first is on the disk. Bytes that earlier power cuts have lost are stale: they may come
    back where nothing was synced since."""

    def __init__(self, data, files, stale=()):
        self.data, self.stale = os.path.abspath(data), list(stale)
        self.first = {name: File(text) for name, text in files.items()}
        # By name now; and by name on the disk, with the changes of names and the syncs of the folder that came since.
        self.names, self.moves, self.syncs = dict(self.first), [], []
        self.open, self.opened = {}, {}

    def name_of(self, path):
        folder, name = os.path.split(path)
        return name if folder == self.data else None

    def begin_process(self):
        self.open, self.opened = {}, {}

    def take(self, call):
        """A call that was made, or that a killed process had begun."""
        if call.result is not None and call.result < 0:
            return
        if call.name in ("openat", "open", "creat"):
            self.opens(call)
        elif call.name == "close":
            self.open.pop(call.descriptor(), None)
        elif call.name in ("write", "pwrite64", "writev", "ftruncate"):
            self.writes(call)
        elif call.name in ("fdatasync", "fsync") and call.result == 0:
            self.sync(call)
        elif call.name in CHANGES:
            self.moves_name(call)

    def opens(self, call):
        path = call.paths()[0] if call.paths() else ""
        self.open.pop(call.result, None)
        if path == self.data:
            self.open[call.result] = None
            return
        name = self.name_of(path)
        if name is None or (name not in self.names and "O_CREAT" not in call.text):
            return
        if name not in self.names:
            self.names[name] = File()
            self.moves.append((call, "link", name, self.names[name]))
        file = self.names[name]
        if "O_TRUNC" in call.text and file.size:
            file.resize(call, 0)
        self.open[call.result] = [file, 0, "O_APPEND" in call.text]

    def writes(self, call):
        found = self.open.get(call.descriptor())
        if not found:
            return
        file, at, appends = found
        if call.name == "ftruncate":
            file.resize(call, int(call.text.rsplit(", ", 1)[1].rstrip(")")))
            return
        text = b"".join(call.bytes())
        count = len(text) if call.result is None else call.result
        numbers = call.text.rstrip(")").rsplit(", ", 1)
        at = int(numbers[1]) if call.name == "pwrite64" else file.size if appends else at
        if count:
            file.write(call, at, text[:count])
        if call.name != "pwrite64":
            found[1] = at + count

    def sync(self, call):
        number = call.descriptor()
        if number in self.open:
            found = self.open[number]
            (found[0].syncs if found else self.syncs).append((call.begin, call.end))

    def moves_name(self, call):
        names = [self.name_of(path) for path in call.paths()]
        if call.name.startswith("unlink") and names[0] in self.names:
            self.moves.append((call, "unlink", names[0], self.names.pop(names[0])))
        elif call.name.startswith("rename") and names[0] in self.names:
            file = self.names.pop(names[0])
            if names[1] is not None:
                self.names[names[1]] = file
                self.moves.append((call, "rename", names, file))
            else:
                self.moves.append((call, "unlink", names[0], file))
        elif call.name.startswith("link") and names[0] in self.names and names[1] is not None:
            self.names[names[1]] = self.names[names[0]]
            self.moves.append((call, "link", names[1], self.names[names[1]]))

    def settle(self, found):
        """A process was killed, and these are the folder's files now. Calls that it had begun may have come to nothing, or to a part."""
        for name, file in self.names.items():
            call, at, text = file.changes[-1] if file.changes else (None, 0, None)
            if call and call.result is None and text and name in found and len(found[name]) < file.size:
                file.changes[-1] = call, at, text[: max(0, len(found[name]) - at)]
                file.size = len(found[name])
        for call, what, name, file in [it for it in self.moves if it[0].result is None]:
            old, new = name if what == "rename" else (name, None) if what == "unlink" else (None, name)
            if (old in found or old is None) and (new not in found or new is None):
                self.moves.remove((call, what, name, file))
                self.names.pop(new, None)
                if old:
                    self.names[old] = file

    def entries(self, cut, rng, keeps=None):
        """The files by name at a cut. Of the names' changes that weren't synced some are there: all, none, the first ones, or any."""
        sure = max((begin for begin, end in self.syncs if end is not None and end <= cut), default=-1)
        names = dict(self.first)
        synced = [it for it in self.moves if it[0].end is not None and it[0].end <= sure]
        later = [it for it in self.moves if it not in synced and it[0].begin <= cut]
        kind = keeps or rng.choice(("all", "none", "first", "any"))
        count = {"all": len(later), "none": 0}.get(kind, rng.randrange(len(later) + 1))
        kept = [it for number, it in enumerate(later) if (rng.random() < 0.5 if kind == "any" else number < count)]
        for _, what, name, file in [*synced, *kept]:
            if what == "link":
                names[name] = file
            elif what == "unlink" and names.get(name) is file:
                del names[name]
            elif what == "rename":
                if names.get(name[0]) is file:
                    del names[name[0]]
                names[name[1]] = file
        return names

    def unsure(self):
        """From which places of the recording up to which something isn't surely on the disk, and how many bytes that are: none, if it
        is a name."""
        spans = []
        files = {id(file): file for file in [*self.first.values(), *self.names.values(), *(it[3] for it in self.moves)]}.values()
        for changes, syncs in [(file.changes, file.syncs) for file in files] + [(self.moves, self.syncs)]:
            for call, _, text, *_ in changes:
                done = [end for begin, end in syncs if call.end is not None and begin >= call.end and end is not None]
                spans.append((call.begin, min(done, default=None), len(text) if isinstance(text, bytes) else 0))
        return spans

    def now(self, cut):
        """What a process that starts now finds, if the power stays."""
        return {name: file.versions(cut)[-1] for name, file in self.names.items()}

    def left(self, cut, rng):
        """The files that a power cut leaves."""
        stale = [*self.stale, *((name, 0, file.versions(cut)[-1]) for name, file in {**self.first, **self.names}.items())]
        names = self.entries(cut, rng)
        return {name: left_of(name, names[name].versions(cut), stale, rng) for name in sorted(names)}


def sectors_of(versions):
    """The sectors in which the last version or one before differs from what is sure."""
    most, sure = max(map(len, versions)), versions[0]
    touched = []
    for at in range(0, most, SECTOR):
        part = sure[at : at + SECTOR]
        if any(it[at : at + SECTOR] != part for it in versions[1:]):
            touched.append(at)
    return touched


def sector_left(name, versions, at, stale, rng):
    """What a sector has that wasn't synced: some version of it, zeros, or old bytes of this place or another one."""
    kind = rng.randrange(8)
    if kind < 3:
        part = versions[-1][at : at + SECTOR]
    elif kind < 5:
        part = rng.choice(versions)[at : at + SECTOR]
    elif kind == 5:
        part = b""
    else:
        part = old_bytes(name, at, stale, rng)
    return part + bytes(SECTOR - len(part))


def old_bytes(name, at, stale, rng):
    here = [text[at - start : at - start + SECTOR] for stale_name, start, text in stale if stale_name == name and start <= at < start + len(text)]
    if here and rng.random() < 0.7:
        return rng.choice(here)
    _, _, text = rng.choice(stale) if stale else ("", 0, b"")
    place = rng.randrange(0, max(1, len(text)))
    return text[place // SECTOR * SECTOR :][:SECTOR] if rng.random() < 0.7 else text[place : place + SECTOR]


def left_of(name, versions, stale, rng):
    """What a power cut leaves of a file: what is sure stays."""
    sure, last = versions[0], versions[-1]
    kind = rng.choice(("all", "none", "front", "sectors", "sectors", "sectors", "sectors"))
    if kind == "none" or len(versions) == 1:
        return sure
    if kind == "all":
        return last
    sizes = sorted(map(len, versions))
    if kind == "front":
        return last[: rng.randrange(min(len(sure), len(last)), len(last) + 1)]
    text = bytearray(last) + bytes(sizes[-1] - len(last))
    for at in sectors_of(versions):
        text[at : at + SECTOR] = sector_left(name, versions, at, stale, rng)[: len(text) - at]
    # Appended bytes leave those before them as they are, also in their first sector.
    shared = len(os.path.commonprefix([sure, *versions]))
    text[:shared] = sure[:shared]
    size = rng.choice((sizes[-1], sizes[-1], rng.randrange(sizes[0], sizes[-1] + 1), rng.randrange(sizes[0], sizes[-1] + 1) // SECTOR * SECTOR))
    return bytes(text[: max(size, shared)])
