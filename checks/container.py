"""A container whose process 1 is systemd, over a layer of this system that is thrown away. What ends the script, also an interruption, ends the
container, and its mounts with it. If the script is killed, an empty cgroup stays.

It needs root, `unshare`, `nsenter`, `setpriv`, overlayfs, and a writable hierarchy of cgroups of version 2, which may be beside those of version 1.
The kernel is that of this system, so the container can't change its settings, modules and clock. There is no udev and no console, and the network has only
a loopback. Where a controller such as `pids` is in a hierarchy of version 1, limits such as TasksMax have no effect.
"""

import contextlib
import os
import re
import shutil
import subprocess

from serving import PATIENCE, Failed, check, ended, spawned, until

SYSTEMD = "/lib/systemd/systemd"
PATH = "/usr/local/sbin:/usr/local/bin:/usr/sbin:/usr/bin:/sbin:/bin"
# Makes the layer, with the file $1 as /package.deb, in the folder $2, and has BOOT, which is $4, begin a container in the cgroup $3, and again after each
# `systemctl reboot`. Nothing is enabled or mounted there but what BOOT mounts. Images for containers may forbid dpkg to start services: not here.
LAYER = r"""
mount -t tmpfs none "$2"
mkdir "$2/upper" "$2/work" "$2/root"
mount -t overlay none -o "lowerdir=/,upperdir=$2/upper,workdir=$2/work" "$2/root"
cp "$1" "$2/root/package.deb"
cd "$2/root"
rm -rf etc/systemd/system etc/rc?.d etc/fstab usr/sbin/policy-rc.d
mkdir -p etc/systemd/system var/log/journal
echo 0123456789abcdef0123456789abcdef >etc/machine-id
begin='echo 0 >"$3/cgroup.procs" && exec unshare --cgroup sh -euc "$4" sh "$2/root"'
# (reboot ends process 1 by SIGHUP)
while
    unshare --mount --pid --fork --net --uts --ipc sh -euc "$begin" sh "$@"
    [ $? -eq 129 ]
do :; done
"""
# Becomes the systemd of a container whose root is $1.
BOOT = rf"""
cd "$1"
mount -t proc proc proc
for it in proc/sys $(ls -d proc/sysrq-trigger || :); do
    mount --bind $it $it
    mount -o remount,bind,ro $it
done
mount -t sysfs -o ro sysfs sys
mount -t cgroup2 cgroup2 sys/fs/cgroup
mount -t tmpfs -o mode=755 tmpfs dev
for it in null zero full random urandom tty; do
    : >dev/$it
    mount --bind /dev/$it dev/$it
done
mkdir dev/pts dev/shm
mount -t devpts -o newinstance,ptmxmode=666,mode=620 devpts dev/pts
ln -s pts/ptmx dev/ptmx
mount -t tmpfs -o mode=755 tmpfs run
mount -t tmpfs tmpfs tmp
pivot_root . .
umount -l .
exec env -i container=other PATH={PATH} setpriv --bounding-set=-sys_module,-sys_rawio,-sys_time {SYSTEMD}
"""


def text_of(path):
    """The text of a file, or none if it can't be read."""
    with contextlib.suppress(OSError), open(path, encoding="utf-8", errors="replace") as it:
        return it.read()
    return ""


def place_of_groups():
    """Where the hierarchy of cgroups of version 2 is, if there is one."""
    return next((line.split()[1] for line in text_of("/proc/mounts").splitlines() if line.split()[2] == "cgroup2"), None)


def missing():
    """What this machine lacks for a container, as far as one sees before."""
    if os.geteuid():
        return "root"
    place = place_of_groups()
    if not place or not os.access(place, os.W_OK):
        return "cgroups of version 2"
    return next((it for it in (SYSTEMD, "unshare", "nsenter", "setpriv") if not shutil.which(it)), "")


class Unbooted(Failed):
    """No systemd boots here."""


class Container:
    """One that is booted. Its processes are in a cgroup, but for those of `run`."""

    def __init__(self, group, process):
        self.group, self.process = group, process

    def first(self):
        """Its process 1, by its id in this system."""
        processes = text_of(f"{self.group}/init.scope/cgroup.procs").split()
        return next((it for it in processes if re.search(r"^NSpid:.*\t1$", text_of(f"/proc/{it}/status"), re.MULTILINE)), None)

    def run(self, *words):
        """Runs a command in it, for three times the usual patience at most."""
        words = ["timeout", "--kill-after=1", str(3 * PATIENCE), "nsenter", "-t", self.first() or "none", "-a", *words]
        return subprocess.run(words, stdin=subprocess.DEVNULL, capture_output=True, text=True, env={"PATH": PATH, "LC_ALL": "C"})

    def is_up(self, last=None):
        """Whether another process 1 than the last one has started all that it should, or has tried to."""
        check(self.process.poll() is None, f"it has ended with {self.process.returncode}")
        return self.first() not in (None, last) and self.run("systemctl", "is-system-running", "--wait").stdout in ("running\n", "degraded\n")

    def reboot(self):
        last = self.first()
        self.run("systemctl", "reboot")
        until(lambda: self.is_up(last), PATIENCE, "it isn't up again")


@contextlib.contextmanager
def new_group(name):
    """A cgroup, which is removed once its processes have ended."""
    group = f"{place_of_groups()}/{name}"
    try:
        os.mkdir(group)
    except OSError as error:
        raise Unbooted(str(error)) from error
    try:
        yield group
    finally:
        until(lambda: "populated 0" in text_of(f"{group}/cgroup.events"), PATIENCE, f"{group} has processes")
        for folder, _, _ in os.walk(group, topdown=False):
            os.rmdir(folder)


@contextlib.contextmanager
def container(room, file):
    """Boots one, with a file as /package.deb. The room is an empty folder, whose name its cgroup has."""
    os.mkdir(f"{room}/layer")
    with new_group(os.path.basename(room)) as group, open(f"{room}/said", "wb") as said:
        words = ["setpriv", "--pdeathsig", "KILL", "unshare", "--mount", "--pid", "--fork", "--kill-child"]
        words += ["sh", "-euc", LAYER, "sh", file, f"{room}/layer", group, BOOT]
        it = Container(group, spawned(words, stdin=subprocess.DEVNULL, stdout=said, stderr=said, start_new_session=True))
        try:
            try:
                until(it.is_up, PATIENCE, "it isn't up")
            except Failed as error:
                raise Unbooted(f"{error}; {text_of(said.name)[-400:]}") from error
            yield it
        finally:
            it.process.kill()
            ended(it.process)
