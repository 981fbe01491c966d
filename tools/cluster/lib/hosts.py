"""Hosts of a cluster on one machine, what they send each other, and the end of all that a run started.

Where the machine lets it, a run has network, process and mount namespaces of its own, and in these each host has a network
namespace with an address, a link to one switch, and a folder that it finds as /mnt; it sees no other host's. Else a host is a
process with a folder and a loopback address of its own, and what is sent isn't counted.
"""
import contextlib
import ctypes
import importlib.util
import json
import os
import shutil
import signal
import subprocess
import sys
import tempfile
import time

UNSHARE = ["unshare", "--net", "--pid", "--fork", "--kill-child", "--mount", "--mount-proc"]
# As root of a user namespace where the caller isn't root.
AS_ROOT = [] if os.geteuid() == 0 else ["--user", "--map-root-user"]
ENTER = 'mount --bind "$1" /mnt && mount -t tmpfs none "$2" && cd /mnt && shift 2 && exec "$@"'
ROOM, IS_APART = "ITIPDESK_CLUSTER_ROOM", "ITIPDESK_CLUSTER_APART"
SWITCH = "switch"
SET_CHILD_SUBREAPER = 36


def lacking(modules, commands):
    """The line that installs what is lacking, of pairs of a name and its Debian package; None where nothing is."""
    wanted = [package for name, package in modules if importlib.util.find_spec(name) is None]
    wanted += [package for name, package in commands if shutil.which(name) is None]
    return f"apt-get install --no-install-recommends {' '.join(wanted)}" if wanted else None


def need(modules, commands):
    """Ends the script where something is lacking that it needs; with --install among its words installs it."""
    line = lacking(modules, commands)
    if line and "--install" in sys.argv:
        subprocess.run([*line.split(), "--yes"], stdout=subprocess.DEVNULL, check=True)
        importlib.invalidate_caches()
        line = lacking(modules, commands)
    if line:
        print(f"{os.path.basename(sys.argv[0])}: first run this, or call me with --install:\n    {line}")
        sys.exit(2)


def confined(main, seconds, on_loopback=False):
    """Calls main with a Network. All that it started is gone when this returns its status, or 1 after so many seconds."""
    if ROOM in os.environ:
        return main(Network(os.environ[ROOM], IS_APART in os.environ))
    adopt_orphans()
    signal.signal(signal.SIGTERM, lambda *_: sys.exit(128 + signal.SIGTERM))
    with tempfile.TemporaryDirectory(prefix="itipdesk-cluster-") as room:
        try:
            return inner(room, seconds, not on_loopback and can_be_apart())
        finally:
            end_children()


def inner(room, seconds, is_apart):
    """Runs this script once more, confined."""
    around, settings = [], {**os.environ, ROOM: room}
    if is_apart:
        around, settings = [UNSHARE[0], *AS_ROOT, *UNSHARE[1:]], {**settings, IS_APART: "1"}
    words = ["setpriv", "--pdeathsig", "KILL", *around, sys.executable, "-u", *sys.argv]
    with subprocess.Popen(words, env=settings, start_new_session=True) as ran:
        try:
            return ran.wait(seconds)
        except subprocess.TimeoutExpired:
            print(f"it had not ended after {seconds} seconds")
            return 1
        finally:
            ran.kill()


def can_be_apart():
    """Whether namespaces, links between them and mounts can be made here."""
    links = "ip link add v type veth peer name w netns a && ip link add s type bridge"
    script = f"mount -t tmpfs none /run && ip netns add a && {links} && ip netns exec a true"
    with contextlib.suppress(FileNotFoundError):
        return subprocess.run([UNSHARE[0], *AS_ROOT, *UNSHARE[1:], "sh", "-c", script], stderr=subprocess.DEVNULL).returncode == 0
    return False


def adopt_orphans():
    """Processes below this one whose parents end become its children."""
    ctypes.CDLL(None).prctl(SET_CHILD_SUBREAPER, 1, 0, 0, 0)


def children():
    """The processes whose parent is this one."""
    for name in filter(str.isdecimal, os.listdir("/proc")):
        with contextlib.suppress(FileNotFoundError, ProcessLookupError):
            with open(f"/proc/{name}/stat", encoding="utf-8", errors="replace") as file:
                if int(file.read().rpartition(")")[2].split()[1]) == os.getpid():
                    yield int(name)


def end_children():
    """Kills each process below this one, and waits for it."""
    while True:
        for pid in list(children()):
            os.kill(pid, signal.SIGKILL)
        try:
            os.waitpid(-1, 0)
        except ChildProcessError:
            return


# How long a host may take to come up, or to go down, on a machine that has other work.
PATIENCE = 300


def until(is_done, seconds=PATIENCE, pause=0.02):
    """Whether something became so within a time."""
    end = time.monotonic() + seconds
    while not is_done():
        if time.monotonic() > end:
            return False
        time.sleep(pause)
    return True


class Network:
    """The hosts of a run. The process that makes it is one of them, with an address and the folder `lead`."""

    def __init__(self, room, is_apart):
        self.room, self.is_apart, self.hosts = room, is_apart, {}
        self.lead = self.folder("lead")
        adopt_orphans()
        if is_apart:
            switch = [f"link add {SWITCH} type bridge", f"addr add {self.address(1)}/24 dev {SWITCH}", f"link set {SWITCH} up"]
            ip_words = ["link set lo up", *switch]
            subprocess.run(["mount", "-t", "tmpfs", "none", "/run"], check=True)
            for words in ip_words:
                ip(words)

    def says(self):
        """What hosts are here, in words."""
        if self.is_apart:
            return "a host is a network namespace with an address and a folder"
        return "a host is a process with a folder and a loopback address"

    def folder(self, name):
        made = os.path.join(self.room, name)
        os.makedirs(made)
        return made

    def address(self, number):
        return f"{'10' if self.is_apart else '127'}.77.0.{number}"

    def host(self, name, core=None):
        """A new host, and the core on which its processes run; on all where none is given."""
        made = Host(self, name, self.address(len(self.hosts) + 2), core)
        if self.is_apart:
            ip(f"netns add {name}")
            ip(f"link add {made.link} type veth peer name eth0 netns {name}")
            ip(f"link set {made.link} master {SWITCH} up")
            for words in f"addr add {made.address}/24 dev eth0", "link set eth0 up", "link set lo up":
                ip(f"-n {name} {words}")
        self.hosts[name] = made
        return made

    def sent(self):
        """How many bytes hosts have sent each other so far; None where it isn't counted."""
        if not self.is_apart:
            return None
        found = subprocess.run(["ip", "-s", "-j", "link"], stdout=subprocess.PIPE, check=True).stdout
        stats = {it["ifname"]: it["stats64"] for it in json.loads(found)}
        return stats[SWITCH]["tx"]["bytes"] + sum(stats[it.link]["rx"]["bytes"] for it in self.hosts.values())


class Host:
    """A host: where its processes run, and the folder that they find as theirs."""

    def __init__(self, network, name, address, core):
        self.network, self.name, self.address, self.core = network, name, address, core
        self.folder = network.folder(name)
        self.link = "v" + address.rpartition(".")[2]

    def start(self, words, log="log", **settings):
        """Starts a process in the host's folder; what it says goes to a log there."""
        around = ["setpriv", "--pdeathsig", "KILL"]
        if self.core is not None:
            around += ["taskset", "-c", str(self.core)]
        if self.network.is_apart:
            around += ["ip", "netns", "exec", self.name, "sh", "-c", ENTER, "sh", self.folder, self.network.room]
        with open(os.path.join(self.folder, log), "ab") as out:
            env = {**os.environ, "PYTHONDONTWRITEBYTECODE": "1", **settings}
            ends = {"stdin": subprocess.DEVNULL, "stdout": out, "stderr": out}
            return subprocess.Popen([*around, *words], cwd=self.folder, env=env, start_new_session=True, **ends)

    def path(self, name):
        return os.path.join(self.folder, name)


def kill(process):
    """Kills a process of a host with all that it started, by signal 9, and waits for their ends. Whether it ended by that."""
    with contextlib.suppress(ProcessLookupError):
        os.killpg(process.pid, signal.SIGKILL)
    status = process.wait()
    with contextlib.suppress(ChildProcessError):
        while True:
            os.waitpid(-process.pid, 0)
    return status == -signal.SIGKILL


def ip(words):
    subprocess.run(["ip", *words.split()], check=True)
