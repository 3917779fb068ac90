"""A Ceph cluster on this machine, for a guest: a monitor, and one OSD with its store in memory. (What an OSD stores
that is ended by SIGTERM is still there when it begins again; after SIGKILL nothing is.)

It is Debian's ceph-mon and ceph-osd, unpacked into the cache and not installed. Cluster and guest have a network
namespace of their own, so root is needed. The guest finds the monitor at ADDRESS. To port ASKED there it may send a
line, and is told what comes of it:

    signal mon|osd SIGNAL    sends this signal to the monitor or to the OSD
    start mon|osd            begins it again
    ceph|rbd|rados WORDS..   a tool of the cluster
    begin WORDS..            the same, but doesn't wait for its end; `end` kills it
"""

import contextlib
import ctypes
import os
import pathlib
import shlex
import shutil
import signal
import socketserver
import subprocess
import sys
import tempfile
import threading
import time
import uuid

sys.path.append(str(pathlib.Path(__file__).resolve().parents[2] / "kernel/lib"))
import packages  # noqa: E402  (in kernel/lib)

ADDRESS = "10.77.0.1"
ASKED = 7000
SECONDS = 240
NEW_NETWORK = 0x40000000  # CLONE_NEWNET of sched.h
# (After some seconds in which it is stopped an OSD answers nothing any more until it has its lease again.)
LIBRARIES = "usr/lib/x86_64-linux-gnu"
CONF = """\
[global]
fsid = {fsid}
mon host = [v2:{address}:3300,v1:{address}:6789]
public addr = {address}
auth cluster required = none
auth service required = none
auth client required = none
run dir = {room}
log file =
mon data = {room}/mon
mon allow pool size one = true
mon warn on pool no redundancy = false
osd data = {room}/osd
osd objectstore = memstore
memstore device bytes = 512M
osd class dir = {root}/{libraries}/rados-classes
erasure code dir = {root}/{libraries}/ceph/erasure-code
plugin dir = {root}/{libraries}/ceph
osd pool default size = 1
osd pool default min size = 1
osd crush chooseleaf type = 0
osd client watch timeout = 10
osd fast shutdown = false
osd pool default read lease ratio = 50
"""


class Failed(Exception):
    """The cluster didn't come up."""


def programs() -> pathlib.Path:
    """Where the packages are unpacked."""

    def make(place: pathlib.Path, downloads: pathlib.Path) -> None:
        names = sorted({*packages.needed_by("ceph-mon"), *packages.needed_by("ceph-osd")})
        for package in packages.fetch(names, downloads):
            packages.unpack(package, place)

    return packages.made(packages.cache() / "ceph", make)


def own_network() -> None:
    """From here on this process and its children have a network of their own."""
    libc = ctypes.CDLL(None, use_errno=True)
    if libc.unshare(NEW_NETWORK) != 0:
        raise packages.Missing(f"a network of its own: {os.strerror(ctypes.get_errno())} (root is needed)")
    busybox = packages.busybox()
    for words in (["link", "set", "lo", "up"], ["addr", "add", f"{ADDRESS}/32", "dev", "lo"]):
        subprocess.run([busybox, "ip", *words], check=True)


class Cluster:
    """A cluster that runs; its files are in a folder."""

    def __init__(self, room: pathlib.Path, root: pathlib.Path):
        self.room, self.root, self.conf = room, root, room / "conf"
        self.running: dict[str, subprocess.Popen] = {}
        libraries = LIBRARIES, f"{LIBRARIES}/ceph", "lib/x86_64-linux-gnu"
        self.environment = {
            **os.environ,
            "PATH": f"{root}/usr/bin:{root}/usr/sbin:{os.environ['PATH']}",
            "LD_LIBRARY_PATH": ":".join(f"{root}/{folder}" for folder in libraries),
            "PYTHONPATH": str(root / "usr/lib/python3/dist-packages"),
            "CEPH_CONF": str(self.conf),
        }

    def words(self, words: tuple[str, ...]) -> list[str]:
        # (the Python of Debian, for which its modules are made, and not another one on the PATH)
        python = ["/usr/bin/python3", str(self.root / "usr/bin/ceph")]
        words = [*python, *words[1:]] if words[0] == "ceph" else list(words)
        # (what runs ends with the thread that began it)
        return ["setpriv", "--pdeathsig", "KILL", *words] if shutil.which("setpriv") else words

    def tool(self, *words: str) -> str:
        """What a tool of the cluster says."""
        given = {"env": self.environment, "cwd": self.room, "timeout": SECONDS}
        try:
            ended = subprocess.run(self.words(words), capture_output=True, text=True, **given)
        except subprocess.TimeoutExpired as late:
            raise Failed(f"`{shlex.join(words)}` took more than {SECONDS} s") from late
        if ended.returncode != 0:
            raise Failed(f"`{shlex.join(words)}` failed:\n{ended.stdout}{ended.stderr}")
        return ended.stdout

    def begin(self, name: str, *words: str) -> None:
        given = {"env": self.environment, "cwd": self.room, "stdin": subprocess.DEVNULL}
        with open(self.room / f"{name}.said", "ab") as said:
            self.running[name] = subprocess.Popen(self.words(words), stdout=said, stderr=said, **given)

    def start(self, name: str) -> None:
        which = {"mon": ("ceph-mon", "a"), "osd": ("ceph-osd", "0")}[name]
        self.begin(name, which[0], "-i", which[1], "-f")

    def make(self) -> None:
        """A new cluster, with a pool `rbd`."""
        fsid, osd = str(uuid.uuid4()), str(uuid.uuid4())
        text = CONF.format(fsid=fsid, address=ADDRESS, room=self.room, root=self.root, libraries=LIBRARIES)
        self.conf.write_text(text)
        for folder in ("mon", "osd"):
            (self.room / folder).mkdir()
        address = f"[v2:{ADDRESS}:3300,v1:{ADDRESS}:6789]"
        self.tool("monmaptool", "--create", "--addv", "a", address, "--fsid", fsid, "monmap")
        self.tool("ceph-mon", "--mkfs", "-i", "a", "--monmap", "monmap")
        self.start("mon")
        self.tool("ceph", "osd", "new", osd)
        self.tool("ceph-osd", "-i", "0", "--mkfs", "--osd-uuid", osd)
        self.start("osd")
        self.tool("ceph", "osd", "pool", "create", "rbd", "8")
        until = time.monotonic() + SECONDS
        while " up " not in self.tool("ceph", "osd", "tree"):
            if time.monotonic() > until:
                raise Failed(f"the OSD isn't up after {SECONDS} s")
            time.sleep(1)

    def answer(self, line: str) -> str:
        """What comes of a line of the guest."""
        first, *words = shlex.split(line)
        if first == "signal":
            self.running[words[0]].send_signal(getattr(signal, f"SIG{words[1]}"))
        elif first == "start":
            self.running[words[0]].wait(SECONDS)
            self.start(words[0])
        elif first == "begin":
            self.begin("tool", *words)
        elif first == "end":
            self.running["tool"].kill()
            self.running["tool"].wait()
        else:
            return self.tool(first, *words)
        return ""

    def end(self) -> None:
        for process in self.running.values():
            process.kill()
            process.wait()


@contextlib.contextmanager
def cluster(setup: list[str]):
    """A cluster, as long as this is held. `setup` is what is asked of it first."""
    root = programs()
    packages.busybox()
    own_network()
    with tempfile.TemporaryDirectory(prefix="wqrecord.ceph.") as folder:
        made = Cluster(pathlib.Path(folder), root)

        class Handler(socketserver.StreamRequestHandler):
            def handle(self) -> None:
                line = self.rfile.readline().decode()
                try:
                    said = made.answer(line)
                except (Failed, OSError, AttributeError, KeyError, subprocess.TimeoutExpired) as fault:
                    said = f"cluster: {line.strip()}: {fault!r}\n"
                self.wfile.write(said.encode())

        try:
            made.make()
            for line in setup:
                made.answer(line)
            with socketserver.TCPServer((ADDRESS, ASKED), Handler) as server:
                threading.Thread(target=server.serve_forever, daemon=True).start()
                yield made
                server.shutdown()
        finally:
            made.end()
