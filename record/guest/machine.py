"""Boots a kernel of Debian in QEMU, lets it read a script, and brings back what the script has left in /rec.

What the guest is made of comes from kernel/lib: the kernel and its modules, busybox, QEMU. Neither KVM nor root nor a
network is needed. With one CPU the guest's clock counts instructions, so that a busy host changes nothing.
"""

import os
import pathlib
import shutil
import subprocess
import sys
import tarfile
import tempfile
from dataclasses import dataclass, field

HERE = pathlib.Path(__file__).resolve().parent
RECORD = HERE.parent
sys.path.append(str(RECORD.parent / "kernel/lib"))
import guest as judge  # noqa: E402  (in kernel/lib)
import packages  # noqa: E402

SECONDS = 3600
JUDGE = "wqjudge"
FOLDERS = "bin dev proc sys lib lib64 usr usr/bin usr/sbin usr/lib sbin etc".split()
LIBRARIES = "usr/lib/x86_64-linux-gnu", "lib/x86_64-linux-gnu"
BOOT = (
    f"{judge.BOOT} rcupdate.rcu_cpu_stall_suppress=1 cryptomgr.notests "
    "initcall_blacklist=load_system_certificate_list,load_module_cert,ima_init,init_ima"
)


class Failed(Exception):
    """The guest didn't come to its end."""


@dataclass
class Guest:
    """What a guest is made of."""

    series: str
    script: str
    modules: list[str] = field(default_factory=list)  # each with its parameters, as "brd rd_nr=2"
    programs: list[str] = field(default_factory=list)
    disks: list[str] = field(default_factory=list)  # sizes of further disks, /dev/vdb and so on
    cpus: int = 1
    memory: str = "768M"
    settings: dict[str, str] = field(default_factory=dict)  # variables of the script
    network: bool = False  # QEMU's own, eth0, which reaches what this process reaches

    @property
    def has_own_clock(self) -> bool:
        """Whether its clock counts instructions. Whom it speaks with has the host's clock."""
        return self.cpus == 1 and not self.network


def kernel_of(series: str) -> packages.Kernel:
    return packages.kernels(series)[0]


def types_of(kernel: packages.Kernel) -> bytes:
    """The kernel's BTF, which a guest has told once."""

    def make(place: pathlib.Path, _: pathlib.Path) -> None:
        told = boot(Guest(kernel.series, "cat /sys/kernel/btf/vmlinux >/rec/btf\n"), place, kernel, probes="")
        if not (place / "btf").exists():
            raise Failed(f"the guest didn't tell its types:\n{told[-2000:]}")

    return (packages.made(packages.cache() / f"types-{kernel.release}", make) / "btf").read_bytes()


# Its files ------------------------------------------------------------------------------------------


def files_of(wanted: Guest, kernel: packages.Kernel, probes: str) -> dict[str, tuple[int, bytes]]:
    words = [module.split() for module in wanted.modules]
    names = [*(["virtio_pci"] if kernel.series == "6.1" else []), "virtio_blk"]
    names += ["virtio_net"] if wanted.network else []
    names += [word[0] for word in words if word[0] != JUDGE]
    parameters = {word[0].replace("-", "_"): " ".join(word[1:]) for word in words}
    modules = [module for group in packages.modules(kernel, names) for module in group]
    # (that of kernel/, which makes the state in which no worker can be created)
    modules += [kernel.module() for word in words if word[0] == JUDGE]
    files = {folder: (judge.FOLDER, b"") for folder in (*FOLDERS, *LIBRARIES)}
    files["bin/busybox"] = judge.PROGRAM, packages.busybox().read_bytes()
    files["init"] = judge.PROGRAM, b"#!/bin/busybox sh\n" + (HERE / "init").read_bytes()
    files |= judge.shared()
    files["usr/bin/wqrecord"] = judge.PROGRAM, (RECORD / "wqrecord").read_bytes()
    files["probes"] = judge.TEXT, probes.encode()
    files["script"] = judge.TEXT, wanted.script.encode()
    files["settings"] = judge.TEXT, "".join(f"{name}='{value}'\n" for name, value in wanted.settings.items()).encode()
    files["modules"] = (
        judge.TEXT,
        "".join(f"{module.name} {parameters.get(packages.plain_name(module), '')}\n" for module in modules).encode(),
    )
    files |= {module.name: (judge.TEXT, module.read_bytes()) for module in modules}
    for name in wanted.programs:
        files |= judge.program_files(name, "usr/sbin")
    return files


# Boot -----------------------------------------------------------------------------------------------


def disk(path: pathlib.Path, size: str, name: str) -> list[str]:
    subprocess.run(["truncate", "-s", size, path], check=True)
    drive = f"if=none,id={name},format=raw,file={path},discard=unmap,cache=unsafe"
    return ["-drive", drive, "-device", f"virtio-blk-pci,drive={name},discard=on"]


def boot(wanted: Guest, out: pathlib.Path, kernel: packages.Kernel, probes: str) -> str:
    """What the guest said. What was in its /rec is in the folder `out`."""
    program, environment = packages.qemu()
    with tempfile.TemporaryDirectory(prefix="wqrecord.") as folder:
        room = pathlib.Path(folder)
        (room / "initrd").write_bytes(judge.archive(files_of(wanted, kernel, probes)))
        clock = ["-icount", f"shift={judge.ICOUNT_SHIFT},sleep=off", "-rtc", "clock=vm"] if wanted.has_own_clock else []
        network = ["-netdev", "user,id=n", "-device", "virtio-net-pci,netdev=n"] if wanted.network else []
        said = BOOT + ("" if wanted.has_own_clock else judge.WITH_TWO)
        disks = [
            word
            for number, size in enumerate(["1G", *wanted.disks])
            for word in disk(room / f"disk{number}", size, f"d{number}")
        ]
        words = [
            *program, "-accel", f"tcg,thread={'single' if wanted.cpus == 1 else 'multi'}", *clock, "-seed", "1",
            "-machine", "pc", "-cpu", "max", "-smp", str(wanted.cpus), "-m", wanted.memory,
            "-nodefaults", "-no-user-config", "-display", "none", "-no-reboot", "-serial", "stdio", *disks, *network,
            "-kernel", str(kernel.image), "-initrd", str(room / "initrd"), "-append", said,
        ]  # fmt: skip
        out.mkdir(parents=True, exist_ok=True)
        console = console_of(words, {**os.environ, **environment}, out / "console")
        if "guest: ended\n" not in console:
            raise Failed(f"the guest ended early:\n{console[-3000:]}")
        with tarfile.open(room / "disk0", "r:", ignore_zeros=False) as left:
            left.extractall(out, filter="data")
    return console


def console_of(words: list[str], environment: dict[str, str], path: pathlib.Path) -> str:
    """Runs QEMU, which ends when this program does. What the guest says goes to a file meanwhile."""
    if shutil.which("setpriv"):
        words = ["setpriv", "--pdeathsig", "KILL", *words]
    with open(path, "wb") as console:
        running = subprocess.Popen(words, stdin=subprocess.DEVNULL, stdout=console, stderr=console, env=environment)
        try:
            running.wait(timeout=SECONDS)
        except subprocess.TimeoutExpired as late:
            raise Failed(f"the guest took more than {SECONDS} s: its console is {path}") from late
        finally:
            running.kill()
            running.wait()
    return path.read_text("latin-1").replace("\r", "")
