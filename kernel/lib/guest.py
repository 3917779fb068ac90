"""Boots a kernel with the module and a list of commands, in QEMU, and hands back what the module printed.

Neither KVM nor root nor a network is needed. With one CPU the time of the guest is that of its instructions
(-icount): a clock that a busy host neither slows nor hastens. While nothing runs in the guest its clock goes on to
the next timer at once (sleep=off). So what the guest does is the same each time. With two CPUs QEMU 7.2 doesn't boot
a guest so, and it has the host's clock; what counts as hung is told in looks of the module, not in time
(module/cases.c, `happens`).
"""

import os
import pathlib
import re
import shutil
import subprocess
import sys

import packages
import processes

# The guest's clock goes on by 2 to the power of this many nanoseconds with each instruction.
ICOUNT_SHIFT = 5
MEMORY = "1024M"
# A guest that takes so many seconds of the host has a fault. It's no measure of what hangs in it.
SECONDS = 1800
BOOT = (
    "console=ttyS0 panic=-1 loglevel=5 rdinit=/init nokaslr mitigations=off workqueue.watchdog_thresh=0 "
    "printk.devkmsg=on random.trust_cpu=on"
)


# With two CPUs and the host's clock a busy host makes the timer look as if it didn't work: `IO-APIC + timer doesn't
# work!` ends the boot (arch/x86/kernel/apic/io_apic.c, check_timer).
WITH_TWO = " no_timer_check"


class Fault(Exception):
    """The guest didn't do what it was told."""


# The guest's files --------------------------------------------------------------------------------


def archive(files):
    """An archive in the form of `cpio -H newc` of these files: by its path, of each its mode and its bytes.

    (Documentation/driver-api/early-userspace/buffer-format.rst)
    """
    parts = []
    for number, (path, (mode, data)) in enumerate([*files.items(), ("TRAILER!!!", (0, b""))], 1):
        name = path.encode() + b"\0"
        fields = [number, mode, 0, 0, 1, 0, len(data), 0, 0, 0, 0, len(name), 0]
        head = b"070701" + b"".join(b"%08x" % field for field in fields) + name
        parts += [head, b"\0" * (-len(head) % 4), data, b"\0" * (-len(data) % 4)]
    return b"".join(parts)


PROGRAM, FOLDER, TEXT = 0o100755, 0o040755, 0o100644


def shared():
    """The functions of the shell that scripts of guests read, here and in record/."""
    paths = sorted((packages.HERE.parent / "shared").glob("*.sh"))
    return {"shared": (FOLDER, b"")} | {f"shared/{path.name}": (TEXT, path.read_bytes()) for path in paths}


def program_files(name, folder="bin"):
    """A program of this machine, in this folder, and its libraries, where they are here."""
    path = shutil.which(name, path=f"{os.environ['PATH']}:/usr/sbin:/sbin")
    if path is None:
        raise packages.Missing(f"the guest needs {name}, which isn't installed here")
    told = subprocess.run(["ldd", path], capture_output=True, text=True).stdout
    wanted = {f"{folder}/{os.path.basename(path)}": path}
    wanted |= {library.lstrip("/"): library for library in re.findall(r"(/\S+) \(0x", told)}
    folders = {str(folder) for file in wanted for folder in pathlib.PurePath(file).parents} - {"."}
    return {folder: (FOLDER, b"") for folder in sorted(folders)} | {
        file: (PROGRAM, pathlib.Path(where).read_bytes()) for file, where in wanted.items()
    }


def files_of(kernel, others, modules=(), programs=()):
    """The files of the guest: these others, by name, and besides the shell, its script, what is shared, the
    modules in the order in which they are loaded, the judge's last, and these programs of this machine."""
    modules = [*modules, kernel.module()]
    files = {name: (FOLDER, b"") for name in ("bin", "dev", "proc", "sys")}
    files["bin/busybox"] = PROGRAM, packages.busybox().read_bytes()
    files["init"] = PROGRAM, b"#!/bin/busybox sh\n" + (packages.HERE / "init").read_bytes()
    files |= shared()
    files["modules"] = TEXT, "".join(f"{module.name}\n" for module in modules).encode()
    files |= {module.name: (TEXT, module.read_bytes()) for module in modules}
    for name in programs:
        files |= program_files(name)
    return files | {name: (TEXT, data) for name, data in others.items()}


# The guest ----------------------------------------------------------------------------------------


def machine_words(kernel, initrd, cpus, memory, seed):
    """QEMU's arguments."""
    clock = ["-icount", f"shift={ICOUNT_SHIFT},sleep=off", "-rtc", "clock=vm"] if cpus == 1 else []
    words = ["-accel", "tcg,thread=single", *clock, "-seed", str(seed)]
    words += ["-machine", "pc", "-cpu", "max", "-smp", str(cpus), "-m", memory]
    words += ["-nodefaults", "-no-user-config", "-display", "none", "-no-reboot", "-serial", "stdio"]
    words += ["-kernel", str(kernel.image), "-initrd", initrd]
    return [*words, "-append", BOOT + (WITH_TWO if cpus > 1 else "")]


def decoded(printed):
    return printed.decode("latin-1").replace("\r", "")


def console_of(kernel, files, cpus=1, watch=lambda line: None, memory=MEMORY, seed=1):
    """All that a guest with these files writes to its console. `watch` is called with each line as it comes. The seed is
    that of all that the guest draws at random: with one CPU all else is the same each time.
    """
    words, environment = packages.qemu()
    with processes.in_memory(archive(files)) as (initrd, number):
        words = [*words, *machine_words(kernel, initrd, cpus, memory, seed)]
        environment = {**os.environ, **environment}
        try:
            printed = processes.printed_by(
                words, SECONDS, lambda line: watch(decoded(line)), env=environment, pass_fds=[number]
            )
        except OSError as error:
            raise packages.Missing(f"{words[0]}: {error.strerror}") from error
        except processes.Late as late:
            raise Fault(f"the guest took more than {SECONDS} s:\n{decoded(late.printed)[-3000:]}") from late
    return decoded(printed)


class Outcome:
    """What a guest printed of a case."""

    def __init__(self):
        self.states = {}  # by its word, whether all was done, and where each unfinished item is: pr, and the wait
        self.events = []  # each as the letter, the item, the argument or None, who runs it
        self.kernel_says = []  # lines that the kernel printed meanwhile, and that tell of something wrong
        self.busy = []  # if it hung, and was asked: the kernel's own list of busy workqueues
        self.stacks = {}  # the same: of threads, by their names, the lines of their stacks


OURS = re.compile(r"(?:\[[ .0-9]+\] )?wqjudge: (\d+) (.*)")
EVENT = re.compile(r"([a-zA-Z|!])(\d+)(?:\.(\d+))?([RN?])?")
# What a kernel says of something that is wrong. Of a warning the words come first, and then the line with its place.
TELLING = re.compile(
    r"(?:\[[ .0-9]+\] )?((?:WARNING: |BUG: |kernel BUG at|Oops|general protection fault|Kernel panic|"
    r"rcu: INFO: .*stall|INFO: task|watchdog: |workqueue: |irq \d+: nobody cared|Out of memory|invalid opcode).*)"
)
# These are no mere warnings.
BROKEN = re.compile(r"BUG: |kernel BUG at|Oops|general protection fault|Kernel panic|rcu: INFO|invalid opcode")


class Reader:
    """Reads a console."""

    def __init__(self):
        self.outcomes, self.others = {}, []
        self.number = 0  # of our last line
        self.at = None  # the case that is carried out
        self.is_listing = False
        self.parts, self.thread = {}, None

    def outcome(self, number):
        return self.outcomes.setdefault(int(number), Outcome())

    def read(self, console):
        for line in console.split("\n"):
            ours = OURS.fullmatch(line)
            if ours:
                self.take_number(int(ours[1]))
                self.take(ours[2])
            else:
                self.take_other(line)
        return self

    def take_number(self, number):
        if number != self.number + 1:
            raise Fault(f"of the console the lines {self.number + 1} to {number - 1} of the module are lost")
        self.number = number

    def take(self, text):
        """A line of the module."""
        word, *rest = text.split()
        self.thread = None
        if word == "at":
            self.at = self.outcome(rest[0])
        elif word == "part":
            self.parts.setdefault((rest[0], rest[1]), []).extend(rest[2:])
        elif word == "state":
            items = [item.split(":") for item in self.parts.pop((rest[0], rest[1]), []) + rest[3:]]
            where = {int(number): at for number, at in items}
            self.outcome(rest[0]).states[rest[1]] = rest[2] == "done", where
        elif word == "events":
            self.outcome(rest[0]).events += map(self.event, rest[1:])
        elif word == "busy" and self.at:
            self.is_listing = True
            self.at.busy.append(text.removeprefix("busy "))
        elif word == "listed":
            self.is_listing = False
        else:
            self.others.append(text)

    def event(self, text):
        match = EVENT.fullmatch(text)
        if not match:
            raise Fault(f"of the console a line of the module is damaged: {text}")
        letter, item, argument, by = match.groups()
        return letter, int(item), int(argument) if argument else None, by

    def take_other(self, line):
        """A line of the kernel, or of the shell: `== THREAD`, and its stack below."""
        if self.is_listing and line.startswith("== "):
            self.thread = self.at.stacks.setdefault(line.removeprefix("== "), [])
        elif self.thread is not None and line.startswith("    "):
            self.thread.append(re.sub(r"^\[<.*?>\] ", "", line.strip()))
        elif self.at and (telling := TELLING.fullmatch(line)):
            self.at.kernel_says.append(telling[1])


def read_outcomes(console):
    """The outcomes by the number of their case, and the module's other lines. Raises Fault where a line is lost."""
    read = Reader().read(console)
    return read.outcomes, read.others


def run(kernel, commands, cpus=1, watch=lambda line: None):
    """The outcomes of a guest with these commands, and its console. Raises Fault where it didn't carry out all of
    them.
    """
    console = console_of(kernel, files_of(kernel, {"commands": f"{commands}bye\n".encode()}), cpus, watch)
    outcomes, others = read_outcomes(console)
    faults = [line for line in others if line.startswith("error")]
    if faults or others[-1:] != ["bye"]:
        raise Fault(f"{faults[0] if faults else 'the guest ended early'}\n{console[-3000:]}")
    return outcomes, console


def kernel_of(series, say=lambda text: None):
    """The kernel of a series: the newest in which the module makes the right shortage. That is tried once for each.
    `say` is told meanwhile what is done.
    """
    for kernel in packages.kernels(series):
        tried = kernel.module().parent / "makes_the_shortage"
        try:
            if not tried.exists():
                what = f"trying whether Linux {kernel.version} comes into the right state"
                run(kernel, "blockers\nthreads-max 1\nshort\n", watch=lambda line, what=what: say(what))
                tried.touch()
            return kernel
        except Fault as fault:
            print(f"Linux {kernel.version} isn't taken: {str(fault).splitlines()[0]}", file=sys.stderr)
    raise Fault(f"in no kernel of the series {series} that is there the module makes the right shortage")
