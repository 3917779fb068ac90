"""A program whose main thread is stopped at calls of the kernel, while its other threads go on.

By ptrace(2), on Linux for x86-64. The program is ended where the block ends.
"""

import contextlib
import ctypes
import os
import pathlib
import signal
import struct
import subprocess
import time
import typing

from programs import started

# Calls of the kernel, by their numbers: `futex`; `nanosleep` and `clock_nanosleep`.
FUTEX = 202
SLEEPS = (35, 230)

# What of a `futex` says what it does, and that it wakes others. (The other bits say how.)
FUTEX_COMMAND = 0x7F
FUTEX_WAKE = 1

# What ptrace is asked for: of a call of the kernel it tells which it is, in so many bytes.
TRACEME, GO_ON, SET_OPTIONS, CALL_INFO = 0, 24, 0x4200, 0x420E
TELL_CALLS_FROM_SIGNALS = 1
AT_A_CALL = signal.SIGTRAP | 0x80
INFO_BYTES = 88
BEGINS = 1

# How often it is looked what the other threads do, in seconds.
LOOKED = 0.01

libc = ctypes.CDLL(None, use_errno=True)
libc.ptrace.restype = ctypes.c_long
libc.ptrace.argtypes = [ctypes.c_long, ctypes.c_int, ctypes.c_void_p, ctypes.c_void_p]


def ptrace(what, pid=0, address=None, given=None):
    if libc.ptrace(what, pid, address, given) < 0:
        raise OSError(ctypes.get_errno(), "ptrace")


class KernelCall(typing.NamedTuple):
    """A call of the kernel that begins: its number, and what it is given."""

    number: int
    given: tuple[int, ...]

    def sleeps(self):
        return self.number in SLEEPS

    def wakes(self):
        return self.number == FUTEX and self.given[1] & FUTEX_COMMAND == FUTEX_WAKE


class Traced:
    """A program whose main thread stands still but while it is waited for."""

    def __init__(self, process):
        self.process = process

    def threads(self):
        """The threads, each by its place in /proc."""
        return list(pathlib.Path(f"/proc/{self.process.pid}/task").iterdir())

    def others_sleep(self):
        """Whether all threads sleep but the main one, which stands still."""
        states = []
        for thread in self.threads():
            if thread.name != str(self.process.pid):
                with contextlib.suppress(OSError):  # where it ends just now
                    states.append((thread / "stat").read_text().rpartition(")")[2].split()[0])
        return all(state == "S" for state in states)

    def next_stop(self, signal_number=0):
        """Has the main thread go on, with a signal or none, and waits until it stops. Returns by what; None where it has ended."""
        ptrace(GO_ON, self.process.pid, None, signal_number)
        _, status = os.waitpid(self.process.pid, 0)
        if os.WIFSTOPPED(status):
            return os.WSTOPSIG(status)
        self.process.returncode = os.waitstatus_to_exitcode(status)
        return None

    def call(self):
        """The call of the kernel at which it stands, if that begins; or else None."""
        info = ctypes.create_string_buffer(INFO_BYTES)
        ptrace(CALL_INFO, self.process.pid, INFO_BYTES, ctypes.cast(info, ctypes.c_void_p))
        if info.raw[0] != BEGINS:
            return None
        number, *given = struct.unpack_from("7Q", info.raw, 24)
        return KernelCall(number, tuple(given))

    def after(self, wanted):
        """Has the main thread go on until a call of the kernel has ended that is wanted. False where the program ends before."""
        stop = self.next_stop()
        is_wanted = False
        while stop is not None:
            if stop != AT_A_CALL:
                stop = self.next_stop(stop)
                continue
            call = self.call()
            if call is None and is_wanted:
                return True
            is_wanted = call is not None and wanted(call)
            stop = self.next_stop()
        return False

    def come_true(self, condition, seconds):
        """Whether this comes true in time while the main thread stands still."""
        end = time.monotonic() + seconds
        while not condition():
            if time.monotonic() > end:
                return False
            time.sleep(LOOKED)
        return True


@contextlib.contextmanager
def traced(words, **given):
    """A program that stands at its beginning. It prints nothing."""
    quiet = {"stdout": subprocess.DEVNULL, "stderr": subprocess.DEVNULL, "stdin": subprocess.DEVNULL}
    with started(words, preexec_fn=lambda: ptrace(TRACEME), **quiet, **given) as process:
        _, status = os.waitpid(process.pid, 0)
        if not os.WIFSTOPPED(status):
            raise OSError("it doesn't stop at its beginning")
        ptrace(SET_OPTIONS, process.pid, None, TELL_CALLS_FROM_SIGNALS)
        yield Traced(process)


def may_trace():
    """Whether programs may be traced here."""
    try:
        with traced(["true"]):
            return True
    except (OSError, subprocess.SubprocessError):
        return False
