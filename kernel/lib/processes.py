"""Starts programs so that none outlives the command that started it: not if it is interrupted or told to end, and not
if it is killed.
"""

import contextlib
import ctypes
import os
import selectors
import signal
import subprocess
import time

PR_SET_PDEATHSIG = 1  # linux/prctl.h
LIBC = ctypes.CDLL(None)
# Of signals that end this process it sees to the programs itself, as of Ctrl-C, which raises KeyboardInterrupt.
ENDING = (signal.SIGTERM, signal.SIGHUP)


class Ended(BaseException):
    """This process was told to end, by this signal."""

    def __init__(self, number):
        super().__init__(f"ended by {signal.Signals(number).name}")
        self.number = number


class Late(Exception):
    """A program took too long. `printed` is what it had printed."""

    def __init__(self, printed):
        super().__init__("took too long")
        self.printed = printed


def raise_ended(number, _):
    # A second signal doesn't disturb what the first one has begun.
    for each in ENDING:
        signal.signal(each, signal.SIG_IGN)
    raise Ended(number)


def end_by_signals():
    """From now on a signal that would end this process raises Ended. One that whoever started it ignores (nohup) stays
    ignored.
    """
    for number in ENDING:
        if signal.getsignal(number) != signal.SIG_IGN:
            signal.signal(number, raise_ended)


def dies_with(parent):
    """What a program does before it begins: the kernel will kill it when its parent is no more."""

    def before():
        LIBC.prctl(PR_SET_PDEATHSIG, signal.SIGKILL)
        if os.getppid() != parent:
            os.kill(os.getpid(), signal.SIGKILL)

    return before


@contextlib.contextmanager
def started(words, **given):
    """A program in a process group of its own. All of the group is ended where this is left before it has."""
    given.setdefault("stdin", subprocess.DEVNULL)
    with subprocess.Popen(
        words, start_new_session=True, preexec_fn=dies_with(os.getpid()), **given
    ) as child:  # (there are no threads here)
        try:
            yield child
        finally:
            if child.poll() is None:
                os.killpg(child.pid, signal.SIGKILL)


def run(words, seconds, **given):
    """Runs a program, as `subprocess.run` does, and hands back what it printed. Raises Late after so many seconds."""
    with started(words, stdout=subprocess.PIPE, stderr=subprocess.PIPE, **given) as child:
        try:
            printed, errors = child.communicate(timeout=seconds)
        except subprocess.TimeoutExpired as late:
            raise Late(late.stdout or b"") from late
    return subprocess.CompletedProcess(words, child.returncode, printed, errors)


def printed_by(words, seconds, watch, **given):
    """All that a program prints, errors too. `watch` is called with each line as it comes."""
    parts, begun, end = [], b"", time.monotonic() + seconds
    with started(words, stdout=subprocess.PIPE, stderr=subprocess.STDOUT, **given) as child:
        with selectors.DefaultSelector() as ready:
            ready.register(child.stdout, selectors.EVENT_READ)
            while True:
                if not ready.select(max(0, end - time.monotonic())):
                    raise Late(b"".join(parts))
                part = os.read(child.stdout.fileno(), 65536)
                if not part:
                    return b"".join(parts)
                parts.append(part)
                *lines, begun = (begun + part).split(b"\n")
                for line in lines:
                    watch(line)


@contextlib.contextmanager
def in_memory(data):
    """A file with these bytes, for a program that gets it by `pass_fds`: its path, and its number. It is on no disk, so
    nothing of it is left whatever happens.
    """
    number = os.memfd_create("wqjudge")
    try:
        with os.fdopen(os.dup(number), "wb") as file:
            file.write(data)
        yield f"/dev/fd/{number}", number
    finally:
        os.close(number)
