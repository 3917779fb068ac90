"""How the scripts of tests/ start a program, over files that they write for it, and so that it ends in time; and how they say what
they counted. Those in bash have script.bash.

A program that hangs fails its test, in place of holding up the tests after it.
"""

import contextlib
import os
import signal
import subprocess
import threading
import typing

# The programs take some milliseconds, few of them a second: this is enough on a machine that has much else to do.
SECONDS_PER_RUN = 60
# What a user, a terminal that is closed and a system end programs by.
ENDING = (signal.SIGINT, signal.SIGHUP, signal.SIGTERM)

TookTooLong = subprocess.TimeoutExpired


def run(words, *, timeout=SECONDS_PER_RUN, input=None, capture_output=False, **given):
    """Runs a program as `subprocess.run` does, with nothing to read unless there is an `input`.

    One that takes longer is ended, with all that it started, and TookTooLong is raised.
    """
    given.setdefault("stdin", subprocess.DEVNULL if input is None else subprocess.PIPE)
    if capture_output:
        given |= {"stdout": subprocess.PIPE, "stderr": subprocess.PIPE}
    with subprocess.Popen(words, start_new_session=True, **given) as started:
        try:
            printed, errors = started.communicate(input, timeout)
        except BaseException:
            # What it started may hold the pipes open. The session has its number, and it isn't waited for yet.
            os.killpg(started.pid, signal.SIGKILL)
            raise
    return subprocess.CompletedProcess(words, started.returncode, printed, errors)


@contextlib.contextmanager
def heeded():
    """A program that begins meanwhile heeds the signals that end programs, also those that the tests were started to ignore:
    SIGHUP by nohup, SIGINT by a shell that has them in the background.

    A program inherits what is ignored, but no handler. So what is ignored here has one meanwhile, which does nothing.
    """
    ignored = [number for number in ENDING if signal.getsignal(number) is signal.SIG_IGN]
    for number in ignored:
        signal.signal(number, lambda *_: None)
    try:
        yield
    finally:
        for number in ignored:
            signal.signal(number, signal.SIG_IGN)


@contextlib.contextmanager
def started(words, *, timeout=SECONDS_PER_RUN, **given):
    """A program that runs meanwhile, as a Popen.

    It is ended, with all that it started, when the block ends or it has taken so long. It heeds the signals that end programs.
    """
    with heeded():
        running = subprocess.Popen(words, start_new_session=True, **given)

    def end():
        with contextlib.suppress(ProcessLookupError):
            os.killpg(running.pid, signal.SIGKILL)

    with running:
        late = threading.Timer(timeout, end)
        late.start()
        try:
            yield running
        finally:
            late.cancel()
            end()


class Answer(typing.NamedTuple):
    """What a program printed, its status, and what it wrote to standard error. One that took too long has no status."""

    printed: bytes
    status: int | None
    errors: bytes

    def is_late(self):
        return self.status is None


def ask(words, **given):
    """The answer of a program, which is started as `run` does."""
    try:
        ended = run(words, capture_output=True, **given)
    except TookTooLong as late:
        return Answer(late.stdout or b"", None, b"(ended: it took too long)")
    return Answer(ended.stdout, ended.returncode, ended.stderr)


@contextlib.contextmanager
def files(folder, texts):
    """The paths of files in the folder that have these texts, by their names. They are there as long as this is."""
    places = [os.path.join(folder, name) for name in texts]
    for place, text in zip(places, texts.values()):
        with open(place, "wb") as file:
            file.write(text)
    try:
        yield places
    finally:
        for place in places:
            os.remove(place)


def is_program(path):
    return os.access(path, os.X_OK) and not os.path.isdir(path)


def is_there(script, *paths):
    """Whether this is the path of a program. Where it isn't, or there are more or none, the script says so."""
    found = len(paths) == 1 and is_program(*paths)
    if not found:
        print(f"{script}: there is nothing to run at {' '.join(paths)}")
    return found


def counts_of(script, passed, failed):
    """Says how many passed and failed. Returns the exit status."""
    print(f"{script}: {passed} passed, {failed} failed", flush=True)
    return 1 if failed else 0
