"""How the commands end if something is wrong."""

import os
import sys
import traceback

import processes

FAULT = 3
# What a shell has for a program that a signal ended, as Ctrl-C (SIGINT, 2).
ENDED_BY = 128
INTERRUPTED = ENDED_BY + 2


def called(path):
    """What a command of this path is called in its help: so, or as the link to it that was called."""
    name = os.path.basename(sys.argv[0])
    return path if name == os.path.basename(path) else name


def words_of(fault):
    """What is wrong, in words. Of a file that can't be read or written its name comes first."""
    if isinstance(fault, OSError) and fault.filename:
        return f"{fault.filename}: {fault.strerror}"
    return str(fault)


def run(name, main):
    """Ends with the status of `main`. Python's own for an error is 1, which is an answer here."""
    processes.end_by_signals()
    try:
        status = main(sys.argv[1:])
    except KeyboardInterrupt:
        print(f"{name}: interrupted", file=sys.stderr)
        status = INTERRUPTED
    except processes.Ended as ended:
        print(f"{name}: {ended}", file=sys.stderr)
        status = ENDED_BY + ended.number
    except Exception:
        traceback.print_exc()
        status = FAULT
    sys.exit(status)
