"""Runs a program at a terminal: a text is typed, and then one end of the input.

Usage: typed.py TEXT PROGRAM ARG.. In TEXT each `\\n` is a line's end. What the program writes to the terminal is printed, and its
status is this one's. A program that reads on after the end waits for more, so the caller limits the time.
"""

import os
import pty
import sys
import termios


def main():
    text = sys.argv[1].replace("\\n", "\n").encode()
    child, terminal = pty.fork()
    if child == 0:
        os.execv(sys.argv[2], sys.argv[2:])
    modes = termios.tcgetattr(terminal)
    modes[1] &= ~termios.OPOST
    modes[3] &= ~termios.ECHO
    termios.tcsetattr(terminal, termios.TCSANOW, modes)
    os.write(terminal, text + b"\x04")
    while True:
        try:
            written = os.read(terminal, 4096)
        except OSError:
            break
        if not written:
            break
        sys.stdout.buffer.write(written)
    _, status = os.waitpid(child, 0)
    sys.stdout.flush()
    sys.exit(os.waitstatus_to_exitcode(status))


main()
