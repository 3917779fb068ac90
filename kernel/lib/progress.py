"""Says on standard error how far the work is, once it has taken two seconds: on a terminal in one line that is drawn
again, elsewhere in a line now and then.
"""

import sys
import time

BEFORE_FIRST = 2
BETWEEN_LINES = 10
BETWEEN_REDRAWS = 0.2


class Progress:
    def __init__(self, name):
        self.name = name
        self.on_terminal = sys.stderr.isatty()
        self.next = time.monotonic() + BEFORE_FIRST
        self.drawn = 0

    def say(self, text):
        """What is being done now."""
        if time.monotonic() < self.next:
            return
        self.next = time.monotonic() + (BETWEEN_REDRAWS if self.on_terminal else BETWEEN_LINES)
        line = f"{self.name}: {text}"
        if self.on_terminal:
            sys.stderr.write("\r" + line.ljust(self.drawn))
            self.drawn = len(line)
        else:
            sys.stderr.write(line + "\n")
        sys.stderr.flush()

    def end(self):
        """Takes the line away."""
        if self.drawn:
            sys.stderr.write("\r" + " " * self.drawn + "\r")
            sys.stderr.flush()
            self.drawn = 0
