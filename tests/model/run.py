# A model of `wqplan run DECL [HELPERS]`. It says what is printed of a plan that was run, as docs/FORMAT.md asks
# for in "The command `run`". No thread runs here: the page says what comes of every order of them, with any number of helpers.
# See plan.py for what the model is.

import sys

sys.dont_write_bytecode = True
import plan  # noqa: E402  (beside this file)
from command_line import answer_texts  # noqa: E402
from declaration import TEXT_LIMIT, Refused, read_declaration  # noqa: E402

# The most workqueues that a runtime has, and how many helpers each may have.
WORKQUEUE_LIMIT = 256
HELPERS = {str(number) for number in range(9)}


def run_text(items, workqueue_of, count):
    """What is printed of a plan that was run."""
    lines = [b"workqueues %d" % count]
    for name in items:
        lines.append(b"item %s wq %d queued 1 cancelled 0 finished 1" % (name, workqueue_of[name]))
    return b"".join(line + b"\n" for line in [*lines, b"faults 0"])


def answer(text):
    """The bytes of the answer, and the exit status (Faults and exit statuses)."""
    planned, status = plan.answer(text)
    if status != 0:
        return planned, status
    workqueues = [line.split(b" ")[2:] for line in planned.split(b"\n") if line.startswith(b"wq ")]
    if len(workqueues) > WORKQUEUE_LIMIT:
        return Refused(69, 0).answer()
    workqueue_of = {name: q for q, names in enumerate(workqueues) for name in names}
    return run_text(read_declaration(text).items, workqueue_of, len(workqueues)), 0


def main(arguments):
    """The exit status."""
    command, *places = arguments or [None]
    if command != "run" or len(places) not in (1, 2) or not set(places[1:]) <= HELPERS:
        print("usage: run.py run DECL [HELPERS]", file=sys.stderr)
        return 2
    return answer_texts(answer, places[:1], (TEXT_LIMIT,))


if __name__ == "__main__":
    sys.exit(main(sys.argv[1:]))
