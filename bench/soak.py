"""What bench/soak prints of one long load: soak.py EVENTS PROGRAM."""

import resource
import sys
import time

import measured  # beside this file

SECONDS = 600


def main():
    events, program = sys.argv[1:]
    load = measured.Load("fill", 4, 4, int(events))
    begun = time.monotonic()
    with measured.Texts() as texts:
        try:
            figures = measured.run(program, texts, load, SECONDS)
        except measured.Failed as fault:
            sys.exit(str(fault))
    usage = resource.getrusage(resource.RUSAGE_CHILDREN)
    took = time.monotonic() - begun
    print(f"seconds {took:.3f}, processor {usage.ru_utime:.3f} user {usage.ru_stime:.3f} system")
    print(figures.text() + "\n".join(f"{name} {count}" for name, count in figures.figures.items()))
    if not figures.is_as_asked(load):
        sys.exit("these aren't the counts that there should be")


main()
