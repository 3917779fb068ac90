# What the scripts of this folder take from the command line, and how a model answers it.

import sys


def seed_and_counts(words, *defaults):
    """The seed, and the counts behind it, each its default where no word gives it.

    None where there are too many words, or a count is none.
    """
    if len(words) > len(defaults) or not all(word.isdecimal() for word in words[1:]):
        return None
    given = [*words[:1], *map(int, words[1:])]
    return [*given, *defaults[len(given):]]


def read_texts(places, limits):
    """What stands in these files, or in standard input for None: of each at most one byte more than its limit."""
    texts = []
    for place, limit in zip(places, limits):
        if place is None:
            texts.append(sys.stdin.buffer.read(limit + 1))
        else:
            with open(place, "rb") as file:
                texts.append(file.read(limit + 1))
    return texts


def answer_texts(answer, places, limits):
    """Faults and exit statuses. Of the faults of the system only `fault read` is here."""
    try:
        texts = read_texts(places, limits)
    except OSError:
        print("fault read", file=sys.stderr)
        return 3
    printed, status = answer(*texts)
    sys.stdout.buffer.write(printed)
    return status
