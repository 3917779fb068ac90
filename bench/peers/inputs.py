#!/usr/bin/env python3
"""Writes the declarations that bench/run measures into a folder, the same ones each time.

Usage: bench/peers/inputs.py FOLDER
"""
import os
import random
import sys

MOST_ITEMS = 4096
MOST_FLUSHES = 16384
MOST_BYTES = 1048576
GROUPS = 512
SIZES = [256, 512, 1024, 2048, 4096]


def item_name(i):
    return f"i{i:04}"


def longest_name(i):
    return item_name(i).ljust(63, "_")


def declaration(items, flushes, groups=(), name=item_name):
    """All items, of each group one line with its items, and of each flush one line."""
    lines = [f"item {name(i)}\n" for i in range(items)]
    lines += ["ordered " + " ".join(name(i) for i in group) + "\n" for group in groups]
    lines += [f"flush {name(source)} {name(target)}\n" for source, target in flushes]
    return "".join(lines)


def chain(items):
    """Each item but the last flushes the next one."""
    return declaration(items, ((i, i + 1) for i in range(items - 1)))


def random_flushes(items, count):
    """Flushes that each lead from an item to one that is declared below it."""
    numbers = random.Random(1)
    return [sorted(numbers.sample(range(items), 2)) for _ in range(count)]


def four_for_each(items):
    return declaration(items, random_flushes(items, 4 * items))


def longest_text():
    """As many flushes, one on a line and with the longest names, as the longest text has room for."""
    name = longest_name
    left = MOST_BYTES - len(declaration(MOST_ITEMS, [], name=name))
    count = left // len(f"flush {name(0)} {name(0)}\n")
    text = declaration(MOST_ITEMS, random_flushes(MOST_ITEMS, count), name=name)
    return text + "#".ljust(MOST_BYTES - len(text) - 1, "#") + "\n"


def large_groups():
    """Groups of as many items each, shuffled, and flushes that each lead from a group to a later one of these."""
    numbers = random.Random(2)
    items = list(range(MOST_ITEMS))
    numbers.shuffle(items)
    groups = [items[group::GROUPS] for group in range(GROUPS)]
    pairs = (sorted(numbers.sample(range(GROUPS), 2)) for _ in range(MOST_FLUSHES))
    flushes = [(numbers.choice(groups[source]), numbers.choice(groups[target])) for source, target in pairs]
    return declaration(MOST_ITEMS, flushes, groups)


def texts():
    """Of each declaration the name of its file, and the text."""
    yield "empty", ""
    for items in SIZES:
        yield f"chain-{items}", chain(items)
        yield f"random-{items}", four_for_each(items)
    yield "longest", longest_text()
    yield "groups", large_groups()


def main():
    if len(sys.argv) != 2:
        sys.exit("usage: bench/peers/inputs.py FOLDER")
    for name, text in texts():
        assert len(text) <= MOST_BYTES
        with open(os.path.join(sys.argv[1], name), "w", encoding="ascii") as file:
            file.write(text)


if __name__ == "__main__":
    main()
