"""Makes up declarations, and assignments for some of them, for `circles` and `dot`.

There are those at the limits of docs/FORMAT.md, and random ones. The same seed makes the same ones. A case is a declaration, or
a declaration and an assignment.
"""

import random

import make_assignments
import make_declarations
from make_assignments import bare_above, merged, random_deadlock_case
from make_certificates import (
    change_wq_empty, make_assignment_lines, make_declaration, own_assignment, some_bare, spelled, wq_lines,
)
from make_declarations import join, numbered_items, random_case, shape_components


def random_circles_case(seed, number):
    """The case of this number: one of `plan`, one of `deadlock`, or one of several circles."""
    choose = random.Random(f"{seed} circles {number}")
    way = choose.random()
    if way < 0.2:
        return [random_case(f"{seed} circles", number)]
    if way < 0.4:
        return random_deadlock_case(f"{seed} circles", number)
    text, declared = make_declaration(choose, shape_components)
    if way < 0.7:
        return [text]
    wqs = own_assignment(declared)
    choose.shuffle(wqs)
    for _ in range(choose.choice([0, 0, 1, 2, 5, len(wqs) // 2])):
        wqs = merged(choose, wqs)
    for _ in range(choose.choice([0, 0, 0, 1, 3])):
        change_wq_empty(choose, declared, wqs, [])
    bare = choose.choice([bare_above(choose, declared, wqs), some_bare(choose, wqs)])
    return [text, spelled(choose, declared, make_assignment_lines(choose, declared, wqs, bare), 0.1, called=True)]


def names_of(count):
    return [line[5:] for line in numbered_items(count)]


def many_components(size, count):
    """So many circles of so many items each, of which each waits for the next circle too."""
    names = names_of(size * count)
    flushes = []
    for at in range(0, size * count, size):
        circle = names[at:at + size]
        flushes += [b"flush %s %s" % pair for pair in zip(circle, circle[1:] + circle[:1])]
        flushes += [b"flush %s %s" % (circle[0], name) for name in names[at + size:at + size + 1]]
    return join(*numbered_items(size * count), *flushes)


def many_duplicates():
    """16,384 flushes between two items, in both directions."""
    return join(b"item a", b"item b", *[b"flush a" + b" b" * 1_024, b"flush b" + b" a" * 1_024] * 8)


def size_cases():
    """The cases with many workqueues, components and flushes."""
    cases = [(f"{count} circles of {size}", [many_components(size, count)])
             for size, count in [(1, 2), (2, 2), (3, 100), (1, 257), (2, 1_024)]]
    pairs = many_components(2, 128)
    turned = join(*[b" ".join(words) for words in wq_lines([[name] for name in names_of(256)[::-1]])])
    cases.append(("128 circles of 2, the last one first", [pairs, turned]))
    joined = join(*[b" ".join(words) for words in wq_lines([names_of(256)[at::4] for at in range(4)])])
    cases.append(("128 circles of 2 on four workqueues", [pairs, joined]))
    some = join(*[b" ".join(words) for words in wq_lines([[name] for name in names_of(256)], set(range(0, 256, 6)))])
    cases.append(("128 circles of 2, some of them by way of workqueues without a rescuer", [pairs, some]))
    cases.append(("2 circles of 2 with `flushwq` lines", [make_declarations.whole(many_components(2, 2))]))
    cases.append(("257 circles of 1 with `flushwq` lines", [make_declarations.whole(many_components(1, 257))]))
    cases.append(("16,384 flushes, each of them many times", [many_duplicates()]))
    cases.append(("16,384 flushes, each of them many times, on a workqueue",
                  [many_duplicates(), b"wq 0 b a"]))
    return cases


def limit_circles_cases():
    """The cases at the limits: what each is, and its texts."""
    alone = [(what, [text]) for what, text in make_declarations.limit_cases()]
    return alone + make_assignments.limit_deadlock_cases() + size_cases()


def limit_dot_cases():
    """Some of these cases, since reading is the same."""
    alone = [(what, [text]) for what, text in make_declarations.limit_cases() if len(text) < 400_000]
    return alone + make_assignments.limit_deadlock_cases()[::10] + size_cases()
