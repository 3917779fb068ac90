"""Makes up declarations, each with an assignment, for `hang`.

There are those at the limits of docs/FORMAT.md, and random ones. The same seed makes the same ones.
"""

import random

from declaration import ITEM_LIMIT
from make_assignments import bare_above, limit_deadlock_cases, merged, random_deadlock_case
from make_certificates import (
    any_assignment, change_wq_empty, make_assignment_lines, make_declaration, own_assignment, some_bare, spelled, wq_lines,
)
from make_declarations import join, numbered_items, path

# Of the cases of `deadlock` at the limits every so many, since reading is the same, and all with texts as long as this.
ONE_OF = 18
LONG = 100_000


def shape_rounds(choose, count):
    """Ways round over many groups, with shorter ways round among them, and ways across."""
    pairs = []
    for _ in range(choose.choice([1, 1, 2, 3]) if count else 0):
        places = choose.sample(range(count), choose.randint(1, count))
        pairs += path(places) + [(places[-1], places[0])]
    across = choose.choice([0, 0, 1, 3, count])
    return pairs + [(choose.randrange(count), choose.randrange(count)) for _ in range(across if count > 1 else 0)]


def without_own(choose, wqs, declared):
    """The declaration's groups in pairs on workqueues, such that few of its flushes stay on one."""
    for _ in range(choose.choice([0, 1, 2, 4, len(wqs)])):
        fewer = merged(choose, wqs)
        of = {name: number for number, names in enumerate(fewer) for name in names}
        if all(of[item] != of[target] for item, target in declared.flushes):
            wqs = fewer
    return wqs


def random_hang_case(seed, number):
    """The case of this number: one of `deadlock`, or one with ways round."""
    choose = random.Random(f"{seed} hang {number}")
    if choose.random() < 0.3:
        return random_deadlock_case(f"{seed} hang", number)
    text, declared = make_declaration(choose, shape_rounds)
    wqs = own_assignment(declared)
    choose.shuffle(wqs)
    way = choose.random()
    if way < 0.6:
        wqs = without_own(choose, wqs, declared)
    elif way < 0.8:
        wqs = any_assignment(choose, declared)
    for _ in range(choose.choice([0, 0, 0, 1, 3])):
        change_wq_empty(choose, declared, wqs, [])
    bare = choose.choice([frozenset(), bare_above(choose, declared, wqs), some_bare(choose, wqs)])
    return [text, spelled(choose, declared, make_assignment_lines(choose, declared, wqs, bare), 0.1, called=True)]


def assigned(wqs, bare=frozenset()):
    return join(*[b" ".join(words) for words in wq_lines(wqs, bare)])


def rounds(size, count, beside):
    """So many ways round over so many items, each with a workqueue of its own, and of `beside` of them the target is another item."""
    names = [line[5:] for line in numbered_items((size + beside) * count)]
    wqs, flushes = [], []
    for at in range(0, len(names), size + beside):
        waiting, others = names[at:at + size], names[at + size:at + size + beside]
        targets = others + waiting[beside:]
        wqs += [[item, *targets[place:place + 1]] if place < beside else [item] for place, item in enumerate(waiting)]
        flushes += [b"flush %s %s" % pair for pair in zip(waiting, targets[1:] + targets[:1])]
    return join(*numbered_items(len(names)), *flushes), assigned(wqs)


def limit_hang_cases():
    """The cases at the limits: what each is, and its texts."""
    cases = limit_deadlock_cases()
    cases = [case for number, case in enumerate(cases) if number % ONE_OF == 0 or len(case[1][0]) > LONG]
    for size, count, beside in [(ITEM_LIMIT, 1, 0), (ITEM_LIMIT // 2, 1, ITEM_LIMIT // 2), (3, 500, 2), (30, 100, 7)]:
        text, assignment = rounds(size, count, beside)
        cases.append((f"{count} ways round over {size} items, {beside} of them with targets beside", [text, assignment]))
    return cases
