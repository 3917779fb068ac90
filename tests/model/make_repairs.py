"""Makes up declarations, each with an assignment and the names of items that may move, for `repair`.

There are those at the limits of docs/FORMAT.md, and random ones. The same seed makes the same ones. A case is the two texts, and
behind them the names.
"""

import random

from declaration import ITEM_LIMIT, is_name, read_declaration
from make_assignments import all_assignments, limit_deadlock_cases, random_deadlock_case, sets_in_turn
from make_certificates import (
    any_assignment, change_wq_empty, make_assignment_lines, own_assignment, some_bare, spell_mostly, spelled, with_bare, wq_lines,
)
from make_declarations import (
    join, make_lines, numbered_items, put_faults, shape_deep, shape_downward, shape_layers, shape_wide, spell,
)

# Of the cases of `deadlock` at the limits every so many, since reading is the same, and none with a text as long as this.
ONE_OF = 25
LONG = 100_000
# NAMEs that are no items: some of them aren't names. (No words of the command line may have bytes that are no UTF-8.)
UNKNOWN = [b"", b"a b", b"#", b"x" * 64, b"\xc3\xa4", b"a\nb", b"flush", b"Item", b"zz"]
# These lead downward, so that most of the circles are those of workqueues.
SHAPES = [shape_deep, shape_downward, shape_downward, shape_layers, shape_layers, shape_wide]


def names_that_may_move(choose, items):
    """None, one, some, all but a few, or all, in any order, some of them several times; seldom what is no item."""
    way = choose.random()
    if way < 0.4:
        return []
    some = choose.choice([1, len(items) // 2, len(items) - 1, len(items), choose.randint(0, len(items))])
    names = choose.sample(items, min(max(some, 0), len(items)))
    names += choose.choices(names, k=choose.choice([0, 0, 1, 2])) if names else []
    if way > 0.97:
        names.insert(choose.randint(0, len(names)), choose.choice(UNKNOWN))
    return names


def spread(choose, declared, count):
    """The groups on so many workqueues."""
    wqs = [[] for _ in range(count)]
    for members in declared.groups:
        choose.choice(wqs).extend(members)
    return wqs


def random_repair_case(seed, number):
    """The case of this number: one of `deadlock`, or one with a few groups on each workqueue."""
    choose = random.Random(f"{seed} repair {number}")
    if choose.random() < 0.15:
        texts = random_deadlock_case(f"{seed} repair", number)
        words = dict.fromkeys(texts[0].replace(b"#", b" ").split())
        return [*texts, *names_that_may_move(choose, [word for word in words if is_name(word)])]
    count = choose.choice([1, 2, 3, 3, 4, 4, 5, 5, 6, 7, 8, 10, 12, 15, 20, 30, 50, choose.randint(50, 200)])
    lines = make_lines(choose, count, choose.choice([*SHAPES, None]))
    declared = read_declaration(spell(choose, lines, True))
    if choose.random() < 0.03:
        put_faults(choose, lines, 1)
    text = spell_mostly(choose, lines, choose.random() < 0.8)
    way = choose.random()
    if way < 0.1:
        wqs = own_assignment(declared)
    elif way < 0.3:
        wqs = any_assignment(choose, declared)
    else:
        wqs = spread(choose, declared, choose.choice([1, 2, 2, 3, 4, max(count // 3, 1), max(count // 2, 1)]))
    for _ in range(choose.choice([0, 0, 0, 1, 3])):
        change_wq_empty(choose, declared, wqs, [])
    assignment = wq_lines(wqs, some_bare(choose, wqs))
    if choose.random() < 0.15:
        assignment = make_assignment_lines(choose, declared, wqs, some_bare(choose, wqs))
    return [text, spelled(choose, declared, assignment, 0.1, called=True), *names_that_may_move(choose, declared.items)]


def names_in_turn(names, number):
    """The sets of these names, one after the other."""
    number %= 2 ** len(names)
    return [name for at, name in enumerate(names) if number >> at & 1]


def lines_on(wqs, bare=()):
    return join(*[b" ".join(words) for words in wq_lines(wqs, bare)])


def limit_repair_cases():
    """The cases at the limits: what each is, its texts, and the names."""
    cases = [case for number, case in enumerate(limit_deadlock_cases()) if number % ONE_OF == 0 and len(case[1][0]) < LONG]
    for what, (declaration, assignment) in cases[:40]:
        cases.append((f"{what}, and an unknown name", [declaration, assignment, b"a", b"zz"]))

    items = [b"item a", b"item b", b"item c", b"item d"]
    for flushes in [
        [b"flush a b", b"flush c d"],
        [b"flush a b", b"flushwq b c"],
        [b"flush a b c", b"flush b d", b"flush c d"],
        [b"ordered a d", b"flush a b", b"flush c d"],
        [b"flush a b", b"flush c b", b"flush d c"],
    ]:
        declaration = join(*items, *flushes)
        texts = all_assignments(read_declaration(declaration))
        for number, text in enumerate([*texts, *sets_in_turn(texts)]):
            names = names_in_turn([b"d", b"a", b"c", b"b"], number * 7)
            what = f"{b', '.join(flushes).decode()} by {text.decode()!r}, of which {b' '.join(names).decode()} may move"
            cases.append((what, [declaration, text, *names]))

    # Many groups.
    names = [line[5:] for line in numbered_items(ITEM_LIMIT)]

    def add(what, count, flushes, assignment, *may_move):
        cases.append((what, [join(*numbered_items(count), *flushes), assignment, *may_move]))

    few = names[:1_024]
    stars = [b"flush %s %s" % (name, names[at % 64]) for at, name in enumerate(few) if at >= 64]
    add("960 items that wait for 64, all on one workqueue", len(few), stars, lines_on([few]))
    add("the same, of which half may move", len(few), stars, lines_on([few]), *few[::2])
    add("the same, without a rescuer but for one", len(few), stars, lines_on([few[1:], few[:1]], {0}))
    add("the same, one on a workqueue with a rescuer", len(few), stars, lines_on([few[:-1], few[-1:]], {0}))
    pairs = [b"flush %s %s" % pair for pair in zip(names[::2], names[1::2])]
    add("512 pairs on two workqueues, one without a rescuer", len(few), pairs[:512], lines_on([few[::2], few[1::2]], {1}))
    add("512 pairs on two workqueues, and one item may stay", len(few), pairs[:512], lines_on([few[::2], few[1::2]], {1}), *few[:-1])
    paired = [list(pair) for pair in zip(names[::2], names[1::2])]
    add("2,048 pairs, each on a workqueue", ITEM_LIMIT, pairs, lines_on(paired))
    add("2,048 pairs, and 2,048 empty workqueues", ITEM_LIMIT, pairs, lines_on([[]] * 2_048 + paired, range(0, 2_048, 2)))
    chain = [b"flush %s %s" % pair for pair in zip(names[:300], names[1:300])]
    alone = lines_on([[name] for name in names])
    add("a chain of 300 on one workqueue", 300, chain, lines_on([names[:300]]))
    # As many groups as are looked at together, and one more; the first has to stay, or all may move.
    for count in 256, 257:
        some = names[:count]
        shorter = [b"flush %s %s" % pair for pair in zip(some, some[1:])]
        add(f"a chain of {count} on one workqueue", count, shorter, lines_on([some]))
        add(f"a chain of {count} on one workqueue, whose first item has to stay", count, shorter, lines_on([some]), *some[1:])
    # Two items on each of 256 workqueues, of which one may move. The other one waits for who may move on the next.
    twos = [names[place:place + 2] for place in range(0, 512, 2)]
    around = [b"flush %s %s" % (two[1], after[0]) for two, after in zip(twos, twos[1:])]
    back = [b"flush %s %s" % (two[0], after[1]) for two, after in zip(twos[::2], twos[1::2])]
    add("256 workqueues of two items, of which one may move", 512, around + back, lines_on(twos), *names[0:512:2])
    long_chain = [b"flush %s %s" % pair for pair in zip(names[:600], names[1:600])]
    add("a chain of 600 on one workqueue", 600, long_chain, lines_on([names[:600]]))
    # The first item of the second workqueue waits for the first one of the first, whose last one waits for the other.
    across = [b"flush %s %s" % (names[600], names[0]), b"flush %s %s" % (names[599], names[601])]
    add("two waits across 600 items on a workqueue", 602, across, lines_on([names[:600], names[600:602]]))
    add("the same with the workqueues the other way round", 602, across, lines_on([names[600:602], names[:600]]))
    add("a chain of 300 on 4,096 workqueues, every other without a rescuer", ITEM_LIMIT, chain, with_bare(alone, range(0, ITEM_LIMIT, 2)))
    add("a chain of 300 on 4,096 workqueues, and its last item has to stay", ITEM_LIMIT, chain, with_bare(alone, [299]), names[0])
    return cases
