# Makes up assignments for `deadlock`, each with the declaration that it is for: those at the limits
# of docs/FORMAT.md, and random ones. The same seed makes the same ones. An assignment is here, as in
# make_certificates.py, the list of the names on each workqueue.

import functools
import random

import plan
from certificate import TEXT_LIMIT
from deadlock import circle_of
from declaration import FLUSH_LIMIT, ITEM_LIMIT, read_declaration
from make_certificates import (
    BARE_FAULTS, GROUPED, SEVERAL_FAULTS, add_text_limits, any_assignment, assignment_of, change_wq_empty,
    faults_everywhere, make_assignment_lines, make_declaration, own_assignment, some_bare, spelled, with_bare, wq_lines,
)
from make_declarations import (
    circle_beside_chains, flush_lines, join, long_names, longest_run, numbered_items,
)


def merged(choose, wqs):
    """Two of the workqueues made one, where there are two."""
    wqs = list(wqs)
    if len(wqs) > 1:
        names = wqs.pop(choose.randrange(len(wqs)))
        at = choose.randrange(len(wqs))
        wqs[at] = wqs[at] + names
    return wqs


def safe_assignment(choose, declared):
    """A safe assignment, where there is one: workqueues are made one as long as it stays safe."""
    wqs = own_assignment(declared)
    choose.shuffle(wqs)
    for _ in range(choose.choice([0, 1, 3, 10, 30])):
        fewer = merged(choose, wqs)
        if not circle_of(declared, assignment_of(fewer)):
            wqs = fewer
    return wqs


def bare_above(choose, declared, wqs):
    """Workqueues without a rescuer, to which no flush leads from another one: some, and all that wait for these."""
    workqueue_of = assignment_of(wqs).workqueue_of
    bare = some_bare(choose, wqs)
    while True:
        above = {workqueue_of.get(item) for item, target in declared.flushes if workqueue_of.get(target) in bare}
        above.discard(None)
        if above <= bare:
            return bare
        bare |= above


def random_deadlock_case(seed, number):
    """The declaration and the assignment of this number."""
    choose = random.Random(f"{seed} deadlock {number}")
    text, declared = make_declaration(choose)
    way = choose.random()
    if way < 0.6:
        wqs = safe_assignment(choose, declared)
        if way < 0.1:
            wqs = merged(choose, wqs)
    elif way < 0.7:
        wqs = own_assignment(declared)
    else:
        wqs = any_assignment(choose, declared)
    for _ in range(choose.choice([0, 0, 0, 1, 3])):
        change_wq_empty(choose, declared, wqs, [])
    bare = choose.choice([bare_above(choose, declared, wqs), some_bare(choose, wqs)])
    assignment = make_assignment_lines(choose, declared, wqs, bare)
    return [text, spelled(choose, declared, assignment, 0.25, called=True)]


def all_assignments(declared):
    """The texts of all assignments in which no workqueue is empty, however they are numbered."""

    def parted(groups):
        """Each list of parts of the groups, in any order."""
        if not groups:
            yield []
            return
        for parts in parted(groups[:-1]):
            for at in range(len(parts)):
                yield parts[:at] + [parts[at] + groups[-1]] + parts[at + 1:]
            for at in range(len(parts) + 1):
                yield parts[:at] + [groups[-1]] + parts[at:]

    return [join(*[b" ".join(words) for words in wq_lines(wqs)])
            for wqs in parted(declared.groups)]


def sets_in_turn(texts):
    """The assignments, in each of which some workqueues have no rescuer: one set after the other."""
    for number, text in enumerate(texts):
        count = text.count(b"\n")
        at = number % (2 ** count - 1) + 1
        yield with_bare(text, [place for place in range(count) if at >> place & 1])


def large_case(workqueue_count, back):
    """4,096 items on so many workqueues, in a random order of these, with 16,384 flushes.

    The flushes lead on in the order of the workqueues, but for `back` of them, which lead back
    somewhere, or stay on the workqueue.
    """
    choose = random.Random(f"{workqueue_count} {back}")
    items = numbered_items(ITEM_LIMIT)
    names = [line[5:] for line in items]
    choose.shuffle(names)
    size = ITEM_LIMIT // workqueue_count
    flushes = []
    for number in range(FLUSH_LIMIT):
        item = choose.randrange(ITEM_LIMIT - size)
        target = choose.randrange((item // size + 1) * size, ITEM_LIMIT)
        if choose.random() < 0.8:
            target = choose.randrange((item // size + 1) * size,
                                      min(ITEM_LIMIT, (item // size + 3) * size))
        flushes.append(b"flush %s %s" % (names[item], names[target]))
    for _ in range(back):
        item = choose.randrange(ITEM_LIMIT)
        target = choose.randrange(item // size * size + 1)
        flushes[choose.randrange(FLUSH_LIMIT)] = b"flush %s %s" % (names[item], names[target])
    wqs = [names[at:at + size] for at in range(0, ITEM_LIMIT, size)]
    choose.shuffle(wqs)
    return [join(*items, *flushes), join(*[b" ".join(words) for words in wq_lines(wqs)])]


def whole_case(count, turned):
    """So many workqueues that wait for the whole of one with as many items, beside two items that wait for each other."""
    names = [line[5:] for line in numbered_items(2 * count + 2)]
    waiting, waited_for, others = names[:count], names[count:2 * count], names[2 * count:]
    waits = [b"flushwq %s %s" % pair for pair in zip(waiting, waited_for)]
    lines = [b"item " + name for name in names] + waits
    lines += [b"flush %s %s" % tuple(others), b"flushwq %s %s" % tuple(others[::-1])]
    wqs = [[name] for name in waiting] + [waited_for] + [[name] for name in others]
    if turned:
        wqs.reverse()
    return [join(*lines), join(*[b" ".join(words) for words in wq_lines(wqs)])]


@functools.cache
def limit_deadlock_cases():
    """The cases at the limits: what each is, the declaration and the assignment."""
    cases = []

    def add(what, declaration, assignment):
        cases.append((what, [declaration, assignment]))

    none, one, two = b"", b"item a\n", join(b"item a", b"item b", b"flush a b")
    looped = one + join(b"flush a a")

    add_text_limits(lambda what, text: add(what, looped, text), join(b"wq 0 a"), b"wq")
    long = b"#" * (TEXT_LIMIT + 1)
    split = b"wq 0 a d\nwq 1 b\nwq 2 c"
    for declaration in b"item\n", b"x", b"item a\nitem a\n", GROUPED + b"ordered a\n", long:
        for text in none, b"x", b"wq 0 a", b"wq 1 a", split, b"run 0", long:
            add(f"{declaration[:50]!r} is refused, beside {text[:50]!r}", declaration, text)

    add("no line, no item", none, none)
    add("no line, an item", one, none)
    add("blank lines alone, no item", none, b" \n#wq 0\n\t\r\n")
    add("an empty workqueue, no item", none, b"wq 0")
    add("empty workqueues before the item's", looped, join(b"wq 0", b"wq 1", b"wq 2 a", b"wq 3"))
    add("a bad byte in the word", one, join(b"wq 0 a", b"wq\x80 1"))
    add("a run behind", looped, join(b"wq 0 a", b"run 0"))
    add("a circle text", looped, plan.answer(looped)[0])
    add("a plan text that isn't true", looped, join(b"plan 1", b"wq 0 a", b"chain 7")
        + join(b"arc a a") * 6)
    for text in SEVERAL_FAULTS:
        add(f"{text.decode()!r} as an assignment", GROUPED, text)
        for count in 1, 2, 3, 4_097:
            add(f"{text.decode()!r} in a plan of {count}", GROUPED, b"plan %d\n" % count + text)
    for text in BARE_FAULTS:
        add(f"{text.decode()!r} as an assignment", GROUPED, text)
    for text in BARE_FAULTS[::7]:
        add(f"{text.decode()!r} in a plan of 2", GROUPED, b"plan 2\n" + text)
    for what, text in [
        ("all without a rescuer", b"norescuer 0 a"),
        ("empty ones without a rescuer", b"norescuer 0\nwq 1 a\nnorescuer 2"),
        ("a plan behind `norescuer`", b"norescuer 0\nplan 1\nwq 0 a\nchain 1"),
        ("`norescuer` behind a plan", b"plan 1\nwq 0 a\nchain 1\nnorescuer 1"),
        ("a number twice", b"wq 0 a\nnorescuer 0"),
        ("upper case", b"NoRescuer 0 a"),
        ("a `wq` line that isn't one", b"wq norescuer 0 a"),
        ("a comment behind the word", b"norescuer# 0 a\n"),
        ("a name with no blank", b"norescuer 0 a#x,y\nwq 1# x"),
        ("a bad byte in the word", b"norescuer\x80 0 a"),
        ("a CR behind the word", b"norescuer\r0 a"),
        ("an item of this name", b"norescuer 0 norescuer"),
    ]:
        add(what, looped, text)
    add("items with the names of keywords", join(b"item norescuer", b"item wq", b"flush wq norescuer"),
        b"norescuer 0 norescuer # wq\nwq 1 wq # norescuer")

    plan_of_two = b"plan 2\nwq 0 a\nwq 1 b\nchain 2\narc b a\n"
    for assignment in (b"wq 0 a\nwq 1 b\n", b"wq 0 a b\n", b"wq 0\nwq 1 b a\n", plan_of_two,
                       b"norescuer 0 a\nwq 1 b\n", b"wq 0 a\nnorescuer 1 b\n"):
        for fault, text in faults_everywhere(assignment):
            add(f"{assignment.decode()!r}, {fault}", two, text)

    # All assignments of a few declarations.
    items = [b"item a", b"item b", b"item c", b"item d"]
    for flushes in [
        [b"flush a b", b"flush c d"],
        [b"flush a b", b"flush b c"],
        [b"flush a b c", b"flush b d", b"flush c d"],
        [b"flush d c b a", b"flush c a d", b"flush a b"],
        [b"flush b a", b"flush b c a", b"flush c d d"],
        [b"ordered a d", b"ordered b c", b"flush a b", b"flush c d"],
        [b"ordered d b", b"flush c a", b"flush d a c", b"flush b c"],
        [b"flushwq a b", b"flushwq c d"],
        [b"flushwq a b", b"flush b c", b"flushwq c d"],
        [b"flush a b", b"flushwq a b", b"flush c a"],
        [b"ordered a d", b"ordered b c", b"flushwq a b", b"flush c d"],
    ]:
        declaration = join(*items, *flushes)
        texts = all_assignments(read_declaration(declaration))
        for text in [*texts, *sets_in_turn(texts)]:
            add(f"{b', '.join(flushes).decode()} by {text.decode()!r}", declaration, text)

    # Workqueues.
    for count in 4_095, 4_096, 4_097:
        lines = [b"wq %d" % number for number in range(count)]
        for what, declaration in ("safe", one), ("unsafe", looped):
            text = join(*lines)[:-1] + b" a\n"
            add(f"{count} workqueues, none used, {what}", declaration, join(*lines))
            for bare in range(count), range(0, count, 2), [count - 1]:
                add(f"{count} workqueues, the item last, {len(bare)} without a rescuer, {what}",
                    declaration, with_bare(text, bare))
            add(f"{count} workqueues, the item last, {what}", declaration, text)
            unknown = text[:-2] + b"b\n"
            add(f"{count} workqueues, then an unknown item, {what}", declaration, unknown)
            add(f"{count} workqueues, then another word, {what}", declaration, text + b"chain 0\n")
            add(f"{count} workqueues in a plan, {what}", declaration,
                join(b"plan %d" % count) + text + b"chain 1\n")
        lines[0] += b" a"
        lines[-1] += b" b"
        add(f"{count} workqueues, the first waits for the last", two, join(*lines))
        add(f"{count} workqueues, the two wait for each other", two + b"flush b a", join(*lines))

    # Items and flushes.
    names = [line[5:] for line in numbered_items(ITEM_LIMIT)]

    def add_wqs(what, declaration, wqs, bare=()):
        text = join(*[b" ".join(words) for words in wq_lines(wqs, bare)])
        add(what, declaration, text)

    alone = [[name] for name in names]
    longest = longest_run(names, FLUSH_LIMIT)
    add_wqs("a run of 45,054 steps on two workqueues", longest, [names[:1], names[1:]])
    add_wqs("the same, the other way", longest, [names[1:], names[:1]])
    add_wqs("the same, the last item first", longest, [names[:1], names[:0:-1]])
    add_wqs("the same on 4,096 workqueues", longest, alone)
    add_wqs("the same, the other way", longest, alone[::-1])
    many = long_names(ITEM_LIMIT)
    add_wqs("long names on two workqueues", longest_run(many, 11_500), [many[:1], many[1:]])
    beside = circle_beside_chains(names)
    add_wqs("a circle beside chains on 4,096 workqueues", beside, alone)
    add_wqs("a circle beside chains, the other way", beside, alone[::-1])
    add_wqs("a circle beside chains on two workqueues", beside, [names[:2], names[2:]])
    add_wqs("a circle beside chains on two, the other way", beside, [names[2:], names[:2]])
    add_wqs("a circle between two workqueues", beside, [names[:1], names[1:]])
    add_wqs("all items on one workqueue", beside, [names])
    items = numbered_items(ITEM_LIMIT)
    chain = join(*items, *[b"flush %s %s" % pair for pair in zip(names, names[1:])])
    add_wqs("a chain of 4,096", chain, alone)
    add_wqs("a circle of 4,096", chain + join(b"flush i4095 i0"), alone)
    add_wqs("a circle of 4,096, the other way", chain + join(b"flush i4095 i0"), alone[::-1])
    add_wqs("4,095 that lead to one", chain + join(b"flush i4095 i4095"), alone)
    to_last = [b"flush %s i4095" % name for name in names[:-1]]
    add_wqs("4,095 beside one that waits for them and for itself",
            join(*items, *to_last, b"flush i4095 i4094 i0 i4095"), [names[:-1], names[-1:]])
    others = flush_lines(b"i0", names[1:]) * 4
    add_wqs("4,095 that the first waits for", join(*items, *others), alone)
    add_wqs("a run of 45,054 steps, but for a workqueue without a rescuer", longest, [names[:1], names[1:]], {1})
    add_wqs("the same, the other way", longest, [names[:1], names[1:]], {0})
    add_wqs("a chain of 4,096, the last one without a rescuer", chain, alone, {4_095})
    add_wqs("a chain of 4,096, the first ones without a rescuer", chain, alone, range(3_000))
    add_wqs("a chain of 4,096, every other one without a rescuer", chain, alone, range(0, 4_096, 2))
    add_wqs("a circle of 4,096, one without a rescuer", chain + join(b"flush i4095 i0"), alone, {2_048})
    add_wqs("a circle of 4,096, all without a rescuer", chain + join(b"flush i4095 i0"), alone, range(4_096))
    add_wqs("a circle beside 4,095 without a rescuer",
            join(*items, *to_last, b"flush i4095 i4095"), alone, range(4_095))
    add_wqs("16,380 flushes that lead to no rescuer", join(*items, *others), [names[:1], names[1:]], {1})
    for turned in False, True:
        add(f"2,046 that wait for the whole workqueue of 2,046 items, turned: {turned}", *whole_case(2_046, turned))
    for count, back in [(2, 0), (2, 1), (4, 2), (64, 1), (64, 2), (1_024, 1), (2_048, 2),
                        (4_096, 0), (4_096, 1), (4_096, 2)]:
        add(f"{count} workqueues, {back} flushes back", *large_case(count, back))
    return cases
