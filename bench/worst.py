"""The worst inputs that were found for each command but `run`, within the limits of docs/FORMAT.md.

A case is a name, a command and its texts. `cases(PROGRAM)` gives all of them, the same ones each time; a certificate or a run that
belongs to a declaration is what PROGRAM answers to it.
"""

import os
import random
import resource
import signal
import subprocess

import collisions

ITEMS = 4096
FLUSHES = 16384
MOST_DECLARATION = 1048576
MOST_LINE = 4096
MOST_CERTIFICATE = 8388608
MOST_CERTIFICATE_LINE = 524288
HALF = ITEMS // 2
LAST = ITEMS - 1
# Lines that hold no word, of as few bytes as can be.
WORDLESS = {"empty lines": "\n", "comments": "#\n", "lines of a space": " \n"}
# A run that takes longer than this many seconds of processor time is ended, and one that waits this long.
LIMIT = 60
LONGEST_WAIT = 600
# Where GNU time is.
TIME = "/usr/bin/time"


def short(i):
    return f"{i:x}"


def long(i):
    return short(i).rjust(63, "-")


# ---- declarations

def declaration(items, flushes, ordered=(), name=short, words=("flush",)):
    """All items, of each group a line with its items, and of each flush a line, with these first words in turn."""
    lines = [f"item {name(i)}\n" for i in range(items)]
    lines += ["ordered " + " ".join(name(i) for i in group) + "\n" for group in ordered]
    lines += [f"{words[n % len(words)]} {name(source)} {name(target)}\n" for n, (source, target) in enumerate(flushes)]
    return "".join(lines)


def chain():
    """Each item flushes the next one four times."""
    return [(i, i + 1) for i in range(LAST) for _ in range(4)]


def downwards():
    """Each item flushes the one before it four times, so that what is lowest comes last."""
    return [(i + 1, i) for i in range(LAST) for _ in range(4)]


def circle():
    """Each item flushes the next one four times, and the last one the first."""
    return [(i, (i + 1) % ITEMS) for i in range(ITEMS) for _ in range(4)]


def one_flushes_all():
    """The last item flushes the others, again and again."""
    return [(LAST, place % LAST) for place in range(FLUSHES)]


def all_flush_one():
    """The others flush the first item, again and again."""
    return [(1 + place % LAST, 0) for place in range(FLUSHES)]


def layers():
    """Each item flushes the four after it, so that each may be reached on very many ways."""
    return [(i, i + step) for i in range(ITEMS - 4) for step in (1, 2, 3, 4)]


def drawn(seed):
    """Random flushes, in both directions."""
    numbers = random.Random(seed)
    return [(numbers.randrange(ITEMS), numbers.randrange(ITEMS)) for _ in range(FLUSHES)]


def falling(seed):
    """Random flushes to items declared earlier."""
    numbers = random.Random(seed)
    return [tuple(sorted(numbers.sample(range(ITEMS), 2), reverse=True)) for _ in range(FLUSHES)]


def pairs():
    """Two items each that flush each other: as many circles as there can be."""
    return [(i, i ^ 1) for i in range(ITEMS) for _ in range(4)]


# Items that wait for the last of a long workqueue, and two that hang.
WAITING = 2046


def waiting():
    """The first items flush the last one of the next 2,048, which flush nothing; the last two flush each other."""
    return [(i, WAITING + 2047) for i in range(WAITING)] + [(ITEMS - 2, ITEMS - 1), (ITEMS - 1, ITEMS - 2)]


def waiting_workqueues(name=short):
    queues = [[i] for i in range(WAITING)] + [range(WAITING, WAITING + 2048), [ITEMS - 2], [ITEMS - 1]]
    return workqueues(queues, name)


def waiting_for_group(word="flush"):
    """The same as groups: 3,094 items flush the last one of a group of 1,000, and the last two flush each other."""
    group = range(ITEMS - 1002, ITEMS - 2)
    flushes = [(i, ITEMS - 3) for i in range(ITEMS - 1002)] + [(ITEMS - 2, ITEMS - 1), (ITEMS - 1, ITEMS - 2)]
    return declaration(ITEMS, flushes, [group], words=[word])


def waiting_for_workqueue():
    """The first 2,046 items wait for the workqueue of the next 2,048, each for another one of these, and the last two for each other."""
    flushes = [(i, WAITING + i) for i in range(WAITING)] + waiting()[WAITING:]
    return declaration(ITEMS, flushes, words=["flushwq"])


def waiting_of_both_kinds():
    """The same with as many waits as there may be, by `flush` and by `flushwq` in turn."""
    flushes = waiting()[WAITING:] + [(n // 2 % WAITING, WAITING + n % 2048) for n in range(FLUSHES - 2)]
    return declaration(ITEMS, flushes, words=["flush", "flushwq"])


def padded(line, count, most):
    """As many of these lines as a text of so many bytes has room for."""
    return line * min(count, most // len(line))


def leading_last():
    """Half of the items flush falling ones of their own half, the others flush any; the last flush leads from the first half to the other."""
    numbers = random.Random(5)
    low = [tuple(sorted(numbers.sample(range(HALF), 2))) for _ in range(FLUSHES // 2)]
    high = [(HALF + numbers.randrange(HALF), numbers.randrange(ITEMS)) for _ in range(FLUSHES - 1 - len(low))]
    return [flush for both in zip(low, high) for flush in both] + low[len(high):] + [(HALF - 1, LAST)]


def all_lead():
    """Each flush leads from the first half of the items to the other."""
    return [(place % HALF, HALF + place * 7 % HALF) for place in range(FLUSHES)]


def leading_and_circle():
    """The first half flush the next one, around, and each of these flushes comes again; the last flush leads to the other half."""
    return [(place % HALF, (place + 1) % HALF) for place in range(FLUSHES - 1)] + [(0, LAST)]


def around():
    """Each item flushes the four after it, around: no way round is short, and there are very many."""
    return [(i, (i + step) % ITEMS) for i in range(ITEMS) for step in (1, 2, 3, 4)]


def one_back():
    """The same, but only the last flush leads back: the way round goes through all layers."""
    return layers()[:FLUSHES - 1] + [(LAST, 0)]


def across():
    """Random flushes by both kinds that lead on by a little, around."""
    numbers = random.Random(1)
    return [(i, (i + numbers.choice((1, 2, 3, 16))) % ITEMS) for i in range(ITEMS) for _ in range(4)]


def in_layers(width):
    """Layers of so many items, each of which flushes four random ones of the next layer."""
    numbers = random.Random(7)
    return [(i, i // width * width + width + numbers.randrange(width)) for i in range(ITEMS - width) for _ in range(4)]


def few(count):
    """So many random flushes of later items."""
    numbers = random.Random(1)
    return [tuple(sorted(numbers.sample(range(ITEMS), 2))) for _ in range(count)]


def one_between(count):
    """So many items wait for one, which waits for as many. Each of the first waits for one more, for which one more item waits."""
    one = 2 * count
    return [flush for i in range(count) for flush in ((i, one), (i, one + 1 + i), (count + i, one + 1 + i), (one, one + 1 + count + i))]


def near(width):
    """Each item flushes four random ones of the next so many."""
    numbers = random.Random(1)
    return [(i, min(LAST, i + 1 + numbers.randrange(width))) for i in range(LAST) for _ in range(4)]


def shuffled(flushes):
    """The same flushes, of other items."""
    others = list(range(ITEMS))
    random.Random(3).shuffle(others)
    return [(others[source], others[target]) for source, target in flushes]


def blob(count):
    """Random flushes among the first so many items, which lead on."""
    numbers = random.Random(2)
    return [tuple(sorted(numbers.sample(range(count), 2))) for _ in range(FLUSHES)]


def between(count, half):
    """Items that lie on so many workqueues in turn, each of which flushes random ones of the next workqueue; if `half`, of each
    workqueue every other item flushes, and the others are flushed."""
    numbers = random.Random(7)
    waiting = [i for i in range(ITEMS) if not half or i // count % 2 == 0]
    targets = [[i for i in range(queue, ITEMS, count) if not half or i // count % 2 == 1] for queue in range(count)]
    sources = [waiting[place % len(waiting)] for place in range(FLUSHES)]
    return [(i, numbers.choice(targets[(i + 1) % count])) for i in sources]


# ---- assignments and runs

def workqueues(queues, name=short):
    return "".join(f"wq {q}" + "".join(f" {name(i)}" for i in items) + "\n" for q, items in enumerate(queues))


def half_bare(called=None):
    """Each item on its own workqueue, of which the second half have no rescuer. `called(i)` is the name of workqueue i, if they have one."""
    return "".join(f"{'wq' if i < HALF else 'norescuer'} {i} {short(i)}{f'  # {called(i)}' if called else ''}\n" for i in range(ITEMS))


def half_on_one_bare(name=short):
    """The first half of the items on workqueues of their own, the others together on one without a rescuer."""
    return workqueues([[i] for i in range(HALF)], name) + f"norescuer {HALF}" + "".join(f" {name(i)}" for i in range(HALF, ITEMS)) + "\n"


def one():
    return workqueues([range(ITEMS)])


def two():
    return workqueues([range(HALF), range(HALF, ITEMS)])


def own():
    return workqueues([i] for i in range(ITEMS))


def in_turn(count):
    return workqueues(range(queue, ITEMS, count) for queue in range(count))


def in_turn_with_bare(count, step):
    """The same, where of every so many workqueues the first one has no rescuer."""
    lines = in_turn(count).splitlines(True)
    return "".join(line.replace("wq", "norescuer") if q % step == 0 else line for q, line in enumerate(lines))


def all_but_one_bare():
    """Each item on its own workqueue, of which only the first has a rescuer."""
    return "".join(f"{'norescuer' if i else 'wq'} {i} {short(i)}\n" for i in range(ITEMS))


def backwards():
    return workqueues([i] for i in reversed(range(ITEMS)))


def run_text(first, again, most, last=()):
    """The first steps, and then the others again and again, as often as a text of so many bytes has room for, and then the last ones."""
    head, body, tail = "".join(first), "".join(again), "".join(last)
    turns = (most - len(head) - len(tail) - len("run 99999999\n")) // len(body)
    return f"run {len(first) + turns * len(again) + len(last)}\n" + head + body * turns + tail


def below(line, text, most):
    """A text below as many of these lines as it leaves room for."""
    return padded(line, most, most - len(text)) + text


def queued(items, name=short):
    return [f"queue {name(i)}\n" for i in items]


def runs(most):
    """Of each a name, the declaration, the assignment and the run, which has at most so many bytes."""
    nothing = declaration(ITEMS, [])
    everything = queued(range(ITEMS))
    yield "the last of 4,096 entries cancelled and queued", nothing, one(), run_text(everything, ["cancel fff\n", "queue fff\n"], most)
    yield "4,096 entries rotated", nothing, one(), run_text(everything, [s for i in range(ITEMS) for s in (f"cancel {i:x}\n", f"queue {i:x}\n")], most)
    yield "4,096 entries cancelled from the last one on", nothing, one(), run_text([], everything + [f"cancel {i:x}\n" for i in reversed(range(ITEMS))], most)
    yield "an entry queued, started and finished", nothing, one(), run_text([], ["queue 0\n", "start 0 0\n", "finish 0 0\n"], most)
    yield "the same on the last of 4,096 workqueues", nothing, own(), run_text([], ["queue fff\n", "start 4095 fff\n", "finish 4095 fff\n"], most)
    targets = [(0, 1)] * (FLUSHES - 1) + [(0, 2)]
    turn = ["queue 0\n", "start 0 0\n"] + ["wait 0 2\n", "over 0 2\n"] * FLUSHES + ["finish 0 0\n"]
    yield "waits for the last of 16,384 targets", declaration(ITEMS, targets), own(), run_text([], turn, most)
    both = declaration(ITEMS, targets, words=["flush", "flushwq"])
    turn = ["queue 0\n", "start 0 0\n"] + ["waitwq 0 2\n", "overwq 0 2\n"] * FLUSHES + ["finish 0 0\n"]
    yield "waits for the last of 16,384 targets of both kinds", both, own(), run_text([], turn, most)
    whole = declaration(ITEMS, [(0, LAST)], words=["flushwq"])
    turn = ["queue 0\n", "start 0 0\n", "waitwq 0 fff\n", *queued(range(1, ITEMS)), "overwq 0 fff\n", "finish 0 0\n"]
    turn += [f"{step}\n" for i in range(1, ITEMS) for step in (f"start 1 {i:x}", f"finish 1 {i:x}")]
    yield "waits for a workqueue to which 4,095 entries come", whole, workqueues([[0], range(1, ITEMS)]), run_text([], turn, most)
    several = [(0, 1 + place % LAST) for place in range(FLUSHES)]
    turn = ["queue 0\n", "start 0 0\n"] + [s for place in reversed(range(FLUSHES)) for s in (f"wait 0 {1 + place % LAST:x}\n", f"over 0 {1 + place % LAST:x}\n")] + ["finish 0 0\n"]
    yield "waits for 4,095 targets, the last one first", declaration(ITEMS, several), own(), run_text([], turn, most)
    behind = [(0, LAST)] * FLUSHES
    queues = workqueues([[0], range(1, ITEMS)])
    turn = ["queue 0\n", "start 0 0\n"] + ["wait 0 fff\n", "over 0 fff\n"] * FLUSHES + ["finish 0 0\n"]
    yield "waits for an item behind 4,094 entries", declaration(ITEMS, behind), queues, run_text(queued(range(1, LAST)), turn, most)
    yield "4,096 workqueues start and finish", nothing, own(), run_text([], [s for i in range(ITEMS) for s in (f"queue {i:x}\n", f"start {i} {i:x}\n", f"finish {i} {i:x}\n")], most)
    names = declaration(ITEMS, [], name=long)
    yield "the longest names", names, workqueues([range(ITEMS)], long), run_text(queued(range(ITEMS), long), [f"cancel {long(LAST)}\n", f"queue {long(LAST)}\n"], most)
    yield "the longest text of empty lines", nothing, one(), below("\n", "run 0\n", most)
    yield "the longest lines of comments", nothing, one(), padded("#" * MOST_CERTIFICATE_LINE + "\n", 16, most - 6) + "run 0\n"
    turn = ["cancel fff\n", "queue fff\n"]
    yield "not lawful at the last step", nothing, one(), run_text(everything, turn, most, ["start 1 0\n"])
    yield "refused at the last line", nothing, one(), run_text(everything, turn, most, ["start 1 ?\n"])
    for kind, line in WORDLESS.items():
        yield f"an assignment below {kind}, refused at its last line", nothing, below(line, one() + "?\n", most), "run 0\n"
        yield f"an assignment and a run below {kind}, refused at the last line", nothing, below(line, one(), most), below(line, "run 0\n?\n", most)


def certificates(circle, plan, most):
    """Of each a name and the certificate, which has at most so many bytes. `circle` and `plan` are such texts, without a run."""
    everything, turn = queued(range(ITEMS)), ["cancel fff\n", "queue fff\n"]
    room = most - len(circle)
    yield "a circle whose run doesn't end stuck", circle + run_text(everything, turn, room)
    yield "a circle whose run isn't lawful at its last step", circle + run_text(everything, turn, room, ["start 4095 0\n"])
    yield "a circle whose run is refused at its last line", circle + run_text(everything, turn, room, ["start 1 ?\n"])
    for kind, line in WORDLESS.items():
        yield f"a plan below {kind}", below(line, plan, most)
        yield f"a plan below {kind}, refused at its last line", below(line, plan + "?\n", most)
        yield f"a plan below {kind}, whose chain isn't one", below(line, plan.replace("chain 1", "chain 2\narc 0 1"), most)


def declarations():
    """Of each a name, and the declaration."""
    yield "a chain", declaration(ITEMS, chain())
    yield "a chain downwards", declaration(ITEMS, downwards())
    yield "a circle of all", declaration(ITEMS, circle())
    yield "one flushes all", declaration(ITEMS, one_flushes_all())
    yield "all flush one", declaration(ITEMS, all_flush_one())
    yield "layers", declaration(ITEMS, layers())
    yield "random flushes", declaration(ITEMS, falling(1))
    yield "random flushes with circles", declaration(ITEMS, drawn(2))
    yield "2,048 circles of two", declaration(ITEMS, pairs())
    yield "2,046 wait for the last of 2,048", declaration(ITEMS, waiting())
    yield "3,094 wait for the last of a group of 1,000", waiting_for_group()
    yield "3,094 wait for the whole workqueue of a group of 1,000", waiting_for_group("flushwq")
    half = FLUSHES // 2
    yield "half wait for one, which waits as often", declaration(ITEMS, [(0, 1)] * half + [(2 + i % (ITEMS - 2), 0) for i in range(half)])
    yield "groups of two, a chain of them", declaration(ITEMS, [(i, (i + 2) % ITEMS) for i in range(ITEMS - 2) for _ in range(4)], [[i, i + 1] for i in range(0, ITEMS, 2)])


def bare_declarations():
    """Of each a name, and the declaration, whose second half of items is for workqueues without a rescuer."""
    yield "only the last of 16,384 flushes leads to no rescuer", declaration(ITEMS, leading_last())
    yield "16,384 flushes lead to no rescuer", declaration(ITEMS, all_lead())
    yield "16,384 flushes of workqueues lead to no rescuer", declaration(ITEMS, all_lead(), words=["flushwq"])
    yield "a circle of 2,048, and one flush leads to no rescuer", declaration(ITEMS, leading_and_circle())
    yield "no flush of one on a workqueue without a rescuer", declaration(ITEMS, [(HALF + place % HALF, place % ITEMS) for place in range(FLUSHES)])


def long_rounds():
    """Of each a name, the declaration and the assignment, in which workqueues wait in circles, none of them short or few."""
    yield "four flushes on, around", declaration(ITEMS, around()), own()
    yield "four flushes on, and one back from the last", declaration(ITEMS, one_back()), own()
    yield "random flushes on, around", declaration(ITEMS, across(), words=["flush", "flushwq"]), own()
    yield "flushes of the next 512, 2,048 workqueues", declaration(ITEMS, near(512)), in_turn(2_048)
    for count in 3, 64:
        yield f"{count} workqueues around, each item flushes the next one", declaration(ITEMS, between(count, False)), in_turn(count)
        yield f"{count} workqueues around, half of the items flush others that don't", declaration(ITEMS, between(count, True)), in_turn(count)


# Which flushes are unsure: of each way its name, and of which places, from 0, they are.
UNSURE = {
    "all unsure": lambda place: True,
    "every second unsure": lambda place: place % 2 == 1,
    "one unsure": lambda place: place == FLUSHES // 2,
}


def made_unsure(text, is_unsure):
    """A declaration of flushes with one target each, of which those at these places are unsure."""
    lines, place = text.splitlines(True), 0
    for at, line in enumerate(lines):
        if line.startswith("flush"):
            lines[at] = line.replace(" ", "? ", 1) if is_unsure(place) else line
            place += 1
    return "".join(lines)


def with_unsure_lines():
    """Of each a name, the declaration and the assignment, in which some or all flushes are unsure."""
    both = declaration(ITEMS, across(), words=["flush", "flushwq"])
    found = [
        *long_rounds(),
        ("layers, one workqueue", declaration(ITEMS, layers()), one()),
        ("layers, 64 workqueues", declaration(ITEMS, layers()), in_turn(64)),
        ("layers of 64, two workqueues", declaration(ITEMS, in_layers(64)), two()),
        ("layers of 64 other items, 512 workqueues", declaration(ITEMS, shuffled(in_layers(64))), in_turn(512)),
        ("a chain, one workqueue", declaration(ITEMS, chain()), one()),
        ("a chain downwards, one workqueue", declaration(ITEMS, downwards()), one()),
        ("a circle of all, own workqueues", declaration(ITEMS, circle()), own()),
        ("random flushes, one workqueue", declaration(ITEMS, falling(1)), one()),
        ("random flushes with circles, own workqueues", declaration(ITEMS, drawn(2)), own()),
        ("random flushes on, around, one workqueue", both, one()),
        ("a dense blob of 3,900, 2,048 workqueues", declaration(ITEMS, blob(3_900)), in_turn(2_048)),
        ("2,046 workqueues wait for the last of 2,048 items", declaration(ITEMS, waiting()), waiting_workqueues()),
        ("16,384 waits of both kinds, of 2,046 workqueues for one", waiting_of_both_kinds(), waiting_workqueues()),
        ("layers, 64 workqueues, every other without a rescuer", declaration(ITEMS, layers()), in_turn_with_bare(64, 2)),
        ("random flushes, 512 workqueues, every other without a rescuer", declaration(ITEMS, falling(3)), in_turn_with_bare(512, 2)),
    ]
    found += [(f"{name}, 2,048 workqueues without a rescuer", text, half_bare()) for name, text in bare_declarations()]
    for name, text, assignment in found:
        for which, is_unsure in UNSURE.items():
            yield f"{name}, {which}", made_unsure(text, is_unsure), assignment


def repairs():
    """Of each a name, the declaration, the assignment, and the items that may move, if not all."""
    half = [short(i) for i in range(0, ITEMS, 2)]
    chained, on_near = declaration(ITEMS, chain()), declaration(ITEMS, near(512))
    yield "a chain, one workqueue", chained, one(), []
    yield "a chain, one workqueue, half may move", chained, one(), half
    yield "a chain, one workqueue, half may move, and a misspelt name", chained, one(), [*half, "fffg"]
    yield "a chain, 64 workqueues, every other without a rescuer", chained, in_turn_with_bare(64, 2), []
    yield "a chain, 4,096 workqueues, one with a rescuer", chained, all_but_one_bare(), []
    yield "a chain of other items, 64 workqueues", declaration(ITEMS, shuffled(chain())), in_turn(64), []
    yield "a dense blob of 3,900, one workqueue", declaration(ITEMS, blob(3_900)), one(), []
    yield "a dense blob of 3,900, 2,048 workqueues", declaration(ITEMS, blob(3_900)), in_turn(2_048), []
    yield "half wait for the other half, one workqueue", declaration(ITEMS, all_lead()), one(), []
    yield "flushes of the next 512, 64 workqueues", on_near, in_turn(64), []
    yield "flushes of the next 512, 2,048 workqueues", on_near, in_turn(2_048), []
    yield "layers, 64 workqueues, every other without a rescuer", declaration(ITEMS, layers()), in_turn_with_bare(64, 2), []
    yield "random flushes, one workqueue", declaration(ITEMS, falling(3)), one(), []
    yield "random flushes, 512 workqueues, every other without a rescuer", declaration(ITEMS, falling(3)), in_turn_with_bare(512, 2), []
    for width in 64, 1_024:
        yield (f"layers of {width:,} other items, 512 workqueues, every other without a rescuer",
               declaration(ITEMS, shuffled(in_layers(width))), in_turn_with_bare(512, 2), [])
    yield "4,000 random flushes, 2,048 workqueues", declaration(ITEMS, few(4_000)), in_turn(2_048), []
    yield "100 random flushes, 64 workqueues", declaration(ITEMS, few(100)), in_turn(64), []
    yield "one waits for 1,023, and as many for it, one workqueue", declaration(ITEMS, one_between(1_023)), one(), []


def torus():
    """Items on a torus of 64 times 64, each of which flushes four of those around it."""
    return [(i, (i + step) % ITEMS) for i in range(ITEMS) for step in (1, 63, 64, 65)]


def behind_pairs():
    """Of two items on each of 2,048 workqueues the first flushes the second one of each of the next eight."""
    return [(2 * q, 2 * ((q + step) % HALF) + 1) for q in range(HALF) for step in range(1, 9)]


def pairs_of_items():
    return "".join(f"wq {q} {short(2 * q)} {short(2 * q + 1)}\n" for q in range(HALF))


def held():
    """Of each a name, the declaration, the assignment, and the items that must go on."""
    yield "a torus, own workqueues", declaration(ITEMS, torus()), own(), ["0"]
    yield "a torus, own workqueues, all unsure", made_unsure(declaration(ITEMS, torus()), UNSURE["all unsure"]), own(), ["0"]
    yield "four flushes on, around", declaration(ITEMS, around()), own(), ["0"]
    yield "random flushes on, around", declaration(ITEMS, across(), words=["flush", "flushwq"]), own(), ["0"]
    yield "flushes of the next 512, 2,048 workqueues", declaration(ITEMS, near(512)), in_turn(2_048), ["0"]
    yield "one is behind another on each of 2,048 workqueues", declaration(ITEMS, behind_pairs()), pairs_of_items(), ["0"]
    yield "one is behind another on each of 2,048 workqueues, and such a one NAMEd", declaration(ITEMS, behind_pairs()), pairs_of_items(), ["1"]
    yield "layers, 64 workqueues, every other without a rescuer", declaration(ITEMS, layers()), in_turn_with_bare(64, 2), ["0"]
    yield "a chain, one workqueue", declaration(ITEMS, chain()), one(), [short(LAST)]
    everyone = [short(i) for i in range(ITEMS)]
    yield "a chain, own workqueues, all of them", declaration(ITEMS, chain()), own(), everyone
    for name, flushes, assignment in [
        ("a torus, own workqueues", torus(), own()),
        ("four flushes on, around", around(), own()),
        ("one is behind another on each of 2,048 workqueues", behind_pairs(), pairs_of_items()),
    ]:
        yield f"{name}, all items", declaration(ITEMS, flushes), assignment, everyone
        yield f"{name}, every second item", declaration(ITEMS, flushes), assignment, everyone[1::2]


def each_on_its_own(items):
    return "".join(f"wq {q} {short(i)}\n" for q, i in enumerate(items))


def arounds():
    """Of each a name, the declaration, and the workqueues that stay."""
    every_second, backwards_too = each_on_its_own(range(0, ITEMS, 2)), each_on_its_own(range(LAST, 0, -2))
    for name, flushes in [("a chain", chain()), ("layers", layers()), ("random flushes", falling(1)), ("a circle of all", circle())]:
        text = declaration(ITEMS, flushes)
        yield f"{name}, every second stays", text, every_second
        yield f"{name}, every second stays, the last one first", text, backwards_too
        yield f"{name}, only the last stays", text, each_on_its_own([LAST])
        yield f"{name}, all stay", text, own()
        yield f"{name}, one stays without a rescuer", text, f"norescuer 0 {short(LAST)}\n"


COLLIDING = "names that collide for the seed 0"


def texts():
    """Declarations that are long rather than hard."""
    lines = declaration(ITEMS, falling(3), name=long)[:MOST_DECLARATION]
    yield "the longest names", lines[:lines.rindex("\n") + 1]
    yield COLLIDING, collisions.declaration(ITEMS, FLUSHES)
    yield "empty lines alone", "\n" * MOST_DECLARATION
    yield "comments alone", ("#" * MOST_LINE + "\n") * (MOST_DECLARATION // (MOST_LINE + 1))
    yield "lines of spaces", (" " * MOST_LINE + "\n") * (MOST_DECLARATION // (MOST_LINE + 1))
    many = "flush 0" + " 1" * ((MOST_LINE - 7) // 2) + "\n"
    yield "long lines of short names", "item 0\nitem 1\n" + many * (FLUSHES // many.count(" 1"))
    comment = " # " + "&" * 256 + "\n"
    many = "flush 0" + " 1" * ((MOST_LINE - 6 - len(comment)) // 2)
    yield "flushes with comments", "item 0\nitem 1\n" + (many + comment) * (FLUSHES // many.count(" 1"))
    yield "an unknown name at the end", declaration(ITEMS, falling(4)) + "flush 0 unknown\n"
    yield "a wrong byte at the end", declaration(ITEMS, falling(4)) + "\x7f\n"


class Program:
    def __init__(self, path):
        self.path = path

    def answer(self, command, folder, *words):
        run = subprocess.run([self.path, command, *words], capture_output=True, cwd=folder, timeout=LONGEST_WAIT)
        return run.stdout.decode("ascii")


def cases(program, folder, write, most_run=MOST_CERTIFICATE):
    """All cases. `write(text)` writes a text into the folder and gives its name there. A run that was made here, and isn't an answer
    of the program, has at most `most_run` bytes."""
    for name, text in declarations():
        path = write(text)
        yield "plan", name, [path]
        yield "check", name, [path, write(program.answer("plan", folder, path))]
        yield "circles", name, [path]
        yield "dot", name, [path]
        # A group of an `ordered` line stays together, so the assignments of single items are for the others.
        if "ordered" not in text:
            for kind, assignment in [("one workqueue", one()), ("two workqueues", two()), ("own workqueues", own()), ("own workqueues backwards", backwards())]:
                for command in "deadlock", "hang":
                    yield command, f"{name}, {kind}", [path, write(assignment)]
            yield "circles", f"{name}, one workqueue", [path, write(one())]
            yield "dot", f"{name}, two workqueues", [path, write(two())]
    path = write(declaration(ITEMS, waiting()))
    for command in "deadlock", "hang":
        yield command, "2,046 workqueues wait for the last of 2,048 items", [path, write(waiting_workqueues())]
    whole = [("2,046 workqueues wait for the whole of one with 2,048 items", waiting_for_workqueue()),
             ("16,384 waits of both kinds, of 2,046 workqueues for one", waiting_of_both_kinds())]
    for name, text in whole:
        path, queues = write(text), write(waiting_workqueues())
        yield "plan", name, [path]
        yield "deadlock", name, [path, queues]
        yield "hang", name, [path, queues]
        yield "replay", name, [path, queues, write(program.answer("deadlock", folder, path, queues))]
    for name, text in bare_declarations():
        path = write(text)
        for kind, assignment in [("2,048 workqueues without a rescuer", half_bare()), ("one workqueue without a rescuer", half_on_one_bare()),
                                 ("2,048 named workqueues without a rescuer", half_bare(called=lambda i: "x" * 63)),
                                 ("names that differ at the end", half_bare(called=lambda i: short(i).rjust(63, "x")))]:
            queues = write(assignment)
            yield "deadlock", f"{name}, {kind}", [path, queues]
            yield "hang", f"{name}, {kind}", [path, queues]
            yield "circles", f"{name}, {kind}", [path, queues]
            yield "dot", f"{name}, {kind}", [path, queues]
            run = program.answer("deadlock", folder, path, queues)
            if run.startswith("run"):
                yield "replay", f"{name}, {kind}", [path, queues, write(run)]
    for name, text, assignment in long_rounds():
        path, queues = write(text), write(assignment)
        for command in "deadlock", "hang", "circles":
            yield command, name, [path, queues]
    for name, text, assignment in with_unsure_lines():
        path, queues = write(text), write(assignment)
        yield "plan", name, [path]
        for command in "hang", "deadlock", "circles", "dot":
            yield command, name, [path, queues]
        run = program.answer("deadlock", folder, path, queues)
        if run.startswith("unsure"):
            yield "replay", name, [path, queues, write(run)]
    for name, text, assignment, names in repairs():
        yield "repair", name, [write(text), write(assignment), *names]
    for name, text, assignment, names in held():
        path, queues = write(text), write(assignment)
        for command in "hang", "circles":
            yield command, f"{name}, with NAMEs", [path, queues, *names]
        run = program.answer("hang", folder, path, queues, *names)
        if run.startswith(("run", "unsure")):
            yield "replay", f"{name}, with NAMEs", [path, queues, write(run), *names]
    for name, text, stay in arounds():
        path, fixed = write(text), write(stay)
        yield "plan", name, [path, fixed]
        yield "check", name, [path, write(program.answer("plan", folder, path, fixed)), fixed]
    for name, text in texts():
        path = write(text)
        yield "plan", name, [path]
        if "comments" in name:
            yield "dot", name, [path]
        if name == COLLIDING:
            plan = program.answer("plan", folder, path)
            queues = write("".join(line for line in plan.splitlines(True) if line.startswith("wq")))
            steps = [line.replace("item", "queue") for line in text.splitlines(True) if line.startswith("item")]
            yield "check", name, [path, write(plan)]
            yield "replay", name, [path, queues, write(f"run {len(steps)}\n" + "".join(steps))]
            yield "run", name, [path]
            for command in "deadlock", "hang", "repair", "circles", "dot":
                yield command, name, [path, queues]
    path = write(declaration(ITEMS, [(0, 1), (1, 0)]))
    circle_alone = program.answer("plan", folder, path).partition("run ")[0]
    plan_alone = program.answer("plan", folder, write(declaration(ITEMS, [])))
    for name, text in certificates(circle_alone, plan_alone, most_run):
        yield "check", name, [write(declaration(ITEMS, [])) if "plan" in name else path, write(text)]
    for kind, line in WORDLESS.items():
        refused = write(below(line, one() + "?\n", most_run))
        for command in "deadlock", "hang", "repair", "circles", "dot":
            yield command, f"an assignment below {kind}, refused at its last line", [path, refused]
    falling = write(declaration(ITEMS, [(0, 1)]))
    low = f"plan 1\n{one()}chain 1\n"
    for kind, line in WORDLESS.items():
        yield "check", f"a plan below {kind}, with an item that isn't above its target", [falling, write(below(line, low, most_run))]
    for name, text, assignment, run in runs(most_run):
        yield "replay", name, [write(text), write(assignment), write(run)]
    path, queues = write(declaration(ITEMS, circle())), write(one())
    yield "replay", "what deadlock answers to a circle on one workqueue", [path, queues, write(program.answer("deadlock", folder, path, queues))]


# ---- running them

class Folder:
    def __init__(self, path):
        self.path = path
        self.names = {}

    def write(self, text):
        """Writes a text once, and gives the name of its file."""
        if text not in self.names:
            name = f"t{len(self.names)}"
            with open(os.path.join(self.path, name), "wb") as file:
                file.write(text.encode("ascii"))
            self.names[text] = name
        return self.names[text]


def peak(program, folder, command, names):
    """Peak memory in MiB by GNU time, or None where there is none."""
    if not os.access(TIME, os.X_OK):
        return None
    said = os.path.join(folder, "time")
    words = [TIME, "-q", "-f", "%M", "-o", said, program, command, *names]
    subprocess.run(words, cwd=folder, stdin=subprocess.DEVNULL, stdout=subprocess.DEVNULL, stderr=subprocess.DEVNULL,
                   timeout=LONGEST_WAIT)
    with open(said) as file:
        return int(file.read()) / 1024


def run(program, folder, command, names):
    """Processor seconds, peak memory in MiB, status, and how many bytes were printed.

    A process that is forked from this one begins with the memory of the interpreter, so less than that is never found.
    """
    out = os.path.join(folder, "out")
    child = os.fork()
    if child == 0:
        os.chdir(folder)
        to = os.open(out, os.O_WRONLY | os.O_CREAT | os.O_TRUNC)
        os.dup2(to, 1)
        os.dup2(os.open(os.devnull, os.O_WRONLY), 2)
        resource.setrlimit(resource.RLIMIT_CPU, (LIMIT, LIMIT))
        signal.alarm(LONGEST_WAIT)
        os.execv(program, [program, command, *names])
    _, ended, usage = os.wait4(child, 0)
    status = os.waitstatus_to_exitcode(ended)
    return usage.ru_utime + usage.ru_stime, usage.ru_maxrss / 1024, status, os.path.getsize(out)
