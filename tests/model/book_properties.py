# Looks at the model in book.py by other means than its own:
#
#     book_properties.py [SEED] [DECLARATIONS] [WALKS]
#
# - The reserve suffices. From the states that random calls of small books lead to, every way on is
#   tried in which the workqueues and those who wait write rows: `start`, waits and their ends of both
#   kinds, `finish`, `told` of both kinds, and a `cancel` of what is pending. No way needs more rows
#   than are kept free. Where nothing can hang, some way needs all of them, so none is kept in vain.
# - The same in longer walks over larger declarations, where one random way is tried.
# - The free rows are counted again, from the rows alone.
# - The judge says of the rows of a book that they are legal, and finds the state of the book.
# - Of each event, context and item at most one row may stand, but for Told and ToldLane rows: of
#   those each up to a number, if any.
# - No item runs in two contexts at once.
# - A book without a call of a helper answers the same whatever the number of its helpers.
# All of this is done of books without helpers and of books with some.
#
# The steps are those of a second model, which is here and knows nothing of the one in steps.py.

import functools
import random
import sys

sys.dont_write_bytecode = True
import book  # noqa: E402  (beside this file)
import make_books  # noqa: E402
from book import EVENTS, OF_LANE, WITH_ITEM, WITH_LANE, Row, packed, unpacked  # noqa: E402
from command_line import seed_and_counts  # noqa: E402
from deadlock import circle_of  # noqa: E402
from declaration import FLUSHES_WHOLE  # noqa: E402
from steps import RESCUER  # noqa: E402

DEFAULT_SEED = "1"
DEFAULT_DECLARATIONS = 60
DEFAULT_WALKS = 60
MOST_STATES = 20_000


class TooMany(Exception):
    """There are too many states."""


class Ways:
    """The ways on from a state: a state is (pending, running, asks), all tuples.

    `pending` has for each lane the pairs of item and number in order, `running` for each lane what
    its contexts run, the rescuer first: None or (item, number, waits, target, mark). `asks` has the
    pairs of whom they are about and mark.
    A target is a pair of its kind, whether a whole lane is waited for, and the item; and so is whom an
    ask is about, with the lane in the place of the item. Items are numbers here. Nothing is queued on
    these ways, so the next number stays as it is.
    """

    def __init__(self, declared, assignment, next_number):
        number = {name: place for place, name in enumerate(declared.items)}
        self.targets = [[] for _ in declared.items]
        for (item, target), directive in zip(declared.flushes, declared.directive_of):
            self.targets[number[item]].append((directive in FLUSHES_WHOLE, number[target]))
        self.lane_of = [assignment.workqueue_of[name] for name in declared.items]
        self.lanes = range(assignment.count)
        self.next_number = next_number
        self.seen = 0
        self.longest = functools.cache(self.look_for_longest)

    def finds(self, state, item, below):
        """An entry of the item with a number below this one is pending or runs."""
        pending, running, _ = state
        return any(other == item and number < below for part in pending for other, number in part) \
            or any(entry and entry[0] == item and entry[1] < below for contexts in running for entry in contexts)

    def finds_on(self, state, lane, below):
        """An entry of any item on the lane."""
        pending, running, _ = state
        return any(number < below for _, number in pending[lane]) \
            or any(entry and entry[1] < below for entry in running[lane])

    def holds_back(self, state, target, mark):
        """Something is unfinished that this wait is for."""
        whole, item = target
        return self.finds_on(state, self.lane_of[item], mark) if whole else self.finds(state, item, mark)

    def context_ways(self, state, lane, context):
        pending, running, asks = state
        entry = running[lane][context]

        def runs(changed):
            contexts = running[lane][:context] + (changed,) + running[lane][context + 1:]
            return running[:lane] + (contexts,) + running[lane + 1:]

        if entry is None:
            busy = {other[0] for other in running[lane] if other}
            able = [at for at, (item, _) in enumerate(pending[lane]) if item not in busy]
            for at in able if context else able[:1]:
                item, number = pending[lane][at]
                rest = pending[:lane] + (pending[lane][:at] + pending[lane][at + 1:],) + pending[lane + 1:]
                yield rest, runs((item, number, 0, None, None)), asks
            return
        item, number, waits, target, mark = entry
        if target is not None:
            if not self.holds_back(state, target, mark):
                yield pending, runs((item, number, waits, None, None)), asks
            return
        yield pending, runs(None), asks
        if waits < len(self.targets[item]):
            for other in set(self.targets[item]):
                yield pending, runs((item, number, waits + 1, other, self.next_number)), asks

    def ways(self, state):
        """The states one row later."""
        pending, running, asks = state
        for lane in self.lanes:
            for context in range(len(running[lane])):
                yield from self.context_ways(state, lane, context)
            for at in range(len(pending[lane])):
                rest = pending[lane][:at] + pending[lane][at + 1:]
                yield pending[:lane] + (rest,) + pending[lane + 1:], running, asks
        for at, ((whole, place), mark) in enumerate(asks):
            if not (self.finds_on if whole else self.finds)(state, place, mark):
                yield pending, running, asks[:at] + asks[at + 1:]

    def look_for_longest(self, state):
        """How many rows are written on the longest way."""
        self.seen += 1
        if self.seen > MOST_STATES:
            raise TooMany
        return max((1 + self.longest(later) for later in set(self.ways(state))), default=0)

    def random_way(self, choose, state):
        """How many rows are written on one way. Those waits that are declared are mostly made."""
        count = 0
        while True:
            later = list(self.ways(state))
            if not later:
                return count
            state, count = choose.choice(later), count + 1


def state_of(play):
    """The state of a book, for Ways."""
    replay = play.book.replay
    number = play.item_number
    pending = tuple(
        tuple((number[entry.item], entry.number) for entry in replay.state.pending[lane])
        for lane in replay.lanes
    )
    running = []
    for lane in replay.lanes:
        contexts = []
        for context in replay.state.contexts_of(lane):
            entry = replay.state.running.get(context)
            if entry is None:
                contexts.append(None)
                continue
            target = None if entry.target is None else (entry.over == b"overwq", number[entry.target])
            contexts.append((number[entry.item], entry.number, entry.waits, target, entry.mark))
        running.append(tuple(contexts))
    asks = [((False, number[ask.name]), ask.mark) for ask in play.asks["told"] if ask is not None]
    asks += [((True, ask.lane), ask.mark) for ask in play.asks["toldlane"] if ask is not None]
    return pending, tuple(running), tuple(sorted(asks))


def kept_by_rows(declared, rows):
    """The rows kept free, counted from the rows alone."""
    left, runs, asks = {}, {}, 0
    flushes = [sum(item == name for item, _ in declared.flushes) for name in declared.items]
    for row in rows:
        if row.event == "queue" and row.yes:
            left[row.number] = 2 + 2 * flushes[row.item]
        elif row.event == "cancel" and row.yes:
            del left[row.number]
        elif row.event == "start":
            runs[row.lane, row.helper] = row.number
            left[row.number] -= 1
        elif row.event in ("wait", "over", "waitall", "overall"):
            left[runs[row.lane, row.helper]] -= 1
        elif row.event == "finish":
            del left[row.number]
        elif row.event in ("ask", "asklane"):
            asks += row.yes
        elif row.event in ("told", "toldlane"):
            asks -= 1
    return sum(left.values()) + asks


def demand(holds, law):
    if not holds:
        raise AssertionError(law)


def parts_of(state):
    """What changes of a state. A lane without entries may be missing among the pending ones."""
    pending = {lane: entries for lane, entries in state.pending.items() if entries}
    return state.next_number, pending, state.pending_of, state.running


def look_at_rows(play, declared, assignment):
    """The free rows are counted again, and the rows are judged."""
    made = play.book
    demand(made.kept() == kept_by_rows(declared, made.rows), "the rows kept free")
    text = b"".join(map(packed, made.rows))
    at, fault, replay = book.judge(declared, assignment, text, play.helpers)
    demand((at, fault) == (len(made.rows), None), "the rows of a book are legal")
    demand((replay.asks, replay.lane_asks) == (made.replay.asks, made.replay.lane_asks), "the asks that wait")
    demand(parts_of(replay.state) == parts_of(made.replay.state), "the state is that of the rows")
    for row in made.rows:
        demand(unpacked(packed(row)) == row, "what is packed is unpacked")
    running = [entry.item for entry in made.replay.state.running.values()]
    demand(len(set(running)) == len(running), "no item runs in two contexts")
    demand(set(running) == set(made.replay.state.running_of), "what runs is known by item, too")
    look_at_helpers(play, declared, assignment)


def look_at_helpers(play, declared, assignment):
    """The rows up to the first one of a helper are legal, and leave the same, with any number of helpers."""
    rows = play.book.rows
    first = next((at for at, row in enumerate(rows) if row.helper != RESCUER), len(rows))
    text = b"".join(map(packed, rows[:first]))
    ends = [book.judge(declared, assignment, text, helpers) for helpers in (0, 1, 8)]
    for at, fault, replay in ends:
        demand((at, fault) == (first, None), "they are legal with any number of helpers")
        demand(parts_of(replay.state) == parts_of(ends[0][2].state), "they leave the same with any number of helpers")
        demand(replay.state.is_stuck() == ends[0][2].state.is_stuck(), "they end stuck with any number of helpers or with none")


def contexts_of(play, event, assignment):
    """The contexts that a row of this event may name, and some that it may not."""
    lanes = range(assignment.count + 1) if event in WITH_LANE else [0]
    return [(lane, helper) for lane in lanes for helper in (range(play.helpers + 2) if event in OF_LANE else [RESCUER])]


def look_at_standing(play, declared, assignment):
    """At most one row of each event, context and item may stand, but for Told and ToldLane rows."""
    replay = play.book.replay
    most = replay.state.next_number + 2
    for event in EVENTS:
        for item in range(len(declared.items) + 1) if event in WITH_ITEM else [0]:
            for lane, helper in contexts_of(play, event, assignment):
                rows = [Row(event, yes, item, lane, number, helper)
                        for yes in (True, False) for number in range(most)]
                stand = [row for row in rows if replay.may_stand(row)]
                if event in ("told", "toldlane"):
                    numbers = [row.number for row in stand]
                    demand(numbers == list(range(len(numbers))), "Told rows up to a number")
                else:
                    demand(len(stand) <= 1, "one row of each event")
                    if event in ("queue", "cancel", "ask"):
                        demand(len(stand) == (item < len(declared.items)), "such a row may stand for each item")
                    if event == "asklane":
                        demand(len(stand) == (lane < assignment.count), "such a row may stand for each workqueue")
                demand(all(row.yes for row in stand) or event not in book.ALWAYS_YES, "yes")


def look_at_ways(play, declared, assignment, is_safe):
    """The reserve suffices on every way. Returns whether all could be tried."""
    ways = Ways(declared, assignment, play.book.replay.state.next_number)
    kept = play.book.kept()
    try:
        longest = ways.longest(state_of(play))
    except TooMany:
        return False
    demand(longest <= kept, f"{longest} rows are needed, {kept} are kept")
    demand(longest <= play.book.row_count - len(play.book.rows), "no row is lacking")
    demand(longest == kept or not is_safe, f"{kept} rows are kept, {longest} would do")
    return True


def small_case(choose):
    """A declaration with few items and few flushes, and an assignment of it."""
    while True:
        _, declared = make_books.make_declaration(choose)
        if len(declared.items) <= 4 and len(declared.flushes) <= 4:
            return declared, make_books.make_assignment(choose, declared)[1]


def look_at_small(seed, number):
    """Every way on from the states of a walk. Returns how many states there were."""
    choose = random.Random(f"{seed} small book {number}")
    declared, assignment = small_case(choose)
    is_safe = not circle_of(declared, assignment)
    row_count, helpers = choose.choice([5, 9, 14, 20, 30, 60]), choose.choice([0, 0, 1, 2])
    walk = make_books.Walk(choose, declared, assignment, row_count, helpers)
    looked = 0
    for count in range(1, 41):
        walk.make_calls(count)
        if choose.random() < 0.5:
            looked += look_at_ways(walk.play, declared, assignment, is_safe)
    look_at_rows(walk.play, declared, assignment)
    look_at_standing(walk.play, declared, assignment)
    return looked


def look_at_walk(seed, number):
    """One way on from some states of a longer walk."""
    choose = random.Random(f"{seed} book walk {number}")
    _, declared = make_books.make_declaration(choose)
    _, assignment = make_books.make_assignment(choose, declared)
    row_count, helpers = choose.choice([20, 50, 100, 400]), choose.choice([0, 1, 3, 8])
    walk = make_books.Walk(choose, declared, assignment, row_count, helpers)
    for count in range(20, 201, 20):
        walk.make_calls(count)
        ways = Ways(declared, assignment, walk.play.book.replay.state.next_number)
        written = ways.random_way(choose, state_of(walk.play))
        demand(written <= walk.play.book.kept(), "more rows are needed than are kept")
        look_at_rows(walk.play, declared, assignment)
        look_at_standing(walk.play, declared, assignment)
    return 1


def main(arguments):
    found = seed_and_counts(arguments, DEFAULT_SEED, DEFAULT_DECLARATIONS, DEFAULT_WALKS)
    if not found:
        print("usage: book_properties.py [SEED] [DECLARATIONS] [WALKS]", file=sys.stderr)
        return 2
    seed, small, walks = found
    looked = 0
    for look, count in ((look_at_small, small), (look_at_walk, walks)):
        for number in range(count):
            try:
                looked += look(seed, number)
            except AssertionError as broken:
                print(f"books: FAILED: {look.__name__} {number} (seed {seed}): "
                      f"{broken or 'an assertion of the model'}")
                return 1
    print(f"books: the rows kept free suffice on every way from {looked - walks} states of {small} "
          f"small books, and in {walks} walks")
    return 0


if __name__ == "__main__":
    sys.exit(main(sys.argv[1:]))
