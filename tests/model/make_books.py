# Makes up calls of books and histories for drive_books.py and book_properties.py: those at the
# limits of docs/RUNTIME.md and tests/FORMATS.md, and random ones. The same seed makes the same ones.

import collections
import dataclasses
import random

import book
from book import (
    EVENTS, HELPED, HELPER_LIMIT, HELPER_WORD_LIMIT, LANE_LIMIT, NUMBER_LIMIT, OF_LANE, ROW_BYTES, ROW_LIMIT, WITH_ITEM,
    WITH_LANE, Ask, LaneAsk, Row, packed, with_helpers,
)
from certificate import LINE_LIMIT, TEXT_LIMIT
from declaration import FLUSHES, read_declaration
from make_assignments import safe_assignment
from make_certificates import (
    any_assignment, assignment_of, own_assignment, plan_lines, wq_lines,
)
from make_declarations import Line, flush_lines, join, make_lines, numbered_items, spell
from steps import RESCUER

FEWEST_CALLS = 200


def spell_whole(choose, lines, plain):
    """The bytes of the lines. No CR stays at their end, where it would be a byte of a word."""
    text = spell(choose, lines, plain)
    return text + b"\n" if text.endswith(b"\r") else text


# Declarations and assignments ---------------------------------------------------------------------


def make_declaration(choose):
    """The bytes of a small declaration, and what it declares."""
    way = choose.random()
    count = 0 if way < 0.01 else choose.randint(1, 8) if way < 0.95 else choose.randint(9, 16)
    lines = make_lines(choose, count)
    names = [line.words[1] for line in lines if line.words[0] == b"item"]
    if names and choose.random() < 0.2:
        lines = [line for line in lines if line.words[0] not in FLUSHES]
    if names and choose.random() < 0.6:
        # Any flushes of both kinds: of the item itself, and of one target again and again.
        for _ in range(choose.randint(1, 4)):
            name, targets = choose.choice(names), choose.choices(names, k=choose.choice([1, 1, 2, 3]))
            if choose.random() < 0.5:
                lines.append(Line([b"flush", name] + targets))
            else:
                lines += [Line([b"flushwq", name, target]) for target in targets]
    declared = read_declaration(spell(choose, lines, True))
    return spell_whole(choose, lines, choose.random() < 0.8), declared


def make_assignment(choose, declared):
    """The bytes of an assignment, which may be one that hangs, and what it assigns."""
    way = choose.random()
    if way < 0.25:
        wqs = own_assignment(declared)
        choose.shuffle(wqs)
    elif way < 0.5:
        wqs = safe_assignment(choose, declared)
    else:
        wqs = any_assignment(choose, declared)
    if choose.random() < 0.1:
        wqs.insert(choose.randint(0, len(wqs)), [])
    lines = wq_lines(wqs) if choose.random() < 0.8 else plan_lines(choose, declared, wqs, [])
    text = spell_whole(choose, [Line(words) for words in lines], choose.random() < 0.8)
    return text, assignment_of(wqs)


# Kinds of answers ---------------------------------------------------------------------------------


def kind_of(word, answer):
    """The kind of an answer: refusals by their number and cause."""
    if isinstance(answer, book.Refusal):
        return f"{word} {answer.code}" + (f" {answer.why}" if answer.why else "")
    if isinstance(answer, (Ask, LaneAsk)):
        return f"{word} waiting"
    if word.split()[-1] == "start":
        return f"{word} {'none' if answer is None else 'item'}"
    if isinstance(answer, bool):
        return f"{word} {'true' if answer else 'false'}"
    return f"{word} {answer}"


# All kinds, and what else is counted. What stands in a bracket is said of the book too.
KINDS = [
    "queue true", "queue true (it runs)", "queue true (no row is free then)", "queue false",
    "queue false (it was the last free row)", "queue 60 accepted",
    "queue 60 accepted (one row too few)", "queue 60 pending", "queue 61", "queue 61 (pending)",
    "queue 66", "queue 66 (closed)",
    "cancel true", "cancel true (no row was free)", "cancel true (it runs)", "cancel false",
    "cancel false (it runs)", "cancel false (it was the last free row)", "cancel 60", "cancel 66",
    "ask idle", "ask idle (it was the last free row)", "ask waiting",
    "ask waiting (no row is free then)", "ask 60 idle", "ask 60 waiting",
    "ask 60 waiting (one row too few)", "ask 66",
    "told done", "told done (no row was free)", "told done (its item is unfinished)",
    "told done (another ask of it waits)", "told not yet",
    "asklane idle", "asklane idle (it was the last free row)", "asklane waiting",
    "asklane waiting (no row is free then)", "asklane waiting (nothing is pending)", "asklane waiting (nothing runs)",
    "asklane 60 idle", "asklane 60 waiting", "asklane 60 waiting (one row too few)", "asklane 64",
    "toldlane done", "toldlane done (no row was free)", "toldlane done (its workqueue is busy)",
    "toldlane done (another ask of it waits)", "toldlane not yet", "toldlane not yet (one entry is left)",
    "start item", "start item (no row was free)", "start item (not the first entry)", "start none",
    "start none (something is pending)", "start 64 no lane", "start 64 runs",
    "wait true", "wait false", "wait true (no row was free)", "wait true (for itself)",
    "wait 62 item", "wait 62 no item", "wait 62 item (no wait is left)",
    "wait 62 item (a wait is left)", "wait 62 kind", "wait 63", "wait 63 (waits of both kinds were made)",
    "wait 64 no lane", "wait 64 runs nothing", "wait 64 waits",
    "waitall true", "waitall false", "waitall true (no row was free)", "waitall true (for its own workqueue)",
    "waitall true (its target is idle)",
    "waitall 62 item", "waitall 62 no item", "waitall 62 item (no wait is left)",
    "waitall 62 item (a wait is left)", "waitall 62 item (its workqueue is declared)", "waitall 62 kind",
    "waitall 63", "waitall 63 (waits of both kinds were made)",
    "waitall 64 no lane", "waitall 64 runs nothing", "waitall 64 waits",
    "over true", "over true (no row was free)", "over true (its target is unfinished)",
    "over true (of a workqueue)", "over true (of a workqueue that is busy)",
    "over false", "over false (its target is pending)",
    "over false (of a workqueue)", "over false (of a workqueue whose target is idle)",
    "over 64 no lane", "over 64 runs nothing", "over 64 doesn't wait",
    "finish ok", "finish ok (no row was free)", "finish ok (waits were left)",
    "finish ok (it is pending)", "finish 64 no lane", "finish 64 runs nothing", "finish 64 waits",
    "close ok", "close ok (closed)", "refused 68", "mistake",
    # Calls of helpers.
    "help start item", "help start item (no row was free)", "help start item (another context runs)",
    "help start item (not the first entry)", "help start none", "help start none (something is pending)", "help start 64 runs",
    "help wait true", "help wait false", "help wait 62 item", "help wait 62 no item",
    "help wait 62 kind", "help wait 63", "help wait 64 waits",
    "help waitall true", "help waitall false", "help waitall 62 item",
    "help waitall 62 no item", "help waitall 62 kind", "help waitall 63", "help waitall 64 waits",
    "help over true", "help over true (no row was free)", "help over true (of a workqueue)", "help over false",
    "help over false (of a workqueue)", "help over 64 doesn't wait",
    "help finish ok", "help finish ok (no row was free)", "help finish ok (it is pending)", "help finish 64 waits",
] + [f"help {word} 64 {why}" for word in HELPED for why in ("no lane", "ordered", "no helper")] + [
    f"help {word} 64 runs nothing" for word in HELPED if word != "start"]


# Random calls -------------------------------------------------------------------------------------

WEIGHTS = {
    "queue": 6, "cancel": 2, "ask": 2, "told": 2, "asklane": 2, "toldlane": 2, "start": 5, "wait": 8, "waitall": 9, "over": 7,
    "finish": 2,
}
FILLING = {"queue": 5, "cancel": 1, "ask": 2, "asklane": 2}
EMPTYING = {"told": 3, "toldlane": 3, "start": 5, "wait": 4, "waitall": 4, "over": 6, "finish": 4}
NO_NAMES = [b"zz", b"?", b"a!", b"-", b"0", b"\xff\xc3", b"queue", b"x" * 70, b"A", b"."]


class Walk:
    """Calls that are made up one after the other, each in the state that those before it leave."""

    def __init__(self, choose, declared, assignment, row_count, helpers=0):
        self.choose = choose
        self.declared = declared
        self.lane_count = assignment.count
        self.helpers = helpers
        self.play = book.Play(declared, assignment, row_count, helpers)
        self.lines = []  # the words of each call
        self.kinds = collections.Counter()
        self.no_names = [name for name in NO_NAMES if name not in declared.group_of]
        self.weights = {word: weight * choose.choice([0.3, 1, 1, 1, 2])
                        for word, weight in WEIGHTS.items()}
        self.phase, self.phase_left = self.weights, 0
        self.wild = choose.choice([0.02, 0.1, 0.3])  # how often a call takes no care
        self.rescuers = choose.choice([0.1, 0.5, 0.5])  # how often a call is a rescuer's where it might be a helper's
        self.most_used = 0

    def any_lane(self):
        missing = [self.lane_count, self.lane_count + 1, 4_095, 4_096, LANE_LIMIT]
        if not self.lane_count or self.choose.random() < 0.1:
            return self.choose.choice(missing)
        return self.choose.randrange(self.lane_count)

    def any_item(self):
        if not self.declared.items or self.choose.random() < 0.06:
            return self.choose.choice(self.no_names)
        return self.choose.choice(self.declared.items)

    def any_context(self):
        """A lane and a helper, of which one may be missing."""
        choose, helpers = self.choose, self.helpers
        lane = self.any_lane()
        if choose.random() < (0.4 if helpers else 0.9):
            return lane, RESCUER
        missing = [0, helpers + 1, HELPER_LIMIT, HELPER_LIMIT + 1, HELPER_WORD_LIMIT]
        return lane, choose.choice(missing) if not helpers or choose.random() < 0.2 else choose.randint(1, helpers)

    def context_for(self, word):
        """A context for which the call may be answered, mostly; None where there is none, mostly."""
        choose, state = self.choose, self.play.book.replay.state
        if word == "start":
            lanes = [lane for lane in range(self.lane_count)
                     if state.first_to_start(lane) or state.pending[lane] and choose.random() < 0.2]
            contexts = [context for lane in lanes for context in state.contexts_of(lane) if context not in state.running]
        else:
            wrong = choose.random() < 0.06
            contexts = [context for context, entry in state.running.items()
                        if wrong or (entry.target is not None) == (word == "over")]
            over = [(lane, helper) for lane, helper in contexts
                    if word == "over" and self.play.book.look(word, lane, helper=helper)[0] is True]
            contexts = over if over and choose.random() < 0.7 else contexts
        if choose.random() < 0.03 + 0.3 * self.wild:
            return self.any_context()
        # The rescuers are as likely as the helpers or less, though there are fewer of them.
        rescuers = [context for context in contexts if context[1] == RESCUER]
        if rescuers and choose.random() < self.rescuers:
            contexts = rescuers
        return choose.choice(sorted(contexts)) if contexts else None

    def any_call(self):
        """The words of a call, or None where there is nothing for it."""
        choose = self.choose
        word = choose.choices(list(self.phase), list(self.phase.values()))[0]
        if word in ("queue", "cancel", "ask"):
            return [word.encode(), self.any_item()]
        if word == "asklane":
            return [word.encode(), b"%d" % self.any_lane()]
        if word in self.play.asks:
            places = [place for place, ask in enumerate(self.play.asks[word]) if ask is not None]
            return self.rather([word.encode(), b"%d" % choose.choice(places)]) if places else None
        context = self.context_for(word)
        if context is None:
            return None
        lane, helper = context
        named = helper != RESCUER or choose.random() < 0.01  # no helper has the number 0
        words = [b"help", word.encode(), b"%d" % lane, b"%d" % helper] if named else [word.encode(), b"%d" % lane]
        if word in ("wait", "waitall"):
            target = self.target_for(word, self.play.book.replay.state.running.get(context))
            if target is None:
                return None
            words.append(target)
        return self.rather(words)

    def target_for(self, word, entry):
        """A target that the entry may wait for, mostly, and rather one that is unfinished, or whose workqueue is busy.

        None where there is none of this kind, mostly.
        """
        choose, replay = self.choose, self.play.book.replay
        if entry is None:
            return self.any_item()
        step, _, _ = book.step_of(word, None, None)
        targets = [target for kind, target in replay.state.waits[entry.item] if kind == step]
        if choose.random() < 0.1 + 0.3 * self.wild:
            others = self.play.book.declares[entry.item]
            unlike = [name for name in others if name not in targets]
            if unlike and choose.random() < 0.8:
                return choose.choice(unlike)
            if others and choose.random() < 0.2:
                return choose.choice(others)
            if choose.random() < 0.15:
                return choose.choice(self.no_names)
            workqueues = {replay.state.workqueue_of[target] for target in targets}
            beside = [name for name in self.declared.items
                      if replay.state.workqueue_of[name] in workqueues and name not in others]
            return choose.choice(beside) if beside and choose.random() < 0.9 else self.any_item()
        if not targets:
            return None
        if word == "wait":
            unfinished = [name for name in targets if replay.is_unfinished(name)]
        else:
            unfinished = [name for name in targets if replay.is_busy(replay.state.workqueue_of[name])]
        return choose.choice(unfinished if unfinished and choose.random() < 0.5 else targets)

    def rather(self, words):
        """The call, or often None where it changes nothing."""
        word, arguments, _, context = self.play.call_of(words)
        _, row = self.play.book.look(word, *arguments, **context)
        return words if row is not None or self.choose.random() < 0.4 else None

    def kind(self, words):
        word, arguments, _, context = self.play.call_of(words)
        return kind_of(f"help {word}" if context else word, self.play.book.look(word, *arguments, **context)[0])

    def next_call(self):
        choose = self.choose
        if self.phase_left == 0 and choose.random() < 0.03:
            self.phase = choose.choice([self.weights, FILLING, EMPTYING])
            self.phase_left = choose.randint(3, 25)
        elif self.phase_left > 0:
            self.phase_left -= 1
        else:
            self.phase = self.weights
        # Of a few calls mostly the first, else one of a kind that came the fewest times here.
        calls = []
        while not calls:
            calls = [words for words in (self.any_call() for _ in range(4)) if words is not None]
            self.phase = self.phase if calls else self.weights
        if choose.random() < 0.7:
            return calls[0]
        return min(calls, key=lambda words: self.kinds[self.kind(words)])

    def make(self, words):
        word, answer, _ = self.play.make(words)
        self.kinds[kind_of(word, answer)] += 1
        self.lines.append(words)
        self.most_used = max(self.most_used, self.play.book.row_count - self.play.book.free())

    def make_calls(self, count, closed_at=()):
        """Makes calls until there are so many. It is closed before calls with these numbers."""
        while len(self.lines) < count:
            self.make([b"close"] if len(self.lines) in closed_at else self.next_call())

    def make_again(self, lines):
        """Makes the calls of another walk, but those for which there is nothing to tell here."""
        for words in lines:
            try:
                self.play.call_of(words)
            except book.Mistake:
                continue
            self.make(words)


def closings(choose, count):
    """The numbers of the calls that close the book."""
    if choose.random() < 0.6:
        return ()
    first = choose.choice([0, count // 2, count // 2, count * 3 // 4])
    return [choose.randrange(first, count) for _ in range(choose.choice([1, 1, 2]))]


def any_helpers(choose):
    return choose.choice([0, 0, 1, 1, 2, 3, 8, choose.randint(1, 8)])


def any_row_count(choose):
    way = choose.random()
    if way < 0.02:
        return 0
    if way < 0.12:
        return choose.randint(1, 16)
    if way < 0.35:
        return choose.randint(17, 80)
    return choose.randint(81, 250) if way < 0.8 else choose.choice([500, 1_000, 5_000, 16_384])


MISTAKES = [
    b"Queue a", b"queues a", b"queue", b"queue a b", b"cancel", b"ask", b"ask a a", b"told",
    b"told a", b"told -1", b"told 00", b"told 4294967295", b"told 4294967296", b"told 0 0",
    b"start", b"start 00", b"start 01", b"start +1", b"start 65536", b"start 4294967296",
    b"start a", b"start 0 a", b"start 1.", b"wait 0", b"wait", b"wait a 0", b"wait 0 a a",
    b"wait 65536 a",
    b"over", b"over 0 a", b"over 070", b"finish", b"finish 0 a", b"finish 65536", b"close 0",
    b"closed", b"open", b"item a", b"run 3", b"wait 1#a", b"queue#a", b"queue #a", b"\xff",
    b"close\r a", b"start 99999999999999999999999", b"start \xb2", b"told \xd9\xa3", b"start 0\r 1",
    b"waitall", b"waitall 0", b"waitall a 0", b"waitall 0 a a", b"waitall 65536 a", b"waitwq 0 a", b"overall 0", b"overall 0 a",
    b"overwq 0", b"asklane", b"asklane a", b"asklane 0 0", b"asklane 65536", b"asklane 00", b"ask 0 a", b"toldlane",
    b"toldlane a", b"toldlane 0 0", b"toldlane 00", b"toldlane 4294967295", b"flushwq 0", b"waitingall 0", b"AskLane 0",
    b"help", b"help start", b"help start 0", b"help start 0 256", b"help start 0 00", b"help start 0 -1", b"help start 0 1 a",
    b"help start a 1", b"help start 65536 1", b"help wait 0 1", b"help wait 0 a 1", b"help wait 0 1 a a", b"help waitall 0 1",
    b"help over 0 x", b"help over 0", b"help finish 65536 1", b"help finish 0 1 a", b"help queue a 1", b"help cancel a 1",
    b"help ask a 1", b"help asklane 0 1", b"help told 0 1", b"help close 1", b"help help start 0 1", b"helpstart 0 1",
    b"start help 0 1", b"help_start 0 1", b"help start 0 1#", b"Help start 0 1", b"help overall 0 1", b"help next 0 1",
]


def with_mistake(choose, walk):
    """The lines of the walk with a mistake among them, near the end."""
    lines = list(walk.lines)
    at = choose.choice([len(lines), choose.randint(max(0, len(lines) - 20), len(lines))])
    if choose.random() < 0.4:
        word = choose.choice(list(walk.play.asks))
        asks = walk.play.asks[word]
        places = [place for place, ask in enumerate(asks) if ask is None] or [len(asks)]
        if choose.random() < 0.3:
            places = [len(asks)]
        words = [word.encode(), b"%d" % choose.choice(places)]
    else:
        words = choose.choice(MISTAKES).split(b" ")
    return lines[:at] + [words] + lines[at:]


def spelled(choose, lines):
    """The bytes of EVENTS."""
    return spell_whole(choose, [Line(words) for words in lines], choose.random() < 0.6)


def random_book_case(seed, number):
    """The words of the command line of this number; the files among them are bytes."""
    choose = random.Random(f"{seed} book {number}")
    declaration_text, declared = make_declaration(choose)
    assignment_text, assignment = make_assignment(choose, declared)
    helpers = any_helpers(choose)
    count = choose.choice([FEWEST_CALLS, choose.randint(FEWEST_CALLS, 240)])
    if choose.random() < 0.02:
        count = choose.randint(400, 1_200)
    closed_at = closings(choose, count)

    row_count = any_row_count(choose)
    walk = Walk(choose, declared, assignment, row_count, helpers)
    if choose.random() < 0.25:
        # A book with just as many rows as these calls need, or a few less.
        before = Walk(choose, declared, assignment, ROW_LIMIT, helpers)
        before.make_calls(choose.randint(20, count), closed_at)
        row_count = max(0, before.most_used - choose.choice([0, 0, 1, 1, 2, 3]))
        walk = Walk(choose, declared, assignment, row_count, helpers)
        walk.make_again(before.lines)
    walk.make_calls(count, closed_at)

    lines = with_mistake(choose, walk) if choose.random() < 0.06 else walk.lines
    if choose.random() < 0.06:
        row_count = choose.choice([ROW_LIMIT + 1, ROW_LIMIT + 1, 2 * ROW_LIMIT, NUMBER_LIMIT,
                                   choose.randint(ROW_LIMIT + 1, NUMBER_LIMIT)])
    events = spelled(choose, lines)
    return with_helpers(helpers, ["book", declaration_text, assignment_text, str(row_count), events])


# Mutated histories --------------------------------------------------------------------------------
# Each of these changes the rows of a history, each of them 12 bytes. Those of the first kind leave
# packings of rows, and the others may not.


@dataclasses.dataclass
class History:
    """The rows, each as bytes, and what they are a history of."""

    pieces: list
    declared: object
    assignment: object
    helpers: int

    def any_place(self, choose):
        return choose.randrange(len(self.pieces))

    def row_of(self, choose, events):
        """A row of one of the events, with its place, or None if there is none."""
        rows = [(at, book.unpacked(piece)) for at, piece in enumerate(self.pieces)]
        rows = [(at, row) for at, row in rows if row is not None and row.event in events]
        if not rows:
            return None
        # The events are as likely as each other, of rescuers and of helpers, though some stand in few rows.
        kind = choose.choice(sorted({(row.event, row.helper != RESCUER) for _, row in rows}))
        return choose.choice([(at, row) for at, row in rows if (row.event, row.helper != RESCUER) == kind])

    def change(self, choose, events, **changes):
        """Changes something of a row of one of the events, if there is one.

        What it becomes is what the function of the row says.
        """
        found = self.row_of(choose, events)
        if found is not None:
            at, row = found
            changes = {field: become(row) for field, become in changes.items()}
            self.pieces[at] = packed(dataclasses.replace(row, **changes))


def change_yes(choose, history):
    events = ("queue", "cancel", "wait", "ask", "waitall", "asklane")
    history.change(choose, events, yes=lambda row: not row.yes)


def other_number(choose, number):
    numbers = [number + 1, number - 1, number + 2, 0, 1, choose.randint(0, 2 * number + 1),
               NUMBER_LIMIT, number ^ 1, number + 256, number + 65_536]
    return min(max(choose.choice(numbers), 0), NUMBER_LIMIT)


def change_number(choose, history):
    history.change(choose, EVENTS, number=lambda row: other_number(choose, row.number))


def change_rare(choose, history):
    """The number of a row of an event that comes less often."""
    events = choose.choice([("wait",), ("over",), ("over", "finish", "told"), ("waitall",), ("asklane", "toldlane")])
    history.change(choose, events, number=lambda row: other_number(choose, row.number))


def change_end(choose, history):
    """An end of a wait for a whole workqueue, of another number, target or kind."""
    items = range(len(history.declared.items) + 1)
    way = choose.random()
    if way < 0.4:
        history.change(choose, ("overall",), number=lambda row: other_number(choose, row.number))
    elif way < 0.85:
        history.change(choose, ("overall",), item=lambda row: choose.choice([item for item in items if item != row.item]))
    else:
        history.change(choose, ("overall",), event=lambda row: "over")


def change_of_context(choose, history):
    """A row of a context, with another item, number or `yes`."""
    found = history.row_of(choose, OF_LANE)
    if found is None:
        return
    at, row = found
    if choose.random() < 0.3:
        changes = {"item": choose.randrange(len(history.declared.items) + 1)}
    elif row.event in ("wait", "waitall") and choose.random() < 0.6:
        changes = {"yes": not row.yes}
    else:
        changes = {"number": other_number(choose, row.number)}
    history.pieces[at] = packed(dataclasses.replace(row, **changes))


def change_wait(choose, history):
    events = choose.choice([("wait",), ("waitall",)])
    history.change(choose, events, yes=lambda row: not row.yes)


def change_told(choose, history):
    """Another number of a Told, which may be legal too."""
    history.change(choose, ("told", "toldlane"), number=lambda row: other_number(choose, row.number))


def change_item(choose, history):
    count = len(history.declared.items)
    items = [count, count + 1, 4_095, 4_096, LANE_LIMIT, 256] + list(range(count)) * 2
    history.change(choose, WITH_ITEM, item=lambda row: choose.choice(items))


def change_lane(choose, history):
    count = history.assignment.count
    lanes = [count, count + 1, 4_095, 4_096, LANE_LIMIT, 256] + list(range(count)) * 3
    history.change(choose, WITH_LANE, lane=lambda row: choose.choice(lanes))


def change_helper(choose, history):
    """A row of another context of its workqueue, or of a helper that is missing."""
    helpers = [0, 1, HELPER_LIMIT, min(history.helpers + 1, HELPER_LIMIT)] + list(range(history.helpers + 1)) * 2
    history.change(choose, OF_LANE, helper=lambda row: choose.choice(helpers))


def change_event(choose, history):
    """A row of another event, with what else it has."""
    if choose.random() < 0.5:
        events = choose.choice([("queue", "cancel", "ask"), ("wait", "waitall"), ("over", "overall")])
        history.change(choose, events, event=lambda row: choose.choice(events))
        return
    events = choose.choice([("start", "finish", "over"), EVENTS])
    at = history.any_place(choose)
    row = book.unpacked(history.pieces[at])
    if row is None:
        return
    event = choose.choice(events)
    lane = row.lane if event in WITH_LANE else 0
    item = row.item if event in WITH_ITEM else 0
    helper = row.helper if event in OF_LANE else RESCUER
    yes = row.yes or event in book.ALWAYS_YES
    history.pieces[at] = packed(dataclasses.replace(row, event=event, item=item, lane=lane, yes=yes, helper=helper))


def change_kind(choose, history):
    """A wait of the other kind, with its end, if that comes next on this workqueue."""
    other = {"wait": "waitall", "waitall": "wait", "over": "overall", "overall": "over"}
    rows = [(at, book.unpacked(piece)) for at, piece in enumerate(history.pieces)]
    waits = [(at, row) for at, row in rows if row is not None and row.event in ("wait", "waitall")]
    if not waits:
        return
    at, row = choose.choice(waits)
    changed = [(at, row)] + [(later, end) for later, end in rows[at + 1:] if end is not None and end.event in OF_LANE
                             and (end.lane, end.helper) == (row.lane, row.helper)][:1]
    for at, row in changed:
        history.pieces[at] = packed(dataclasses.replace(row, event=other.get(row.event, row.event)))


def drop(choose, history):
    del history.pieces[history.any_place(choose)]


def double(choose, history):
    at = history.any_place(choose)
    history.pieces.insert(at, history.pieces[at])


def swap(choose, history):
    at = history.any_place(choose)
    history.pieces[at:at + 2] = reversed(history.pieces[at:at + 2])


def move(choose, history):
    piece = history.pieces.pop(history.any_place(choose))
    history.pieces.insert(choose.randint(0, len(history.pieces)), piece)


def any_row(choose, history):
    """Any row that can be packed; of its fields most are near to what could be."""
    count, lanes = len(history.declared.items), history.assignment.count
    event = choose.choice(EVENTS)
    item = choose.choice([count, LANE_LIMIT] + list(range(count)) * 3)
    lane = choose.choice([lanes, LANE_LIMIT] + list(range(lanes)) * 3)
    number = choose.choice([0, 1, 2, len(history.pieces), choose.randint(0, 20), NUMBER_LIMIT])
    yes = event in book.ALWAYS_YES or choose.random() < 0.5
    helper = choose.choice([RESCUER, RESCUER, choose.randint(1, HELPER_LIMIT), choose.randint(0, history.helpers)])
    return Row(event, yes, item if event in WITH_ITEM else 0, lane if event in WITH_LANE else 0, number,
               helper if event in OF_LANE else RESCUER)


def insert_any(choose, history):
    history.pieces.insert(choose.randint(0, len(history.pieces)), packed(any_row(choose, history)))


def standing_rows(choose, history, at):
    """The rows that may stand at this place; of the Told rows a few."""
    _, _, replay = book.judge(history.declared, history.assignment, b"".join(history.pieces[:at]), history.helpers)
    rows = []
    for event in EVENTS:
        for item in range(len(history.declared.items)) if event in WITH_ITEM else [0]:
            for lane, helper in contexts_for(replay, event):
                stands = replay.standing(event, lane, item, helper)
                if stands is not None:
                    yes, number = stands
                    if number is None:
                        number = choose.choice([0, least_unfinished(replay, event, lane, item)])
                    rows.append(Row(event, yes, item, lane, number, helper))
    return rows


def contexts_for(replay, event):
    """The workqueues and contexts that a row of this event may name."""
    if event in OF_LANE:
        return [context for lane in replay.lanes for context in replay.state.contexts_of(lane)]
    return [(lane, RESCUER) for lane in replay.lanes] if event in WITH_LANE else [(0, RESCUER)]


def least_unfinished(replay, event, lane, item):
    """The largest number that a Told of the item may have, or a ToldLane of the workqueue."""
    state = replay.state
    entries = state.unfinished_on(lane) if event == "toldlane" else state.unfinished(replay.name(item))
    return min((entry.number for entry in entries), default=NUMBER_LIMIT)


def insert_legal(choose, history):
    """A row that may stand there; what comes behind it may be no longer legal."""
    at = choose.randint(0, len(history.pieces))
    rows = standing_rows(choose, history, at)
    if rows:
        event = choose.choice(sorted({row.event for row in rows}))
        row = choose.choice([row for row in rows if row.event == event])
        history.pieces.insert(at, packed(row))


def insert_nearly(choose, history):
    """A row that might stand there if something of it were another."""
    at = choose.randint(0, len(history.pieces))
    rows = standing_rows(choose, history, at)
    if not rows:
        return
    events = sorted({(row.event, row.helper != RESCUER) for row in rows})
    rarer = {"overall": 20, "over": 12, "wait": 6, "waitall": 6, "finish": 4}
    weights = [rarer.get(event, 1 if event in ("queue", "cancel", "ask", "asklane") else 3) for event, _ in events]
    event, helps = choose.choices(events, weights)[0]
    row = choose.choice([row for row in rows if (row.event, row.helper != RESCUER) == (event, helps)])
    way = choose.random()
    if way < 0.25:
        missing = choose.choice([len(history.declared.items), LANE_LIMIT])
        changes = {"item": missing}
        if event not in WITH_ITEM or event in WITH_LANE and choose.random() < 0.5:
            changes = {"lane": choose.choice([history.assignment.count, LANE_LIMIT])}
    elif way < 0.35 and event in OF_LANE:
        helpers = [0, min(row.helper + 1, HELPER_LIMIT), min(history.helpers + 1, HELPER_LIMIT)]
        changes = {"helper": choose.choice(helpers)}
    elif way < 0.65 and event not in book.ALWAYS_YES:
        changes = {"yes": not row.yes}
    elif event in ("told", "toldlane"):
        changes = {"number": min(row.number + 1, NUMBER_LIMIT)}
    else:
        changes = {"number": other_number(choose, row.number)}
    history.pieces.insert(at, packed(dataclasses.replace(row, **changes)))


def cut_rows(choose, history):
    del history.pieces[history.any_place(choose):]


def put_byte(history, at, place, value):
    piece = bytearray(history.pieces[at])
    if place < len(piece):
        piece[place] = value
    history.pieces[at] = bytes(piece)


def replace_byte(choose, history):
    value = choose.choice([0, 1, 2, 8, 9, 12, 13, 255, choose.randrange(256)])
    put_byte(history, history.any_place(choose), choose.randrange(ROW_BYTES), value)


def flip_bit(choose, history):
    at, place = history.any_place(choose), choose.randrange(ROW_BYTES)
    if place < len(history.pieces[at]):
        put_byte(history, at, place, history.pieces[at][place] ^ 1 << choose.randrange(8))


def unpackable_byte(choose, history):
    """A byte that the packing of this row can't have."""
    at = history.any_place(choose)
    row = book.unpacked(history.pieces[at])
    changes = [(0, 0), (0, 13), (0, 255), (1, 2), (1, 255), (6, 9), (7, 1), (6, 128), (7, 255)]
    if row is not None and row.event in book.ALWAYS_YES:
        changes += [(1, 0)] * 4
    if row is not None and row.event not in WITH_LANE:
        changes += [(4, 1), (5, 1), (4, 255), (5, 128)]
    if row is not None and row.event not in WITH_ITEM:
        changes += [(2, 1), (3, 1), (2, 255), (3, 128)] * 2
    if row is not None and row.event not in OF_LANE:
        changes += [(6, 1), (6, 8)]
    put_byte(history, at, *choose.choice(changes))


def cut_middle(choose, history):
    """The bytes end in the middle of a row."""
    at = history.any_place(choose)
    history.pieces[at:] = [history.pieces[at][:choose.randint(1, ROW_BYTES - 1)]]


def cut_last(choose, history):
    history.pieces[-1] = history.pieces[-1][:choose.randint(1, ROW_BYTES - 1)]


def add_bytes(choose, history):
    history.pieces.append(bytes(choose.choices(range(256), k=choose.randint(1, ROW_BYTES - 1))))


def drop_byte(choose, history):
    at, place = history.any_place(choose), choose.randrange(ROW_BYTES)
    history.pieces[at] = history.pieces[at][:place] + history.pieces[at][place + 1:]


def double_byte(choose, history):
    at, place = history.any_place(choose), choose.randrange(ROW_BYTES)
    history.pieces[at] = history.pieces[at][:place + 1] + history.pieces[at][place:]


def insert_bytes(choose, history):
    piece = bytes(choose.choices([0, 1, 2, 3, 4, 8, 9, 11, 12, 13, 255], k=ROW_BYTES))
    history.pieces.insert(choose.randint(0, len(history.pieces)), piece)


PACKABLE = [
    change_yes, change_number, change_told, change_item, change_lane, change_event, drop, double,
    swap, move, insert_any, cut_rows, change_rare, change_rare, change_wait, change_kind, change_helper, change_helper,
] + [change_end] * 5 + [insert_legal] * 2 + [insert_nearly] * 12 + [change_of_context] * 14
ANY_BYTES = [
    replace_byte, replace_byte, flip_bit, unpackable_byte, unpackable_byte, cut_middle, cut_last,
    add_bytes, drop_byte, double_byte, insert_bytes,
]


def tell_others(choose, history):
    """Other numbers of all Told and ToldLane rows, which are legal too."""
    replay = book.Replay(history.declared, history.assignment, history.helpers)
    for at, piece in enumerate(history.pieces):
        row = book.unpacked(piece)
        if row.event in ("told", "toldlane"):
            least = least_unfinished(replay, row.event, row.lane, row.item)
            number = choose.choice([0, least, choose.randint(0, least)])
            row = dataclasses.replace(row, number=number)
            history.pieces[at] = packed(row)
        replay.append(row)


def spelled_digits(choose, text):
    """The digits of the bytes, in any of the spellings of the page."""
    digits = text.hex().encode()
    way = choose.random()
    if way < 0.5:
        return digits
    if way < 0.7:
        digits = b"\n".join(digits[at:at + 2 * ROW_BYTES]
                            for at in range(0, len(digits), 2 * ROW_BYTES))
        return digits + choose.choice([b"", b"\n"])
    letters = bytearray(digits.upper() if way < 0.8 else digits)
    if way >= 0.85:
        letters = bytearray(choose.choice([byte, *bytes([byte]).upper()]) for byte in letters)
    for _ in range(choose.choice([1, 3, 10, 40])):
        letters.insert(choose.randint(0, len(letters)), choose.choice(b" \t\r\n"))
    if choose.random() < 0.05:
        letters.insert(choose.randint(0, len(letters)), choose.choice(b"0fgG#x-\x00\xff\x0b/:@`"))
    return bytes(letters)


def random_check_case(seed, number):
    """The words of the command line of this number, and how the history was made."""
    choose = random.Random(f"{seed} history {number}")
    declaration_text, declared = make_declaration(choose)
    assignment_text, assignment = make_assignment(choose, declared)
    helpers = any_helpers(choose)
    walk = Walk(choose, declared, assignment, ROW_LIMIT, helpers)
    walk.make_calls(choose.choice([choose.randint(0, 12), choose.randint(12, 80),
                                   choose.randint(12, 80), choose.randint(80, 300)]))
    history = History([packed(row) for row in walk.play.book.rows], declared, assignment, helpers)

    way = choose.random()
    made = "unchanged"
    if 0.08 < way < 0.2:
        made = "told others"
        tell_others(choose, history)
    elif way > 0.2:
        made = "packable" if way < 0.65 else "any bytes"
        for _ in range(choose.choice([1, 1, 1, 1, 2, 3])):
            if history.pieces:
                choose.choice(PACKABLE if way < 0.65 else ANY_BYTES)(choose, history)
    digits = spelled_digits(choose, b"".join(history.pieces))
    return with_helpers(helpers, ["check", declaration_text, assignment_text, digits]), made


# Cases at the limits ------------------------------------------------------------------------------

ONE = [b"item a\n", b"wq 0 a\n"]
SHARED = [b"item a\nitem b\nordered a b\n", b"wq 0 a b\n"]
TWO = [b"item a\nitem b\nflush a b\n", b"wq 0 b\nwq 1 a\n"]
WHOLE = [b"item a\nitem b\nitem c\nflushwq a b\n", b"wq 0 b c\nwq 1 a\n"]
NONE = [b"", b""]
FIVE = bytes.fromhex(
    "010100000000000000000000030100000100000000000000040001000100000001000000"
    "050101000100000001000000060100000100000000000000"
)
# The same of a wait for a whole workqueue, which is asked about too: eleven rows.
ELEVEN = bytes.fromhex(
    "0b0000000000000000000000010102000000000000000000010100000000000001000000"
    "0b0100000000000002000000030100000100000001000000090101000100000002000000"
    "0301020000000000000000000601020000000000000000000a0101000100000002000000"
    "0c0100000000000002000000060100000100000001000000"
)


def filled(line, length):
    """The line, with a comment up to this length."""
    return line + b"#" + b"x" * (length - len(line) - 1)


def limit_book_cases():
    """What each case is, and the words of its command line; files are bytes, missing ones None."""
    cases = []

    def add(what, files, row_count, events, helpers=0):
        cases.append((what, with_helpers(helpers, ["book", *files, str(row_count), events])))

    add("no line", ONE, 0, b"")
    add("blank lines", ONE, 5, b"\n \t\n# x\n\r\n#\r\r\n")
    add("no item, no workqueue", NONE, 5, b"queue a\ncancel a\nask a\nstart 0\nclose\nqueue a\n")
    add("no item, 3 workqueues", [b"", b"wq 0\nwq 1\nwq 2"], 5,
        b"start 2\nstart 3\nwait 0 a\nover 1\nwaitall 0 a\nasklane 3\nasklane 2\nasklane 0\nask a")
    add("spellings", ONE, 50, b"\tqueue  a \r\nqueue a#b\n ask\ta # \xff\r\r\nstart 0\r\nfinish 0")
    add("a CR that stays", ONE, 50, b"queue a\nqueue a\r\r\nqueue \r\r\ncancel a\r\nask a\r")
    add("a CR behind a number", ONE, 50, b"queue a\nstart 0\r")
    add("a CR behind a keyword", ONE, 50, b"queue a\nclose\r\r\nqueue a\n")
    add("bytes in the place of an item", TWO, 50,
        b"queue \xff\ncancel \x00\nask a!\nqueue a\nstart 1\nwaitall 1 \xfe\nwait 1 \x80\x81\nwait 1 #b\n")
    names = [b"item -\nitem queue\nflush - queue", b"wq 0 -\nwq 1 queue"]
    add("items with the names of others", names, 50,
        b"queue -\nqueue queue\nstart 0\nstart 1\nwait 0 queue\nask -\ncancel -\n")
    for number, line in enumerate(MISTAKES):
        add(f"the mistake {number}", ONE, 50, b"queue a\n\n# x\n" + line + b"\nqueue a\n")
        add(f"the mistake {number} at the end", ONE, 0, line)
    for lane in b"0", b"1", b"4095", b"4096", b"65535", b"65536", b"4294967295":
        for word in b"start %s", b"wait %s a", b"over %s", b"finish %s", b"waitall %s a", b"asklane %s":
            add(f"the workqueue {lane.decode()}", ONE, 50, b"queue a\n" + word % lane)
    add("told again", ONE, 50,
        b"queue a\nask a\nask a\ntold 1\ntold 0\nstart 0\ntold 1\nfinish 0\n" + b"told 0\n" * 2)
    add("an ask before its number", ONE, 50, b"ask a\ntold 0\n")
    add("an ask of none", ONE, 50, b"queue a\nask b\nask a\nask a\ntold 1\ntold 2\n")
    add("an ask of a workqueue is told again", ONE, 50,
        b"queue a\nasklane 0\nasklane 0\ntoldlane 1\ntoldlane 0\nstart 0\ntoldlane 1\nfinish 0\n" + b"toldlane 0\n" * 2)
    add("an ask of a workqueue before its number", ONE, 50, b"asklane 0\ntoldlane 0\n")
    add("an ask of an item isn't one of its workqueue", ONE, 50, b"queue a\nask a\ntoldlane 0\n")
    add("an ask of a workqueue isn't one of its item", ONE, 50, b"queue a\nasklane 0\ntold 0\n")
    add("asks of both, numbered by themselves", ONE, 50,
        b"queue a\nask a\nasklane 0\nasklane 0\nask a\ncancel a\ntold 1\ntoldlane 0\ntoldlane 1\ntold 0\ntold 2\n")
    add("an item with the name of a wait", [b"item wq:\n", b"wq 0"], 50, b"")

    every = b"".join(b"help %s 0 %d\nhelp wait 0 %d b\nhelp waitall 0 %d b\n" % (word, helper, helper, helper)
                     for helper in (0, 1, 2, 7, 8, 9, 255) for word in (b"start", b"over", b"finish"))
    for helpers in 0, 1, 2, 8:
        for files in (TWO, WHOLE, SHARED, [b"item a\nitem b\n", b"wq 0 a b\n"], [b"item a\nitem b\n", b"wq 0\nwq 1 a b\n"], NONE):
            add(f"{helpers} helpers", files, 60, b"queue a\nqueue b\n" + every + b"start 0\n" + every + b"finish 0\n", helpers)
    for line in (b"help start 4095 1", b"help start 65535 1", b"help start 65536 1", b"help start 0 256", b"help wait 0 256 a"):
        add("numbers of a helper's call", ONE, 50, b"queue a\n" + line + b"\nqueue a\n", 1)
    many = [join(*numbered_items(9)), b"wq 0 " + b" ".join(b"i%04d" % number for number in range(9))]
    queued = b"".join(b"queue i%04d\n" % number for number in range(9))
    add("each context runs an item", many, 100,
        queued + b"".join(b"help start 0 %d\n" % helper for helper in range(8, 0, -1)) + b"start 0\n" + queued
        + b"start 0\nfinish 0\nstart 0\nhelp start 0 1\nhelp finish 0 5\nhelp start 0 5\nhelp finish 0 1\nhelp start 0 1\n", 8)
    add("16,384 waits of a helper", [join(b"item a", b"item b", *flush_lines(b"a", [b"b"] * 16_384)), b"wq 0 b\nwq 1 a\n"], 32_771,
        b"queue a\nhelp start 1 1\n" + b"help wait 1 1 b\nhelp over 1 1\n" * 16_384
        + b"help wait 1 1 b\nhelp finish 1 1\nqueue b\n", 1)

    for row_count in range(8):
        add(f"{row_count} rows", ONE, row_count,
            b"ask a\ncancel a\nqueue a\nqueue a\nask a\ncancel a\nstart 0\nfinish 0\ntold 0")
        add(f"{row_count} rows, and asks of a workqueue", ONE, row_count,
            b"asklane 0\nqueue a\nasklane 0\nasklane 0\nask a\nstart 0\nfinish 0\ntoldlane 0\ntold 0")
    for row_count in ROW_LIMIT + 1, NUMBER_LIMIT:
        add(f"{row_count} rows", ONE, row_count, b"queue a\n")
        add(f"{row_count} rows, and a mistake", ONE, row_count, b"?\n")
        add(f"{row_count} rows, and a long line", ONE, row_count, b"#" * (LINE_LIMIT + 1))
        add(f"{row_count} rows, and no declaration", [b"x\n", b"wq 0 a"], row_count, b"queue a\n")
        add(f"{row_count} rows, and no assignment", [b"item a\n", b""], row_count, b"queue a\n")
    add("the most rows", ONE, ROW_LIMIT, b"queue a\nstart 0\nask a\nfinish 0\ntold 0\n")

    long = filled(b"queue a", LINE_LIMIT)
    for ending in b"", b"\n", b"\r\n":
        add("the longest line", ONE, 50, b"queue a\n" + long + ending)
    for ending in b"x", b"x\n", b"\r":
        add("too long a line", ONE, 50, b"queue a\n?\n" + long + ending)
    add("two lines that are too long", ONE, 50, b"queue a\n" + (long + b"x\n") * 2)
    add("a long word", ONE, 50, b"queue " + b"x" * (LINE_LIMIT - 6) + b"\nqueue a\n")
    lines = filled(b"queue a", LINE_LIMIT - 1) + b"\n"
    add("the longest text", ONE, 20, lines * (TEXT_LIMIT // LINE_LIMIT))
    add("too long a text", ONE, 20, lines * (TEXT_LIMIT // LINE_LIMIT) + b"\n")
    add("too long a text and line", ONE, 20, b"#" * (TEXT_LIMIT + 1))

    for declaration_text, assignment_text in (
        (b"item\n", b""), (b"x", b"x"), (b"item a\nitem a\n", b"wq 0 a"), (b"item a\n", b""),
        (b"item a\n", b"wq 1 a"), (b"item a\n", b"plan 1\nwq 0 a\n"), (b"item a\n", b"wq 0 a a\n"),
        (b"item a\nitem b\nordered a b\n", b"wq 0 a\nwq 1 b\n"),
    ):
        add("refused texts", [declaration_text, assignment_text], 5, b"queue a\n")

    items = join(*numbered_items(4_096))
    own = b"".join(b"wq %d i%04d\n" % (number, number) for number in range(4_096))
    calls = b"queue i4095\nstart 4095\nqueue i0000\nask i4095\nstart 4096\nfinish 4095\ntold 0\n"
    add("4,096 items on 4,096 workqueues", [items, own], 50, calls)
    add("4,096 workqueues are asked about", [items, own], 50,
        b"queue i4095\nasklane 4095\nasklane 4096\nasklane 4094\nasklane 0\nstart 4095\nfinish 4095\ntoldlane 0\n")
    names = items.replace(b"item", b"").replace(b"\n", b"")
    add("4,096 items on one workqueue", [items, b"wq 0" + names], 50,
        calls.replace(b" 4095\n", b" 0\n"))
    add("1,024 of them", [join(*numbered_items(1_024)), own[:own.index(b"wq 1024 ")]], 20_000,
        b"".join(b"%s i%04d\n" % (word, item) for word in (b"queue", b"ask", b"cancel")
                 for item in range(0, 1_024, 37)))

    # An item that declares as many flushes as there may be.
    most = [join(b"item a", b"item b", *flush_lines(b"a", [b"b"] * 16_384)), b"wq 0 b\nwq 1 a\n"]
    for row_count in 32_770, 32_771, 32_772, 32_773:
        calls = b"queue a\nask b\nask a\nstart 1\n" + b"wait 1 b\nover 1\n" * 3 + b"queue b\n"
        add(f"16,384 flushes and {row_count} rows", most, row_count, calls + b"finish 1\nqueue b\n")
    add("16,384 waits", most, 32_771,
        b"queue a\nstart 1\n" + b"wait 1 b\nover 1\n" * 16_384 + b"wait 1 b\nfinish 1\nqueue b\n")
    both = [b"flush a b", b"flushwq a b"] * 8_192
    most = [join(b"item a", b"item b", *both), b"wq 0 b\nwq 1 a\n"]
    add("16,384 waits of both kinds", most, 32_771,
        b"queue a\nstart 1\n" + b"waitall 1 b\nover 1\nwait 1 b\nover 1\n" * 8_192
        + b"wait 1 b\nwaitall 1 b\nwait 1 a\nfinish 1\nqueue b\n")
    most = [join(b"item a", *flush_lines(b"a", [b"a"] * 16_384)), b"wq 0 a"]
    add("16,384 flushes of itself", most, 40_000,
        b"queue a\nstart 0\nwait 0 a\nover 0\nwait 0 a\nqueue a\nfinish 0\n")
    return cases


def limit_check_cases():
    """What each case is, and the words of its command line."""
    cases = []

    def add(what, files, digits, helpers=0):
        cases.append((what, with_helpers(helpers, ["check", *files, digits])))

    digits = FIVE.hex().encode()
    add("upper case", TWO, digits.upper())
    add("blanks everywhere", TWO, b" \t\r\n".join(bytes([digit]) for digit in digits) + b"\n")
    add("blanks alone", TWO, b"\n \t\r")
    for mistake in (b"0", digits[:-1], digits + b"0", b"0g", b"0x01", b"#", b"01 01 # x", b"\x0b01",
                    b"\xef\xbb\xbf" + digits, b"01\x00", b"+1", b"-1", b"1_0", b"\xb2\xb2"):
        add("a mistake", TWO, mistake)
    add("a mistake, and no declaration", [b"x", b""], b"0")
    add("a mistake, and no assignment", [b"item a", b""], b"0")
    add("no item", NONE, b"")
    for event in range(1, len(EVENTS) + 1):
        add("no item, and a row", NONE, b"%02x01" % event + b"00" * 10)
    add("no item, 2 workqueues", [b"", b"wq 0\nwq 1\n"], b"")
    for lane in 0, 1, 2:
        row = bytes([11, 0, 0, 0, lane, 0, 0, 0, 0, 0, 0, 0])
        add("no item, and asks of workqueues", [b"", b"wq 0\nwq 1\n"], (row * 2).hex().encode())
    add("the order of the pending ones",
        [b"item a\nitem b\nitem c\n", b"wq 0 c b a"],
        b"0101020000000000 00000000 0101000000000000 01000000 0101010000000000 02000000")

    # Each byte of some rows with other values, and all their prefixes.
    for files, rows in (TWO, FIVE), (WHOLE, ELEVEN):
        for at, byte in enumerate(rows):
            for value in sorted({0, 1, 2, 8, 9, 12, 13, 0x80, 0xFF, byte ^ 1} - {byte}):
                text = rows[:at] + bytes([value]) + rows[at + 1:]
                add(f"byte {at} is {value}", files, text.hex().encode())
        for length in range(len(rows)):
            add(f"{length} bytes", files, rows[:length].hex().encode())
    # Each row as the first one, and behind that of an ask of a workqueue which waits, with each small number and each event.
    asked = bytes.fromhex("010102000000000000000000" "0b0100000000000001000000")
    for event in range(1, len(EVENTS) + 1):
        for yes in 0, 1:
            for item in 0, 1, 2, LANE_LIMIT:
                for lane in 0, 1, 2:
                    row = bytes([event, yes, item & 255, item >> 8, lane, 0, 0, 0, 0, 0, 0, 0])
                    add("a row alone", TWO, row.hex().encode())
                    add("a row behind an ask", WHOLE, (asked + row).hex().encode())
                    if yes and item <= 2 and lane <= 1:
                        for helper in 1, 2, 8, 9:
                            row = bytes([event, yes, item & 255, item >> 8, lane, 0, helper, 0, 0, 0, 0, 0])
                            add("a row of a helper", WHOLE, (asked + row).hex().encode(), 2)

    # A helper starts what isn't the first entry; the other contexts may not.
    apart = ["010100000000000000000000", "010101000000000001000000", "030101000000010001000000", "010101000000000002000000"]
    for helpers in 0, 1, 2, 8:
        for helper in 0, 1, 2, 8:
            for item in 0, 1:
                for number in 0, 1, 2:
                    last = "03010%d0000000%d000%d000000" % (item, helper, number)
                    add("a start behind those of a helper", [b"item a\nitem b\n", b"wq 0 a b"], "".join([*apart, last]).encode(),
                        helpers)

    # Long histories: 349,525 rows are the most that the digits can spell.
    none, one = bytes.fromhex("020000000000000000000000"), bytes.fromhex("070000000000000000000000")
    count = TEXT_LIMIT // (2 * ROW_BYTES)
    add("the most rows, and bytes", ONE, (none * count + none[:4]).hex().encode())
    add("the last of many is faulty", ONE,
        (one * (count - 1) + bytes.fromhex("070100000000000000000000")).hex().encode())
    add("the longest text", ONE, b" " * (TEXT_LIMIT - 24) + none.hex().encode())
    add("too long a text", ONE, b" " * (TEXT_LIMIT - 23) + none.hex().encode())
    add("a text of one digit more", ONE, (none * count + none[:4]).hex().encode() + b"0")
    return cases


def fault_cases():
    """What each case is, the words of its command line, and the status."""
    cases = []
    files = [*ONE, "5", b"queue a\n"]
    for words in (["helpers"], ["helpers", "1"], ["helpers", "9", "book", *files], ["helpers", "x", "book", *files],
                  ["helpers", "01", "book", *files], ["helpers", "256", "book", *files], ["helpers", "9", "check", *ONE, b""],
                  ["helpers", "1", "helpers", "1", "book", *files], ["helper", "1", "book", *files], ["helpers", "book", *files],
                  ["book", "helpers", "1", *files], ["helpers", "-1", "check", *ONE, b""]):
        cases.append(("the command line, with helpers", words, 2))
    for words in ([], ["book"], ["check"], ["books", *files], ["book", *files, "x"],
                  ["book", *files[:3]], ["check", *ONE], ["check", *ONE, b"", b""],
                  ["Book", *files], ["--help", *files], ["book", *ONE, b"queue a\n", "5"]):
        cases.append(("the command line", words, 2))
    for row_count in "", "x", "-1", "+1", "007", "00", "1.", "0x1", " 5", "5 ", "4294967296", \
            "99999999999999999999999":
        cases.append((f"{row_count!r} rows", ["book", *ONE, row_count, b""], 2))
    for texts in ([None, b"", b""], [b"", None, b""], [b"", b"", None], [b"x", None, b""],
                  [b"x", b"", None], [b"item a", b"", None]):
        cases.append(("a missing file", ["book", *texts[:2], "5", texts[2]], 3))
        words = ["book", *texts[:2], "16777217", texts[2]]
        cases.append(("a missing file, and too many rows", words, 3))
        cases.append(("a missing file", ["check", *texts], 3))
    return cases
