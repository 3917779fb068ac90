# A model of a book and of the judge of histories, and of the test program that shows both:
#
#     book.py book DECL ASSIGN ROWS EVENTS
#     book.py check DECL ASSIGN HEX
#     book.py helpers H ..
#
# The last form is one of the others, with H helpers. It prints what `book` and `check` of `test_runtime` print. It
# was written from docs/FORMAT.md ("Steps" and "Histories"), docs/RUNTIME.md ("Books") and tests/FORMATS.md alone; see
# plan.py for what such a model is. A book's state is here the replay of its rows and nothing else: each call says
# what it answers and which row that appends, and the row alone changes the state. A context is a workqueue and the
# number of a helper, or RESCUER.

import collections
import dataclasses
import struct
import sys

sys.dont_write_bytecode = True
import certificate  # noqa: E402  (beside this file)
import declaration  # noqa: E402
from declaration import Refused, split_lines, split_words  # noqa: E402
from steps import RESCUER, State  # noqa: E402

# Limits
ROW_LIMIT = 16_777_216
LANE_LIMIT = 65_535
NUMBER_LIMIT = 4_294_967_295
HELPER_LIMIT = 8
HELPER_WORD_LIMIT = 255
ROW_BYTES = 12

# The refusals of calls.
HISTORY_FULL = 60
CLOSED = 61
UNDECLARED = 62
TOO_MANY_WAITS = 63
WRONG_LANE = 64
NOT_ASKED = 65
NO_ITEM = 66
TOO_MANY_ROWS = 68

# The faults of rows.
BAD_ROW = 75
NOT_LEGAL = 76

# The events in the order of their numbers, and those of one kind or another: those that a workqueue's step makes, those that name an
# item or a workqueue, and those whose `yes` is always true. Where a step has another word than its event, it is the second one.
EVENTS = ("queue", "cancel", "start", "wait", "over", "finish", "ask", "told", "waitall", "overall", "asklane", "toldlane")
OF_LANE = ("start", "wait", "over", "finish", "waitall", "overall")
WITH_LANE = (*OF_LANE, "asklane", "toldlane")
WITH_ITEM = EVENTS[:-2]
ALWAYS_YES = ("start", "over", "finish", "told", "overall", "toldlane")
STEPS = {"waitall": b"waitwq", "overall": b"overwq"}

# The words of the calls, in EVENTS of the test program; those of contexts may be a helper's, with HELP before them.
CALLS = ("queue", "cancel", "start", "wait", "over", "finish", "ask", "told", "waitall", "asklane", "toldlane", "close")
HELPED = ("start", "wait", "over", "finish", "waitall")
HELP = "help"


# Packed rows --------------------------------------------------------------------------------------


@dataclasses.dataclass(frozen=True)
class Row:
    """Events and rows."""

    event: str
    yes: bool
    item: int  # of waits and their ends the target; 0 where the event names none
    lane: int  # the workqueue; 0 where the event names none
    number: int
    helper: int = RESCUER  # RESCUER, too, where the event is of no context


def packed(row):
    """Packed rows: the bytes of a row."""
    event = EVENTS.index(row.event) + 1
    return struct.pack("<BBHHBBI", event, row.yes, row.item, row.lane, row.helper, 0, row.number)


def unpacked(piece):
    """The row of which the bytes are the packing, or None."""
    if len(piece) != ROW_BYTES:
        return None
    event, yes, item, lane, helper, zero, number = struct.unpack("<BBHHBBI", piece)
    if not 1 <= event <= len(EVENTS) or yes > 1 or helper > HELPER_LIMIT or zero != 0:
        return None
    event = EVENTS[event - 1]
    if event in ALWAYS_YES and yes == 0:
        return None
    if event not in WITH_LANE and lane != 0 or event not in WITH_ITEM and item != 0:
        return None
    if event not in OF_LANE and helper != 0:
        return None
    return Row(event, yes == 1, item, lane, number, helper)


# Events and rows ----------------------------------------------------------------------------------


def step_of(event, lane, name):
    """The step of an event."""
    return STEPS.get(event, event.encode()), lane, name


class Replay:
    """The state that rows leave, and how many asks of each item and of each workqueue wait."""

    def __init__(self, declared, assignment, helpers=0):
        self.declared = declared
        self.lanes = range(assignment.count)
        self.state = State(declared, assignment, helpers)
        self.asks = collections.Counter()  # by name
        self.lane_asks = collections.Counter()  # by workqueue

    def name(self, item):
        """The name of the item, or None where there is no such item."""
        return self.declared.items[item] if item < len(self.declared.items) else None

    def is_unfinished(self, name):
        return self.state.unfinished(name) != []

    def is_unfinished_below(self, name, number):
        return any(entry.number < number for entry in self.state.unfinished(name))

    def is_busy(self, lane):
        """An entry is unfinished on the workqueue."""
        return self.state.unfinished_on(lane) != []

    def is_busy_below(self, lane, number):
        return any(entry.number < number for entry in self.state.unfinished_on(lane))

    def waiting(self, lane, helper=RESCUER):
        """The target of the wait by `flush` that lasts in the context, or None."""
        entry = self.state.running.get((lane, helper))
        return entry.target if entry is not None and entry.over == b"over" else None

    def waiting_all(self, lane, helper=RESCUER):
        """The same of a wait by `flushwq`."""
        entry = self.state.running.get((lane, helper))
        return entry.target if entry is not None and entry.over == b"overwq" else None

    def asks_waiting(self):
        """How many asks wait, of items and of workqueues."""
        return self.asks.total() + self.lane_asks.total()

    def is_idle(self):
        """No entry is unfinished."""
        return not self.state.running and not self.state.pending_of

    def standing(self, event, lane, item, helper=RESCUER):
        """The `yes` and the number that the row has if it may stand here; None if it may not.

        The number is None where any will do.
        """
        name, state = self.name(item), self.state
        if event == "asklane":
            return (self.is_busy(lane), state.next_number) if lane in self.lanes else None
        if event == "toldlane":
            return (True, None) if self.lane_asks[lane] > 0 else None
        if name is None:
            return None
        entry = state.pending_of.get(name)
        if event == "queue":
            return (True, state.next_number) if entry is None else (False, 0)
        if event == "cancel":
            return (False, 0) if entry is None else (True, entry.number)
        if event == "ask":
            return self.is_unfinished(name), state.next_number
        if event == "told":
            return (True, None) if self.asks[name] > 0 else None
        if lane not in self.lanes or not state.may(step_of(event, lane, name), helper):
            return None
        if event == "start":
            return True, entry.number
        if event == "wait":
            return self.is_unfinished(name), state.next_number
        if event == "waitall":
            return self.is_busy(state.workqueue_of[name]), state.next_number
        running = state.running[lane, helper]
        return True, running.number if event == "finish" else running.mark

    def may_stand(self, row):
        """The row may stand here, with the `yes` and the number of the table."""
        stands = self.standing(row.event, row.lane, row.item, row.helper)
        if stands is None:
            return False
        if row.event == "told":
            return row.yes and not self.is_unfinished_below(self.name(row.item), row.number)
        if row.event == "toldlane":
            return row.yes and not self.is_busy_below(row.lane, row.number)
        return (row.yes, row.number) == stands

    def append(self, row):
        """What it does. The row may stand here."""
        name = self.name(row.item)
        if row.event in OF_LANE:
            self.state.make(step_of(row.event, row.lane, name), row.helper)
        elif row.event in ("queue", "cancel"):
            if row.yes:
                self.state.make(step_of(row.event, None, name))
        elif row.event == "ask":
            self.asks[name] += row.yes
        elif row.event == "told":
            self.asks[name] -= 1
        elif row.event == "asklane":
            self.lane_asks[row.lane] += row.yes
        else:
            self.lane_asks[row.lane] -= 1


# Judging a history --------------------------------------------------------------------------------


def judge(declared, assignment, text, helpers=0):
    """The first faulty row, counted from 1, with its fault; the number of rows and None if none is.

    The third is the replay of the rows before the faulty one, or of all.
    """
    replay = Replay(declared, assignment, helpers)
    pieces = [text[at:at + ROW_BYTES] for at in range(0, len(text), ROW_BYTES)]
    for number, piece in enumerate(pieces, start=1):
        row = unpacked(piece)
        if row is None:
            return number, BAD_ROW, replay
        if not replay.may_stand(row):
            return number, NOT_LEGAL, replay
        replay.append(row)
    return len(pieces), None, replay


# The calls of a book ------------------------------------------------------------------------------


@dataclasses.dataclass(frozen=True)
class Refusal:
    """A call that is refused, and for which of the causes that have this number."""

    code: int
    why: str = ""


@dataclasses.dataclass(frozen=True)
class Ask:
    """What is handed out for `waiting`: of an item."""

    name: bytes
    mark: int


@dataclasses.dataclass(frozen=True)
class LaneAsk:
    """The same of a workqueue."""

    lane: int
    mark: int


class Book:
    """The calls of a book. Each call but `make` changes nothing.

    It returns the answer, and the row that is appended or None. Calls of a context are the rescuer's, or the helper's that is named.
    """

    def __init__(self, declared, assignment, row_count, helpers=0):
        if row_count > ROW_LIMIT:
            raise Refused(TOO_MANY_ROWS, 0)
        self.row_count = row_count
        self.rows = []
        self.closed = False
        self.replay = Replay(declared, assignment, helpers)
        self.declares = self.replay.state.targets  # by name, the targets of its flushes of both kinds

    # Rows kept free

    def counts(self, entry):
        """What an entry that runs counts in the work left."""
        overs = entry.waits - (entry.target is not None)
        return 1 + 2 * len(self.declares[entry.item]) - entry.waits - overs

    def work_left(self):
        state = self.replay.state
        pending = sum(2 + 2 * len(self.declares[name]) for name in state.pending_of)
        return pending + sum(self.counts(entry) for entry in state.running.values())

    def kept(self):
        return self.work_left() + self.replay.asks_waiting()

    def free(self):
        free = self.row_count - len(self.rows) - self.kept()
        assert free >= 0
        return free

    # The calls

    def row(self, event, yes, lane, item, number=None, helper=RESCUER):
        """The row that a call appends. It may stand here with this `yes`."""
        stands = self.replay.standing(event, lane, item, helper)
        assert stands is not None and stands[0] == yes
        return Row(event, yes, item, lane, stands[1] if number is None else number, helper)

    def queue(self, item):
        name = self.replay.name(item)
        if name is None:
            return Refusal(NO_ITEM), None
        if self.closed:
            return Refusal(CLOSED), None
        is_pending = name in self.replay.state.pending_of
        if self.free() < (1 if is_pending else 3 + 2 * len(self.declares[name])):
            return Refusal(HISTORY_FULL, "pending" if is_pending else "accepted"), None
        return not is_pending, self.row("queue", not is_pending, 0, item)

    def cancel(self, item):
        name = self.replay.name(item)
        if name is None:
            return Refusal(NO_ITEM), None
        is_pending = name in self.replay.state.pending_of
        if self.free() < (0 if is_pending else 1):
            return Refusal(HISTORY_FULL), None
        return is_pending, self.row("cancel", is_pending, 0, item)

    def ask(self, item):
        name = self.replay.name(item)
        if name is None:
            return Refusal(NO_ITEM), None
        waits = self.replay.is_unfinished(name)
        if self.free() < (2 if waits else 1):
            return Refusal(HISTORY_FULL, "waiting" if waits else "idle"), None
        answer = Ask(name, self.replay.state.next_number) if waits else "idle"
        return answer, self.row("ask", waits, 0, item)

    def told(self, ask):
        if self.replay.asks[ask.name] == 0:
            return Refusal(NOT_ASKED), None
        if self.replay.is_unfinished_below(ask.name, ask.mark):
            return "not yet", None
        item = self.replay.declared.items.index(ask.name)
        return "done", self.row("told", True, 0, item, ask.mark)

    def asklane(self, lane):
        if lane not in self.replay.lanes:
            return Refusal(WRONG_LANE), None
        waits = self.replay.is_busy(lane)
        if self.free() < (2 if waits else 1):
            return Refusal(HISTORY_FULL, "waiting" if waits else "idle"), None
        answer = LaneAsk(lane, self.replay.state.next_number) if waits else "idle"
        return answer, self.row("asklane", waits, lane, 0)

    def toldlane(self, ask):
        if self.replay.lane_asks[ask.lane] == 0:
            return Refusal(NOT_ASKED), None
        if self.replay.is_busy_below(ask.lane, ask.mark):
            return "not yet", None
        return "done", self.row("toldlane", True, ask.lane, 0, ask.mark)

    def no_context(self, lane, helper):
        """What is refused where there is no such context."""
        if lane not in self.replay.lanes:
            return Refusal(WRONG_LANE, "no lane")
        if (lane, helper) not in self.replay.state.contexts_of(lane):
            return Refusal(WRONG_LANE, "ordered" if lane in self.replay.state.ordered else "no helper")
        return None

    def wrong_lane(self, lane, helper, waits):
        """What is refused where the context runs nothing, or its entry waits or doesn't."""
        entry = self.replay.state.running.get((lane, helper))
        refusal = self.no_context(lane, helper)
        if refusal is not None:
            return refusal
        if entry is None:
            return Refusal(WRONG_LANE, "runs nothing")
        if (entry.target is not None) != waits:
            return Refusal(WRONG_LANE, "doesn't wait" if waits else "waits")
        return None

    def start(self, lane, helper=RESCUER):
        state = self.replay.state
        refusal = self.no_context(lane, helper)
        if refusal is not None:
            return refusal, None
        if (lane, helper) in state.running:
            return Refusal(WRONG_LANE, "runs"), None
        entry = state.first_to_start(lane)
        if entry is None:
            return None, None
        item = self.replay.declared.items.index(entry.item)
        return item, self.row("start", True, lane, item, helper=helper)

    def wait_by(self, event, lane, item, helper):
        """A wait of either kind."""
        refusal = self.wrong_lane(lane, helper, waits=False)
        if refusal is not None:
            return refusal, None
        state, name = self.replay.state, self.replay.name(item)
        entry = state.running[lane, helper]
        word, _, _ = step_of(event, lane, name)
        if (word, name) not in state.declared[entry.item]:
            why = "no item" if name is None else "kind" if name in self.declares[entry.item] else "item"
            return Refusal(UNDECLARED, why), None
        if entry.waits == len(self.declares[entry.item]):
            return Refusal(TOO_MANY_WAITS), None
        waits = self.replay.is_unfinished(name) if event == "wait" else self.replay.is_busy(state.workqueue_of[name])
        return waits, self.row(event, waits, lane, item, helper=helper)

    def wait(self, lane, item, helper=RESCUER):
        return self.wait_by("wait", lane, item, helper)

    def waitall(self, lane, item, helper=RESCUER):
        return self.wait_by("waitall", lane, item, helper)

    def over(self, lane, helper=RESCUER):
        refusal = self.wrong_lane(lane, helper, waits=True)
        if refusal is not None:
            return refusal, None
        state = self.replay.state
        entry = state.running[lane, helper]
        item = self.replay.declared.items.index(entry.target)
        if entry.over == STEPS["overall"]:
            if self.replay.is_busy_below(state.workqueue_of[entry.target], entry.mark):
                return False, None
            return True, self.row("overall", True, lane, item, helper=helper)
        if self.replay.is_unfinished_below(entry.target, entry.mark):
            return False, None
        return True, self.row("over", True, lane, item, helper=helper)

    def finish(self, lane, helper=RESCUER):
        refusal = self.wrong_lane(lane, helper, waits=False)
        if refusal is not None:
            return refusal, None
        item = self.replay.declared.items.index(self.replay.state.running[lane, helper].item)
        return "ok", self.row("finish", True, lane, item, helper=helper)

    def close(self):
        return "ok", None

    def look(self, word, *arguments, **context):
        """What the call would answer, and the row that it would append. The context is `helper=` where it isn't the rescuer's."""
        return getattr(self, word)(*arguments, **context)

    def make(self, word, *arguments, **context):
        """Makes the call, and returns its answer."""
        answer, row = self.look(word, *arguments, **context)
        if row is not None:
            assert self.replay.may_stand(row)
            self.replay.append(row)
            self.rows.append(row)
        if word == "close":
            self.closed = True
        self.free()
        return answer


# The test program ---------------------------------------------------------------------------------


class Mistake(Exception):
    """A mistake of the input."""


def number_of(word, most):
    """Lines, words and numbers: Numbers."""
    try:
        number = certificate.read_number(word, 0)
    except Refused:
        raise Mistake from None
    if number > most:
        raise Mistake
    return number


def lane_words(replay, lane, helper=RESCUER):
    """What is shown of a context: what runs, and what this one waits for."""
    entry = replay.state.running.get((lane, helper))
    target, whole = replay.waiting(lane, helper), replay.waiting_all(lane, helper)
    return [b"-" if entry is None else entry.item, target or (b"wq:" + whole if whole else b"-")]


class Play:
    """The calls of EVENTS, made one after the other, and what is printed of them."""

    def __init__(self, declared, assignment, row_count, helpers=0):
        self.declared = declared
        self.helpers = helpers
        self.book = Book(declared, assignment, row_count, helpers)
        self.item_number = {name: number for number, name in enumerate(declared.items)}
        # The asks that were handed out, by the word that hands them in; None once they are.
        self.asks = {"told": [], "toldlane": []}
        self.called = None  # the arguments of the last call
        self.helper = RESCUER  # the helper that made it, if one did
        self.was_closed = False  # before the last call

    def item(self, word):
        return self.item_number.get(word, len(self.declared.items))

    def call_of(self, words):
        """The call that a line asks for: its word, its arguments, the K of a `told` or a `toldlane`, and its context: the helper,
        by its name, if it is one's.
        """
        if words[0] == HELP.encode() and len(words) > 3:
            word, arguments, *_ = self.call_of([words[1], words[2], *words[4:]])
            if word not in HELPED:
                raise Mistake
            # Helpers are numbered from 1, so none has the number of the rescuer.
            return word, arguments, None, {"helper": number_of(words[3], HELPER_WORD_LIMIT) or None}
        word, *further = words
        try:
            word = word.decode("ascii")
        except UnicodeDecodeError:
            raise Mistake from None
        wanted = {"close": 0, "wait": 2, "waitall": 2}.get(word, 1)
        if word not in CALLS or len(further) != wanted:
            raise Mistake
        if word == "close":
            return word, [], None, {}
        if word in ("queue", "cancel", "ask"):
            return word, [self.item(further[0])], None, {}
        if word in self.asks:
            place = number_of(further[0], NUMBER_LIMIT)
            asks = self.asks[word]
            if place >= len(asks) or asks[place] is None:
                raise Mistake
            return word, [asks[place]], place, {}
        lane = number_of(further[0], LANE_LIMIT)
        return word, [lane] + [self.item(name) for name in further[1:]], None, {}

    def answer_line(self, word, answer):
        """The words of an answer."""
        if isinstance(answer, Refusal):
            return b"refused %d" % answer.code
        if isinstance(answer, (Ask, LaneAsk)):
            return b"waiting %d" % answer.mark
        if word == "start":
            return b"none" if answer is None else self.declared.items[answer]
        if isinstance(answer, bool):
            return b"true" if answer else b"false"
        return answer.encode()

    def state_line(self):
        """What is said of the book behind the answer."""
        replay = self.book.replay
        words = [b"free %d" % self.book.free()]
        words.append(b"idle" if replay.is_idle() else b"busy")
        words.append(b"closed" if self.book.closed else b"open")
        for lane in replay.lanes:
            for helper in range(RESCUER, RESCUER + 1 + self.helpers):
                words += lane_words(replay, lane, helper)
        return b" ".join(words)

    def make(self, words):
        """Makes the call that a line asks for. Returns its word, its answer, and its line."""
        word, arguments, place, context = self.call_of(words)
        self.called, self.was_closed = arguments, self.book.closed
        self.helper = context.get("helper", RESCUER)
        answer = self.book.make(word, *arguments, **context)
        if isinstance(answer, Ask):
            self.asks["told"].append(answer)
        if isinstance(answer, LaneAsk):
            self.asks["toldlane"].append(answer)
        if place is not None and answer != "not yet":
            self.asks[word][place] = None
        line = self.answer_line(word, answer) + b" " + self.state_line()
        return f"{HELP} {word}" if context else word, answer, line

    def end_lines(self):
        """What is printed after the last line of EVENTS."""
        rows = self.book.rows
        return [b"rows %d" % len(rows)] + [packed(row).hex().encode() for row in rows]


def too_long(text):
    """The number of the line that is said to be too long, 0 for the text, or None."""
    if len(text) > certificate.TEXT_LIMIT:
        return 0
    for number, line in enumerate(split_lines(text), start=1):
        if len(line) > certificate.LINE_LIMIT:
            return number
    return None


def ended(lines, status):
    return b"".join(line + b"\n" for line in lines), status


def read_both(declaration_text, assignment_text):
    declared = declaration.read_declaration(declaration_text)
    return declared, certificate.read_assignment(assignment_text, declared)


def answer_book(declaration_text, assignment_text, row_count, events, note=None, helpers=0):
    """The bytes that are printed, and the exit status.

    `note` is told the word and the answer of each call, the free rows before it, and the play after
    it; and "mistake" or "refused 68" with nothing else.
    """
    note = note or (lambda *what: None)
    try:
        declared, assignment = read_both(declaration_text, assignment_text)
    except Refused as refused:
        return refused.answer()
    try:
        play = Play(declared, assignment, row_count, helpers)
    except Refused as refused:
        note("refused 68")
        return b"refused %d\n" % refused.code, 2

    at = too_long(events)
    if at is not None:
        note("mistake")
        return b"mistake line %d\n" % at, 2
    printed = []
    for number, line in enumerate(split_lines(events), start=1):
        words = split_words(line)
        if not words:
            continue
        free = play.book.free()
        try:
            word, answer, line = play.make(words)
        except Mistake:
            note("mistake")
            return ended(printed + [b"mistake line %d" % number], 2)
        note(word, answer, free, play)
        printed.append(line)
    return ended(printed + play.end_lines(), 0)


def bytes_of(digits):
    """The test program, `check`: the bytes that the text spells."""
    if len(digits) > certificate.TEXT_LIMIT:
        raise Mistake
    digits = digits.translate(None, b" \t\r\n")
    if len(digits) % 2 or digits.strip(b"0123456789abcdefABCDEF"):
        raise Mistake
    return bytes.fromhex(digits.decode("ascii"))


def answer_check(declaration_text, assignment_text, digits, helpers=0):
    """The bytes that are printed, and the exit status."""
    try:
        declared, assignment = read_both(declaration_text, assignment_text)
    except Refused as refused:
        return refused.answer()
    try:
        text = bytes_of(digits)
    except Mistake:
        return b"mistake\n", 2
    at, fault, replay = judge(declared, assignment, text, helpers)
    state = replay.state
    printed = [b"legal %d" % at if fault is None else b"refused %d at %d" % (fault, at)]
    printed.append(b"next %d" % state.next_number)
    for lane in replay.lanes:
        runs, waits = lane_words(replay, lane)
        pending = {other.item for other in state.pending[lane]}
        names = [name for name in declared.items if name in pending]
        line = b"lane %d runs %s waits %s pending" % (lane, runs, waits)
        printed.append(b" ".join([line] + names))
        for helper in range(RESCUER + 1, RESCUER + 1 + helpers):
            runs, waits = lane_words(replay, lane, helper)
            printed.append(b"lane %d helper %d runs %s waits %s" % (lane, helper, runs, waits))
    return ended(printed, 0 if fault is None else 1)


def with_helpers(helpers, words):
    """The words of a command line, with so many helpers."""
    return words if helpers == 0 else ["helpers", str(helpers), *words]


def without_helpers(words):
    """How many helpers the words of a command line say, and what else they say."""
    return (int(words[1]), words[2:]) if words[:1] == ["helpers"] else (0, words)


def main(arguments):
    """Faults and exit statuses. Of the faults of the system only `fault read` is here."""
    try:
        helpers = 0
        if arguments[:1] == ["helpers"]:
            _, helpers, *arguments = arguments
            helpers = number_of(helpers.encode(), HELPER_LIMIT)
        command, *places = arguments
        if (command, len(places)) not in (("book", 4), ("check", 3)):
            raise Mistake
        row_count = number_of(places.pop(2).encode(), NUMBER_LIMIT) if command == "book" else None
    except (Mistake, ValueError):
        usage = "usage: book.py [helpers H] book DECL ASSIGN ROWS EVENTS | check DECL ASSIGN HEX"
        print(usage, file=sys.stderr)
        return 2
    try:
        texts = []
        limits = (declaration.TEXT_LIMIT, certificate.TEXT_LIMIT, certificate.TEXT_LIMIT)
        for place, limit in zip(places, limits):
            with open(place, "rb") as file:
                texts.append(file.read(limit + 1))
    except OSError:
        print("fault read", file=sys.stderr)
        return 3
    if command == "book":
        printed, status = answer_book(*texts[:2], row_count, texts[2], helpers=helpers)
    else:
        printed, status = answer_check(*texts, helpers)
    sys.stdout.buffer.write(printed)
    return status


if __name__ == "__main__":
    sys.exit(main(sys.argv[1:]))
