"""What a kernel is asked, and whether it does what the model says: cases, their commands for the module
(module/main.c has the list), and how their outcomes are judged.
"""

import collections
import dataclasses
import re

import guest
import model

# How a workqueue is made, by the letter of its kind: in words, its KIND of the module's command `wq`, and max_active,
# if that isn't the default.
KINDS = {
    "p": ("per CPU", "p", None),
    "u": ("WQ_UNBOUND", "u", None),
    "o": ("ordered", "o", None),
    "1": ("per CPU, max_active 1", "p", 1),
    "v": ("WQ_UNBOUND, max_active 1", "u", 1),
    "h": ("per CPU, WQ_HIGHPRI", "h", None),
    "g": ("WQ_UNBOUND, WQ_HIGHPRI", "g", None),
}
# These execute one item at a time.
ONE_AT_A_TIME = "o1v"
# Of a workqueue's flags, by their bits, those that must be as it is asked for (include/linux/workqueue.h).
FLAGS = {"WQ_UNBOUND": 1 << 1, "WQ_MEM_RECLAIM": 1 << 3, "WQ_HIGHPRI": 1 << 4}

# By the directive of a wait what an item does in a free case. A wait that a comment calls `done` ends once the item has
# done its work, as one for a completion, and not by flush_work.
DEEDS = {b"flush": "flush", b"flushwq": "flushwq"}
DONE = "await"
# The letters of waits in events (module/cases.c, print_events), by such a deed.
LETTERS = {"flush": "w", "flushwq": "W", DONE: "m"}
# All letters of waits.
WAITING = "wWmdkz"
# The commands that have it made in a driven case.
STEPS = {"flush": "wait", "flushwq": "waitwq", DONE: DONE}

# MAX_QUEUES, MAX_ITEMS and MAX_ACTS of module/wqjudge.h; of a case fewer than MAX_EVENTS are kept.
MOST_WORKQUEUES, MOST_ITEMS, MOST_WAITS, MOST_EVENTS = 256, 256, 64, 4095


@dataclasses.dataclass
class Setting:
    """A declaration and an assignment, and how its workqueues are made."""

    declaration: object
    assignment: object
    kinds: list  # by workqueue, its letter
    done: frozenset = frozenset()  # the places of the flushes that comments call `done`

    def commands(self):
        for workqueue, letter in enumerate(self.kinds):
            _, kind, max_active = KINDS[letter]
            rescuer = 0 if workqueue in self.assignment.bare else 1
            yield f"wq {kind} {rescuer}{f' {max_active}' if max_active else ''}"
        for item in self.declaration.items:
            yield f"item {self.assignment.workqueue_of[item]}"

    def waits(self):
        """By item its declared waits in their order: of each the deed, and the target."""
        found = {item: [] for item in self.declaration.items}
        for place, (item, target) in enumerate(self.declaration.flushes):
            deed = DONE if place in self.done else DEEDS[self.declaration.directive_of[place]]
            found[item].append((deed, target))
        return found

    def deed(self, word, item, target):
        """What an item does by the step `wait` or `waitwq`. Which line is meant a step doesn't say: it is a `done` wait
        if each line of these two is.
        """
        if word == b"waitwq":
            return "flushwq"
        deeds = {deed for deed, other in self.waits()[item] if other == target and deed != "flushwq"}
        return DONE if deeds == {DONE} else "flush"

    def too_large(self):
        """What the module has no room for, in words, or nothing."""
        items = self.declaration.items
        if len(items) > MOST_ITEMS:
            return f"{len(items)} items; at most {MOST_ITEMS} can be judged"
        if len(self.kinds) > MOST_WORKQUEUES:
            return f"{len(self.kinds)} workqueues; at most {MOST_WORKQUEUES} can be judged"
        for item, waits in sorted(self.waits().items(), key=lambda pair: -len(pair[1]))[:1]:
            if len(waits) > MOST_WAITS:
                return f"{item.decode()} has {len(waits)} waits; at most {MOST_WAITS} of an item can be judged"
        return ""

    def number_of(self, item):
        return self.declaration.items.index(item)

    def workqueue(self, number):
        """A workqueue in words, with its name, if the assignment says it."""
        name = self.assignment.called.get(number)
        return f"workqueue {number}{f' ({name.decode()})' if name else ''}"

    def flags(self, number):
        """Those of FLAGS that a workqueue must have. An ordered one is WQ_UNBOUND, too."""
        words = KINDS[self.kinds[number]][0].replace("ordered", "WQ_UNBOUND")
        rescuer = set() if number in self.assignment.bare else {"WQ_MEM_RECLAIM"}
        return {flag for flag in FLAGS if flag in words} | rescuer

    def promised(self, where):
        """Of where items are, those on workqueues with a rescuer. Of the others nobody promises anything."""
        items, assignment = self.declaration.items, self.assignment
        return {
            number: at for number, at in where.items() if assignment.workqueue_of[items[number]] not in assignment.bare
        }

    def start(self, machine, helpers):
        """The machine at its start. A workqueue that executes one item at a time has no helper, whatever the
        declaration says.
        """
        state = machine(self.declaration, self.assignment, helpers)
        state.ordered |= {workqueue for workqueue, kind in enumerate(self.kinds) if kind in ONE_AT_A_TIME}
        return state


class Case:
    """A case. `judge` says in words what is otherwise than the model says, or nothing."""

    def __init__(self, name, setting, must=None):
        self.name, self.setting = name, setting
        self.must = must  # "end" or "hang", where wqplan says so of the items on workqueues with a rescuer
        self.weather = None
        self.outcome = None  # a guest.Outcome, once a guest has run it in this weather
        self.first_queue = None  # the module's number of its first workqueue in this guest

    def too_large(self):
        """What the module has no room for, in words, or nothing."""
        events = self.most_events()
        if events > MOST_EVENTS and not self.setting.too_large():
            return f"{self.name}: up to {events} events (of a wait or a step two); at most {MOST_EVENTS} can be judged"
        return self.setting.too_large()

    def who_ran(self):
        """Who executed its items: of each execution R, N or ?."""
        return [by for letter, _, _, by in self.outcome.events if letter == "s"]

    def ended(self):
        """Whether all items on workqueues with a rescuer are finished."""
        return not self.setting.promised(self.outcome.states["end"][1])

    def judge(self, machine=model.State):
        if self.outcome is None or "end" not in self.outcome.states:
            return "the guest printed no result"
        for said in self.outcome.kernel_says:
            if guest.BROKEN.match(said):
                return f"the kernel itself says: {said}"
        if set(self.who_ran()) - {"R"} and self.weather == "short":
            return "an item was executed by somebody else than its workqueue's rescuer"
        try:
            why = self.compare(machine)
        except NotLawful as step:
            return f"step {step} isn't lawful by the model"
        why = why or self.unbalanced() or self.unlike_events() or self.unlike_flags()
        ends = "end" if self.ended() else "hang"
        if not why and self.must not in (None, ends):
            found = self.shown(self.outcome.states["end"][1])
            return f"wqplan says that it must {self.must}; kernel and model have {found}"
        return why

    def unbalanced(self):
        """What doesn't go together among the events of an item and where it is in the end, or nothing."""
        counts = collections.Counter((letter, item) for letter, item, _, _ in self.outcome.events)
        where = self.outcome.states["end"][1]
        for number, item in enumerate(self.setting.declaration.items):
            of_item = {letter: count for (letter, by), count in counts.items() if by == number}
            why = unbalanced(collections.Counter(of_item), where.get(number, ""))
            if why:
                return f"{item.decode()}: {why}"
        return ""

    def unlike_events(self):
        """What is otherwise about its events than it must be, or nothing."""
        return ""

    def unlike_flags(self):
        """What is otherwise about its workqueues, by the kernel's own list of those that are busy, or nothing."""
        for line in self.outcome.busy:
            head = re.match(r"workqueue q([0-9a-f]+): flags=0x([0-9a-f]+)", line)
            number = int(head[1], 16) - self.first_queue if head else -1
            if 0 <= number < len(self.setting.kinds):
                found = {flag for flag, bit in FLAGS.items() if int(head[2], 16) & bit}
                if found != self.setting.flags(number):
                    flags = ", ".join(sorted(found)) or "no flag"
                    return f"the kernel made {self.setting.workqueue(number)} with {flags}"
        return ""

    def differs(self, word, expected):
        """Whether the state that the module printed at this word isn't this one."""
        done, where = self.outcome.states[word]
        # A wait that is `done` is one as by flush_work in the model.
        found = {number: at.replace(LETTERS[DONE], LETTERS["flush"]) for number, at in where.items()}
        if self.weather == "free":
            # A worker that is free may execute what has no rescuer, or may not.
            found, expected = self.setting.promised(found), self.setting.promised(expected)
        if found == expected and done == (not where):
            return ""
        return f"the model has {self.shown(expected)}; the kernel {self.shown(where)}"

    def shown(self, where):
        return "; ".join(self.lines(where)) or "all items finished"

    def lines(self, where):
        """Where items are, in words."""
        items = self.setting.declaration.items
        for number, item in enumerate(items):
            at = where.get(number, "")
            workqueue = self.setting.workqueue(self.setting.assignment.workqueue_of[item])
            if "p" in at:
                yield f"{item.decode()} is pending on {workqueue}"
            if "r" in at:
                wait = at.partition("r")[2]
                line = f"{item.decode()} runs on {workqueue}"
                if wait:
                    target = items[int(wait[1:].rstrip("~"))].decode()
                    line += f", and waits for {'the workqueue of ' if wait[0] == 'W' else ''}{target}"
                    line += ", but doesn't sleep" if "~" in wait else ""
                yield line

    # What the kernel says of it

    def queue_names(self):
        """By the name of a workqueue in the guest, which one it is. (module/cases.c, make_queue)"""
        numbers = range(len(self.setting.kinds))
        return {f"q{self.first_queue + number:x}": self.setting.workqueue(number) for number in numbers}

    def threads(self):
        """Patterns of the names of its rescuers' threads, of both series, while they execute an item: then the name
        goes on with that of the workqueue.
        """
        return [pattern.format(name) for name in self.queue_names() for pattern in ("{}+*", "kworker/R-{}+*")]

    def stacks(self):
        """The stacks of its rescuers that execute an item, each with its workqueue in words."""
        for thread, stack in self.outcome.stacks.items():
            name = thread.removeprefix("kworker/R-").partition("+")[0]
            yield self.queue_names().get(name, thread), stack

    def in_words(self, text):
        """A line of the kernel, with workqueues as the assignment has them."""
        names = self.queue_names()
        return re.sub(r"\bq[0-9a-f]+\b", lambda match: names.get(match[0], match[0]), text)

    def busy_lines(self):
        """Of the kernel's list of busy workqueues the lines about its own."""
        names, is_own = self.queue_names(), False
        for line in self.outcome.busy:
            head = re.match(r"workqueue (q[0-9a-f]+):", line)
            if head or not line.startswith(" "):
                is_own = bool(head) and head[1] in names
            if is_own:
                yield self.in_words(line).removeprefix("workqueue ") if head else line


def unbalanced(counts, at):
    """What doesn't go together between where an item is in the end and how many of its events there are, by letter. Of
    each queueing that was accepted, and not cancelled, its start and its finish must be there, unless it is pending or
    runs; and of each wait its end, unless it still waits.
    """
    accepted = counts["q"] - counts["c"]
    started = accepted - ("p" in at)
    finished = started - ("r" in at)
    if (counts["s"], counts["f"]) != (started, finished):
        return (
            f"of {accepted} accepted queueings {counts['s']} started and {counts['f']} finished; by where it is in the "
            f"end {started} and {finished} did"
        )
    waits = sum(counts[letter] for letter in WAITING)
    over = waits - bool(set(at) & set(WAITING))
    return f"of {waits} waits {counts['o']} ended; by where it is in the end {over} did" if counts["o"] != over else ""


class NotLawful(Exception):
    """A step isn't lawful by the machine that a case is judged by."""


class FreeCase(Case):
    """All items are queued once, in this order, and each makes its declared waits by itself."""

    def __init__(self, name, setting, order, cpus=None, must=None):
        super().__init__(name, setting, must)
        self.order = order
        self.cpus = cpus or {}  # by item, the CPU on which it is queued, where it isn't any
        self.is_exact = len(set(self.cpus.values())) <= 1

    def setup(self):
        yield "free"
        yield from self.setting.commands()
        for item, waits in self.setting.waits().items():
            for deed, target in waits:
                yield f"does {self.setting.number_of(item)} {deed} {self.setting.number_of(target)}"

    def commands(self):
        words = [
            str(self.setting.number_of(item)) + (f"@{self.cpus[item]}" if item in self.cpus else "")
            for item in self.order
        ]
        yield "queueall " + " ".join(words)
        yield "end"

    def expected(self, machine=model.State):
        """Where the items are in the end."""
        # With enough memory each workqueue has as many helpers as anybody needs.
        state = self.setting.start(machine, len(self.setting.declaration.items) if self.weather == "plenty" else 0)
        for item in self.order:
            state.make((b"queue", None, item))
        able = [at for at in state.workqueues if self.weather == "plenty" or at not in state.bare]
        model.make_as_declared(state, able)
        return model.where_items_are(state)

    def compare(self, machine):
        expected = self.expected(machine)
        # With entries on the lists of several CPUs the order of queueing is one among several, and how many workers
        # are free for whom isn't known: then only `safe` says how it ends.
        if self.setting.promised(expected) and (not self.is_exact or self.weather == "free"):
            return ""
        return self.differs("end", expected)

    def unlike_events(self):
        """Each item is queued in its turn, and makes its declared waits in their order, up to where it is."""
        numbers = [self.setting.number_of(item) for item in self.order]
        queued = [(letter, number) for letter, number, _, _ in self.outcome.events if letter in "qQ"]
        if queued != [("q", number) for number in numbers]:
            return f"it wasn't the items in their order that were queued: {queued}"
        letters = "".join(letter for letter, *_ in self.outcome.events)
        if set(letters.rpartition("q")[0]) - set("qs"):
            return f"an item acted before all were queued: {letters}"
        where = self.outcome.states["end"][1]
        for item, waits in self.setting.waits().items():
            number = self.setting.number_of(item)
            found = [event[::2] for event in self.outcome.events if event[1] == number and event[0] not in "qQ"]
            if not self.may_have_happened(found, waits, where.get(number, "")):
                return f"{item.decode()} doesn't make its declared waits in their order: {found}"
        return ""

    def may_have_happened(self, found, waits, at):
        """Whether these are the events, without `q`, of an item with these waits that is here in the end."""
        if at == "p":
            return not found
        events = [("s", None)]
        for deed, target in waits:
            number = self.setting.number_of(target)
            events += [(LETTERS[deed], number), ("o", number)]
        events.append(("f", None))
        if at:
            events = events[: len(found)]
            wait = at.removeprefix("r").rstrip("~")
            return found == events and (not wait or found[-1:] == [(wait[0], int(wait[1:]))])
        return found == events

    def most_events(self):
        """So many events at most: of each item three, and of each wait two."""
        return 3 * len(self.order) + 2 * len(self.setting.declaration.flushes)


class DrivenCase(Case):
    """The steps of a run are made one by one."""

    def __init__(self, name, setting, steps, must=None):
        super().__init__(name, setting, must)
        self.steps = steps

    def setup(self):
        yield "driven"
        yield from self.setting.commands()

    def doers(self):
        """The steps, each with the item that makes it, or to which it happens."""
        on = {}
        for word, workqueue, name in self.steps:
            if word == b"start":
                on[workqueue] = name
            yield (word, workqueue, name), (name if workqueue is None else on[workqueue])

    def commands(self):
        for (word, _, name), item in self.doers():
            words = ["over" if word == b"overwq" else word.decode(), str(self.setting.number_of(item))]
            if word in (b"wait", b"waitwq"):
                deed = self.setting.deed(word, item, name)
                words = [STEPS[deed], words[1], str(self.setting.number_of(name))]
            yield " ".join(words)
        yield "state run"
        yield "end"

    def most_events(self):
        """So many events at most: each step has its own and a mark."""
        return 2 * len(self.steps) + 3 * len(self.setting.declaration.items)

    def states(self, machine=model.State):
        """The state before the first step, and after each one."""
        state = self.setting.start(machine, 0)
        yield state
        for number, step in enumerate(self.steps, 1):
            if not state.may(step):
                raise NotLawful(number)
            state.make(step)
            yield state

    def compare(self, machine):
        overs = [model.overs_of(state) for state in self.states(machine)]
        why = self.compare_events(overs)
        if why:
            return why
        *_, state = self.states(machine)
        expected = model.where_items_are(state)
        # Where no rescuer can make a step, nothing happens either when each item may start as soon as its rescuer is
        # idle.
        ends_here = next(model.steps_in_a_shortage(state), None) is None
        return self.differs("run", expected) or (self.differs("end", expected) if ends_here else "")

    def compare_events(self, overs):
        """Each step happens; and no wait is over before it may be. `overs` has the waits that may be, before the
        steps and after each.
        """
        made = 0
        items = self.setting.declaration.items
        for letter, number, _, _ in self.outcome.events:
            if letter == "!":
                return f"step {number} ({self.step(number)}) doesn't happen in the kernel{self.nobody_ends(number)}"
            if letter == "|":
                made = number
            # It is noted between the marks of two steps: it belongs to the state that the first left, or the second.
            if letter == "o" and made <= len(self.steps) and items[number] not in set().union(*overs[made : made + 2]):
                name = items[number].decode()
                return f"after step {made} the wait of {name} is over in the kernel, and may not be by the model"
        return ""

    def nobody_ends(self, number):
        """If this step is the end of a wait for what nobody has queued, in words that it isn't over for this reason."""
        (word, _, target), item = list(self.doers())[number - 1]
        queued = any(step[0] == b"queue" and step[2] == target for step in self.steps[:number])
        if word != b"over" or queued or self.setting.deed(b"wait", item, target) != DONE:
            return ""
        name = target.decode()
        return f": nobody has queued {name}, and {item.decode()} waits until it has done its work (docs/WAITS.md)"

    def unlike_events(self):
        """Each step leaves its event in front of its mark, and no other. The end of a wait may have come before."""
        segments = self.segments()
        if len(segments) != len(self.steps) + 1:
            return f"of {len(self.steps)} steps {len(segments) - 1} happened in the kernel"
        over = collections.Counter()
        for number, ((word, _, name), item) in enumerate(self.doers(), 1):
            doer, made = self.setting.number_of(item), []
            for letter, by, target, _ in segments[number - 1]:
                if letter == "o":
                    over[by, target] += 1
                else:
                    made.append((letter, by, target))
            if word in (b"over", b"overwq"):
                ending = doer, self.setting.number_of(name)
                over[ending] -= 1
                is_there = not made and over[ending] >= 0
            else:
                is_there = made == [self.event_of(word, doer, item, name)]
            if not is_there:
                return f"step {number} ({self.step(number)}) left other events than its own: {segments[number - 1]}"
        rest = {letter for letter, *_ in segments[-1]} - {"s", "o"}
        return f"after the last step there are other events: {segments[-1]}" if rest else ""

    def segments(self):
        """The events before the mark of each step, and those after the last one."""
        found = [[]]
        for event in self.outcome.events:
            if event[0] == "|" and event[1] == len(found):
                found.append([])
            else:
                found[-1].append(event)
        return found

    def event_of(self, word, doer, item, name):
        """The event that this step leaves."""
        if word in (b"wait", b"waitwq"):
            return LETTERS[self.setting.deed(word, item, name)], doer, self.setting.number_of(name)
        return {b"queue": "q", b"cancel": "c", b"start": "s", b"finish": "f"}[word], doer, None

    def step(self, number):
        word, workqueue, name = self.steps[number - 1]
        return b" ".join([word, name] if workqueue is None else [word, b"%d" % workqueue, name]).decode()


# Guests -------------------------------------------------------------------------------------------

# So many cases in one guest: each keeps its workqueues, and their rescuers, to its end.
MOST_CASES = 700

WEATHERS = {
    "short": "no worker can be created, and all that exist sleep",
    "free": "no worker can be created, and two of each pool are free",
    "plenty": "workers can be created",
}


# What kernel.threads-max is lifted to again.
MANY_THREADS = 5000


def weather_commands(weather):
    if weather == "plenty":
        return []
    return ["threads-max 1", "short" if weather == "short" else "free 2"]


def commands_of(cases, weather, listed=()):
    """The commands for a guest. If one of those that are to be listed hangs, the kernel is asked for more about it."""
    lines = []
    for number, case in enumerate(cases):
        how, *setup = case.setup()
        lines += [f"case {number} {how}", *setup]
    lines += ["blockers", *weather_commands(weather)]
    for number, case in enumerate(cases):
        lines += [f"at {number}", *case.commands()]
        if case in listed:
            lines.append(" ".join(["listed", *case.threads()]))
    return "".join(line + "\n" for line in lines)


class Watch:
    """Says how far a guest is."""

    def __init__(self, progress, kernel, cases):
        self.progress, self.kernel, self.cases = progress, kernel, cases
        self.what = f"booting Linux {kernel.version}"

    def __call__(self, line):
        ours = guest.OURS.fullmatch(line)
        if ours:
            word, *rest = ours[2].split()
            if word == "ready":
                self.what = "making workqueues"
            elif word == "place":
                self.what = "making the state"
            elif word == "at":
                self.what = f"case {int(rest[0]) + 1} of {len(self.cases)}: {self.cases[int(rest[0])].name}"
        self.progress.say(self.what)


def run(kernel, cases, cpus=1, weather="short", listed=(), progress=None):
    """Has guests run the cases, which keep their outcomes. The consoles are handed back."""
    consoles = []
    for first in range(0, len(cases), MOST_CASES):
        part = cases[first : first + MOST_CASES]
        queues = 0
        for case in part:
            case.first_queue = queues
            queues += len(case.setting.kinds)
        watch = Watch(progress, kernel, part) if progress else lambda line: None
        outcomes, console = guest.run(kernel, commands_of(part, weather, listed), cpus, watch)
        consoles.append(console)
        for number, case in enumerate(part):
            case.weather, case.outcome = weather, outcomes.get(number)
    return consoles
