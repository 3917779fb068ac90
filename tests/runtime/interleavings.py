# Looks at all interleavings of small runtimes: is anybody ever left asleep who could go on?
#
#     interleavings.py [WITHOUT]
#
# A model, written from docs/RUNTIME.md ("Runtimes") and from the definitions in crates/wq_history/specs/Waits.antt, of callers, bodies and
# contexts that make calls under one lock, and sleep on the condition variables of docs/DECISIONS.md ("Runtimes"). Notifications are made
# one by one after the lock is released, and one that wakes one of a group may wake any of it. In each state that can come, whoever could go
# on is awake or will be woken; and each run ends. With WITHOUT, one of those below is left out, and it is shown that this is found out.
# It knows nothing of the code. It takes some seconds, and with `each`, which leaves out each in turn, a minute.

import sys

# What may be left out: who isn't woken, by what.
WAKES = {
    "queue": "a context by a queueing",
    "start": "the other contexts by the start of the last entry in a closed runtime",
    "finish": "a context by a finish, where the item's next entry is pending",
    "finish item": "those who wait for an item, by a finish",
    "finish lane": "those who wait for a workqueue, by a finish",
    "finish destroy": "those in destroy, by a finish",
    "cancel": "the contexts by a cancellation of the last entry in a closed runtime",
    "cancel item": "those who wait for an item, by a cancellation",
    "cancel lane": "those who wait for a workqueue, by a cancellation",
    "cancel destroy": "those in destroy, by a cancellation",
    "close": "the contexts by destroy",
    "all item": "all but one of those who wait for an item",
    "all lane": "all but one of those who wait for a workqueue",
}
# More states than any of these has.
MOST = 200_000
ASLEEP = {"sleep": "look", "wait sleep": "wait", "told sleep": "told", "told wq sleep": "told wq", "idle sleep": "idle"}


def put(row, place, value):
    return row[:place] + (value,) + row[place + 1:]


class World:
    """Items on workqueues, what their bodies do, how many helpers each workqueue has, what callers do, and how many condition variables
    there are for those who wait for items: as many as items, unless fewer are given, and then items share them in turn.

    A state is (the number of the next entry, whether it is closed, the entries that are pending on each workqueue, what each context runs,
    the threads), where an entry is (number, item). A thread is (where it is, the notifications that it is to make first, whether it was woken
    and hasn't looked yet). The contexts come first."""

    def __init__(self, name, items, bodies, helpers, callers, variables=None):
        self.name, self.items, self.bodies, self.callers = name, items, bodies, callers
        self.variable = {item: place % (variables or len(items)) for place, item in enumerate(items)}
        self.lanes = max(items.values()) + 1
        self.contexts = [q for q in range(self.lanes) for _ in range(helpers + 1)]
        self.without = ""

    def first(self):
        threads = [(("look",), (), False)] * len(self.contexts) + [(("at", 0), (), False)] * len(self.callers)
        return 0, False, ((),) * self.lanes, (None,) * len(self.contexts), tuple(threads)

    # ---- what is asked of a state

    def running(self, state, q):
        return [entry for at, entry in zip(self.contexts, state[3]) if at == q and entry]

    def startable(self, state, q):
        runs = {item for _, item in self.running(state, q)}
        return [entry for entry in state[2][q] if entry[1] not in runs]

    def has_ended(self, state, q):
        return state[1] and not state[2][q]

    def unfinished(self, state, q):
        return [*state[2][q], *self.running(state, q)]

    def item_done(self, state, item, mark):
        return not any(entry[1] == item and entry[0] < mark for entry in self.unfinished(state, self.items[item]))

    def lane_done(self, state, q, mark):
        return not any(entry[0] < mark for entry in self.unfinished(state, q))

    def all_done(self, state):
        return state[1] and not any(self.unfinished(state, q) for q in range(self.lanes))

    def is_pending(self, state, item):
        return any(entry[1] == item for entry in state[2][self.items[item]])

    # ---- events: what becomes of the book, and the notifications

    def wakes(self, *wanted):
        """Of notifications, each with its name and whether it is due, those that are made."""
        return tuple((how, group) for name, is_due, how, group in wanted if is_due and name != self.without)

    def of_waiters(self, name, item):
        """Those of who waits for an item of which an entry has ended, or for its workqueue."""
        groups = {"item": self.variable[item], "lane": self.items[item]}
        return [(f"{name} {kind}", True, "one" if self.without == f"all {kind}" else "all", (kind, which)) for kind, which in groups.items()]

    def queue(self, state, item):
        q = self.items[item]
        if state[1] or self.is_pending(state, item):
            return state[:4], ()
        new = state[0] + 1, state[1], put(state[2], q, (*state[2][q], (state[0], item))), state[3]
        return new, self.wakes(("queue", True, "one", ("contexts", q)))

    def cancel(self, state, item):
        q = self.items[item]
        if not self.is_pending(state, item):
            return state[:4], ()
        new = state[0], state[1], put(state[2], q, tuple(entry for entry in state[2][q] if entry[1] != item)), state[3]
        return new, self.wakes(("cancel", self.has_ended(new, q), "all", ("contexts", q)), *self.of_waiters("cancel", item),
                               ("cancel destroy", self.all_done(new), "all", ("destroy",)))

    def start(self, state, context, entry):
        q = self.contexts[context]
        new = state[0], state[1], put(state[2], q, tuple(e for e in state[2][q] if e != entry)), put(state[3], context, entry)
        return new, self.wakes(("start", self.has_ended(new, q), "all", ("contexts", q)))

    def finish(self, state, context):
        q = self.contexts[context]
        item = state[3][context][1]
        new = state[0], state[1], state[2], put(state[3], context, None)
        return new, self.wakes(("finish", self.is_pending(new, item), "one", ("contexts", q)), *self.of_waiters("finish", item),
                               ("finish destroy", self.all_done(new), "all", ("destroy",)))

    def close(self, state):
        return (state[0], True, state[2], state[3]), self.wakes(*(("close", True, "all", ("contexts", q)) for q in range(self.lanes)))

    # ---- sleepers

    def is_over(self, state, place):
        """Whether the wait of a thread that is, or sleeps, at this place is over."""
        kind, _, what, mark = place
        if kind.startswith("wait"):
            target, whole = what
            return self.lane_done(state, self.items[target], mark) if whole else self.item_done(state, target, mark)
        if kind.startswith("told wq"):
            return self.lane_done(state, what, mark)
        return self.item_done(state, what, mark)

    def group(self, state, thread):
        """On which variable a thread sleeps."""
        place = state[4][thread][0]
        if place[0] == "sleep":
            return "contexts", self.contexts[thread]
        if place[0] == "wait sleep":
            target, whole = place[2]
            return ("lane", self.items[target]) if whole else ("item", self.variable[target])
        if place[0] == "told sleep":
            return "item", self.variable[place[2]]
        if place[0] == "told wq sleep":
            return "lane", place[2]
        return ("destroy",) if place[0] == "idle sleep" else None

    def woken(self, threads, thread):
        place, notes, _ = threads[thread]
        return put(threads, thread, ((ASLEEP[place[0]], *place[1:]), notes, True))

    def notified(self, state, thread):
        """The states after a thread's next notification."""
        place, ((how, group), *rest), woken = state[4][thread]
        threads = put(state[4], thread, (place, tuple(rest), woken))
        sleepers = [other for other in range(len(threads)) if self.group(state, other) == group]
        if how == "one" and sleepers:
            return [(*state[:4], self.woken(threads, sleeper)) for sleeper in sleepers]
        for sleeper in sleepers:
            threads = self.woken(threads, sleeper)
        return [(*state[:4], threads)]

    # ---- threads

    def next_call(self, state, context):
        """What a context does that runs nothing: the book, the notifications, and where it is then."""
        entries = self.startable(state, self.contexts[context])
        if entries:
            return *self.start(state, context, entries[0]), ("body", 0)
        return state[:4], (), ("end",) if self.has_ended(state, self.contexts[context]) else ("sleep",)

    def deed(self, state, deed, item, at, after):
        """A queueing or a cancellation, by a body or a caller."""
        return *(self.queue(state, item) if deed == "queue" else self.cancel(state, item)), (at, after)

    def body(self, state, context, done):
        deeds = self.bodies.get(state[3][context][1], [])
        if done == len(deeds):
            return *self.finish(state, context), ("look",)
        deed, item = deeds[done]
        if deed.startswith("flush"):
            return state[:4], (), ("wait", done, (item, deed == "flush_wq"), state[0])
        return self.deed(state, deed, item, "body", done + 1)

    def caller(self, state, thread, done):
        script = self.callers[thread - len(self.contexts)]
        if done == len(script):
            return state[:4], (), ("end",)
        deed, item = script[done]
        if deed == "destroy":
            return *self.close(state), ("idle", done)
        if deed in ("flush", "flushwq"):
            is_done = self.lane_done(state, item, state[0]) if deed == "flushwq" else self.item_done(state, item, state[0])
            return state[:4], (), ("at", done + 1) if is_done else ("told wq" if deed == "flushwq" else "told", done, item, state[0])
        new, notes, after = self.deed(state, deed, item, "at", done + 1)
        if deed == "sync" and not self.item_done(state, item, state[0]):
            after = ("told", done, item, state[0])
        return new, notes, after

    def step(self, state, thread):
        """What a thread does next; nothing where it has ended, sleeps, or waits for the other callers."""
        place = state[4][thread][0]
        kind = place[0]
        if kind == "look":
            return self.next_call(state, thread)
        if kind == "body":
            return self.body(state, thread, place[1])
        if kind == "at":
            return None if self.waits_for_callers(state, thread) else self.caller(state, thread, place[1])
        if kind == "idle":
            return state[:4], (), ("at", place[1] + 1) if self.all_done(state) else ("idle sleep", place[1])
        if kind in ("wait", "told", "told wq"):
            after = ("body" if kind == "wait" else "at", place[1] + 1)
            return state[:4], (), after if self.is_over(state, place) else (f"{kind} sleep", *place[1:])
        return None

    def waits_for_callers(self, state, thread):
        """`destroy last` comes once all other callers have ended."""
        script, done = self.callers[thread - len(self.contexts)], state[4][thread][0][1]
        others = [place for place, _, _ in state[4][len(self.contexts):] if place != ("end",)]
        return done < len(script) and script[done] == ("destroy", "last") and len(others) > 1

    def after(self, state):
        """All states that may follow."""
        for thread, (_, notes, _) in enumerate(state[4]):
            if notes:
                yield from self.notified(state, thread)
            elif (step := self.step(state, thread)) is not None:
                book, notes, place = step
                yield *book, put(state[4], thread, (place, notes, False))

    # ---- who is forgotten

    def forgotten(self, state):
        """Who sleeps although it could go on, and nobody will wake it."""
        owed = [note for _, notes, _ in state[4] for note in notes]
        for thread in range(len(state[4])):
            group = self.group(state, thread)
            if group is None or ("all", group) in owed:
                continue
            place = state[4][thread][0]
            if group == ("destroy",) and self.all_done(state):
                return "destroy, although all is done"
            if group[0] in ("item", "lane") and self.is_over(state, place):
                return "a wait that is over"
            if group[0] == "contexts":
                q = group[1]
                looking = sum(woken for at, (_, _, woken) in zip(self.contexts, state[4]) if at == q)
                if self.has_ended(state, q):
                    return "a context of a workqueue that has ended"
                if len(self.startable(state, q)) > looking + owed.count(("one", group)):
                    return "a context beside an entry that it may start"
        return None

    def look_at_all(self):
        """How many states there are, and what is wrong in some of them."""
        todo, seen, wrong = [self.first()], {self.first()}, set()
        while todo:
            state = todo.pop()
            wrong.add(self.forgotten(state))
            following = list(self.after(state))
            if not following and any(place != ("end",) for place, _, _ in state[4]):
                wrong.add("a run that doesn't end")
            todo += {new for new in following if new not in seen}
            seen.update(following)
            if len(seen) > MOST:
                sys.exit(f"{self.name}: more than {MOST} states")
        return len(seen), sorted(wrong - {None})


A, B = ("queue", "a"), ("queue", "b")
LAST, NOW = ("destroy", "last"), ("destroy", "now")
TOGETHER, APART = {"a": 0, "b": 0}, {"a": 0, "b": 1}
WORLDS = [
    World("a rescuer", TOGETHER, {}, 0, [[A, ("flush", "a")], [B, ("flushwq", 0), LAST]]),
    World("a rescuer, two flushes", TOGETHER, {}, 0, [[A, ("flush", "a")], [B, ("flush", "b"), LAST]]),
    World("two items that share a variable", TOGETHER, {}, 0, [[A, ("flush", "a")], [B, ("flush", "b"), LAST]], variables=1),
    World("two flushes of a workqueue", TOGETHER, {}, 0, [[A, ("flushwq", 0)], [B, ("flushwq", 0), LAST]]),
    World("a helper", TOGETHER, {}, 1, [[A, B, LAST], [A, ("flush", "a")]]),
    World("two helpers, one item", {"a": 0}, {}, 2, [[A, A, LAST], [A]]),
    World("an item that queues itself, a helper", {"a": 0}, {"a": [A, ("cancel", "a")]}, 1, [[A, ("flush", "a"), LAST]]),
    World("an item that queues itself, two helpers", {"a": 0}, {"a": [("cancel", "a"), A, ("cancel", "a")]}, 2, [[A, LAST]]),
    World("two workqueues", APART, {"b": [("flush", "a"), A]}, 0, [[A, B, LAST], [("sync", "a"), ("flush", "b")]]),
    World("two workqueues, helpers", APART, {"b": [("flush_wq", "a")]}, 1, [[A, B, LAST], [("cancel", "a")]]),
    World("cancellations", TOGETHER, {}, 1, [[A, B, ("flush", "b")], [("cancel", "b"), ("sync", "a"), LAST]]),
    World("cancellations and two in destroy", {"a": 0}, {}, 2, [[A, A, NOW], [("cancel", "a")], [NOW]]),
]


def missed(without):
    """Of each world what is wrong where these aren't woken."""
    found = []
    for world in WORLDS:
        world.without = without
        states, wrong = world.look_at_all()
        found += [f"{world.name}: {why}" for why in wrong]
        if not without:
            print(f"{'FAILED ' if wrong else 'ok     '} {world.name}: {states} states{''.join(f', {why}' for why in wrong)}", flush=True)
    return found


def main(arguments):
    if not arguments:
        return 1 if missed("") else 0
    failed = 0
    for name in WAKES if arguments == ["each"] else arguments:
        found = missed(name)
        failed += not found
        print(f"{'ok     ' if found else 'FAILED '} without {WAKES[name]}: {len(found)} faults, as {found[0] if found else 'none'}", flush=True)
    return 1 if failed else 0


if __name__ == "__main__":
    sys.exit(main(sys.argv[1:]))
