# The walks by which NAMEd items are held up, and the least of them, for the model in hang.py and reasons.py: docs/FORMAT.md, "The command
# `hang`", What must go on.

import dataclasses
import heapq
import itertools

from circle import what_remains
from walks import cost_of_unsure, run_of, wait_of

# Points ------------------------------------------------------------------------------------------
# Who is held up, and why, is a way over points. A point is an item that waits; or that somebody waits for one item alone; or that
# somebody waits for all that is on a workqueue. What isn't the same is never met twice at one cost: where the way comes to a point at
# which it was before, it has gone round, and whatever was to be paid for that point was paid the first time.
WAITS, ALONE, ALL = "waits", "alone", "all"


def points_after(declared, assignment):
    """For each point the points after it, of each its cost, the point, and the place of the flush, if a wait is made."""
    workqueue_of = assignment.workqueue_of
    on = {}
    for name in declared.items:
        on.setdefault(workqueue_of[name], []).append(name)
    after = {}
    for name in declared.items:
        if workqueue_of[name] in assignment.bare:
            continue
        behind = [(1, (WAITS, other), None) for other in on[workqueue_of[name]] if other != name]
        after[ALONE, name] = [(0, (WAITS, name), None), *behind]
        after[WAITS, name] = []
    for workqueue in on.keys() - assignment.bare:
        names = on[workqueue]
        after[ALL, workqueue] = [(0, (WAITS, name), None) for name in names]
    for place, (item, target) in enumerate(declared.flushes):
        if workqueue_of[item] in assignment.bare or workqueue_of[target] in assignment.bare:
            continue
        word, _, _ = wait_of(declared, place)
        point = (ALONE, target) if word == b"wait" else (ALL, workqueue_of[target])
        after[WAITS, item].append((3 + cost_of_unsure(declared, [place]), point, place))
    return after


def ways_from(after, starts, goal=None, bound=None, gone=frozenset()):
    """What it costs to come to each point from these, which cost nothing, in ascending order; of each also the point before it and the
    place of the wait. If there is a goal, only until it is met again.
    """
    found = {}
    count = itertools.count()
    left = []
    for start in starts:
        if goal is None:
            left.append((0, next(count), start, None, None))
        else:
            left += [(cost, next(count), point, start, place) for cost, point, place in after[start] if point not in gone]
    heapq.heapify(left)
    while left:
        cost, _, point, before, place = heapq.heappop(left)
        if point in found:
            continue
        if bound is not None and cost >= bound:
            break
        found[point] = cost, before, place
        if point == goal:
            break
        for more, other, by in after[point]:
            if other not in found and other not in gone:
                heapq.heappush(left, (cost + more, next(count), other, point, by))
    return found


def on_circles(after):
    """Some of the points, all those that are on circles among them: there may be thousands that aren't."""
    points = list(after)
    number = {point: at for at, point in enumerate(points)}
    to = [{number[other] for _, other, _ in after[point]} for point in points]
    back = [set() for _ in points]
    for at, others in enumerate(to):
        for other in others:
            back[other].add(at)
    return {points[at] for at in what_remains(to) & what_remains(back)}


def way_to(found, point, start=None):
    """The points of the way to this one, and the places of the waits between them; None for where nothing waits."""
    points, places = [point], []
    while True:
        _, before, place = found[point]
        if before is None:
            return points[::-1], places[::-1]
        points.append(before)
        places.append(place)
        if before == start:
            return points[::-1], places[::-1]
        point = before


# Walks -------------------------------------------------------------------------------------------


@dataclasses.dataclass
class Walk:
    """A walk for NAMEs: the NAMEd item, the places of the flushes by which its items wait, and with which of these, counted from 0, the
    circle begins; None if there is none.
    """

    named: bytes
    places: list
    meets: int = None


def only_pending(declared, assignment, walk):
    """Its form: who is queued beside those that wait, each once."""
    waits = [wait_of(declared, place) for place in walk.places]
    items = [item for _, item, _ in waits]
    found = [walk.named] if items[:1] != [walk.named] else []
    following = items[1:] + ([items[walk.meets]] if walk.meets is not None else [None])
    for (word, _, target), after in zip(waits, following):
        if assignment.workqueue_of[target] in assignment.bare or (word == b"wait" and target != after):
            found.append(target)
    return list(dict.fromkeys(found))


def run_of_held(declared, assignment, walk):
    """Its form: the run of this walk."""
    waits = [wait_of(declared, place) for place in walk.places]
    return run_of(waits, only_pending(declared, assignment, walk), assignment)


def cost_of_held(declared, assignment, walk):
    """How many unsure flushes it has, and how many steps its run."""
    return cost_of_unsure(declared, walk.places) + len(run_of_held(declared, assignment, walk))


def to_no_rescuer(declared, assignment, found):
    """The places of the flushes that lead to no rescuer, of items to which there is a way."""
    for place, (item, target) in enumerate(declared.flushes):
        if (WAITS, item) in found and assignment.workqueue_of[target] in assignment.bare:
            yield place


def least_held(declared, assignment, names):
    """A walk for these NAMEs than which none costs less, or None where none of them can be held up."""
    for name in sorted(names, key=declared.items.index):
        if assignment.workqueue_of[name] in assignment.bare:
            return Walk(name, [])
    after = points_after(declared, assignment)
    found = ways_from(after, [(ALONE, name) for name in sorted(names, key=declared.items.index)])
    best, bound = None, None
    for place in to_no_rescuer(declared, assignment, found):
        item, _ = declared.flushes[place]
        cost = found[WAITS, item][0] + 4 + cost_of_unsure(declared, [place])
        if bound is None or cost < bound:
            points, places = way_to(found, (WAITS, item))
            best, bound = Walk(points[0][1], [at for at in [*places, place] if at is not None]), cost
    gone = found.keys() - on_circles(after)
    for point, (cost, _, _) in found.items():
        if bound is not None and cost + 3 >= bound:
            break
        if point in gone:
            continue
        round_ = ways_from(after, [point], point, None if bound is None else bound - cost, gone)
        if point in round_:
            points, places = way_to(found, point)
            _, more = way_to(round_, point, point)
            before = [at for at in places if at is not None]
            best = Walk(points[0][1], before + [at for at in more if at is not None], len(before))
            bound = cost + round_[point][0]
        gone.add(point)
    return best
