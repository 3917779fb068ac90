# The walks by which workqueues hang, and the least of them, for the model in hang.py, deadlock.py, dot.py and reasons.py:
# docs/FORMAT.md, "The command `hang`".

import heapq
import itertools

from circle import led_to_no_rescuer
from declaration import WAIT
from readings import places_by_line

# What an unsure flush costs beside its steps: more than any run of a walk has steps, which is 4 for each of 4,096 items.
UNSURE = 32_768


# The form of the runs ----------------------------------------------------------------------------
# A wait is here the word of its step, its item and its target.


def wait_of(declared, place):
    """The wait that makes the flush of this place."""
    return WAIT[declared.directive_of[place]], *declared.flushes[place]


def with_next(waits):
    """Each wait of a list, with the next item of the list. The first one comes next to the last."""
    return list(zip(waits, [item for _, item, _ in waits[1:] + waits[:1]]))


def run_of(waits, others, assignment):
    """Its form: the items that wait are queued, then these others, and then each wait is made."""
    steps = [(b"queue", None, item) for item in [*(item for _, item, _ in waits), *others]]
    for word, item, target in waits:
        workqueue = assignment.workqueue_of[item]
        steps += [(b"start", workqueue, item), (word, workqueue, target)]
    return steps


def run_of_circle(waits, assignment):
    """The run of a circular wait."""
    beside = [target for (word, _, target), following in with_next(waits) if word == b"wait" and target != following]
    return run_of(waits, beside, assignment)


def run_to_no_rescuer(wait, assignment):
    """The run of a flush that leads to no rescuer."""
    return run_of([wait], [wait[2]], assignment)


def is_circle(waits, assignment):
    """Whether these waits, each of a declared flush, are a circular wait."""
    workqueue_of = assignment.workqueue_of
    return waits != [] and all(
        workqueue_of[item] not in assignment.bare and workqueue_of[target] == workqueue_of[following]
        for (_, item, target), following in with_next(waits)
    )


def leads_to_none(wait, assignment):
    """Whether this wait is of a flush that leads to no rescuer."""
    _, item, target = wait
    return assignment.workqueue_of[item] not in assignment.bare and assignment.workqueue_of[target] in assignment.bare


# The least walk ----------------------------------------------------------------------------------
# A walk is a circular wait, or a flush that leads to no rescuer; here it is the places of its flushes. What counts is first how many of
# them are unsure, and then how many steps its run has. Both are in one number: an unsure flush costs more than the steps of any run.
#
# A circular wait is a way round over items. To make a wait takes 3 steps: its item is queued, starts and waits. From the target the way
# goes on, if the target waits itself. From another item there it goes on too, by way of the workqueue, which is a point as the items
# are; where the wait is for the target alone, this takes one step more, in which the target is queued.


def among_rescuers(declared, assignment):
    """The places of the flushes that lead from a workqueue with a rescuer to such a one."""
    workqueue_of = assignment.workqueue_of
    return [place for place, flush in enumerate(declared.flushes) if not any(workqueue_of[name] in assignment.bare for name in flush)]


def cost_of_unsure(declared, places):
    """What the unsure flushes of these places cost."""
    return UNSURE * sum(map(declared.is_unsure, places))


def ways(declared, assignment, places):
    """The ways by the flushes of these places: for each item and workqueue the points to which the way goes on, of each its cost, the
    point, and the place of the flush, if a wait is made. Left out are items that don't wait.
    """
    found = {}
    for place in places:
        item, target = declared.flushes[place]
        there = assignment.workqueue_of[target]
        beside = 4 if wait_of(declared, place)[0] == b"wait" else 3
        unsure = cost_of_unsure(declared, [place])
        found.setdefault(item, []).extend([(unsure + 3, target, place), (unsure + beside, there, place)])
    for item in list(found):
        found.setdefault(assignment.workqueue_of[item], []).append((0, item, None))
    return {point: [way for way in further if way[1] in found] for point, further in found.items()}


def backward_ends(graph):
    """The points to which some way leads back, in an order of all points. So each way round goes through one of them.

    That is so of any order. In this one, which a walk makes that goes on as far as it can before it turns back, they are few.
    """
    order = {}
    for first in graph:
        path = [] if first in order else [(first, iter(graph[first]))]
        entered = {first}
        while path:
            point, further = path[-1]
            following = next((other for _, other, _ in further if other not in order and other not in entered), None)
            if following is None:
                order[point] = -len(order)  # before all that were left earlier
                path.pop()
            else:
                entered.add(following)
                path.append((following, iter(graph[following])))
    return list(dict.fromkeys(other for point in graph for _, other, _ in graph[point] if order[other] <= order[point]))


def shortest_way_round(graph, first, bound):
    """The places of the waits of the way from this point back to it that costs the least, or None if that isn't below the bound."""
    reached = {}  # by point, from which one it is reached first, and by which wait
    count = itertools.count()  # of two that are as near the one that was found first
    left = [(cost, next(count), other, first, place) for cost, other, place in graph[first]]
    heapq.heapify(left)
    while left:
        cost, _, point, before, place = heapq.heappop(left)
        if cost >= bound:
            return None
        if point in reached:
            continue
        reached[point] = before, place
        if point == first:
            break
        for more, other, by in graph[point]:
            if other not in reached:
                heapq.heappush(left, (cost + more, next(count), other, point, by))
    if first not in reached:
        return None
    places = []
    point, place = reached[first]
    while True:
        if place is not None:
            places.append(place)
        if point == first:
            return places[::-1]
        point, place = reached[point]


def run_of_walk(declared, assignment, places):
    """The run of this walk."""
    waits = [wait_of(declared, place) for place in places]
    if len(waits) == 1 and leads_to_none(waits[0], assignment):
        return run_to_no_rescuer(waits[0], assignment)
    return run_of_circle(waits, assignment)


def cost_of_walk(declared, assignment, places):
    """How many unsure flushes it has, and how many steps its run."""
    return cost_of_unsure(declared, places) + len(run_of_walk(declared, assignment, places))


def least_circle(declared, assignment, places, bound=None):
    """A circular wait, all of whose places are among these, than which none costs less; None where there is none, or none that costs less
    than the bound.
    """
    graph = ways(declared, assignment, places)
    found = None
    if bound is None:
        bound = (UNSURE + 4) * len(declared.items) + 1  # more than any costs in which no item is queued twice
    for first in backward_ends(graph):
        cheaper = shortest_way_round(graph, first, bound)
        if cheaper is not None:
            found = cheaper
            bound = cost_of_walk(declared, assignment, found)
    return found and unsure_first(declared, found)


def unsure_first(declared, places):
    """Its form: where a flush of this circular wait is unsure, the one of its first item is."""
    at = next((at for at, place in enumerate(places) if declared.is_unsure(place)), 0)
    return places[at:] + places[:at]


def least_to_no_rescuer(declared, assignment):
    """The place of the flush that leads to no rescuer, a sure one before all unsure ones, and of these the one of least place; or None."""
    return min(led_to_no_rescuer(declared, assignment), key=lambda place: (declared.is_unsure(place), place), default=None)


def least_walk(declared, assignment):
    """A walk than which none costs less, or None where there is none: the assignment is safe. Of several it is that of a flush that
    leads to no rescuer.
    """
    to_none = least_to_no_rescuer(declared, assignment)
    circle = least_circle(declared, assignment, among_rescuers(declared, assignment))
    found = ([[to_none]] if to_none is not None else []) + ([circle] if circle else [])
    return min(found, key=lambda places: cost_of_walk(declared, assignment, places), default=None)


def unsure_of(declared, places):
    """The places of the unsure flushes of a walk. Of several with the same words the one of the highest line is kept in its place, since
    that is the one for which a line of an unsure part stands.
    """
    lines = places_by_line(declared)
    return frozenset(lines[declared.flush_line(place)][-1] for place in places if declared.is_unsure(place))
