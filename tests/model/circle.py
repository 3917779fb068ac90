# Finds a circle among the groups or among the workqueues, for the model in plan.py and deadlock.py:
# docs/FORMAT.md, "Circle texts" and "Deadlocking runs". `where` has here, by the name of an item,
# the number of its group or of its workqueue.


def arcs_of(flushes, where, count):
    """Items and groups: Arcs. For each group or workqueue, its flushes in order of place."""
    arcs = [[] for _ in range(count)]
    for item, target in flushes:
        arcs[where[item]].append((item, target))
    return arcs


def led_to_no_rescuer(declared, assignment):
    """Deadlocking runs: the places of the flushes that lead to no rescuer."""
    has_none = [(assignment.workqueue_of[item] in assignment.bare, assignment.workqueue_of[target] in assignment.bare)
                for item, target in declared.flushes]
    return [place for place, ends in enumerate(has_none) if ends == (False, True)]


def what_remains(waits_for):
    """Circle texts: What remains. The set of the numbers that can't be taken off.

    `waits_for` has, for each group or workqueue, the set of those that it waits for.
    """
    waited_by = [[] for _ in waits_for]
    for number, others in enumerate(waits_for):
        for other in others:
            waited_by[other].append(number)
    # Of each, for how many it waits that aren't taken off. One that waits for itself never is.
    left = [len(others) for others in waits_for]
    taken_off = [number for number, count in enumerate(left) if count == 0]
    for number in taken_off:  # those that are found meanwhile, too
        for other in waited_by[number]:
            left[other] -= 1
            if left[other] == 0:
                taken_off.append(other)
    return set(range(len(waits_for))).difference(taken_off)


def find_circle(arcs, where):
    """Circle texts: The circle. Its arcs in order, or none where nothing remains."""
    remaining = what_remains([{where[target] for _, target in of_one} for of_one in arcs])
    if not remaining:
        return []
    number = min(remaining)
    visited = {}  # how many arcs were followed up to there
    followed = []
    while number not in visited:
        visited[number] = len(followed)
        item, target = next(
            (item, target) for item, target in arcs[number] if where[target] in remaining
        )
        followed.append((item, target))
        number = where[target]
    return followed[visited[number]:]
