# Waiting chains, for the model in plan.py, around.py and repair.py: docs/FORMAT.md, "Items and groups" and "Planning around workqueues".


def chain_lengths(waits_for, counts=lambda number: True):
    """For each number, how many of those that count are at most on a chain that begins there: all, if `counts` isn't given.

    `waits_for` has, for each number from 0 on, the set of those that it waits for. There is no circle.
    """
    lengths = {}
    for beginning in range(len(waits_for)):
        wanted = [beginning]
        while wanted:
            number = wanted[-1]
            unknown = [target for target in waits_for[number] if target not in lengths]
            if unknown:
                wanted += unknown
            else:
                lengths[wanted.pop()] = counts(number) + max((lengths[target] for target in waits_for[number]), default=0)
    return lengths
