"""Random declarations, assignments and runs."""

import model


# So likely a workqueue has no rescuer, in those assignments in which some haven't.
WITHOUT_RESCUER = 0.35


def declaration_text(choose, most_items=7, most_flushes=9):
    """A declaration. In most of them all waits lead one way, so that it has a plan."""
    names = [bytes([97 + number]) for number in range(choose.randint(2, most_items))]
    lines = [b"item " + name for name in names]
    one_way = choose.random() < 0.6
    rank = {name: number for number, name in enumerate(choose.sample(names, len(names)))}
    for _ in range(choose.randint(1, most_flushes)):
        item, target = choose.choice(names), choose.choice(names)
        if one_way:
            if item == target:
                continue
            item, target = sorted((item, target), key=rank.get, reverse=True)
        lines.append(b"%s %s %s" % (choose.choice([b"flush", b"flush", b"flushwq"]), item, target))
    if len(names) >= 3 and choose.random() < 0.35:
        group = choose.sample(names, choose.randint(2, 3))
        lines.append(b"ordered " + b" ".join(group))
        rest = [name for name in names if name not in group]
        if len(rest) >= 2 and choose.random() < 0.3:
            lines.append(b"ordered " + b" ".join(choose.sample(rest, 2)))
    return b"".join(line + b"\n" for line in lines)


def assignment_text(choose, declared, without_rescuer=0):
    """An assignment: each group is on any of some workqueues, none of which is empty. So likely each has no rescuer."""
    count = choose.randint(1, len(declared.groups))
    on = {}
    for group in declared.groups:
        on.setdefault(choose.randrange(count), []).extend(group)
    lines = []
    for number, workqueue in enumerate(sorted(on)):
        word = b"norescuer" if without_rescuer and choose.random() < without_rescuer else b"wq"
        lines.append(b"%s %d %s\n" % (word, number, b" ".join(on[workqueue])))
    return b"".join(lines)


def possible_steps(state):
    """All steps that may be made in a shortage, but for those by which kernels are known to differ, each with how likely
    it is.
    """
    for item in state.targets:
        if item not in state.pending_of:
            yield (b"queue", None, item), 3
        elif model.may_be_cancelled(state, item):
            yield (b"cancel", None, item), 1
    for step in model.steps_in_a_shortage(state):
        yield step, {b"start": 6, b"wait": 5, b"waitwq": 5, b"over": 6, b"overwq": 6, b"finish": 2}[step[0]]


def run_steps(choose, declared, assignment, length):
    """A run: items are queued again while they run, wait in any order, for less than is declared, and are cancelled."""
    state = model.State(declared, assignment)
    steps = []
    for _ in range(length):
        possible = list(possible_steps(state))
        if not possible:
            break
        step = choose.choices([step for step, _ in possible], [weight for _, weight in possible])[0]
        state.make(step)
        steps.append(step)
    # Half of them go on until nobody can.
    if choose.random() < 0.5:
        while step := next(model.steps_in_a_shortage(state), None):
            state.make(step)
            steps.append(step)
    return steps
