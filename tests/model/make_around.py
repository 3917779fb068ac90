"""Makes up FIXED, the workqueues around which `plan` plans, and certificates for `check` around them, each with the declaration that they
are for. The same seed makes the same ones. Workqueues are here a list of the names on each, and the set of those without a rescuer.
"""

import itertools
import random

import plan
from declaration import Refused, read_declaration
from make_declarations import join

ITEMS = [b"a", b"b", b"c", b"d", b"e", b"f", b"g", b"h"]


def make_declaration(choose, most_items, most_flushes, unsure=0.0):
    """The bytes of a declaration whose flushes lead downward, mostly."""
    names = ITEMS[:choose.randint(1, most_items)]
    lines = [b"item " + name for name in choose.sample(names, len(names))]
    left = choose.sample(names, choose.choice([0, 0, choose.randint(0, len(names))]))
    while left:
        size = choose.randint(1, min(3, len(left)))
        lines.append(b"ordered " + b" ".join(left[:size]))
        del left[:size]
    downward = choose.random() < 0.85
    whole = choose.choice([0, 0, 0.5, 1])
    for _ in range(choose.randint(0, most_flushes)):
        item, target = choose.choice(names), choose.choice(names)
        if downward and len(names) > 1:
            item, target = sorted(choose.sample(names, 2))
        directive = (b"flushwq" if choose.random() < whole else b"flush") + b"?" * (choose.random() < unsure)
        lines.append(b"%s %s %s" % (directive, item, target))
    return join(*lines)


def make_fixed(choose, declared):
    """The names on each workqueue of FIXED, and those without a rescuer.

    Mostly no two items that wait for one another are on one workqueue, and few without a rescuer are waited for.
    """
    placed = choose.sample(range(len(declared.groups)), choose.randint(0, len(declared.groups)))
    apart = choose.random() < 0.7
    ends = [{declared.group_of[name] for name in flush} for flush in declared.flushes]
    wqs = [set() for _ in range(choose.choice([1, 1, 2, 2, 3, 4]))]
    for group in placed:
        names = choose.choice(wqs)
        if apart and any(group in pair and names & pair for pair in ends):
            continue
        names.add(group)
    chance = choose.choice([0, 0, 0.3, 0.5])
    targets = {declared.group_of[target] for _, target in declared.flushes} if choose.random() < 0.5 else set()
    bare = {number for number, groups in enumerate(wqs) if choose.random() < chance and not groups & targets}
    wqs = [[name for group in groups for name in declared.groups[group]] for groups in wqs]
    for names in wqs:
        choose.shuffle(names)
    return wqs, bare


def fixed_text(wqs, bare):
    """FIXED as a text."""
    return join(*(b" ".join([b"norescuer" if number in bare else b"wq", b"%d" % number, *names]) for number, names in enumerate(wqs)))


def random_around_case(seed, number, most_items=8, most_flushes=12, sure=False):
    """A declaration and a FIXED, neither of which is refused. It has no unsure line if `sure`."""
    choose = random.Random(f"{seed} around {number}")
    while True:
        text = make_declaration(choose, most_items, most_flushes, choose.choice([0, 0, 0.5]) * (not sure))
        try:
            declared = read_declaration(text)
        except Refused:  # an item that is in two groups
            continue
        return [text, fixed_text(*make_fixed(choose, declared))]


def another_form(choose, text, fixed):
    """FIXED as it is, mostly; or one without a workqueue; or the same as a whole plan text, if each of its workqueues has a rescuer."""
    way = choose.random()
    if way < 0.08:
        return choose.choice([b"", b"# none\n", b"plan 0\nchain 0\n"])
    if way > 0.25 or b"norescuer" in fixed:
        return fixed
    names = [line.split()[1] for line in text.splitlines() if line.startswith(b"item ")]
    arcs = [b"arc %s %s" % tuple(choose.choices(names, k=2)) for _ in range(choose.choice([0, 0, 1, 2]))]
    lines = fixed.splitlines()
    return join(b"plan %d" % len(lines), *lines, b"chain %d" % (len(arcs) + 1 if arcs else choose.choice([0, 1])), *arcs)


# Texts with a mistake ----------------------------------------------------------------------------


def without(choose, words):
    """A word less."""
    at = choose.randrange(2 if len(words) > 2 and choose.random() < 0.8 else 0, len(words))
    return words[:at] + words[at + 1:]


def once_more(choose, words):
    return words + [choose.choice(words)]


def another_number(choose, words):
    return [b"%d" % choose.choice([0, 1, 2, 3, 7, 4095, 4096, 4097]) if word.isdigit() and choose.random() < 0.5 else word for word in words]


def another_word(choose, words):
    word = choose.choice([b"plan", b"wq", b"norescuer", b"order", b"chain", b"arc", b"circle", b"run", b"a", b"b", b"zz", b"01", b"#"])
    return [word, *words[1:]] if choose.random() < 0.3 else without(choose, words) + [word]


def shuffled(choose, words):
    return words[:1] + choose.sample(words[1:], len(words) - 1)


def another_name(choose, words):
    return [choose.choice(ITEMS) if word in ITEMS and choose.random() < 0.5 else word for word in words]


def moved_name(choose, lines):
    """A name on another line of a workqueue."""
    at = [number for number, words in enumerate(lines) if words[:1] in ([b"wq"], [b"norescuer"])]
    from_ = [number for number in at if len(lines[number]) > 2]
    if not from_:
        return lines
    name = choose.choice(lines[choose.choice(from_)][2:])
    lines = [[word for word in words if word != name] if number in at else words for number, words in enumerate(lines)]
    lines[choose.choice(at)].append(name)
    return lines


def split_group(choose, text, declaration):
    """The text with an item of a group on another line of a workqueue, or on none; None where no group has several items on a line."""
    declared = read_declaration(declaration)
    lines = [line.split() for line in text.splitlines()]
    at = [number for number, words in enumerate(lines) if words[:1] in ([b"wq"], [b"norescuer"])]
    several = [(number, name) for number in at for name in lines[number][2:] if len(declared.groups[declared.group_of[name]]) > 1]
    if not several:
        return None
    number, name = choose.choice(several)
    lines[number].remove(name)
    if len(at) > 1 and choose.random() < 0.7:
        lines[choose.choice([other for other in at if other != number])].append(name)
    return join(*(b" ".join(words) for words in lines))


def another_arc(choose, text):
    """The text with another name in one of its arcs; None where it has none."""
    lines = [line.split() for line in text.splitlines()]
    arcs = [words for words in lines if words[:1] == [b"arc"]]
    names = [name for words in lines if words[:1] in ([b"wq"], [b"arc"]) for name in words[1 + (words[0] == b"wq"):]]
    if not arcs:
        return None
    choose.choice(arcs)[choose.choice([1, 2])] = choose.choice(names)
    return join(*(b" ".join(words) for words in lines))


def first_with(seed, sure, changed):
    """The first of some random cases of which `changed` makes a text: the declaration, FIXED, and this text."""
    for number in itertools.count():
        text, fixed = random_around_case(seed, number, sure=sure)
        made = changed(text, fixed)
        if made is not None:
            return text, fixed, made


def one_more_arc(choose, lines):
    """Another length of the chain, with as many arcs."""
    for at, words in enumerate(lines):
        if words[:1] == [b"chain"]:
            count = choose.randint(0, 3)
            arcs = [line for line in lines if line[:1] == [b"arc"]] + [[b"arc", choose.choice(ITEMS), choose.choice(ITEMS)] for _ in range(3)]
            return [*lines[:at], [b"chain", b"%d" % count], *arcs[:max(count - 1, 0)]]
    return lines


def with_mistakes(choose, text):
    """The text with some of its lines changed, left out, doubled or moved."""
    lines = [line.split() for line in text.splitlines()]
    way = choose.random()
    if way < 0.3:
        lines = (one_more_arc if way < 0.15 else moved_name)(choose, lines)
    for _ in range(choose.choice([0, 1, 1, 2] if way < 0.3 else [1, 1, 1, 2, 3])):
        if not lines:
            break
        at = choose.randrange(len(lines))
        way = choose.random()
        if way < 0.7:
            lines[at] = choose.choice([
                without, once_more, another_number, another_number, another_word, another_name, another_name, shuffled, shuffled])(choose, lines[at]) or [b"#"]
        elif way < 0.8:
            del lines[at]
        elif way < 0.9:
            lines.insert(at, lines[choose.randrange(len(lines))])
        else:
            lines.insert(choose.randrange(len(lines)), lines.pop(at))
    return join(*(b" ".join(words) for words in lines))


def without_a_name(choose, text):
    """The text without one of the names on its lines. Of the items of a group one is missing then, if there are several."""
    lines = [line.split() for line in text.splitlines()]
    named = [words for words in lines if len(words) > 2]
    if named:
        words = choose.choice(named)
        del words[choose.randrange(2, len(words))]
    return join(*(b" ".join(words) for words in lines))


def random_plan_case(seed, number, sure=False):
    """For `plan`: a declaration and a FIXED, in which there may be a mistake."""
    choose = random.Random(f"{seed} plan around {number}")
    text, fixed = random_around_case(seed, number, sure=sure)
    fixed = another_form(choose, text, fixed)
    if choose.random() < 0.02:
        text, _, made = first_with(f"{seed} split {number}", sure, lambda text, fixed: split_group(choose, fixed, text))
        return [text, made]
    if choose.random() < 0.3:
        fixed = without_a_name(choose, fixed) if choose.random() < 0.25 else with_mistakes(choose, fixed)
    return [text, fixed]


def random_check_case(seed, number, sure=False):
    """For `check`: a declaration, a certificate and a FIXED: what `plan` prints, mostly with a mistake in it, or of another FIXED."""
    choose = random.Random(f"{seed} check around {number}")
    text, fixed = random_around_case(f"{seed} check", number, sure=sure)
    fixed = another_form(choose, text, fixed)
    printed, _ = plan.answer(text, fixed)
    if choose.random() < 0.3:
        other = fixed_text(*make_fixed(choose, read_declaration(text)))
        return [text, printed, another_form(choose, text, other)]
    if choose.random() < 0.04:
        text, fixed, made = first_with(f"{seed} split {number}", sure, lambda text, fixed: split_group(choose, plan.answer(text, fixed)[0], text))
        return [text, made, fixed]
    if choose.random() < 0.04:
        text, fixed, made = first_with(f"{seed} arc {number}", sure, lambda text, fixed: another_arc(choose, plan.answer(text, fixed)[0]))
        return [text, made, fixed]
    return [text, with_mistakes(choose, printed) if choose.random() < 0.85 else printed, fixed]
