# Makes up declarations: those at the limits of docs/FORMAT.md, and random ones. The same seed makes
# the same ones.

import collections
import dataclasses
import functools
import random
import string

import declaration
from declaration import FLUSH_LIMIT, ITEM_LIMIT, LINE_LIMIT, NAME_LIMIT, SURE, TEXT_LIMIT

# Of directives those that aren't of unsure lines: make_unsure.py puts those into texts that are made here, which stay the same so.
DIRECTIVES = {word: row for word, row in declaration.DIRECTIVES.items() if word not in SURE}
FEWEST_WORDS = {word: least for word, least in declaration.FEWEST_WORDS.items() if word in DIRECTIVES}
MOST_WORDS = {word: most for word, most in declaration.MOST_WORDS.items() if word in DIRECTIVES}
USERS = [word for word in declaration.USERS if word in DIRECTIVES]

NAME_LETTERS = (string.ascii_letters + string.digits + "_-.").encode()
OTHER_LETTERS = bytes(byte for byte in range(0x21, 0x7F) if byte not in NAME_LETTERS + b"#")
BAD_BYTES = bytes(byte for byte in range(256) if byte not in b"\t\n" + bytes(range(0x20, 0x7F)))
FORM = ["declares", "step", "least", "most"]
COMMENT_BYTES = bytes(byte for byte in range(256) if byte != 0x0A)
TAKEN_WORDS = [*FEWEST_WORDS, b"7", b"-", b".", b"_", b"0", b"plan", b"Item"]
WRONG_FIRST_WORDS = [
    b"Item", b"ITEM", b"items", b"ite", b"item:", b".item", b"flus", b"Flush", b"flushed",
    b"flush,", b"flushw", b"flushwqs", b"flush_wq", b"Flushwq", b"flushWQ", b"flushqw", b"order", b"Ordered", b"ordereds", b"orderec", b"a", b"7", b"-", b"itemflush", b"!",
    b"x" * 64,
]


@dataclasses.dataclass
class Line:
    """One line of a declaration before it is spelled."""

    words: list
    bad_byte: bytes = b""
    length: int = 0  # where it isn't 0, the line is filled up to this many bytes
    comment: bytes = b""  # where it isn't empty, this comment is behind the words


# Items and groups --------------------------------------------------------------------------------


def make_names(choose, count):
    """So many names, all different, of many lengths."""
    names = set()
    few_letters = bytes(choose.choices(NAME_LETTERS, k=4))
    long_front = bytes(choose.choices(NAME_LETTERS, k=61))
    while len(names) < count:
        kind = choose.random()
        if kind < 0.5:
            name = bytes(choose.choices(few_letters, k=choose.randint(1, 3)))
        elif kind < 0.8:
            name = bytes(choose.choices(NAME_LETTERS, k=choose.randint(1, 4)))
        elif kind < 0.9:
            name = choose.choice(TAKEN_WORDS)
        elif kind < 0.95:
            name = bytes(choose.choices(NAME_LETTERS, k=choose.randint(5, 63)))
        else:
            name = long_front + bytes(choose.choices(few_letters, k=choose.randint(1, 2)))
        names.add(name)
    names = sorted(names)
    choose.shuffle(names)
    return names


def make_groups(choose, item_count):
    """The items of each `ordered` line, and then each other item alone; items are numbers here."""
    share = choose.choice([0, 0.3, 0.6, 0.9, 1])
    items = list(range(item_count))
    choose.shuffle(items)
    ordered_count = sum(choose.random() < share for _ in items)
    left, alone = items[:ordered_count], items[ordered_count:]
    ordered = []
    while left:
        size = choose.choice([1, 1, 2, 2, 2, 3, 3, 4, 6, len(left)])
        ordered.append(left[:size])
        left = left[size:]
    return ordered, [[item] for item in alone]


# Arcs between groups, by the shape of the declaration. Each gets the number of groups, and returns
# pairs of positions among groups that stand in random order.


def downward(choose, count, wanted):
    """Pairs that lead from a position to a later one: no circle."""
    pairs = []
    for _ in range(wanted if count >= 2 else 0):
        first, second = sorted(choose.sample(range(count), 2))
        pairs.append((first, second))
    return pairs


def path(positions):
    return list(zip(positions, positions[1:]))


def shape_none(choose, count):
    return []


def shape_any(choose, count):
    wanted = choose.randint(0, 2 * count) if count else 0
    pairs = [(choose.randrange(count), choose.randrange(count)) for _ in range(wanted)]
    if choose.random() < 0.7:
        pairs = [(group, target) for group, target in pairs if group != target]
    return pairs


def shape_downward(choose, count):
    return downward(choose, count, choose.randint(0, 3 * count))


def shape_deep(choose, count):
    return path(range(count)) + downward(choose, count, choose.randint(0, count))


def shape_layers(choose, count):
    """Layers of groups, where each group waits for some of the next layer: many ties."""
    layers = []
    left = list(range(count))
    while left:
        size = choose.randint(1, max(1, count // 2))
        layers.append(left[:size])
        left = left[size:]
    pairs = []
    for layer, below in path(layers):
        for group in layer:
            pairs += [(group, choose.choice(below)) for _ in range(choose.randint(1, 3))]
    return pairs + downward(choose, count, choose.randint(0, count // 2))


def shape_wide(choose, count):
    """One group waits for all others, or all others for one."""
    if choose.random() < 0.5:
        pairs = [(0, target) for target in range(1, count)]
    else:
        pairs = [(group, count - 1) for group in range(count - 1)]
    return pairs + downward(choose, count, choose.randint(0, 3))


def shape_circle(choose, count):
    """One circle, with groups that lead to it and groups that it leads to."""
    if count == 0:
        return []
    length = min(count, choose.choice([1, 2, 2, 3, 3, 4, 5, count]))
    begin = choose.randint(0, count - length)
    end = begin + length - 1
    pairs = path(range(begin, end + 1)) + [(end, begin)]
    if choose.random() < 0.7:
        pairs += path(range(0, begin + 1))
    if choose.random() < 0.5:
        pairs += path(range(end, count))
    return pairs + downward(choose, count, choose.choice([0, 1, 2, count]))


def shape_two_circles(choose, count):
    """Two circles, with groups that lead to both of them."""
    if count < 2:
        return shape_circle(choose, count)
    cut = choose.randint(1, count - 1)
    first, second = list(range(cut)), list(range(cut, count))
    pairs = []
    for part in first, second:
        circle = part[choose.randrange(len(part)):]
        pairs += path(part) + [(circle[-1], circle[0])]
    if choose.random() < 0.7:
        pairs.append((choose.choice(first), choose.choice(second)))
    return pairs


def shape_components(choose, count):
    """Circles beside one another and one behind the other, with groups between them and at the ends."""
    parts, left = [], list(range(count))
    while left:
        size = choose.choice([1, 1, 1, 1, 2, 2, 3, 4])
        parts.append(left[:size])
        left = left[size:]
    pairs = []
    for part in parts:
        if len(part) > 1 or choose.random() < 0.2:
            pairs += path(part) + [(part[-1], part[0])]
            pairs += [(choose.choice(part), choose.choice(part)) for _ in range(choose.choice([0, 0, 1, 2]))]
    return pairs + downward(choose, count, choose.randint(0, count))


SHAPES = [
    (shape_none, 2), (shape_any, 8), (shape_downward, 12), (shape_deep, 6), (shape_layers, 12),
    (shape_wide, 4), (shape_circle, 14), (shape_two_circles, 5),
]


def make_lines(choose, item_count, shape=None):
    """The lines of a declaration that breaks no rule, without blank ones. The shape is any where none is given."""
    names = make_names(choose, item_count)
    ordered, alone = make_groups(choose, item_count)
    groups = ordered + alone
    choose.shuffle(groups)
    if choose.random() < 0.2:
        groups.sort(key=min, reverse=choose.random() < 0.5)
    shapes, weights = zip(*SHAPES)
    pairs = (shape or choose.choices(shapes, weights)[0])(choose, len(groups))

    if pairs and choose.random() < 0.4:
        pairs += choose.choices(pairs, k=choose.randint(1, 3))
    if groups and choose.random() < 0.05:
        group = choose.randrange(len(groups))
        pairs.append((group, group))
    if choose.random() < 0.8:
        choose.shuffle(pairs)
    flushes = [(choose.choice(groups[group]), choose.choice(groups[to])) for group, to in pairs]

    # Each flush has a line of its own, or is on one with others of the same item. That of a whole
    # workqueue has one in any case.
    flush_lines, whole_lines = [], []
    joined = choose.choice([0, 0.3, 0.8])
    whole = choose.choice([0, 0, 0, 0.2, 0.5, 1])
    for item, target in flushes:
        same = [line for line in flush_lines if line[0] == item]
        if choose.random() < whole:
            whole_lines.append([item, target])
        elif same and choose.random() < joined:
            choose.choice(same).append(target)
        else:
            flush_lines.append([item, target])

    # Each of these lines comes anywhere behind the `item` lines that it needs.
    others = [(b"flush", line) for line in flush_lines] + [(b"flushwq", line) for line in whole_lines]
    others += [(b"ordered", line) for line in ordered]
    others = [(alike(choose, first), line) for first, line in others]
    choose.shuffle(others)
    early = choose.random() < 0.5
    behind = collections.defaultdict(list)
    for first, line in others:
        slot = choose.randint(max(line), item_count - 1) if early else item_count - 1
        behind[slot].append(Line([first] + [names[item] for item in line]))
    lines = []
    for item, name in enumerate(names):
        lines += [Line([b"item", name])] + behind[item]
    return lines


# Faults ------------------------------------------------------------------------------------------
# Each of these puts a fault into the lines, or leaves them as they are where there is no place.


def lines_of(lines, *firsts):
    return [line for line in lines if line.words and line.words[0] in firsts]


def insert(choose, lines, words):
    lines.insert(choose.randint(0, len(lines)), Line(words))


def fault_long_line(choose, lines):
    if not lines:
        lines.append(Line([]))
    line = choose.choice(lines)
    line.length = choose.choice([4_096, 4_097, 4_097, 4_097, 4_098, choose.randint(4_099, 9_000)])


def fault_bad_byte(choose, lines):
    if not lines:
        lines.append(Line([]))
    bad = bytes([choose.choice(BAD_BYTES)])
    near = [b"\r", b"\r\r", b"\x00", b"\x7f", b"\x80", b"\xff", b"\x0b", b"\x1f"]
    choose.choice(lines).bad_byte = choose.choice(near + [bad])


def alike(choose, word):
    """A directive that declares the same as this one, in the same form."""
    same = [other for other, row in DIRECTIVES.items() if all(row.get(key) == DIRECTIVES[word].get(key) for key in FORM)]
    return choose.choice(same) if len(same) > 1 else word


def fault_unknown_word(choose, lines):
    wrong = choose.choice(WRONG_FIRST_WORDS)
    known = lines_of(lines, *FEWEST_WORDS)
    if known and choose.random() < 0.7:
        choose.choice(known).words[0] = wrong
    else:
        insert(choose, lines, [wrong] + [b"a"] * choose.randint(0, 2))


def fault_missing_name(choose, lines):
    known = lines_of(lines, *FEWEST_WORDS)
    if known and choose.random() < 0.7:
        line = choose.choice(known)
        del line.words[choose.randint(1, FEWEST_WORDS[line.words[0]]):]
    else:
        short = [[word] + [b"a"] * count for word, least in FEWEST_WORDS.items() for count in range(least)]
        insert(choose, lines, choose.choice(short))


def fault_extra_word(choose, lines):
    known = lines_of(lines, *MOST_WORDS)
    words = choose.choices([b"a", b"b!", b"item", b"x" * 64, b"/"], k=choose.randint(1, 3))
    if known:
        line = choose.choice(known)
        line.words[choose.randint(1, len(line.words)):0] = words
    else:
        insert(choose, lines, choose.choice([[word] + [b"a"] * most for word, most in MOST_WORDS.items()]) + words)


def fault_bad_name(choose, lines):
    known = [line for line in lines if len(line.words) > 1]
    if not known:
        insert(choose, lines, [b"item", b"b"])
        known = [line for line in lines if len(line.words) > 1]
    words = choose.choice(known).words
    position = choose.randint(1, len(words) - 1)
    if choose.random() < 0.6:
        at = choose.randint(0, len(words[position]))
        other = choose.choice([b"!", b"~", bytes([choose.choice(OTHER_LETTERS)])])
        words[position] = words[position][:at] + other + words[position][at:]
    else:
        words[position] = words[position][:1] * choose.choice([64, 64, 65, 128, 319, 320])


def fault_item_twice(choose, lines):
    known = [line.words[1] for line in lines_of(lines, b"item") if len(line.words) > 1]
    insert(choose, lines, [b"item", choose.choice(known or [b"a"])])


def fault_unknown_item(choose, lines):
    users = [line for line in lines_of(lines, *USERS) if len(line.words) > 1]
    items = lines_of(lines, b"item")
    way = choose.random()
    if users and way < 0.5:
        words = choose.choice(users).words
        position = choose.randint(1, len(words) - 1)
        name = words[position]
        unknown = [name.swapcase(), name + b".", name[:-1] or b"z", b"zz", b"x" * 63]
        words[position] = choose.choice(unknown)[:63]
    elif items and way < 0.8:
        line = choose.choice(items)
        lines.remove(line)
        if way < 0.75:
            lines.append(line)
    else:
        insert(choose, lines, choose.choice([[word] + [b"a"] * FEWEST_WORDS[word] for word in USERS]))


def fault_grouped_twice(choose, lines):
    items = [line.words[1] for line in lines_of(lines, b"item") if len(line.words) > 1]
    ordered = [line for line in lines_of(lines, b"ordered") if len(line.words) > 1]
    if not items:
        return
    if ordered and choose.random() < 0.5:
        words = choose.choice(ordered).words
        words.insert(choose.randint(1, len(words)), choose.choice(words[1:]))
    elif ordered and choose.random() < 0.5:
        again = [choose.choice(choose.choice(ordered).words[1:])]
        again += choose.sample(items, choose.randint(0, min(2, len(items))))
        choose.shuffle(again)
        lines.append(Line([b"ordered"] + again))
    else:
        name = choose.choice(items)
        lines.append(Line([b"ordered", name]))
        lines.append(Line([b"ordered", name]))


FAULTS = [
    fault_long_line, fault_bad_byte, fault_unknown_word, fault_missing_name, fault_extra_word,
    fault_bad_name, fault_item_twice, fault_unknown_item, fault_grouped_twice,
]


def put_faults(choose, lines, count):
    faults = choose.choices(FAULTS, k=count)
    if count > 1 and choose.random() < 0.4:
        # Several of one pass are more often met in one declaration so.
        faults = choose.choices(choose.choice([FAULTS[1:6], FAULTS[6:9]]), k=count)
    if count > 1 and lines and choose.random() < 0.3:
        # All in a few lines, so that several fall on the same one.
        part = lines[-choose.randint(1, 2):]
        del lines[-len(part):]
        for fault in faults:
            fault(choose, part)
        lines += part
    else:
        for fault in faults:
            fault(choose, lines)


# Spelling ----------------------------------------------------------------------------------------


def blanks(choose, least, odd):
    if not odd:
        return b" " * least
    most = choose.choice([least, least, 1, 3, 8])
    return bytes(choose.choices(b" \t", k=choose.randint(least, max(least, most))))


def make_comment(choose):
    kind = choose.random()
    if kind < 0.3:
        return b"#" + choose.choice([b"", b"#", b" x", b" item a", b"\t# y", b"a", b"\r", b"x\r"])
    if kind < 0.5:
        return b"#" + bytes(choose.choices(b"\x00\x80\xff\r# \ta", k=choose.randint(1, 6)))
    return b"#" + bytes(choose.choices(COMMENT_BYTES, k=choose.randint(0, 40)))


def spell_line(choose, line, odd):
    """The bytes of a line, without what ends it."""
    before = b""
    if odd:
        before = blanks(choose, 0, choose.random() < 0.4)
    for number, word in enumerate(line.words):
        before += (blanks(choose, 1, odd) if number else b"") + word
    if odd:
        before += blanks(choose, 0, choose.random() < 0.4)
    if line.bad_byte:
        at = choose.choice([0, len(before), choose.randint(0, len(before))])
        before = before[:at] + line.bad_byte + before[at:]
    comment = line.comment or (make_comment(choose) if odd and choose.random() < 0.4 else b"")
    missing = line.length - len(before) - len(comment)
    if missing > 0:
        way = choose.random()
        if way < 0.4:
            comment = (comment or b"#") + b"x" * (missing if comment else missing - 1)
        elif way < 0.7:
            before += bytes(choose.choices(b" \t", k=missing))
        else:
            before = bytes(choose.choices(b" \t", k=missing)) + before
    return before + comment


def spell(choose, lines, plain):
    """The bytes of the declaration."""
    odd = not plain
    endings = [b"\n"]
    if odd:
        endings = choose.choice([[b"\n"], [b"\n"], [b"\r\n"], [b"\n", b"\r\n"]])
        for _ in range(choose.choice([0, 0, 1, 3])):
            insert(choose, lines, [])
    text = b""
    for line in lines:
        spelled = spell_line(choose, line, odd)
        ending = choose.choice(endings)
        if odd and b"#" in spelled and choose.random() < 0.2:
            ending = choose.choice([b"\r\n", b"\r\r\n", b"\r\r\r\n"])
        text += spelled + ending
    if odd and choose.random() < 0.4:
        text = text[:-1]
    return text


# Cases -------------------------------------------------------------------------------------------


def item_count_of(choose):
    way = choose.random()
    if way < 0.02:
        return 0
    if way < 0.07:
        return 1
    if way < 0.92:
        return choose.randint(2, 12)
    return choose.randint(13, 60) if way < 0.98 else choose.randint(61, 200)


def case_small(choose):
    lines = make_lines(choose, item_count_of(choose))
    way = choose.random()
    if way > 0.55:
        put_faults(choose, lines, 1 if way < 0.85 else choose.randint(2, 4))
    return spell(choose, lines, choose.random() < 0.4)


def case_long_text(choose):
    """About as long as a text may be, with a fault or without one."""
    lines = make_lines(choose, choose.randint(0, 8))
    if choose.random() < 0.5:
        put_faults(choose, lines, 1)
    text = spell(choose, lines, False)
    if not text.endswith(b"\n"):
        text += b"\n"
    wanted = TEXT_LIMIT + choose.choice([0, 1, 1, 1, 2, 5_000])
    filler = (b"#" + b"y" * choose.randint(500, 4_095) + b"\n") * 2_200
    if choose.random() < 0.5:
        return text + filler[:wanted - len(text)]
    return filler[:wanted - len(text) - 1] + b"\n" + text


def case_many_items(choose):
    """About as many items as there may be."""
    names = [b"%x" % number for number in range(5_000)]
    choose.shuffle(names)
    count = ITEM_LIMIT + choose.choice([-1, 0, 0, 1, 1, 1, 2, 100])
    lines = [Line([b"item", name]) for name in names[:count]]
    near = choose.sample(names[:4_096], 200)
    for _ in range(choose.randint(0, 50)):
        lines.append(Line([b"flush", choose.choice(near), choose.choice(near)]))
    lines.append(Line([b"ordered"] + near[:100]))
    if choose.random() < 0.3:
        at = choose.choice([count, ITEM_LIMIT, ITEM_LIMIT - 1])
        lines.insert(at, Line([b"item", names[choose.randrange(4_000)]]))
    if choose.random() < 0.3:
        at = choose.choice([count, ITEM_LIMIT, ITEM_LIMIT + 1])
        lines.insert(at, Line([b"ordered", names[choose.randrange(5_000)]]))
    return spell(choose, lines, True)


def case_many_flushes(choose):
    """About as many flushes as there may be."""
    names = make_names(choose, choose.randint(2, 40))
    wanted = FLUSH_LIMIT + choose.choice([-1, 0, 0, 1, 1, 1, 2, 30, 500])
    lines = [Line([b"item", name]) for name in names]
    circles = choose.random() < 0.5
    whole = choose.choice([0, 0.1, 0.5])
    while wanted > 0:
        item = choose.randrange(len(names) - 1)
        below = names if circles else names[item + 1:]
        if choose.random() < whole:
            lines.append(Line([b"flushwq", names[item], choose.choice(below)]))
            wanted -= 1
            continue
        size = min(wanted, choose.randint(1, 4_000 // max(len(name) + 1 for name in below)))
        lines.append(Line([b"flush", names[item]] + choose.choices(below, k=size)))
        wanted -= size
    if choose.random() < 0.3:
        choose.choice(lines[-1:] + lines[-3:]).words[-1] = b"z..z"
    lines.append(Line([b"ordered", names[0]]))
    if choose.random() < 0.2:
        lines.append(Line([b"ordered", choose.choice(names)]))
    return spell(choose, lines, True)


def random_case(seed, number):
    """The case of this number, which doesn't depend on any other."""
    choose = random.Random(f"{seed} {number}")
    way = choose.random()
    if way < 0.013:
        return case_long_text(choose)
    if way < 0.031:
        return case_many_items(choose)
    if way < 0.049:
        return case_many_flushes(choose)
    return case_small(choose)


def join(*lines):
    return b"".join(line + b"\n" for line in lines)


def numbered_items(count):
    return [b"item i%d" % number for number in range(count)]


def flush_lines(item, targets):
    """As many `flush` lines as the targets need, since a line has its limit."""
    size = (LINE_LIMIT - len(b"flush " + item)) // max(len(b" " + target) for target in targets)
    return [b" ".join([b"flush", item] + targets[at:at + size])
            for at in range(0, len(targets), size)]


def longest_run(names, flush_count):
    """The first item flushes all others in turn, and at last itself: all others finish."""
    others = names[1:] * (flush_count // (len(names) - 1) + 1)
    targets = others[:flush_count - 1] + names[:1]
    return join(*[b"item " + name for name in names], *flush_lines(names[0], targets))


def whole(declaration):
    """The same declaration with a `flushwq` line for each flush."""
    lines = []
    for line in declaration.splitlines():
        first, *names = line.split(b" ")
        lines += [b"flushwq %s %s" % (names[0], target) for target in names[1:]] if first == b"flush" else [line]
    return join(*lines)


def long_names(count):
    return [b"n" * (NAME_LIMIT - 4) + b"%04d" % number for number in range(count)]


def circle_beside_chains(names):
    """The first two items wait for each other. Each other one waits for the four behind it."""
    lines = [b"item " + name for name in names]
    lines += [b"flush %s %s" % (names[0], names[1]), b"flush %s %s" % (names[1], names[0])]
    for at in range(2, len(names)):
        for target in names[at + 1:at + 5]:
            lines.append(b"flush %s %s" % (names[at], target))
    return join(*lines)


def chain_of(count):
    """So many items, each of which flushes the next one."""
    flushes = [b"flush i%d i%d" % (number, number + 1) for number in range(count - 1)]
    return join(*numbered_items(count), *flushes)


def limit_run_cases():
    """The cases at the limits, and those of what is run, in the same form."""
    cases = [*limit_cases()]
    for count in 1, 2, 255, 256, 257, 258:
        cases.append((f"a chain of {count}", chain_of(count)))
    chain = chain_of(256)
    cases.append(("a chain of 256, and one beside it", chain + join(b"item x", b"flush x i0 i9")))
    cases.append(("a chain of 256 in a circle", chain + join(b"flush i255 i0")))
    spread = [b"flush i%d i%d i%d" % (n, (n + 17) % 256, 255) for n in range(239)]
    cases.append(("a chain of 256 with more flushes", chain + join(*spread)))
    ordered = join(b"item x", b"item y", b"ordered x i7 y", b"flush x i8", b"flush y i9 i10")
    cases.append(("a chain of 256 with a group", chain + ordered))
    cases.append(("a chain of 256 `flushwq` lines", whole(chain)))
    cases.append(("a chain of 257 `flushwq` lines", whole(chain_of(257))))
    cases.append(("a chain of 256 with more waits of both kinds", chain + whole(join(*spread[::2])) + join(*spread[1::2])))
    cases.append(("a chain of 256 `flushwq` lines with a group", whole(chain + ordered)))
    return cases


@functools.cache
def limit_cases():
    """The cases at the limits: pairs of what it is and the declaration."""
    cases = []

    def add(what, text):
        cases.append((what, text))

    # Bytes of a line.
    for length in 4_096, 4_097:
        for ending in b"", b"\n", b"\r\n", b"\r\r\n", b"\r":
            end = repr(ending)[1:]
            add(f"a comment of {length} bytes, then {end}", b"#" + b"x" * (length - 1) + ending)
            line = b"item a" + b" " * (length - 9) + b"#xx"
            add(f"an item line of {length} bytes, then {end}", line + ending)
            line = b"\t" * (length - 6) + b"item a"
            add(f"blanks and an item, {length} bytes, then {end}", b"item b\n" + line + ending)
        add(f"a blank line of {length} bytes", b" " * length + b"\nitem a\n")
        line = b"flush a" + b" a" * ((length - 7) // 2)
        line += b"\t" * (length - len(line))
        add(f"a flush line of {length} bytes", b"item a\n" + line + b"\n")

    # Bytes of a text. The last ones hold a line that is too long, too.
    for length in TEXT_LIMIT, TEXT_LIMIT + 1:
        full = (b"#" + b"x" * 4_095 + b"\n") * 256
        add(f"{length} bytes, all LF", b"\n" * length)
        add(f"{length} bytes, an item last", full[: length - 7] + b"\nitem a")
        add(f"{length} bytes, a fault first", (b"item\n" + full)[:length - 1] + b"\n")
        add(f"{length} bytes, one line", b" " * length)

    # Bytes of a name.
    for length in 63, 64:
        name = b"n" * length
        text = join(b"item " + name, b"item a", b"ordered " + name, b"flush a " + name)
        add(f"a name of {length} bytes", text)

    # Items.
    items = numbered_items(4_097)
    flushes = [b"flush i%d i%d" % (number, number + 1) for number in range(4_096)]
    add("4,096 items", join(*items[:4_096]))
    add("4,097 items", join(*items))
    add("4,097 items, the last one declared before", join(*items[:4_096], b"item i7", b"item x"))
    add("4,097 items, an unknown one used before", join(*items[:4_096], b"ordered x", b"item x"))
    add("4,097 items, an unknown one used behind", join(*items, b"ordered x"))
    add("4,097 items, a bad line behind", join(*items, b"ordered"))
    add("a chain of 4,096", join(*items[:4_096], *flushes[:4_095]))
    add("a chain of 4,096, upwards", join(*items[:4_096][::-1], *flushes[:4_095]))
    add("a chain of 4,097", join(*items, *flushes))
    add("a circle of 4,096", join(*items[:4_096], *flushes[:4_095], b"flush i4095 i0"))
    add("4,095 that lead to one", join(*items[:4_096], *flushes[:4_095], b"flush i4095 i4095"))
    names = [first + second for first in (b"%x" % n for n in range(16)) for second in
             (bytes([letter]) for letter in NAME_LETTERS)]
    text = join(*[b"item " + name for name in names], b"ordered " + b" ".join(names))
    add("one group of 1,040 items", text)
    add("one group of 1,040 items, and again", text + join(b"ordered " + names[500]))

    # Flushes.
    full = [b"flush a" + b" a" * 1_024] * 16
    add("16,384 flushes on 16 lines", join(b"item a", *full))
    add("16,385 flushes, one on a line behind", join(b"item a", *full, b"flush a a"))
    add("16,385 flushes on 16 lines", join(b"item a", *full)[:-1] + b" a\n")
    add("16,383 flushes and two", join(b"item a", *full)[:-3] + join(b"", b"flush a a a"))
    near = [b"item a", b"item b"] + [b"flush a" + b" b" * 2_040] * 8
    for more in 64, 65, 2_040:
        add(f"16,320 flushes and {more}", join(*near, b"flush a" + b" b" * more))
        unknown = b"flush a" + b" b" * (more - 1) + b" c"
        add(f"16,320 flushes and {more}, an unknown one last", join(*near, unknown))
    flushes = [b"flush i%d i%d" % (number // 4 % 4_000, 4_000 + number % 96)
               for number in range(16_385)]
    add("16,384 flushes on lines of their own", join(*items[:4_096], *flushes[:16_384]))
    add("16,385 flushes on lines of their own", join(*items[:4_096], *flushes))

    # The same with `flushwq` lines.
    add("16,384 waits for a whole workqueue", join(b"item a", b"item b", *[b"flushwq a b"] * 16_384))
    add("16,385 waits for a whole workqueue", join(b"item a", b"item b", *[b"flushwq a b"] * 16_385))
    add("16,384 flushes and a `flushwq` line", join(b"item a", *full, b"flushwq a a"))
    add("16,384 flushes and a `flushwq` line of an unknown item", join(b"item a", *full, b"flushwq a c"))
    add("16,320 flushes and 64 `flushwq` lines", join(*near, *[b"flushwq a b"] * 64))
    add("16,320 flushes and 65 `flushwq` lines", join(*near, *[b"flushwq a b"] * 65))
    both = [b"flush" + (b"wq" if number % 3 else b"") + line[5:] for number, line in enumerate(flushes)]
    add("16,384 waits of both kinds", join(*items[:4_096], *both[:16_384]))
    add("16,385 waits of both kinds", join(*items[:4_096], *both))
    chain = [b"flushwq i%d i%d" % (number, number + 1) for number in range(4_095)]
    add("a chain of 4,096 `flushwq` lines", join(*items[:4_096], *chain))
    add("a circle of 4,096 `flushwq` lines", join(*items[:4_096], *chain, b"flushwq i4095 i0"))
    for length in 4_096, 4_097:
        line = b"flushwq a" + b"\t" * (length - 11) + b" a"
        add(f"a `flushwq` line of {length} bytes", b"item a\n" + line + b"\n")

    # 512 groups of 8, with 16,384 flushes: 32 each, of the groups behind, by all members in turn.
    ordered = [b"ordered" + b"".join(b" i%d" % (number + 512 * member) for member in range(8))
               for number in range(512)]
    flushes = []
    for number in range(16_384):
        group, turn = number % 511, number // 511
        target = min(511, group + 1 + turn * turn % 37)
        member = number * 5 % 8
        flushes.append(b"flush i%d i%d" % (group + 512 * member, target + 512 * (turn % 8)))
    add("512 groups with 16,384 flushes", join(*items[:4_096], *ordered, *flushes))
    flushes[-1] = b"flush i4095 i100"
    add("512 groups with 16,384 flushes, a circle", join(*items[:4_096], *flushes, *ordered))

    # Long runs, and the longest text of one.
    names = [line[5:] for line in items[:4_096]]
    add("a run of 45,054 steps", longest_run(names, FLUSH_LIMIT))
    add("a run of 45,054 steps, the other way", longest_run(names[::-1], FLUSH_LIMIT))
    add("a run of 45,054 steps with `flushwq` lines", whole(longest_run(names, FLUSH_LIMIT)))
    add("a run of long names", longest_run(long_names(4_096), 11_500))
    add("a circle beside chains", circle_beside_chains(names))
    add("a circle beside chains, the other way", circle_beside_chains(names[::-1]))
    return cases
