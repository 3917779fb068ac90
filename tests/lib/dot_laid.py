#!/usr/bin/env python3
"""How Graphviz lays the arrows of drawings: none through a label, and none on another one between the same two items.

    dot_laid.py [SEED [COUNT]]

The drawings are those of the model, tests/model/dot.py, of each declaration of examples/, alone and with each of its assignments,
and of random ones, as dot_drawn.py makes them. Of the random ones, which are far more crowded than any example, a few may have two
arrows that meet over most of their way. Where there is no program `dot`, it is fetched by apt-get; where that fails, nothing is
laid, and this is said.
"""

import collections
import concurrent.futures
import json
import math
import os
import pathlib
import subprocess
import sys

sys.dont_write_bytecode = True
ROOT = pathlib.Path(__file__).resolve().parents[2]
import dot_drawn  # noqa: E402  (beside this file)
import dot  # noqa: E402  (tests/model/dot.py, which dot_drawn.py brings into reach)

SECONDS = 60  # for one drawing
NEAR = 1.5  # points: arrows that are nearer lie on one another
MOST = 2 / 3  # of the way of an arrow
CROWDED = 0.03  # of the random drawings may have such arrows
AROUND = [(across, up) for across in (-1, 0, 1) for up in (-1, 0, 1)]

Label = collections.namedtuple("Label", "words left bottom right top")
Arrow = collections.namedtuple("Arrow", "item target way")


def curve(points):
    """Points on the Bézier curves that Graphviz gives, close to one another."""
    for at in range(0, len(points) - 1, 3):
        ends = points[at:at + 4]
        count = 2 + int(sum(map(math.dist, ends, ends[1:])))
        for step in range(count):
            after = step / (count - 1)
            before = 1 - after
            weights = (before ** 3, 3 * before ** 2 * after, 3 * before * after ** 2, after ** 3)
            yield tuple(sum(weight * point[axis] for weight, point in zip(weights, ends)) for axis in (0, 1))


def way_of(edge):
    """The points on the curves of an arrow."""
    curves = [operation["points"] for operation in edge["_draw_"] if operation["op"] == "b"]
    return [point for points in curves for point in curve(points)]


def labels_of(part):
    """The words that are drawn for a box, an item or the whole."""
    size = None
    for operation in part.get("_ldraw_", []):
        if operation["op"] == "F":
            size = operation["size"]
        if operation["op"] == "T":
            (x, y), width = operation["pt"], operation["width"]
            left = x - {"l": 0, "c": width / 2, "r": width}[operation["align"]]
            yield Label(operation["text"], left, y - size * 0.2, left + width, y + size * 0.75)


def laid(drawing):
    """The labels, each with the part that has it, and the arrows, as Graphviz lays them."""
    done = subprocess.run(["dot", "-Tjson"], input=drawing, capture_output=True, timeout=SECONDS, check=True)
    graph = json.loads(done.stdout)
    parts = graph.get("objects", [])
    names = {part["_gvid"]: part["name"] for part in parts}
    labels = [(part.get("name"), label) for part in [graph, *parts] for label in labels_of(part)]
    return labels, [Arrow(names[edge["tail"]], names[edge["head"]], way_of(edge)) for edge in graph.get("edges", [])]


def crosses(arrow, label):
    """Whether an arrow goes through a label."""
    return any(label.left < x < label.right and label.bottom < y < label.top for x, y in arrow.way)


def share_on(one, other):
    """Which part of the way of an arrow lies on another one."""
    cells = collections.defaultdict(list)
    for x, y in other.way:
        for across, up in AROUND:
            cells[x // NEAR + across, y // NEAR + up].append((x, y))
    near = sum(any(math.dist((x, y), point) < NEAR for point in cells.get((x // NEAR, y // NEAR), ())) for x, y in one.way)
    return near / len(one.way)


def crossed(labels, arrows):
    """What is said of each label that an arrow goes through. An arrow may touch the name of its own items."""
    for arrow in arrows:
        for owner, label in labels:
            if owner not in (arrow.item, arrow.target) and crosses(arrow, label):
                yield f"{arrow.item} -> {arrow.target} goes through {label.words!r}"


def covered(arrows):
    """What is said of each two arrows between the same items of which one lies on the other."""
    between = collections.defaultdict(list)
    for arrow in arrows:
        between[frozenset((arrow.item, arrow.target))].append(arrow)
    for same in between.values():
        for at, one in enumerate(same):
            for other in same[at + 1:]:
                if max(share_on(one, other), share_on(other, one)) > MOST:
                    yield f"{one.item} -> {one.target} lies on {other.item} -> {other.target}"


def faults_of(texts):
    """How the drawing of these texts is laid badly: labels that are crossed, and arrows that are covered."""
    drawing, status = dot.answer(*texts)
    if status != 0:
        return [f"the model ends with {status}"], []
    labels, arrows = laid(drawing)
    return list(crossed(labels, arrows)), list(covered(arrows))


def text_of(declaration):
    """A declaration of examples/. A file NAME.MORE.wq has lines for the end of NAME.wq."""
    whole = declaration.with_name(declaration.name.split(".")[0] + ".wq")
    return declaration.read_bytes() if whole == declaration else whole.read_bytes() + declaration.read_bytes()


def examples():
    """By name the texts of each declaration of examples/, alone and with each of its assignments."""
    for declaration in sorted((ROOT / "examples").glob("*.wq")):
        yield declaration.stem, (text_of(declaration),)
        for assignment in sorted(declaration.parent.glob(f"{declaration.stem}.*assign")):
            yield assignment.name, (text_of(declaration), assignment.read_bytes())


def self_test():
    """What is wrong with this script: it must see the faults of two drawings that were made to have them."""
    head = b'digraph { rankdir=LR; ranksep=1; node [shape=box]; '
    labels, arrows = laid(head + b'a -> c; b -> d; subgraph cluster { label="a long label of this box"; c; } }')
    label = next(label for _, label in labels if label.words.startswith("a "))
    through = arrows[0]._replace(way=[(label.left + 1, label.bottom + 1)])
    if not list(crossed(labels, [through])) or list(crossed(labels, arrows[1:])):
        yield "an arrow through a label isn't seen, or one is seen that isn't there"
    labels, arrows = laid(head + b'a -> b; b -> a [dir=back]; a -> b }')
    if not list(covered([arrows[0], arrows[0]])) or list(covered(arrows[::2])):
        yield "an arrow on another one isn't seen, or one is seen that isn't there"


def main(seed="1", count="120"):
    """The exit status."""
    if not dot_drawn.has_graphviz():
        print("dot: skipped how arrows are laid: there is no program dot, and apt-get doesn't bring graphviz")
        return 0
    faults = list(self_test())
    cases = dict(examples())
    crowds = {f"seed {seed}, drawing {number}": dot_drawn.make_texts(seed, number) for number in range(int(count))}
    with concurrent.futures.ThreadPoolExecutor(os.cpu_count()) as threads:
        found = dict(zip([*cases, *crowds], threads.map(faults_of, [*cases.values(), *crowds.values()])))
    faults += [f"{name}: {fault}" for name in cases for some in found[name] for fault in some]
    faults += [f"{name}: {fault}" for name in crowds for fault in found[name][0]]
    crowded = [f"{name}: {fault}" for name in crowds for fault in found[name][1][:1]]
    if len(crowded) > CROWDED * len(crowds):
        faults += crowded
    for fault in faults:
        print(f"FAILED  {fault}")
    print(f"dot: of {len(cases)} drawings of examples and {len(crowds)} random ones no arrow goes through a label,"
          f" and none lies on another between the same items, but for {len(crowded)} random ones")
    return 1 if faults else 0


if __name__ == "__main__":
    sys.exit(main(*sys.argv[1:]))
