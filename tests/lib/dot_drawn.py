#!/usr/bin/env python3
"""Has Graphviz draw random drawings: each ends in time, with a picture and without a warning.

    dot_drawn.py [SEED [COUNT]]

The drawings are those of the model, tests/model/dot.py, for small declarations with many groups and flushes within a workqueue,
three quarters of them with an assignment. The same seed makes the same ones. Where there is no program `dot`, Debian's is installed;
where that may not be, nothing is drawn, and this is said.
"""

import concurrent.futures
import os
import pathlib
import random
import shutil
import subprocess
import sys

sys.dont_write_bytecode = True
sys.path.insert(0, str(pathlib.Path(__file__).resolve().parents[1] / "model"))
import dot  # noqa: E402  (tests/model/dot.py)

SECONDS = 20  # for one drawing

# What a line of an assignment begins with, and what it may end with.
WORDS = ["wq", "wq", "norescuer"]
COMMENTS = ["", "# kworker", "# kworker, too", '# "a" \\N & <b> &lt; {c|d}', "# " + "m" * 63]

# Graphviz 2.43.0 aborts on this one where the head has `newrank=true` and a box `rank=same`.
ABORTED = (b"item p\nitem q\nitem r\nitem s\nordered p q\nordered r s\nflush q p r r\n", b"wq 0 p q r s\n")


def make_declaration(choose):
    """A declaration, and the names of its groups."""
    names = [f"i{number}" for number in range(choose.choice([3, 4, 5, 6, 8, 12, 24]))]
    lines = [f"item {name}" for name in names]
    groups = []
    left = choose.sample(names, len(names))
    while left:
        size = choose.choice([1, 1, 2, 2, 3, 4])
        group, left = left[:size], left[size:]
        groups.append(group)
        lines += [f"ordered {' '.join(group)}"] if len(group) > 1 else []
    falls = choose.random() < 0.3
    for _ in range(int(len(names) * choose.choice([0.5, 1, 1.5, 2, 3]))):
        item, target = choose.choice(names), choose.choice(names)
        if falls and item == target:
            continue
        if falls and names.index(item) < names.index(target):
            item, target = target, item
        lines.append(f"flush {item} {target}")
    return "\n".join(lines).encode() + b"\n", groups


def make_assignment(choose, groups):
    """An assignment of these groups to a few workqueues, of which some may be empty, have no rescuer, or have names."""
    workqueues = [[] for _ in range(choose.choice([1, 1, 2, 3, 5]))]
    for group in groups:
        choose.choice(workqueues).extend(group)
    lines = [" ".join([choose.choice(WORDS), str(number), *names, choose.choice(COMMENTS)]) for number, names in enumerate(workqueues)]
    return "\n".join([*lines, ""]).encode()


def make_texts(seed, number):
    """The texts of this number."""
    if number == 0:
        return ABORTED
    choose = random.Random(f"{seed} drawn {number}")
    text, groups = make_declaration(choose)
    return (text, make_assignment(choose, groups)) if number % 4 else (text,)


def fault_of(texts):
    """What is wrong with the picture that Graphviz makes of these texts; None where nothing is."""
    drawing, status = dot.answer(*texts)
    if status != 0:
        return f"the model ends with {status}"
    try:
        drawn = subprocess.run(["dot", "-Tsvg"], input=drawing, capture_output=True, timeout=SECONDS, check=False)
    except subprocess.TimeoutExpired:
        return f"no picture within {SECONDS} s"
    if drawn.returncode != 0 or drawn.stderr or not drawn.stdout.rstrip().endswith(b"</svg>"):
        return f"status {drawn.returncode}, {drawn.stderr.decode(errors='replace').strip()}"
    return None


def has_graphviz():
    """Whether there is a program `dot`. Where it may, it installs Debian's."""
    if shutil.which("dot") is None and shutil.which("apt-get") and os.geteuid() == 0:
        install = "apt-get update -q; DEBIAN_FRONTEND=noninteractive apt-get install -y -q --no-install-recommends graphviz"
        subprocess.run(install, shell=True, stdin=subprocess.DEVNULL, stdout=subprocess.DEVNULL, stderr=subprocess.DEVNULL,
                       timeout=900, check=False)
    return shutil.which("dot") is not None


def main(seed="1", count="500"):
    """The exit status."""
    if not has_graphviz():
        print("dot: skipped: there is no program dot (apt-get install graphviz), so nothing was drawn")
        return 0
    cases = [make_texts(seed, number) for number in range(int(count))]
    with concurrent.futures.ThreadPoolExecutor(os.cpu_count()) as threads:
        faults = [(number, fault) for number, fault in enumerate(threads.map(fault_of, cases)) if fault]
    for number, fault in faults:
        print(f"FAILED  seed {seed}, drawing {number}: {fault}")
        print(b"".join(cases[number]).decode())
    print(f"dot: of {count} random drawings Graphviz drew {int(count) - len(faults)}")
    return 1 if faults else 0


if __name__ == "__main__":
    sys.exit(main(*sys.argv[1:]))
