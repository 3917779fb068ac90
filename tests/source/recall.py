"""How many of the waits that the examples declare by hand a scan has, with the files that it chooses itself.

    python3 tests/source/recall.py TREE [EXAMPLE ..]

TREE is that of Linux 6.1.192, whole. Of each example the module that makes its workqueues is scanned. A wait is a pair
of functions, the item's and the target's, as the `item` lines name them.
"""

import collections
import gc
import pathlib
import re
import sys
from dataclasses import dataclass, field

HERE = pathlib.Path(__file__).resolve().parent
ROOT = HERE.parent.parent
sys.path.insert(0, str(ROOT / "source"))

from csource import cache, extract, progress, scan, token_extract, tree_index  # noqa: E402

MODULES = {
    "bcache": "drivers/md/bcache/bcache",
    "dm-integrity": "drivers/md/dm-integrity",
    "dm-snapshot": "drivers/md/dm-snapshot",
    "md": "drivers/md/md-mod",
    "nbd": "drivers/block/nbd",
    "nfs": "fs/nfs/nfs",
    "nvme-auth": "drivers/nvme/host/nvme-core",
    "nvmet-tcp": "drivers/nvme/target/nvmet",
    "rbd": "drivers/block/rbd",
    "xfs": "fs/xfs/xfs",
}
SURE, UNSURE, MISSED, NO_ITEM = "sure", "unsure", "missed", "an item isn't there"


@dataclass
class Counted:
    """Of one example: how many of its waits are sure, unsure, missed; and these."""

    counts: collections.Counter = field(default_factory=collections.Counter)
    missed: list = field(default_factory=list)
    files: int = 0

    @property
    def share(self):
        return (self.counts[SURE] + self.counts[UNSURE]) / max(1, sum(self.counts.values()))


def declared_waits(example):
    """The pairs of an example's flush lines, each as the functions that its item and its target may be."""
    functions, pairs = {}, set()
    for line in (ROOT / "examples" / f"{example}.wq").read_text().splitlines():
        before, _, comment = line.partition("#")
        words = before.split()
        if words[:1] == ["item"]:
            named = re.match(r"\s*([a-z_]\w+)", comment)
            functions[words[1]] = {words[1].split(".")[0]} | ({named[1]} if named else set())
        elif words[:1] in (["flush"], ["flushwq"]):
            pairs |= {(words[0], words[1], target) for target in words[2:]}
    return functions, sorted(pairs)


def waits_of(program, lines):
    """(item, target) -> whether it is sure; of a flushwq all items of the workqueue are targets."""
    found = {}
    for wait in lines.waits + lines.cancels:
        targets = [wait.target] if wait.target else program.items.items_on({wait.workqueue})
        for target in targets:
            pair = wait.item.name, target.name
            found[pair] = found.get(pair, False) or wait.is_sure
    return found


def scan_module(scanned, name):
    """The scan of one module of the tree."""
    return scan.UnitScan(scanned, next(unit for unit in scanned.units() if unit.module.name == name))


def count(example, found_in):
    """What the scan of its module has of an example's waits."""
    program = found_in.program
    found = waits_of(program, found_in.lines)
    names = {function.name for function in program.items.items}
    functions, pairs = declared_waits(example)
    counted = Counted(files=len(found_in.files))
    for word, item, target in pairs:
        known = [found[one, other] for one in functions[item] for other in functions[target] if (one, other) in found]
        is_there = functions[item] & names and functions[target] & names
        kind = (SURE if any(known) else UNSURE) if known else MISSED if is_there else NO_ITEM
        counted.counts[kind] += 1
        if not known:
            counted.missed.append(f"{word} {item} {target}")
    return counted


def tree_scan(tree, kept_at):
    said = progress.Progress()
    extractor = token_extract.TokenExtractor(kept_at, said, extract.Extractor(kept_at, 1, said))
    return scan.TreeScan(tree, extractor, tree_index.TreeIndex.kept(tree, kept_at))


def table(counted):
    rows = [f"{'':14}{'files':>6}{'sure':>6}{'unsure':>8}{'missed':>8}{'no item':>9}"]
    total = collections.Counter()
    for example, one in counted.items():
        total += one.counts
        rows.append(row(example, one.files, one.counts))
    rows.append(row("all", sum(one.files for one in counted.values()), total))
    return "\n".join(rows)


def row(name, files, counts):
    return f"{name:14}{files:6}{counts[SURE]:6}{counts[UNSURE]:8}{counts[MISSED]:8}{counts[NO_ITEM]:9}"


def main(arguments):
    gc.disable()
    scanned = tree_scan(pathlib.Path(arguments[0]), cache.default_cache())
    counted = {}
    for example in arguments[1:] or MODULES:
        counted[example] = count(example, scan_module(scanned, MODULES[example]))
        gc.collect()
        print(row(example, counted[example].files, counted[example].counts), counted[example].missed[:6], flush=True)
    print(table(counted))


if __name__ == "__main__":
    main(sys.argv[1:])
