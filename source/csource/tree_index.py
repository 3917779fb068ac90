"""Where a kernel's tree exports functions, makes workqueues and has work items: by a `grep`, which is kept."""

import hashlib
import json
import os
import pathlib
import re
import subprocess
from dataclasses import dataclass, field
from typing import Optional

from .shared_out import Shared, nothing, share_out

NOT_BUILT = ("Documentation", "tools", "samples", "scripts", "usr", "LICENSES", "debian")
EXPORTED = re.compile(r"EXPORT(?:_\w+)?_SYMBOL\w*\(\s*(\w+)")
MAKES = re.compile(r"(?:alloc|create)_(?:[a-z]+_)*workqueue\s*\(")
ITEM = re.compile(r"(?:INIT|DECLARE)_(?:DELAYED_|DEFERRABLE_|RCU_)?WORK")
# Only tables of registers: a third of all bytes of Linux 6.1.
REGISTERS = "asic_reg"
# These have many files: in their place stand the folders in them.
LARGE = ("arch", "drivers", "drivers/gpu/drm", "drivers/net", "include", "sound")
# So many folders are looked through by one `grep`.
AT_ONCE = 24
# (short, for `grep` then is several times as fast)
LOOKED_FOR = r"_SYMBOL|workqueue ?\(|_WORK\("
SEARCH = ("-HE", LOOKED_FOR)

# What there is in some folders: the file that exports each name, the files that make workqueues, those that have items.
Found = tuple[dict[str, str], list[str], list[str]]


def top_folders(tree: pathlib.Path) -> list[str]:
    """The folders of a tree that are built."""
    return sorted(path.name for path in tree.iterdir() if path.is_dir() and path.name not in NOT_BUILT)


def grep(tree: pathlib.Path, *words: str, jobs: int = 1) -> list[str]:
    """The lines that `grep -r` prints of the C files of a tree, in the order of their files."""
    found = share_out(shared_folders(tree), jobs, lambda folders: lines_in(tree, folders, *words), lambda _: None)
    return sorted(line for lines in found for line in lines)


def lines_in(tree: pathlib.Path, folders: list[str], *words: str) -> list[str]:
    """The same of some folders."""
    command = ["grep", "-r", "--include=*.[ch]", f"--exclude-dir={REGISTERS}", *words, *folders]
    said = subprocess.run(
        command, cwd=tree, stdout=subprocess.PIPE, stderr=subprocess.DEVNULL, env={**os.environ, "LC_ALL": "C"}
    )
    return said.stdout.decode(errors="replace").splitlines()


def shared_folders(tree: pathlib.Path) -> list[list[str]]:
    """The folders of a tree, and in place of large ones those in them, in shares. Each is for one `grep`."""
    folders = [part for folder in top_folders(tree) for part in parts_of(tree, folder)]
    shares = -(-len(folders) // AT_ONCE)
    return [folders[share::shares] for share in range(shares)]


def parts_of(tree: pathlib.Path, folder: str) -> list[str]:
    if folder not in LARGE:
        return [folder]
    # (`grep -r` follows no links but those that it is given)
    inside = sorted(
        path
        for path in (tree / folder).iterdir()
        if (path.is_dir() or path.suffix in (".c", ".h")) and not path.is_symlink()
    )
    return [part for path in inside for part in parts_of(tree, f"{folder}/{path.name}")]


def found_in(lines: list[str]) -> Found:
    """What some lines of that `grep` say."""
    exports: dict[str, str] = {}
    makers: dict[str, None] = {}
    with_items: dict[str, None] = {}
    for line in lines:
        file, _, text = line.partition(":")
        # (nearly all lines are of the first kind, and to look for a word is many times as fast as for a pattern)
        if "EXPORT" in text and (match := EXPORTED.search(text)):
            exports[match[1]] = first(file, exports.get(match[1]))
        if "queue" in text and MAKES.search(text):
            makers[file] = None
        if "_WORK" in text and ITEM.search(text):
            with_items[file] = None
    return exports, list(makers), list(with_items)


def first(file: str, other: Optional[str]) -> str:
    """The one of two files whose name comes first."""
    return file if other is None else min(file, other)


@dataclass
class TreeIndex:
    """What there is in which file."""

    exports: dict[str, str] = field(default_factory=dict)
    makers: list[str] = field(default_factory=list)
    with_items: list[str] = field(default_factory=list)

    @staticmethod
    def of(tree: pathlib.Path, jobs: int = 1) -> "TreeIndex":
        return TreeIndex.together(begun(tree, jobs).finish(lambda _: None))

    @staticmethod
    def together(parts: list[Found]) -> "TreeIndex":
        """Of the parts of a tree: of a name that several files export the first file."""
        found = TreeIndex()
        for exports, makers, with_items in parts:
            for name, file in exports.items():
                found.exports[name] = first(file, found.exports.get(name))
            found.makers += makers
            found.with_items += with_items
        found.makers.sort()
        found.with_items.sort()
        return found

    @staticmethod
    def kept(tree: pathlib.Path, cache: pathlib.Path, jobs: int = 1) -> "TreeIndex":
        """From the cache, by where the tree is, since when it is there, and which version it has."""
        return Coming(tree, cache, jobs).get()


def begun(tree: pathlib.Path, jobs: int) -> Shared[list[str], Found]:
    """The search of a tree, with which other processes have begun."""
    return Shared(shared_folders(tree), jobs - 1, lambda folders: found_in(lines_in(tree, folders, *SEARCH)), nothing)


class Coming:
    """The index of a tree: from the cache, or other processes have begun to make it."""

    def __init__(self, tree: pathlib.Path, cache: pathlib.Path, jobs: int) -> None:
        self.at = cache / f"tree-{kept_as(tree)}"
        self.search = None if self.at.is_file() else begun(tree, jobs)

    def is_there(self) -> bool:
        """Whether nobody else works on it any more."""
        return self.search is None or self.search.is_done()

    def get(self) -> TreeIndex:
        if self.search is None:
            return TreeIndex(**json.loads(self.at.read_text()))
        found = TreeIndex.together(self.search.finish(lambda _: None))
        self.at.parent.mkdir(parents=True, exist_ok=True)
        half = self.at.with_suffix(f".{os.getpid()}")
        half.write_text(json.dumps(found.__dict__))
        half.replace(self.at)
        return found


def kept_as(tree: pathlib.Path) -> str:
    """What says which tree it is."""
    makefile = tree / "Makefile"
    version = makefile.read_bytes() if makefile.is_file() else b""
    known = tree.stat()
    where = f"{tree.resolve()} {known.st_ino} {known.st_mtime_ns}"
    return hashlib.sha256(where.encode() + version + LOOKED_FOR.encode()).hexdigest()[:32]
