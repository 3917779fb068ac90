"""Programs as they were put together, kept in the cache: who asks of the same files again doesn't wait for them.

Of the files of a call there is one, the last. It counts if all is as it was: the files, the headers that they include,
this program and its tables.
"""

import hashlib
import os
import pathlib
import pickle
import sys
import threading
import zlib
from typing import Optional

from .program import Program, ReadsFacts, Tables, read
from .tables import FOLDER
from .token_extract import TokenExtractor

HERE = pathlib.Path(__file__).resolve().parent
# (a third of the time of the next level, and half as much again in bytes)
FAST = 1
# So many bytes before it say of what it is.
SUM = hashlib.sha256().digest_size


def of_this_program() -> bytes:
    """The sum of all that makes a program what it is, but for the files: Python's objects are those of its version."""
    found = hashlib.sha256(sys.version.encode())
    for path in sorted([*HERE.glob("*.py"), *FOLDER.glob("*.txt"), FOLDER / "macros.h"]):
        found.update(path.read_bytes())
    return found.digest()


class KeptProgram:
    """Where the program of some files is kept."""

    def __init__(self, extractor: TokenExtractor, tree: pathlib.Path, files: list[str], stacked: bool) -> None:
        self.extractor = extractor
        self.tree = tree
        name = hashlib.sha256("\0".join([str(tree), str(tree.resolve()), str(stacked), *files]).encode()).hexdigest()
        self.at = extractor.cache / f"program-{name[:32]}"
        # the sum, and the program: it is unpacked while the files are looked at
        self.kept = b"", b""
        self.failed: Optional[Exception] = None
        self.unpacking = threading.Thread(target=self.unpack)
        self.unpacking.start()
        self.includes = extractor.includes(tree)
        found = hashlib.sha256(of_this_program())
        for file in self.includes.all_of(files):
            found.update(file.encode() + b"\0" + self.includes.digest(file))
        self.sum = found.digest()

    def read(self) -> Optional[Program]:
        """The program, if it is there and is of the same files."""
        self.unpacking.join()
        if self.failed is not None:
            raise self.failed
        (known, data), self.kept = self.kept, (b"", b"")
        if known != self.sum:
            return None
        program: Program = pickle.loads(data)
        self.extractor.give_calls(self.tree, program.facts)
        return program

    def unpack(self) -> None:
        """In a thread: what fails is told by who asks for it."""
        try:
            kept = self.at.read_bytes()
            self.kept = kept[:SUM], zlib.decompress(kept[SUM:])
        except FileNotFoundError:
            pass
        except (OSError, zlib.error) as error:
            self.failed = error

    def write(self, program: Program) -> None:
        # (each audit asks for them)
        _ = program.missed
        half = self.at.with_suffix(f".{os.getpid()}")
        half.write_bytes(self.sum + zlib.compress(pickle.dumps(program, pickle.HIGHEST_PROTOCOL), FAST))
        half.replace(self.at)


def program_of(
    tree: pathlib.Path, files: list[str], extractor: ReadsFacts, stacked: bool, is_kept: bool = True
) -> Program:
    """The program of some files of a tree. It isn't kept where Coccinelle read a file: that is to be said each time."""
    if not isinstance(extractor, TokenExtractor):
        return read(tree, files, extractor, Tables(), stacked)
    kept = KeptProgram(extractor, tree, files, stacked)
    program = kept.read()
    if program is None:
        extractor.known_includes = kept.includes
        program = read(tree, files, extractor, Tables(), stacked)
        if is_kept and not extractor.unsure:
            kept.write(program)
    return program
