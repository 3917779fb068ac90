"""Unsure lines of a declaration, `flush?` and `flushwq?`, of which a record has seen that they are so: they lose the `?`,
and all else stays byte for byte."""

import os
import pathlib
import re
import shutil

UNSURE = re.compile(rb"(\s*flush(?:wq)?)\?(?=\s)")


def made_sure(text: bytes, numbers: set[int]) -> bytes:
    """The text, in which the lines of these numbers are sure."""
    lines = text.split(b"\n")
    for number in numbers:
        lines[number - 1] = UNSURE.sub(rb"\1", lines[number - 1], count=1)
    return b"\n".join(lines)


def write(path: pathlib.Path, numbers: set[int]) -> None:
    """Rewrites a declaration. If it is interrupted, the file is the old one or the new one."""
    path = path.resolve()
    under_way = path.with_name(f"{path.name}.{os.getpid()}")
    try:
        under_way.write_bytes(made_sure(path.read_bytes(), numbers))
        shutil.copymode(path, under_way)
        under_way.replace(path)
    finally:
        under_way.unlink(missing_ok=True)
