#!/usr/bin/env python3
"""longer.py RECORD MB OUT: a record as long as you like, made of a short one, whose events happen again and again.

The pages of each CPU are repeated until they are MB together, each time later by as much as the record took. So the
same items run in the same threads, as in a long test of one driver.
"""

import pathlib
import struct
import sys

sys.dont_write_bytecode = True
ROOT = pathlib.Path(__file__).resolve().parents[2]
sys.path.append(str(ROOT / "record"))
from wqr.archive import Archive  # noqa: E402  (in record)
from wqr.events import PAGE, Stream, formats_of  # noqa: E402

PAUSE = 10**6  # nanoseconds between two rounds


def span(archive: Archive) -> int:
    """How much later a round is than the one before."""
    formats = formats_of(archive.text("formats"))
    times = [event.time for cpu, pages in archive.pages().items() for event in Stream(cpu, pages, formats).events()]
    return max(times) - min(times) + PAUSE


def later(pages: bytes, by: int) -> bytes:
    """The pages with later times: each begins with its own, and what is in it counts from there."""
    made = bytearray(pages)
    for page in range(0, len(made), PAGE):
        struct.pack_into("<Q", made, page, struct.unpack_from("<Q", made, page)[0] + by)
    return bytes(made)


def lengthen(archive: Archive, size: int) -> None:
    pages, by = archive.pages(), span(archive)
    rounds = -(-size // sum(map(len, pages.values())))
    for cpu, data in pages.items():
        archive.parts[f"cpu{cpu}.raw"] = b"".join(later(data, number * by) for number in range(rounds))
    archive.parts["ended"] = f"{float(archive.text('began')) + rounds * by / 1e9:.2f}\n".encode()


def main(record: str, megabytes: str, out: str) -> None:
    archive = Archive.read(pathlib.Path(record))
    lengthen(archive, int(float(megabytes) * 1e6))
    archive.write(pathlib.Path(out))


if __name__ == "__main__":
    main(*sys.argv[1:])
