"""FILE:LINE of addresses, by addr2line and a kernel's debug symbols (Debian's linux-image-*-dbg), with inlined
functions. Without them a place is a function, and how far behind its beginning."""

import collections
import json
import pathlib
import re
import subprocess
from dataclasses import dataclass
from typing import Iterable, Optional

from .symbols import Symbols

# The folders in the top of the kernel's tree.
TOP = "arch|block|certs|crypto|drivers|fs|include|init|io_uring|ipc|kernel|lib|mm|net|rust|security|sound|virt"


@dataclass(frozen=True)
class Frame:
    """A function of a stack. Without a file `line` is how far behind its beginning the address is."""

    function: str
    file: str
    line: int

    def __str__(self) -> str:
        return f"{self.file}:{self.line} {self.function}" if self.file else f"{self.function}+{self.line:#x}"


class Places:
    def __init__(self, symbols: Symbols, debug: Optional[pathlib.Path], release: str, kept: bytes = b"") -> None:
        self.symbols = symbols
        self.files = debug_files(debug, release) if debug else {}
        self.frames: dict[int, tuple[Frame, ...]] = {}
        for address, rows in json.loads(kept or b"{}").items():
            self.frames[int(address, 16)] = tuple(Frame(*row) for row in rows)

    def kept(self) -> bytes:
        rows = {
            f"{at:x}": [[one.function, one.file, one.line] for one in frames]
            for at, frames in sorted(self.frames.items())
        }
        return json.dumps(rows, separators=(",", ":")).encode()

    def learn(self, addresses: Iterable[int]) -> None:
        """Looks up many at once. Each is where a call returns to, so the call is one byte before."""
        wanted = collections.defaultdict(list)
        for address in set(addresses) - self.frames.keys():
            symbol = self.symbols.of(address)
            self.frames[address] = (Frame(symbol.name, "", symbol.offset),)
            if symbol.module in self.files:
                wanted[symbol.module].append(address)
        for module, found in wanted.items():
            self.ask(self.files[module], module, found)

    def ask(self, file: pathlib.Path, module: str, addresses: list[int]) -> None:
        shift = self.shift(file, module)
        words = ["addr2line", "-a", "-f", "-i", "-e", str(file), *(["-j", ".text"] if module else [])]
        asked = "".join(f"{address - shift - 1:#x}\n" for address in addresses)
        told = subprocess.run(words, input=asked, capture_output=True, text=True, check=True).stdout
        for address, part in zip(addresses, re.split(r"(?m)^0x[0-9a-f]+\n", told)[1:]):
            frames = frames_of(part.splitlines())
            if frames:
                self.frames[address] = frames

    def shift(self, file: pathlib.Path, module: str) -> int:
        """How far above the file's addresses those of the running kernel are."""
        starts = starts_in(file)
        apart = collections.Counter(
            address - starts[name] for address, name, where in self.symbols.rows if where == module and name in starts
        )
        return apart.most_common(1)[0][0] if apart else 0

    def chain(self, stack: Iterable[int]) -> list[Frame]:
        """The frames of a stack, the innermost first, inlined ones too."""
        return [frame for address in stack for frame in self.frames.get(address) or self.plain(address)]

    def plain(self, address: int) -> tuple[Frame, ...]:
        symbol = self.symbols.of(address)
        return (Frame(symbol.name, "", symbol.offset),)


def debug_files(debug: pathlib.Path, release: str) -> dict[str, pathlib.Path]:
    """The files with debug symbols by module; "" is the kernel's own."""
    found = {path.name[:-3].replace("-", "_"): path for path in (debug / "lib/modules" / release).rglob("*.ko")}
    image = debug / "boot" / f"vmlinux-{release}"
    return found | ({"": image} if image.exists() else {})


def starts_in(file: pathlib.Path) -> dict[str, int]:
    """Where each function of a file begins."""
    starts: dict[str, int] = {}
    for line in subprocess.run(["nm", file], capture_output=True, text=True, check=True).stdout.splitlines():
        words = line.split()
        if len(words) == 3 and words[1] in "tTwW":
            starts.setdefault(words[2], int(words[0], 16))
    return starts


def frames_of(lines: list[str]) -> tuple[Frame, ...]:
    """The answer of addr2line to one address: of each function its name, and its place."""
    frames = []
    for function, place in zip(lines[::2], lines[1::2]):
        file, _, line = place.partition(":")
        number = re.match(r"\d+", line)
        if function == "??" or number is None:
            return ()
        frames.append(Frame(function, re.sub(rf"^.*?/(?=(?:{TOP})/)", "", file), int(number[0])))
    return tuple(frames)
