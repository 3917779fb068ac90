"""Which function an address is in, by the kernel's own list (/proc/kallsyms)."""

import bisect
from dataclasses import dataclass

CODE = "tTwW"


@dataclass(frozen=True)
class Symbol:
    """A function, and how far behind its beginning an address is. What is built into the kernel has the module ""."""

    name: str
    offset: int
    module: str


class Symbols:
    """`is_whole`: the list has all functions that there were, and not those of a record's stacks alone."""

    def __init__(self, text: str, is_whole: bool = False) -> None:
        self.is_whole = is_whole
        self.rows = sorted(self.rows_of(text), key=lambda row: (row[0], row[1].startswith("__"), row[1]))
        self.starts = [row[0] for row in self.rows]
        self.names = {row[1] for row in self.rows}
        self.known: dict[int, Symbol] = {}

    @staticmethod
    def rows_of(text: str) -> list[tuple[int, str, str]]:
        rows = []
        for line in text.splitlines():
            address, kind, name, *module = line.split()
            if kind in CODE and not name.startswith("__pfx_"):
                rows.append((int(address, 16), name, module[0].strip("[]") if module else ""))
        return rows

    def of(self, address: int) -> Symbol:
        found = self.known.get(address)
        if found is None:
            found = self.known[address] = self.find(address)
        return found

    def find(self, address: int) -> Symbol:
        at = bisect.bisect_right(self.starts, address) - 1
        if at < 0:
            return Symbol(f"{address:#x}", 0, "")
        # Of several names of one place the first in the list's order.
        at = bisect.bisect_left(self.starts, self.starts[at])
        start, name, module = self.rows[at]
        return Symbol(name, address - start, module)

    def function(self, address: int) -> str:
        return self.of(address).name

    def text_of(self, addresses: set[int]) -> str:
        """The list again, with the functions of these addresses alone."""
        kept = (
            {self.starts[max(bisect.bisect_right(self.starts, address) - 1, 0)] for address in addresses}
            if self.starts
            else set()
        )
        rows = [row for row in self.rows if row[0] in kept]
        return "".join(f"{at:016x} t {name}" + (f"\t[{module}]" if module else "") + "\n" for at, name, module in rows)
