"""Texts that are kept in a folder, each by a name that says what it was made of."""

import os
import pathlib
from typing import Callable, Optional


def default_cache() -> pathlib.Path:
    """Where facts are kept: $XDG_CACHE_HOME/wqplan/facts."""
    base = os.environ.get("XDG_CACHE_HOME") or os.path.join(os.path.expanduser("~"), ".cache")
    return pathlib.Path(base) / "wqplan" / "facts"


class Cache:
    """The texts of a folder. To write them can be left for later, as long as this process is the only one to know."""

    def __init__(self, folder: pathlib.Path) -> None:
        self.folder = folder
        self.is_owing = False
        # what was made while it was so, the names of what nobody has written yet, and what is to be made for others
        self.recent: dict[str, str] = {}
        self.owed: list[str] = []
        self.unmade: list[tuple[str, Callable[[], str]]] = []

    def made(self, name: str, make: Callable[[], str]) -> str:
        """The text of a name; what `make` answers, if it isn't there yet."""
        found = self.get(name)
        if found is None:
            found = make()
            self.put(name, found)
        return found

    def get(self, name: str) -> Optional[str]:
        if name in self.recent:
            return self.recent[name]
        try:
            with open(self.at(name), encoding="utf-8") as opened:
                return opened.read()
        except FileNotFoundError:
            return None

    def put(self, name: str, text: str) -> None:
        if self.is_owing:
            self.recent[name] = text
            self.owed.append(name)
        else:
            self.write(name, text)

    def owe(self, name: str, make: Callable[[], str]) -> None:
        """A text that nobody asks for any more before it is written."""
        self.unmade.append((name, make))

    def at(self, name: str) -> str:
        return os.path.join(self.folder, name[:2], name[2:])

    def write(self, name: str, text: str) -> None:
        """Others may write the same at the same time: nobody sees half of it."""
        at = self.at(name)
        half = f"{at}.{os.getpid()}"
        for is_first in (True, False):
            try:
                with open(half, "w", encoding="utf-8") as opened:
                    opened.write(text)
                break
            except FileNotFoundError:
                if not is_first:
                    raise
                os.makedirs(os.path.dirname(at), exist_ok=True)
        os.replace(half, at)

    def write_owed(self) -> None:
        """Writes what was left for later, and from now on at once."""
        for name in self.owed:
            self.write(name, self.recent[name])
        for name, make in self.unmade:
            self.write(name, make())
        self.forget()

    def forget(self) -> None:
        """Somebody else writes what was left for later."""
        self.is_owing = False
        self.recent, self.owed, self.unmade = {}, [], []
