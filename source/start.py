"""Starts `wqsource`, which its script does by this file.

Python keeps what it made of a source beside that. So Python's own modules are there at once; what it makes of csource is
kept beside the facts, for this folder may be another user's. (To have it done anew takes a quarter of a second.)
"""

import os
import sys
from importlib.machinery import FileFinder, SourceFileLoader
from types import CodeType
from typing import Optional

HERE = os.path.dirname(os.path.realpath(__file__))


def kept_at() -> Optional[str]:
    """The folder for what Python makes of csource; None if there is no place for a cache."""
    home = os.environ.get("HOME")
    cache = os.environ.get("XDG_CACHE_HOME") or (os.path.join(home, ".cache") if home else "")
    return os.path.join(cache, "wqplan", "python") if cache else None


class Loader(SourceFileLoader):
    """Loads a module of csource."""

    def get_code(self, fullname: str) -> Optional[CodeType]:
        before = sys.pycache_prefix, sys.dont_write_bytecode
        sys.pycache_prefix = kept_at()
        sys.dont_write_bytecode |= sys.pycache_prefix is None
        try:
            return super().get_code(fullname)
        finally:
            sys.pycache_prefix, sys.dont_write_bytecode = before


# (Python puts it there, unless PYTHONSAFEPATH is set)
if HERE not in sys.path:
    sys.path.insert(0, HERE)
for folder in (HERE, os.path.join(HERE, "csource")):
    sys.path_importer_cache[folder] = FileFinder(folder, (Loader, [".py"]))

from csource.command_line import main  # noqa: E402

status = main()
sys.stderr.flush()
# (at the end of a program Python takes each object apart, which takes a tenth of the time of all; standard output is flushed)
os._exit(status)
