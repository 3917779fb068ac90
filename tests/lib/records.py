"""Reads the data files of docs/tables: for tests/docs/made.py, which makes lists from them, and for all that tests what they list.

A record is lines `key: value`, and lines `key:` with the lines of a text below, each after four spaces. An empty line ends it.
"""

import pathlib
import re
import sys

TABLES = pathlib.Path(__file__).resolve().parents[2] / "docs" / "tables"


def records(name):
    """The records of a data file, in their order. The value of a text of several lines is a list."""
    found, record, key = [], {}, None
    for number, line in enumerate((TABLES / name).read_text().splitlines() + [""], 1):
        field = re.fullmatch(r"(\w+):(?: (.+))?", line)
        if line.startswith("#"):
            continue
        if not line:
            found += [record] if record else []
            record = {}
        elif line.startswith("    ") and key in record:
            record[key].append(line[4:])
        elif field and field[1] not in record:
            key = field[1]
            record[key] = field[2] or []
        else:
            sys.exit(f"docs/tables/{name}:{number}: this is no field, or one that is there twice: {line}")
    return found
