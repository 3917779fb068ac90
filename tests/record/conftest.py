"""Where the tests of record/ find its modules."""

import pathlib
import sys

ROOT = pathlib.Path(__file__).resolve().parents[2]
sys.path += [str(ROOT / "record"), str(ROOT / "record/guest"), str(ROOT / "tests/record")]
