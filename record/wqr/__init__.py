"""Reads records of wqrecord. Comments of declarations are read by csource, in source/."""

import pathlib
import sys

sys.path.append(str(pathlib.Path(__file__).resolve().parents[2] / "source"))
