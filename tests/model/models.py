# The model of each command that reads texts: NAME.py beside this file answers the command NAME of docs/tables/commands.txt, by its
# `answer`, which takes the texts and gives the bytes of the answer and the exit status. Where docs/FORMAT.md allows several answers,
# its `is_right` says whether another one is right, too.

import importlib
import pathlib
import sys

sys.dont_write_bytecode = True
sys.path.append(str(pathlib.Path(__file__).resolve().parents[1] / "lib"))
from commands import TEXTS_OF  # noqa: E402  (in tests/lib)

WITHOUT = [name for name in TEXTS_OF if not (pathlib.Path(__file__).parent / f"{name}.py").exists()]
if WITHOUT:
    sys.exit(f"model: FAILED: tests/model has no {WITHOUT[0]}.py, which answers `{WITHOUT[0]}`")
MODELS = {name: importlib.import_module(name) for name in TEXTS_OF}
ANSWERS = {name: model.answer for name, model in MODELS.items()}


def agrees(command, texts, wanted, found):
    """Whether this is an answer to these texts, with its status, where the model's is `wanted`: the same, or another right one."""
    is_right = getattr(MODELS[command], "is_right", None)
    return wanted == found or is_right is not None and is_right(texts, wanted, found)
