"""What is kept of the files of an audit: it counts as long as all is as it was."""

import sys

import pytest

from conftest import C_FILES, ROOT
from csource import audit, audit_text, extract, kept, progress, token_extract
from csource.declaration import Declaration

RDISK = ROOT / "examples" / "rdisk"
SOURCE = """\
#include "k.h"

static void k_work(struct work_struct *work)
{
	k_end(container_of(work, struct k, work));
}

void k_start(struct k *k)
{
	INIT_WORK(&k->work, k_work);
	queue_work(k->wq, &k->work);
}
"""
HEADER = """\
struct k {
	struct work_struct work, other;
	struct workqueue_struct *wq;
};

static inline void k_end(struct k *k)
{
}
"""


@pytest.fixture
def tree(tmp_path):
    (tmp_path / "tree").mkdir()
    (tmp_path / "tree" / "k.c").write_text(SOURCE)
    (tmp_path / "tree" / "k.h").write_text(HEADER)
    return tmp_path / "tree"


@pytest.fixture
def program_of(tmp_path, monkeypatch):
    """program_of(tree, files): the program, and whether it was put together anew."""

    def find(tree, files, is_kept=True):
        anew, read = [], kept.read
        said = progress.Progress()
        cache = tmp_path / "cache"
        extractor = token_extract.TokenExtractor(cache, said, extract.Extractor(cache, 1, said))
        with monkeypatch.context() as patched:
            patched.setattr(kept, "read", lambda *words: anew.append(words) or read(*words))
            return kept.program_of(tree, files, extractor, False, is_kept), bool(anew)

    return find


def printed(program, declaration, capsys):
    audit_text.Printer(audit.Audit(Declaration.read(str(declaration)), program, each_item=True), sys.stdout, True).print()
    return capsys.readouterr().out


def test_the_same_answer(program_of, capsys):
    first, is_anew = program_of(RDISK, ["rdisk.c"])
    again, is_anew_again = program_of(RDISK, ["rdisk.c"])
    assert is_anew and not is_anew_again
    said = printed(first, RDISK / "rdisk.wq", capsys)
    assert "left: rdisk.c:18 rdisk_log" in said and printed(again, RDISK / "rdisk.wq", capsys) == said


@pytest.mark.parametrize("changed", ["k.c", "k.h"])
def test_a_change(program_of, tree, changed):
    """Of a header as well, though none was given."""
    program, _ = program_of(tree, ["k.c", "k.h"])
    assert [str(site) for site in program.sites.by_key.values()] == []
    text = (tree / changed).read_text().replace("\n{\n", "\n{\n\tflush_work(&k->other);\n")
    (tree / changed).write_text(text)
    program, is_anew = program_of(tree, ["k.c", "k.h"])
    assert is_anew and "flush_work(&k->other)" in str(list(program.sites.by_key.values())[0])
    assert not program_of(tree, ["k.c", "k.h"])[1]


def test_a_header_that_is_not_given(program_of, tree):
    """Its types count. And a new one may come before it."""
    program_of(tree, ["k.c"])
    (tree / "k.h").write_text(HEADER + "struct l;\n")
    assert program_of(tree, ["k.c"])[1]
    (tree / "include").mkdir()
    (tree / "include" / "k.h").write_text(HEADER)
    assert not program_of(tree, ["k.c"])[1]
    (tree / "k.h").unlink()
    assert program_of(tree, ["k.c"])[1]


def test_other_files(program_of, tree):
    """Each list of files has its own."""
    program_of(tree, ["k.c"])
    assert program_of(tree, ["k.c", "k.h"])[1]
    assert not program_of(tree, ["k.c"])[1]


def test_what_is_not_kept(program_of, tree, capsys):
    """Nothing, if nobody wants it; nor what Coccinelle read, for that is said each time."""
    program_of(tree, ["k.c"], is_kept=False)
    assert program_of(tree, ["k.c"])[1]
    (tree / "odd.c").write_text("#define END }\nvoid f(void)\n{\n\tflush_work(&x);\nEND\n")
    for _ in range(2):
        assert program_of(tree, ["odd.c"])[1]
        assert "Coccinelle reads this file" in capsys.readouterr().err


def test_all_of_the_small_files(program_of):
    """Each can be kept, with all that is in it."""
    for path in sorted(C_FILES.glob("*.c")):
        first, _ = program_of(C_FILES, [path.name])
        again, is_anew = program_of(C_FILES, [path.name])
        if not is_anew:
            assert list(again.sites.by_key) == list(first.sites.by_key)
            assert again.graph.edges == first.graph.edges
            assert {item: found.workqueues for item, found in again.items.items.items()} == {
                item: found.workqueues for item, found in first.items.items.items()
            }
