"""layers.txt: the files that belong to what a driver has."""

import pytest

from conftest import C_FILES
from csource.layers import Layers
from csource.tables import FOLDER, TableError


def test_where_a_call_goes_on(wqsource, tmp_path):
    """Beside a site, and beside what isn't followed."""
    said = " ".join(wqsource("draft", "--tree", C_FILES, "--cache", tmp_path, "elsewhere.c").out.split())
    assert "iput(e->inode)" in said and "what it does is in fs/inode.c: give that, too" in said
    assert "evict_inodes (fs/inode.c)" in said and "->writepages (mm/page-writeback.c)" in said


def test_rows():
    layers = Layers()
    assert "block/blk-mq*.c" in list(layers.files("table", "blk_mq_ops"))
    assert list(layers.files("call", "iput_final")) == ["fs/inode.c"] and list(layers.files("call", "input")) == []
    assert layers.is_apart("kernel/workqueue.c") and not layers.is_apart("drivers/md/dm.c")
    assert list(layers.elsewhere("iput", ["fs/inode.c"])) == []


def test_a_row_that_is_none(tmp_path):
    (tmp_path / "layers.txt").write_text((FOLDER / "layers.txt").read_text() + "table blk_mq_ops block/blk-mq.c\n")
    with pytest.raises(TableError, match="layers.txt"):
        Layers(tmp_path / "layers.txt")
