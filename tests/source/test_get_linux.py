"""`get-linux`, with an apt-get that has one small package: it stands for Debian's."""

import os
import shutil
import subprocess

import pytest

import programs
from conftest import ROOT

NEEDED = ("dpkg-deb", "tar", "xz")
pytestmark = pytest.mark.skipif(not all(map(shutil.which, NEEDED)), reason="no dpkg-deb, tar or xz")

APT_GET = """#!/bin/sh
[ "$1 $2 $3" = "download -q linux-source-9.9" ] && cp {package} .
"""


@pytest.fixture(scope="module")
def folder(tmp_path_factory):
    """A folder with `apt-get`, whose package has a tree of two files."""
    top = tmp_path_factory.mktemp("apt")
    tree, root = top / "linux-source-9.9", top / "root"
    (tree / "mm").mkdir(parents=True)
    (tree / "Makefile").write_text("VERSION = 9\n")
    (tree / "mm" / "slab.c").write_text("int slab;\n")
    (root / "DEBIAN").mkdir(parents=True)
    (root / "DEBIAN" / "control").write_text(
        "Package: linux-source-9.9\nVersion: 9.9\nArchitecture: all\nMaintainer: nobody <nobody@example.org>\n"
        "Description: a test\n"
    )
    (root / "usr" / "src").mkdir(parents=True)
    archive = root / "usr" / "src" / "linux-source-9.9.tar.xz"
    subprocess.run(["tar", "-cJf", archive, "-C", top, tree.name], check=True, timeout=programs.SECONDS_PER_RUN)
    package = top / "linux-source-9.9_9.9_all.deb"
    build = ["dpkg-deb", "--build", root, package]
    subprocess.run(build, check=True, stdout=subprocess.DEVNULL, timeout=programs.SECONDS_PER_RUN)
    (top / "bin").mkdir()
    (top / "bin" / "apt-get").write_text(APT_GET.format(package=package))
    (top / "bin" / "apt-get").chmod(0o755)
    return top / "bin"


@pytest.fixture
def get_linux(folder, tmp_path):
    """get_linux(words ..): runs it in an empty folder."""
    env = {**os.environ, "PATH": f"{folder}:{os.environ['PATH']}"}
    command = [str(ROOT / "source" / "get-linux")]
    return lambda *words: programs.run([*command, *words], cwd=tmp_path, env=env, capture_output=True)


def files_of(tree):
    return sorted(str(path.relative_to(tree)) for path in tree.rglob("*") if path.is_file())


def test_a_tree(get_linux, tmp_path):
    ran = get_linux("9.9")
    assert (ran.returncode, ran.stdout.decode()) == (0, f"{tmp_path}/linux-9.9\n")
    assert files_of(tmp_path / "linux-9.9") == ["Makefile", "mm/slab.c"]
    assert [path.name for path in tmp_path.iterdir()] == ["linux-9.9"]
    again = get_linux("9.9")
    assert again.returncode == 3 and b"is there already" in again.stderr


def test_parts_of_a_tree(get_linux, tmp_path):
    assert get_linux("9.9", "some where/tree", "mm").returncode == 0
    assert files_of(tmp_path / "some where" / "tree") == ["mm/slab.c"]


def test_what_is_wrong(get_linux, tmp_path):
    for words, status, said in (
        (["six"], 2, b"no version"),
        (["8.8"], 3, b"can't be fetched"),
        (["9.9", "tree", "nothing"], 3, b"can't be unpacked"),
        ([], 2, b"get-linux 6.1"),
    ):
        ran = get_linux(*words)
        assert ran.returncode == status and said in ran.stderr
        assert list(tmp_path.iterdir()) == []
