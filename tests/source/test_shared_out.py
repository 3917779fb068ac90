"""Work that several processes share: what comes out is that of one."""

import hashlib
import os

import pytest

from csource import cache, extract, progress, shared_out, token_extract, tree_index

TASKS = list(range(100))


@pytest.fixture
def forks(monkeypatch):
    """The processes that were begun. At the end none is left."""
    found = []
    fork = os.fork

    def counted():
        child = fork()
        if child:
            found.append(child)
        return child

    monkeypatch.setattr(os, "fork", counted)
    yield found
    shared_out.wait_for_all()
    with pytest.raises(ChildProcessError):
        os.waitpid(-1, os.WNOHANG)


def descriptors():
    """How many files this process has open."""
    return len(os.listdir("/proc/self/fd"))


@pytest.mark.parametrize("jobs,children", [(1, 0), (2, 1), (4, 3), (100, 100 // shared_out.LEAST - 1)])
def test_each_task_is_made(tmp_path, forks, jobs, children):
    """Once, by one of the processes, and this one gets all, in their order."""

    def make(task):
        with open(tmp_path / str(task), "x") as opened:
            opened.write("made")
        return {"square": [task * task, str(task)]}

    said, before = [], descriptors()
    made = shared_out.share_out(TASKS, jobs, make, said.append)
    assert made == [{"square": [task * task, str(task)]} for task in TASKS]
    assert said == list(range(1, len(said) + 1)) and len(forks) == children
    assert descriptors() == before and len(os.listdir(tmp_path)) == len(TASKS)


def test_few_tasks_need_no_process(forks):
    few = TASKS[: 2 * shared_out.LEAST - 1]
    assert shared_out.share_out(few, 4, str, lambda _: None) == list(map(str, few)) and forks == []
    assert shared_out.share_out([], 4, str, lambda _: None) == []


def test_what_fails_is_told_here(forks):
    """Whoever came to it first."""

    def make(task):
        if task == 60:
            raise ValueError(task)

    with pytest.raises(ValueError, match="60"):
        shared_out.share_out(TASKS, 4, make, lambda _: None)
    assert len(forks) == 3


def test_what_a_process_leaves_is_made_here(forks):
    """One that is ended before it has handed over what it made."""
    own = os.getpid()

    def make(task):
        if os.getpid() != own:
            os._exit(9)
        return task + 1

    assert shared_out.share_out(TASKS, 4, make, lambda _: None) == [task + 1 for task in TASKS]
    assert len(forks) == 3


def test_many_tasks(tmp_path, forks):
    """More than a pipe holds numbers of: each is made once."""
    many = range(3 * shared_out.MOST + 1)

    def make(task):
        with open(tmp_path / "made", "a") as opened:
            opened.write(f"{task}\n")
        return -task

    assert shared_out.share_out(many, 4, make, lambda _: None) == [-task for task in many]
    assert sorted(map(int, (tmp_path / "made").read_text().split())) == list(many)


def test_much_is_handed_over(forks):
    """More than a pipe holds."""
    long = "x" * 100_000
    assert shared_out.share_out(TASKS, 4, lambda task: f"{task}{long}", lambda _: None) == [
        f"{task}{long}" for task in TASKS
    ]


def test_what_comes_after_is_done_by_each(tmp_path, forks):
    after = lambda process: (tmp_path / str(process)).touch()
    shared_out.share_out(TASKS, 4, str, lambda _: None, after)
    shared_out.wait_for_all()
    assert sorted(os.listdir(tmp_path)) == ["0", "1", "2"]


def test_what_nobody_asks_for_is_given_up(tmp_path, forks):
    """At the end only what somebody has begun with is done."""

    def make(task):
        (tmp_path / str(task)).touch()
        while not (tmp_path / "go").exists():
            os.sched_yield()

    shared = shared_out.begin_with(TASKS, 4, make)
    while len(os.listdir(tmp_path)) < 3:
        os.sched_yield()
    shared.give_up()
    assert not shared.is_done()
    (tmp_path / "go").touch()
    shared_out.wait_for_all()
    assert shared.is_done()
    assert sorted(os.listdir(tmp_path)) == ["0", "1", "2", "go"]
    shared.close()


def test_a_tree_is_looked_through_in_shares(tmp_path):
    """Each file once, in the same order, however many processes there are."""
    for name in ("Makefile", "drivers/a/one.c", "drivers/b/two.c", "drivers/b/c/three.h", "drivers/own.c", "fs/four.c"):
        (tmp_path / name).parent.mkdir(parents=True, exist_ok=True)
        made = f'w = alloc_workqueue("{name}", 0, 0);\nINIT_WORK(&x, f);\nEXPORT_SYMBOL_GPL({name[-5:-2]});\n'
        (tmp_path / name).write_text(made)
    files = ["drivers/a/one.c", "drivers/b/c/three.h", "drivers/b/two.c", "drivers/own.c", "fs/four.c"]
    for jobs in (1, 2, 3, 16):
        found = tree_index.TreeIndex.of(tmp_path, jobs)
        assert (found.makers, found.with_items) == (files, files), jobs
        assert found.exports == {file[-5:-2]: file for file in files}


def test_the_first_file_exports_a_name(tmp_path):
    """Where several do, whichever process comes to them first."""
    for folder in ("sound", "drivers/b", "drivers/net/c", "arch/x"):
        (tmp_path / folder).mkdir(parents=True)
        (tmp_path / folder / "one.c").write_text("EXPORT_SYMBOL(one);\n")
        (tmp_path / folder / "no.S").write_text("EXPORT_SYMBOL(none);\n")
    for jobs in (1, 4):
        assert tree_index.TreeIndex.of(tmp_path, jobs).exports == {"one": "arch/x/one.c"}


def reader_of(folder, jobs):
    said = progress.Progress()
    return token_extract.TokenExtractor(folder, said, extract.Extractor(folder, jobs, said))


def test_a_header_that_is_written_meanwhile(tmp_path):
    """What is kept is of what was read, though somebody had another sum of it."""
    reader = reader_of(tmp_path / "cache", 1)
    old, new = "struct a { struct b *c; };\n", "struct a { struct d *c; };\n"
    (tmp_path / "a.h").write_text(new)
    sum_of_old = hashlib.sha256(old.encode()).digest()
    assert reader.types_of(tmp_path, "a.h", sum_of_old)[0] == {"a": {"c": "d"}}
    (tmp_path / "a.h").write_text(old)
    assert reader.types_of(tmp_path, "a.h", sum_of_old)[0] == {"a": {"c": "b"}}


def files_in(folder):
    return {str(path.relative_to(folder)): path.read_text() for path in folder.rglob("*") if path.is_file()}


def test_all_that_was_read_is_kept(tmp_path, forks):
    """The same by one process and by several, which leave some of it for each other."""
    tree = tmp_path / "tree"
    tree.mkdir()
    for number in range(40):
        (tree / f"{number}.h").write_text(f"struct s{number} {{ struct t *m{number}; }};\n")
        text = f'#include "{number}.h"\nvoid f{number}(struct s{number} *s)\n{{\n\tg(s->m{number});\n}}\n'
        (tree / f"{number}.c").write_text(text)
    files = [f"{number}.c" for number in range(40)]
    for jobs in (1, 4):
        facts = reader_of(tmp_path / f"cache{jobs}", jobs).read(tree, files)
        assert [(call.place.line, call.name, call.arguments) for call in facts.calls] == [
            (4, "g", [["s", "->", f"m{number}"]]) for number in range(40)
        ]
        assert [facts.struct_of(call.place, ["s"], f"m{number}") for number, call in enumerate(facts.calls)] == [
            f"s{number}" for number in range(40)
        ]
        assert [name for file in files for name, _ in facts.called_in(file)] == ["g"] * 40
        shared_out.wait_for_all()
    one, four = files_in(tmp_path / "cache1"), files_in(tmp_path / "cache4")
    # (of each file two texts, of each header one, and one of all headers)
    assert one == four and len(one) == 40 * 3 + 1
    assert len(forks) > 0


def test_texts_that_are_owed(tmp_path):
    """Who owes them knows them, and nobody else does until they are written."""
    one, other = cache.Cache(tmp_path), cache.Cache(tmp_path)
    name = "ab" + "0" * 62
    one.is_owing = True
    assert one.made(name, lambda: "text") == "text" == one.get(name) and other.get(name) is None
    one.write_owed()
    assert other.get(name) == "text" == one.get(name) and not one.is_owing
    other.put(name, "new")
    assert one.get(name) == "new" == (tmp_path / name[:2] / name[2:]).read_text()
    assert one.made(name, lambda: "never") == "new"
