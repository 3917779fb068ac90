"""The reader of tokens: what it finds is written down by hand, and beside what Coccinelle finds."""

import os
import pathlib
import shutil

import pytest
import readers

from conftest import C_FILES, ROOT
from csource import ctext, extract, progress, reader, token_extract
from csource.lexer import Source
from csource.places import Place

LINUX = pathlib.Path(os.environ.get("LINUX_6_1") or "/none")
# Some files of the examples, for the gate: before a release `before_release.sh` takes all.
BESIDE_COCCINELLE = ("drivers/md/dm-snap.c", "drivers/nvme/host/auth.c", "fs/xfs/xfs_icache.c")
# On all files of the examples Coccinelle has 12 facts of 117,000 that the reader hasn't: a `SYSCALL_DEFINE0`,
# `__alignof__`, macros in the middle of a file, strings that are written in parts.
LEAST_SHARE = {"DEF": 0.995, "CALL": 0.995, "PCALL": 0.995, "ASG": 0.995, "RET": 0.995}


def facts_of(name):
    """{kind: [(line, function, words ..)]} of a file of the tests."""
    found = {}
    for line in reader.facts_of((C_FILES / name).read_text()):
        kind, number, _, function, *rest = line.split("\t")
        found.setdefault(kind, []).append((int(number), function, *rest))
    return found


@pytest.fixture(scope="module")
def facts():
    return facts_of("read.c")


def test_functions(facts):
    """Those behind `#if 0` are none. Of one with a head in each branch the last counts."""
    assert [(line, name) for line, _, name, _ in facts["DEF"]] == [(28, "rd_send"), (36, "rd_work"), (56, "rd_init")]


def test_calls(facts):
    assert [(line, function, rest[0]) for line, function, *rest in facts["CALL"]] == [
        (39, "rd_work", "container_of"),
        (43, "rd_work", "rd_send"),
        (46, "rd_work", "wait_for_completion"),
        (61, "rd_init", "alloc_workqueue"),
        (63, "rd_init", "INIT_WORK"),
    ]


def test_calls_by_pointers(facts):
    assert facts["PCALL"] == [(30, "rd_send", "r -> ops", "send", "r"), (47, "rd_work", "r -> ops", "done", "r")]


def test_assignments(facts):
    """Each is at the line of what is assigned."""
    found = {(line, left, ctext.joined(right.split())) for line, _, left, right in facts["ASG"]}
    assert found == {
        (39, "r", "container_of(ws,struct rd,work)"),
        (43, "number", "rd_send(r)+'\"'+sizeof(struct rd)"),
        (44, "other", "r->next"),
        (45, "next", "other"),
        (45, "next", "next->next"),
        (48, "r -> ops -> private", "(struct rd*)other"),
        (61, "rd_other_wq", 'alloc_workqueue("rd",WQ_MEM_RECLAIM,0)'),
        (64, "* r", "(struct rd){.ops=&rd_ops}"),
    }


def test_initialisers(facts):
    assert {tuple(words) for _, _, *words in facts["INI"]} == {
        ("struct rd_ops", "send", "rd_send"),
        ("struct rd_ops", "private", "& rd_wq"),
        ("struct rd", "ops", "& rd_ops"),
    }


def test_types(facts):
    assert {(struct, member): kind for _, _, struct, member, kind in facts["STM"]} == {
        ("rd_ops", "send"): "function",
        ("rd_ops", "done"): "function",
        ("rd_ops", "private"): "",
        ("rd", "work"): "struct work_struct",
        ("rd.answer", "done"): "struct completion",
        ("rd", "answer"): "struct rd.answer",
        ("rd", "next"): "struct rd",
        ("rd", "number"): "",
        ("rd", "ops"): "struct rd_ops",
    }
    assert [tuple(words) for _, _, *words in facts["GLB"]] == [
        ("rd_wq", "struct workqueue_struct"),
        ("rd_other_wq", "struct workqueue_struct"),
        ("rd_ops", "struct rd_ops"),
    ]
    assert [tuple(words) for _, _, *words in facts["TDF"]] == [("rd_t", "struct rd")]
    assert "FRT" not in facts


def test_what_runs_only_for_some_arguments(facts):
    assert [tuple(words) for _, _, *words in facts["GRD"]] == [("59", "59", "1", "! wait"), ("60", "65", "0", "! wait")]


# The function's second line has the condition. Of each: the lines that run only for some arguments, and for which.
CONDITIONS = {
    "\tif (tx && cancel(x))\n\t\tlog(x);": [("2", "2", "1", "tx"), ("3", "3", "1", "tx && cancel ( x )")],
    "\tif (!tx ||\n\t    cancel(x))\n\t\tlog(x);": [("3", "3", "0", "! tx"), ("4", "4", "1", "! tx || cancel ( x )")],
    # the body on the same line runs for other arguments, too
    "\tif (!tx || cancel(x)) log(x);": [("2", "2", "1", "! tx || cancel ( x )")],
    # not a condition of parameters alone, or nothing behind it
    "\tif (busy(tx) && cancel(x))\n\t\tlog(x);": [],
    "\tif (tx)\n\t\tlog(x);": [("3", "3", "1", "tx")],
    # `&&` binds tighter: what is behind `||` is called whatever `tx && rx` is made of
    "\tif (tx && rx || cancel(x))\n\t\tlog(x);": [("3", "3", "1", "tx && rx || cancel ( x )")],
}


@pytest.mark.parametrize("body", CONDITIONS)
def test_calls_in_conditions(body):
    """In `a && f()` the call is made only if a holds; in `a || f()` only if it doesn't."""
    lines = reader.facts_of(f"static void f(struct x *x, bool tx, bool rx) {{\n{body}\n}}\n")
    assert [tuple(line.split("\t")[4:]) for line in lines if line.startswith("GRD")] == CONDITIONS[body]


@pytest.mark.parametrize(
    "words, struct",
    [
        ("r -> ops", "rd_ops"),
        ("r -> answer", "rd.answer"),
        ("( & r -> next [ 2 ] ) -> next", "rd"),
        ("container_of ( ws , struct rd , work )", "rd"),
        ("( ( struct rd_ops * ) ws )", "rd_ops"),
        ("rd_wq", "workqueue_struct"),
        ("nobody -> knows", None),
    ],
)
def test_types_of_expressions(read, words, struct):
    found = read(C_FILES, ["read.c"]).facts
    assert found.expressions.struct_of(Place("read.c", 40, "rd_work"), words.split()) == struct


def test_a_string_over_two_lines():
    source = Source.of('a = "one \\\ntwo";\nb();\n')
    assert source.words[:3] == ["a", "=", '"one \\\ntwo"'] and source.lines[source.words.index("b")] == 3


def test_a_comment_of_several_lines_in_a_macro():
    """The macro goes on behind it."""
    source = Source.of("#define F(x) {\\\n\t/* one\t\\\n\t * two */\t\\\n\tg(x)\nint a;\n")
    assert source.words == ["int", "a", ";"] and source.lines == [5, 5, 5] and source.odd == []


def test_without_lines():
    """The words are the same but for bodies of functions, and so is what each bracket holds."""
    text = "struct a {\n\tint b;\n};\n\nint f(struct a *a)\n{\n\tif (a) {\n\t\tg();\n\t}\n}\n\nint h(int i);\n"
    source = Source.of(text.replace("\tif (a) {\n\t\tg();\n\t}\n", ""))
    without = Source.of(text, has_lines=False)
    assert without.words == "struct a { int b ; } ; int f ( struct a * a ) { } int h ( int i ) ;".split()
    assert (without.words, without.behind, without.closed_by) == (source.words, source.behind, source.closed_by)
    assert set(without.lines) == {0}


@pytest.mark.parametrize(
    "text",
    [
        "typedef struct\n{\n\tint inside;\n}\ns_t;\n",
        "struct s\n{\n\tint inside;\n};\n",
        "int f(void)\n{\n\tif (inside) {\n}\nint g;\n",
        "int f(void)\n{\n\tif (inside)\n\t\tg();\n} int g;\n",
        "int f(void) {\n\tinside();\n}\n",
    ],
)
def test_what_is_no_body_stays(text):
    """Or one whose braces don't fit, or that is written in another way."""
    assert Source.of(text, has_lines=False).words == Source.of(text).words and "inside" in Source.of(text).words


def test_types_without_lines():
    """They are those of the facts: to look into functions adds none."""
    text = (C_FILES / "read.c").read_text() + "struct read *found(int i);\n"
    kinds = ("STM", "GLB", "FRT", "TDF")
    both = [
        [(words[0], *words[4:]) for words in (line.split("\t") for line in lines) if words[0] in kinds]
        for lines in (reader.types_of(text), reader.facts_of(text))
    ]
    assert both[0] == both[1] and {words[0] for words in both[0]} == set(kinds)


def test_branches_of_directives():
    """Both branches count where both are whole; after one that isn't, none."""
    whole = Source.of("#ifdef A\nf();\n#else\ng();\n#endif\n")
    assert "f" in whole.words and "g" in whole.words
    half = Source.of("#ifdef A\nif (a) {\n#else\nif (b) {\n#endif\n}\n")
    assert "a" in half.words and "b" not in half.words and half.odd == []


def test_a_file_of_which_it_is_not_sure(tmp_path, capsys):
    """Coccinelle reads it, and that is said."""
    if shutil.which("spatch") is None:
        pytest.skip("no Coccinelle")
    (tmp_path / "odd.c").write_text("#define END }\nvoid f(void)\n{\n\twait_for_completion(&x);\nEND\n")
    (tmp_path / "even.c").write_text("void g(void)\n{\n\tf();\n}\n")
    said = progress.Progress()
    coccinelle = extract.Extractor(tmp_path / "cache", 1, said)
    extractor = token_extract.TokenExtractor(tmp_path / "cache", said, coccinelle)
    extractor.read(tmp_path, ["odd.c", "even.c"])
    assert [unsure.file for unsure in extractor.unsure] == ["odd.c"]
    said_first = capsys.readouterr().err.splitlines()[0]
    assert said_first == "wqsource: odd.c: line 3: a bracket without the other one. Coccinelle reads this file"


def test_the_small_files_beside_coccinelle(cache):
    """Each fact that Coccinelle has of the files of the tests the reader has as well."""
    files = sorted(path.name for path in C_FILES.glob("*.c") if path.name not in ("swallowed.c", "read.c"))
    compared = readers.compare(C_FILES, files, cache)
    only = {kind: {fact[1] for fact in found} for kind, found in compared.coccinelle.items() if found}
    # (Coccinelle takes a cast for a call)
    assert only == {"ECALL": {(47, "(ar_size)")}}


@pytest.mark.skipif(not (LINUX / "Makefile").exists(), reason="no source of Linux 6.1: set LINUX_6_1")
def test_files_of_the_examples_beside_coccinelle(cache, capsys):
    compared = readers.compare(LINUX, BESIDE_COCCINELLE, cache)
    with capsys.disabled():
        print("\n" + compared.table())
    for kind, least in LEAST_SHARE.items():
        assert compared.share(kind) >= least, compared.only_coccinelle(kind)


def test_it_needs_no_coccinelle(wqsource, tmp_path):
    """A draft by the reader alone is that by Coccinelle."""
    words = ("draft", "--cache", tmp_path, "--tree", ROOT / "examples" / "rdisk", "rdisk.c")
    assert wqsource(*words).out == wqsource(*words, "--facts", "coccinelle").out


def test_types_that_are_kept_together(tmp_path):
    """Those of headers are the same from the cache, in the same order; of another text they are others."""
    said = progress.Progress()
    extractor = token_extract.TokenExtractor(tmp_path / "cache", said, extract.Extractor(tmp_path / "cache", 1, said))
    (tmp_path / "a.h").write_text("struct a {\n\tint n;\n\tstruct b *z, *y;\n};\n\nextern struct a *the_a;\n")
    (tmp_path / "b.h").write_text("typedef struct b b_t;\nstruct a *a_of(struct b *b);\nstruct b {\n\tstruct a *a;\n};\n")
    for _ in ("made", "kept"):
        types = extractor.types_together(tmp_path, ["a.h", "b.h"])
        assert types.members == {"a": {"n": "", "z": "b", "y": "b"}, "b": {"a": "a"}}
        assert list(types.members["a"]) == ["n", "z", "y"]
        assert (types.returned("a_of"), types.variable("the_a")) == ("a", "a")
    (tmp_path / "b.h").write_text("struct b {\n\tstruct c *a;\n};\n")
    assert extractor.types_together(tmp_path, ["a.h", "b.h"]).member("b", "a") == "c"
