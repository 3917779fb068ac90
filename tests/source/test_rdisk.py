"""The driver of docs/GUIDE.md: its draft is its declaration, and one site to decide."""

import re

from conftest import ROOT

RDISK = ROOT / "examples" / "rdisk"


def flushes_of(text):
    """(word, item, target, FILE:LINE) of the flushes of a declaration, with the names of its work functions."""
    functions = dict(re.findall(r"^item (\w+) +# (\w+)$", text, re.M))
    return {
        (word, functions[item], functions[target], place)
        for word, item, target, place in re.findall(r"^(flush|flushwq) (\w+) (\w+) +# ([\w.]+:\d+) ", text, re.M)
    }


def test_draft_is_the_declaration_and_one_site(drafted):
    declared = flushes_of((RDISK / "rdisk.wq").read_text())
    assert len(declared) == 2
    found = drafted("rdisk.c", tree=RDISK)
    assert {(*line.split(), place) for line, place in found.flushes} == declared
    assert found.open == {("rdisk.c:18", "submit_bio_wait(rd->record)"): ({"rdisk_log"}, set())}
    # (nobody in the file queues rdisk_receive)
    assert found.items == {
        "rdisk_send": {"rdisk"},
        "rdisk_log": {"rdisk"},
        "rdisk_reconnect": {"rdisk"},
        "rdisk_receive": set(),
    }


def test_printed_draft(wqsource, tmp_path):
    """It has a `?` line, so wqplan refuses it; the item lines stand in the order of the source."""
    ran = wqsource("draft", "--assign", tmp_path / "out.assign", "rdisk.c", cwd=RDISK)
    lines = [line.partition("#")[0].strip() for line in ran.out.splitlines()]
    assert [line for line in lines if line and not line.startswith("?")] == [
        "item rdisk_send",
        "item rdisk_log",
        "item rdisk_reconnect",
        "item rdisk_receive",
        "flush? rdisk_send rdisk_log",
        "flush? rdisk_reconnect rdisk_send",
    ]
    assert [line for line in lines if line.startswith("?")] == [
        "? other rdisk.c:18 rdisk_log: submit_bio_wait(rd->record)"
    ]
    assert ran.status == 0 and ran.err == ""
    assigned = [line.partition("#") for line in (tmp_path / "out.assign").read_text().splitlines()]
    assert [before.strip() for before, _, _ in assigned if before] == [
        "wq 0 rdisk_send rdisk_log rdisk_reconnect",
        "? wq ? rdisk_receive",
    ]
    assert " rdisk, rdisk.c:47 rdisk_start, WQ_MEM_RECLAIM" in [after for _, _, after in assigned]


def test_audit_leaves_the_site(wqsource, tmp_path):
    """The declaration cites both waits. The third is left until a line dismisses it."""
    ran = wqsource("audit", "--decl", "rdisk.wq", "rdisk.c", cwd=RDISK)
    assert [line for line in ran.out.splitlines() if line.startswith("left:")] == [
        "left: rdisk.c:18 rdisk_log: submit_bio_wait(rd->record)  [other]"
    ]
    assert ran.status == 1
    decided = tmp_path / "rdisk.wq"
    decided.write_text(
        (RDISK / "rdisk.wq").read_text() + "# no wait: rdisk.c rdisk_log submit_bio_wait(rd->record): an interrupt\n"
    )
    ran = wqsource("audit", "--decl", decided, "rdisk.c", cwd=RDISK)
    assert "left:" not in ran.out and ran.status == 0
    assert "3 sites in reach: 2 cited, 1 dismissed, 0 left." in ran.out


def test_every_output_says_what_it_never_says(wqsource, tmp_path):
    for words in (
        ("audit", "--decl", "rdisk.wq"),
        ("draft",),
        ("drift", "--decl", "rdisk.wq", "--old", ".", "--new", "."),
    ):
        said = re.sub(r"\s+#?\s*", " ", wqsource(*words, "rdisk.c", cwd=RDISK).out)
        assert (
            "lists places that may wait, along the calls that it could resolve in the 1 file that it was given" in said
        )
        assert "It never says that these are all. Nothing here is proved." in said
