"""What Coccinelle can't parse it leaves out, and so does the model. The calls are found by their names."""

from conftest import C_FILES
from csource.backstop import missed_calls
from csource.tables import Waits


def test_swallowed_functions(read, wqsource):
    program = read(C_FILES, ["swallowed.c"])
    # Coccinelle has neither function ..
    assert {function.name for function in program.facts.definitions} == {"sw_end", "sw_init"}
    # .. and both calls are told, as well as the items whose functions are missing
    missed = {
        (call.place.line, call.place.function, call.call, call.argument)
        for call in missed_calls(program.facts, Waits())
    }
    assert missed == {
        (7, "sw_first", "wait_for_completion", "&s->done"),
        (15, "sw_second", "cancel_work_sync", "&s->end_work"),
    }
    said = wqsource("draft", "--tree", C_FILES, "swallowed.c").out
    assert "? item swallowed.c:24 sw_init" in said and "? item swallowed.c:25 sw_init" in said
    assert "? not parsed swallowed.c:7 sw_first" in said and "? not parsed swallowed.c:15 sw_second" in said


def test_left_until_dismissed(wqsource, tmp_path):
    declaration = tmp_path / "sw.wq"
    declaration.write_text("item sw_end\n")
    ran = wqsource("audit", "--decl", declaration, "--tree", C_FILES, "swallowed.c")
    assert ran.status == 1 and ran.out.count("not parsed: ") == 2
    declaration.write_text(
        "item sw_end\n"
        "# no item: swallowed.c sw_init: their functions couldn't be parsed\n"
        "# no wait: swallowed.c sw_first wait_for_completion(&s->done): a test\n"
        "# no wait: swallowed.c sw_second cancel_work_sync(&s->end_work): a test\n"
    )
    ran = wqsource("audit", "--decl", declaration, "--tree", C_FILES, "swallowed.c")
    assert ran.status == 0 and "not parsed" not in ran.out


def test_nothing_is_missed_where_all_is_parsed(read):
    files = [file.name for file in C_FILES.glob("*.c") if file.name != "swallowed.c"]
    assert len(files) > 10
    for file in files:
        assert list(missed_calls(read(C_FILES, [file]).facts, Waits())) == []
