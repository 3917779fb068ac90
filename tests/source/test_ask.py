"""`ask`: which line it asks about, what it shows, and what becomes of the declaration by each answer."""

import contextlib
import os
import pty
import re
import signal
import stat
import subprocess

import programs
import pytest

from conftest import HOW_FAR, ROOT, Ran

# How long a whole dialogue may take.
SECONDS = 120
SOURCE = """\
static void r_log(struct work_struct *work)
{
	struct r *r = container_of(work, struct r, log_work);

	complete(&r->logged);
}

static void r_sent(struct r *r)
{
	wait_for_completion(&r->logged);
}

static void r_send(struct work_struct *work)
{
	struct r *r = container_of(work, struct r, send_work);

	r_sent(r);
}

static void r_retry(struct work_struct *work)
{
	struct r *r = container_of(work, struct r, retry_work);

	flush_work(&r->send_work);
	if (r->lost)
		complete(&r->logged);
}

void r_start(struct r *r)
{
	r->wq = alloc_workqueue("r", WQ_MEM_RECLAIM, 0);
	r->log_wq = alloc_workqueue("r_log", WQ_MEM_RECLAIM, 0);
	INIT_WORK(&r->log_work, r_log);
	INIT_WORK(&r->send_work, r_send);
	INIT_WORK(&r->retry_work, r_retry);
	queue_work(r->log_wq, &r->log_work);
	queue_work(r->wq, &r->send_work);
	queue_work(r->wq, &r->retry_work);
}
"""
RETRY = "flush? r_retry r_send  # flush r.c:24 r_retry: flush_work"
SEND = "flush? r_send r_retry  # done r.c:10 r_sent"
LOG = "flush? r_send r_log  # done r.c:10 r_sent"
SITE = "r.c r_sent wait_for_completion(&r->logged)"
DEPENDS = 4


@pytest.fixture
def drafted_files(wqsource, tmp_path):
    """The folder with the source, its draft and its assignment."""
    (tmp_path / "r.c").write_text(SOURCE)
    ran = wqsource("draft", "--tree", tmp_path, "--assign", tmp_path / "r.assign", "r.c")
    (tmp_path / "r.wq").write_text(ran.out)
    return tmp_path


class Talk:
    """`wqsource ask` at a terminal: what it writes, question by question."""

    def __init__(self, words, folder, env=None):
        self.master, slave = pty.openpty()
        command = [str(ROOT / "source" / "wqsource"), *map(str, words)]
        self.running = contextlib.ExitStack()
        pipes = {"stdin": slave, "stdout": subprocess.PIPE, "stderr": subprocess.PIPE}
        self.process = self.running.enter_context(programs.started(command, timeout=SECONDS, cwd=folder, env=env, **pipes))
        os.close(slave)

    def wait(self):
        """What it writes until it asks, or ends."""
        found = b""
        while not found.endswith(b"\n> ") and (read := os.read(self.process.stdout.fileno(), 1)):
            found += read
        return found.decode()

    def answer(self, text):
        os.write(self.master, text.encode() + b"\n")

    def end(self):
        """The end of the input, if it still asks; the status and what was written last."""
        out, err = self.process.communicate(timeout=SECONDS)
        self.running.close()
        os.close(self.master)
        return Ran(self.process.returncode, out.decode(), err.decode())


@pytest.fixture
def ask(wqplan, drafted_files):
    """ask(answers ..): all that it wrote, and its status. Behind the last answer the input ends."""

    def talk(*answers, words=("ask", "r.wq", "r.assign")):
        talking = Talk(words, drafted_files)
        said = talking.wait()
        for answer in answers:
            if not said.endswith("\n> "):
                break
            talking.answer(answer)
            said += talking.wait()
        if said.endswith("\n> "):
            os.write(talking.master, b"\x04")
        ran = talking.end()
        return Ran(ran.status, said + ran.out, ran.err)

    return talk


def questions(said):
    return re.findall(r"^Question \d+: is this so\?  (.*)$", said, re.M)


def changed(before, after):
    """The lines that are gone, and the new ones."""
    old, new = before.splitlines(), after.splitlines()
    return [line for line in old if line not in new], [line for line in new if line not in old]


def test_the_draft_has_three_unsure_lines(drafted_files):
    lines = (drafted_files / "r.wq").read_text().splitlines()
    assert sorted(line for line in lines if line.startswith("flush")) == sorted([RETRY, SEND, LOG])
    assert not any(line.startswith("?") for line in lines)


def test_without_a_terminal(wqsource, wqplan, drafted_files):
    """The next question, a status of its own, and nothing is written."""
    before = (drafted_files / "r.wq").read_bytes()
    ran = wqsource("ask", "r.wq", "r.assign", cwd=drafted_files)
    assert ran.status == DEPENDS and len(questions(ran.out)) == 1 and ran.err == ""
    assert "\n> " not in ran.out and ran.out.endswith("It depends still: 3 lines are unsure. Ask again to go on.\n")
    assert (drafted_files / "r.wq").read_bytes() == before
    assert os.listdir(drafted_files).count("r.wq.new") == 0


def test_what_a_question_shows(ask, drafted_files):
    """The line, the hang, the way with its source lines, the lines around the wait, and what may end it."""
    text = (drafted_files / "r.wq").read_text()
    (drafted_files / "r.wq").write_text(text.replace(RETRY, "# no wait: r.c r_retry flush_work(&r->send_work): a test"))
    said = ask().out
    assert questions(said) == ["flush? r_send r_retry"]
    number = (drafted_files / "r.wq").read_text().splitlines().index(SEND) + 1
    assert f"  r.wq:{number}: {SEND}\n" in said
    assert "  With this line it can hang:\n    r_send, on workqueue 1, waits for r_retry  (not sure)\n" in said
    assert "  r.c:10 r_sent: wait_for_completion(&r->logged)\n" in said
    assert "    the way there, from r_send:\n      r.c:17 r_send: r_sent(r);\n" in said
    assert "    >    10     wait_for_completion(&r->logged);\n         11 }\n" in said
    assert "      r_retry, at r.c:26 r_retry: complete(&r->logged);\n      r_log, at r.c:5 r_log: complete" in said
    assert "\n  n WHY   it isn't so: not for r_retry\n" in said
    assert "\n  ni WHY  r_send doesn't wait there: decides 1 unsure line more\n  c       a call " in said


def test_sure(ask, drafted_files):
    """The `?` goes, nothing else changes, and the workqueues hang for sure."""
    before = (drafted_files / "r.wq").read_text()
    ran = ask("y")
    gone, new = changed(before, (drafted_files / "r.wq").read_text())
    assert gone in ([RETRY], [SEND]) and new == [gone[0].replace("flush?", "flush")]
    assert ran.status == 1 and "hangs for sure, whatever the 2 unsure lines left turn out to be:\n" in ran.out
    _, _, run = ran.out.partition("\nrun ")
    assert run.splitlines()[0] == "4" and len(run.splitlines()) == 5
    # (and it says so again)
    assert ask().out == ran.out[ran.out.index("\nhangs for sure") :]


def test_not_so(ask, drafted_files, wqsource):
    """A `# no wait` line takes its place: of the item alone if others wait there, and for the target alone if the item does."""
    before = (drafted_files / "r.wq").read_text()
    ran = ask("n it is   never lost", "n it is never lost", "n it is never lost")
    assert sorted(questions(ran.out)) == ["flush? r_retry r_send", "flush? r_send r_retry"]
    gone, new = changed(before, (drafted_files / "r.wq").read_text())
    assert sorted(gone) == sorted([RETRY, SEND])
    assert sorted(new) == [
        "# no wait of r_send for r_retry: " + SITE + ": it is never lost",
        "# no wait: r.c r_retry flush_work(&r->send_work): it is never lost",
    ]
    assert ran.status == 0 and "safe whatever the 1 unsure line left turns out to be\n" in ran.out
    # each of these lines is needed, and one line is still unsure
    ran = wqsource("audit", "--decl", "r.wq", cwd=drafted_files)
    assert ran.status == 1 and "unsure: 1 line is, from r.wq:" in ran.out
    assert "r.wq:" not in ran.out.partition("unsure: ")[0].partition("# wqsource: r.wq")[2] and "left:" not in ran.out
    made_sure = (drafted_files / "r.wq").read_text().replace("flush?", "flush")
    (drafted_files / "r.wq").write_text(made_sure)
    assert wqsource("audit", "--decl", "r.wq", "--each-item", cwd=drafted_files).status == 0


def test_a_line_with_two_places(ask, drafted_files):
    """Each has a line of its own: for this target alone only where another line of the item waits, too."""
    text = (drafted_files / "r.wq").read_text().replace(RETRY, "# no wait of r_retry: r.c r_retry flush_work(*): a test")
    (drafted_files / "r.wq").write_text(text.replace(SEND, SEND + ", flush r.c:24 r_retry"))
    before = (drafted_files / "r.wq").read_text()
    ran = ask("n never")
    gone, new = changed(before, (drafted_files / "r.wq").read_text())
    assert questions(ran.out) == ["flush? r_send r_retry"] and len(gone) == 1
    assert new == [
        "# no wait of r_send for r_retry: " + SITE + ": never",
        "# no wait of r_send: r.c r_retry flush_work(&r->send_work): never",
    ]


@pytest.mark.parametrize("word", ["ni", "na"])
def test_nobody_waits_there(ask, drafted_files, wqsource, word):
    """All unsure lines of the site go, and one line dismisses it: no other item comes there."""
    text = (drafted_files / "r.wq").read_text()
    (drafted_files / "r.wq").write_text(text.replace(RETRY, "# no wait: r.c r_retry flush_work(&r->send_work): a test"))
    before = (drafted_files / "r.wq").read_text()
    ran = ask(f"{word} an interrupt ends it")
    gone, new = changed(before, (drafted_files / "r.wq").read_text())
    assert sorted(gone) == sorted([SEND, LOG]) and new == [f"# no wait: {SITE}: an interrupt ends it"]
    assert ran.status == 0 and ran.out.endswith("\nsafe\n")
    assert wqsource("audit", "--decl", "r.wq", cwd=drafted_files).status == 0


@pytest.mark.parametrize("word,comments", [
    ("ni", ["# no wait of r_retry: " + SITE + ": never"]),
    ("na", ["# no wait: " + SITE + ": never"]),
])
def test_an_item_that_does_not_wait_where_others_do(ask, drafted_files, wqsource, word, comments):
    """r_retry waits as r_send does, for r_log, itself or r_send's end."""
    source = SOURCE.replace("\tflush_work(&r->send_work);\n", "\tr_sent(r);\n")
    (drafted_files / "r.c").write_text(source)
    before = wqsource("draft", "--tree", drafted_files, "r.c").out
    (drafted_files / "r.wq").write_text(before)
    ran = ask(f"{word} never", "q")
    gone, new = changed(before, (drafted_files / "r.wq").read_text())
    asked = questions(ran.out)[0].split()[1]
    assert new == [comment.replace("r_retry", asked) for comment in comments]
    assert len(gone) == (2 if word == "ni" else 4) and all(word == "na" or line.split()[1] == asked for line in gone)
    audited = wqsource("audit", "--decl", "r.wq", cwd=drafted_files).out
    assert "left:" not in audited and "says it waits at" not in audited


# Of each site, who waits there and who may end it: r_send and r_retry, and r_log and r_retry.
SHARED = SOURCE.replace("\tflush_work(&r->send_work);\n", "\tr_sent(r);\n")


@pytest.fixture
def shared(drafted_files, wqsource):
    """The draft of the source in which two items come to one site."""
    (drafted_files / "r.c").write_text(SHARED)
    text = wqsource("draft", "--tree", drafted_files, "r.c").out
    (drafted_files / "r.wq").write_text(text)
    return text


def test_who_alone_may_end_it(ask, drafted_files, shared, wqsource):
    """The unsure lines for others go, whoever waits; those for the ones that are named stay unsure."""
    ran = ask("o r_log: r_retry  never signals it")
    assert "\n  o TARGET..: WHY  whoever waits there, only these may end it: the unsure lines for others go\n" in ran.out
    assert "> 2 unsure lines were for others, and are gone\n\nsafe whatever the 2 unsure lines left turn out to be\n" in ran.out
    gone, new = changed(shared, (drafted_files / "r.wq").read_text())
    assert sorted(line.partition("  #")[0] for line in gone) == ["flush? r_retry r_retry", "flush? r_send r_retry"]
    assert [sorted(re.search("of (.*) for", line)[1].split()) for line in new] == [["r_retry", "r_send"]]
    assert new[0].endswith(f" for r_retry: {SITE}: r_retry never signals it")
    ran = wqsource("audit", "--decl", "r.wq", cwd=drafted_files)
    assert ran.status == 1 and "1 site in reach: 1 cited, 0 dismissed, 0 left." in ran.out
    assert "look at" not in ran.out and "unsure: 2 lines" in ran.out


def test_an_item_that_waits_for_others_alone(ask, drafted_files, shared):
    """An item that has no line left there doesn't wait there at all."""
    [line] = [line for line in shared.splitlines(True) if line.startswith("flush? r_retry r_log")]
    (drafted_files / "r.wq").write_text(shared.replace(line, ""))
    ask("o r_log: never")
    _, new = changed(shared, (drafted_files / "r.wq").read_text())
    assert new == [f"# no wait of r_send for r_retry: {SITE}: never", f"# no wait of r_retry: {SITE}: never"]


def test_the_line_of_the_question_stays_if_its_target_may_end_it(ask, drafted_files, shared):
    ran = ask("o r_retry: r_log is for somebody else", "q")
    before, after = (line for line in questions(ran.out))
    gone, new = changed(shared, (drafted_files / "r.wq").read_text())
    assert before == after and all(line.startswith(("flush? r_send r_log", "flush? r_retry r_log")) for line in gone) and len(new) == 1
    lines = (drafted_files / "r.wq").read_text().splitlines()
    assert lines[lines.index(new[0]) + 1].startswith(before)


@pytest.mark.parametrize("answer,said", [
    ("o", "say which ones, and why: o TARGET..: WHY, of "),
    ("o r_log", "say which ones, and why: o TARGET..: WHY, of "),
    ("o : never", "say which ones, and why: o TARGET..: WHY, of "),
    ("o r_log:  ", "say which ones, and why: o TARGET..: WHY, of "),
    ("o r_send: never", "no unsure line there is for r_send: they are for "),
])
def test_who_is_none_that_may_end_it(ask, drafted_files, shared, answer, said):
    ran = ask(answer)
    assert f"\n> {said}" in ran.out and ran.status == DEPENDS
    assert (drafted_files / "r.wq").read_text() == shared


def test_a_sure_wait_for_another_one(ask, drafted_files, shared):
    [line] = [line for line in shared.splitlines() if line.startswith("flush? r_send r_log")]
    text = shared.replace(line, line.replace("flush?", "flush"))
    (drafted_files / "r.wq").write_text(text)
    ran = ask("o r_retry: never", "q")
    assert re.search(r"^> line \d+ says for sure that an item waits there for another one: take that away first", ran.out, re.M)
    assert (drafted_files / "r.wq").read_text() == text


def test_a_site_at_which_an_item_waits_for_sure(ask, drafted_files):
    """Then not everybody there can be denied."""
    text = (drafted_files / "r.wq").read_text()
    (drafted_files / "r.wq").write_text(text.replace(LOG, LOG.replace("?", "")).replace(RETRY, ""))
    ran = ask("ni nobody", "na nobody")
    assert "  ni WHY" not in ran.out and "  na WHY" not in ran.out and re.search(r"^> line \d+ says for sure that an item waits there", ran.out, re.M)
    assert ran.status == DEPENDS


def test_later(ask, drafted_files):
    """Another line is asked about, as long as there is one; nothing is written."""
    before = (drafted_files / "r.wq").read_bytes()
    ran = ask("s", "s", "s")
    assert sorted(questions(ran.out)) == ["flush? r_retry r_send", "flush? r_send r_retry"]
    assert ran.status == DEPENDS and (drafted_files / "r.wq").read_bytes() == before


def test_no_more_questions(ask, drafted_files):
    assert ask("q").status == DEPENDS
    assert ask().status == DEPENDS
    ran = ask("n it is never lost", "q")
    assert ran.status == DEPENDS and "2 lines are unsure" in ran.out
    assert "it is never lost" in (drafted_files / "r.wq").read_text()


@pytest.mark.parametrize("answer,said", [("n", "say why"), ("na", "say why"), ("N", "y, n"), ("x", "y, n WHY, s or q"), ("", "y, n"), ("y y", "y, n")])
def test_what_is_no_answer(ask, drafted_files, answer, said):
    before = (drafted_files / "r.wq").read_bytes()
    ran = ask(answer)
    assert said in ran.out.rpartition("\n> ")[0].rpartition("> ")[2] and ran.status == DEPENDS
    assert (drafted_files / "r.wq").read_bytes() == before


def test_a_line_without_a_place(ask, drafted_files):
    """No source is needed. What isn't so remains as a comment that decides nothing."""
    (drafted_files / "r.wq").write_text("item a\nitem b\nflush? a b  # by hand\n  flush? b a\n")
    (drafted_files / "r.assign").write_text("wq 0 a b\n")
    ran = ask("n never", "n not either")
    assert ran.status == 0 and ran.out.endswith("\nsafe\n")
    assert sorted((drafted_files / "r.wq").read_text().splitlines()[2:]) == [
        "#flush? a b  # by hand; not so: never",
        "#flush? b a  # not so: not either",
    ]


def test_lines_of_the_same_words(ask, drafted_files):
    """Each is asked about by itself."""
    (drafted_files / "r.wq").write_text("item a\nitem b\nflush? a b  # first\nflush? a b  # second\n")
    (drafted_files / "r.assign").write_text("wq 0 a b\n")
    ran = ask("n never", "y")
    assert ran.status == 1 and questions(ran.out) == ["flush? a b"] * 2
    text = (drafted_files / "r.wq").read_text()
    assert text == "item a\nitem b\n#flush? a b  # first; not so: never\nflush a b  # second\n"
    (drafted_files / "r.wq").write_text("item a\nitem b\nflush? a b  # first\nflush? a b  # second\n")
    assert questions(ask("s").out) == ["flush? a b"] * 2


def test_lines_that_must_be_decided_before(ask, drafted_files):
    text = (drafted_files / "r.wq").read_text()
    (drafted_files / "r.wq").write_text(text + "? other r.c:10 r_sent: x()\n? other r.c:10 r_sent: y()\n")
    ran = ask()
    at = text.count("\n") + 1
    assert ran.status == 3 and f"refused 4 line {at}: 2 lines to decide first, from line {at} on" in ran.err


def test_without_the_program(wqsource, drafted_files):
    ran = wqsource("ask", "r.wq", "r.assign", cwd=drafted_files, env={**os.environ, "WQPLAN": "/none/wqplan"})
    assert ran.status == 3 and "/none/wqplan" in ran.err and ran.out == ""


def test_an_interrupt_loses_no_answer(wqplan, drafted_files):
    """^C at a question: what was answered before is in the declaration, which is whole."""
    before = (drafted_files / "r.wq").read_text()
    talking = Talk(("ask", "r.wq", "r.assign"), drafted_files)
    assert talking.wait().endswith("\n> ")
    talking.answer("n it is never lost")
    assert talking.wait().endswith("\n> ")
    os.killpg(talking.process.pid, signal.SIGINT)
    ran = talking.end()
    assert ran.status == -signal.SIGINT and "Traceback" not in ran.err
    gone, new = changed(before, (drafted_files / "r.wq").read_text())
    assert len(gone) == len(new) == 1 and new[0].endswith(": it is never lost")
    assert not (drafted_files / "r.wq.new").exists()


def test_a_declaration_that_somebody_changes_meanwhile(wqplan, drafted_files):
    """Both changes are kept, if the line is still there; else the answer is told, and asked again."""
    talking = Talk(("ask", "r.wq", "r.assign"), drafted_files)
    line = RETRY if questions(talking.wait()) == ["flush? r_retry r_send"] else SEND
    text = (drafted_files / "r.wq").read_text()
    (drafted_files / "r.wq").write_text("# by another hand\n" + text)
    talking.answer("n never")
    said = talking.wait()
    now = (drafted_files / "r.wq").read_text()
    assert now.startswith("# by another hand\n") and line not in now and ": never\n" in now
    other = SEND if line == RETRY else RETRY
    (drafted_files / "r.wq").write_text(now.replace(other, "# taken away"))
    talking.answer("n nor that")
    said += talking.wait()
    ran = talking.end()
    assert "'n nor that' wasn't taken" in said + ran.out and ran.status == 0
    assert "nor that" not in (drafted_files / "r.wq").read_text()


def test_the_file_stays_what_it_was(ask, drafted_files):
    """A link remains one, and the mode and bytes that are no UTF-8 stay."""
    text = (drafted_files / "r.wq").read_bytes() + b"# \xff\n"
    (drafted_files / "there.wq").write_bytes(text)
    os.chmod(drafted_files / "there.wq", 0o640)
    (drafted_files / "r.wq").unlink()
    (drafted_files / "r.wq").symlink_to("there.wq")
    assert ask("n never", "q").status == DEPENDS
    assert (drafted_files / "r.wq").is_symlink() and stat.S_IMODE(os.stat(drafted_files / "there.wq").st_mode) == 0o640
    now = (drafted_files / "there.wq").read_bytes()
    assert now != text and now.endswith(b"# \xff\n")


def test_bytes_that_are_no_utf_8(wqplan, drafted_files):
    """They are printed as they are, in a locale that is strict about them as well."""
    (drafted_files / "r.wq").write_bytes(b"item a\nitem b\nflush? a b  # \xff\n")
    (drafted_files / "r.assign").write_text("wq 0 a b\n")
    env = {**os.environ, "PYTHONIOENCODING": "utf-8:strict"}
    command = [str(ROOT / "source" / "wqsource"), "ask", "r.wq", "r.assign"]
    ran = programs.run(command, cwd=drafted_files, env=env, capture_output=True)
    assert (ran.returncode, HOW_FAR.sub("", ran.stderr.decode())) == (DEPENDS, "")
    assert b"  r.wq:3: flush? a b  # \xff\n" in ran.stdout


# r_send comes to r_sent by itself, and by r_again
TWICE = SOURCE.replace("static void r_send(", """\
static void r_again(struct r *r)
{
	r_sent(r);
}

static void r_send(""").replace("\tr_sent(r);\n}\n\nstatic void r_retry", "\tr_sent(r);\n\tr_again(r);\n}\n\nstatic void r_retry")


@pytest.fixture
def one_site(drafted_files):
    """The draft without the flush of r_retry."""
    text = (drafted_files / "r.wq").read_text().replace(RETRY, "# no wait: r.c r_retry flush_work(&r->send_work): a test")
    (drafted_files / "r.wq").write_text(text)
    return text


@pytest.fixture
def two_ways(drafted_files, wqsource):
    """The same of the source in which two calls lead to the site."""
    (drafted_files / "r.c").write_text(TWICE)
    text = wqsource("draft", "--tree", drafted_files, "r.c").out
    [retry] = [line for line in text.splitlines() if line.startswith("flush? r_retry r_send")]
    text = text.replace(retry, "# no wait: r.c r_retry flush_work(&r->send_work): a test")
    (drafted_files / "r.wq").write_text(text)
    return text


@pytest.mark.parametrize("word,comment", [
    ("c", "# no wait: r.c r_send r_sent(r): nothing is sent"),
    ("cf", "# not through: r.c r_sent: nothing is sent"),
])
def test_a_call_of_the_way_is_cut(ask, drafted_files, one_site, wqsource, word, comment):
    """It is shown with its number, and how much it decides; all lines that lead only through it go."""
    ran = ask("c", f"{word} 1", f"{word} 1 nothing  is sent")
    assert "\n  c       a call of the way never leads there: shows these calls by number\n" in ran.out
    assert "> " + "    1  r.c:17 r_send: r_sent(r);\n       leads to r.c r_sent\n" in ran.out
    assert f"\ntake one: c N WHY\n> decides 2 unsure lines: say why, in a few words: {word} 1 WHY\n" in ran.out
    assert "> 2 unsure lines led only through it, and are gone\n\nsafe\n" in ran.out and ran.status == 0
    gone, new = changed(one_site, (drafted_files / "r.wq").read_text())
    assert sorted(gone) == sorted([SEND, LOG]) and new == [comment]
    # the line is a comment that `audit` reads, and nothing is left
    assert wqsource("audit", "--decl", "r.wq", cwd=drafted_files).status == 0


def test_a_site_with_another_way(ask, drafted_files, two_ways, wqsource):
    """No line goes, and the other way is shown; with that one cut, too, the lines go."""
    ran = ask("c", "c 1 not then", "q")
    assert "> no unsure line led only through it: there is another way\n" in ran.out and ran.status == DEPENDS
    assert questions(ran.out) == ["flush? r_send r_retry"] * 2
    gone, new = changed(two_ways, (drafted_files / "r.wq").read_text())
    assert gone == [] and new == ["# no wait: r.c r_send r_sent(r): not then"]
    ran = ask("c", "c 1 nor then")
    assert "from r_send:\n      r.c:23 r_send: r_again(r);\n      r.c:15 r_again: r_sent(r);\n" in ran.out
    assert "> 2 unsure lines led only through it, and are gone\n\nsafe\n" in ran.out
    gone, new = changed(two_ways, (drafted_files / "r.wq").read_text())
    assert len(gone) == 2 and new[1] == "# no wait: r.c r_send r_again(r): nor then"
    assert wqsource("audit", "--decl", "r.wq", cwd=drafted_files).status == 0


def test_a_function_that_two_ways_lead_to(ask, drafted_files, two_ways):
    """One answer is enough."""
    ran = ask("c", "cf 1 nothing is sent")
    assert "> 2 unsure lines led only through it, and are gone\n\nsafe\n" in ran.out
    assert changed(two_ways, (drafted_files / "r.wq").read_text())[1] == ["# not through: r.c r_sent: nothing is sent"]


def test_other_items_behind_a_function(ask, drafted_files, wqsource):
    """The call of one item is cut, and the lines of the other stay; with its function theirs go, too."""
    (drafted_files / "r.c").write_text(SOURCE.replace("\tflush_work(&r->send_work);\n", "\tr_sent(r);\n"))
    before = wqsource("draft", "--tree", drafted_files, "r.c").out
    for word, lines in ("c", 2), ("cf", 4):
        (drafted_files / "r.wq").write_text(before)
        ran = ask("c", f"{word} 1 never", "q")
        gone, _ = changed(before, (drafted_files / "r.wq").read_text())
        asked = questions(ran.out)[0].split()[1]
        assert len(gone) == lines and (word == "cf" or all(line.split()[1] == asked for line in gone))


@pytest.mark.parametrize("answers,said", [
    (["c 1 never"], "take one: c N WHY"),
    (["c", "c 0 never"], "a number of 1 to 1, and why: c N WHY"),
    (["c", "cf 2 never"], "a number of 1 to 1, and why: cf N WHY"),
    (["c", "c never"], "a number of 1 to 1, and why: c N WHY"),
])
def test_what_is_no_call_of_the_way(ask, drafted_files, one_site, answers, said):
    """Nothing is written: a number counts only once the calls were shown."""
    ran = ask(*answers)
    assert f"{said}\n> " in ran.out and ran.status == DEPENDS
    assert (drafted_files / "r.wq").read_text() == one_site


def test_a_wait_that_no_call_leads_to(ask, drafted_files):
    (drafted_files / "r.wq").write_text((drafted_files / "r.wq").read_text().replace(SEND, ""))
    before = (drafted_files / "r.wq").read_bytes()
    ran = ask("c")
    assert questions(ran.out) == ["flush? r_retry r_send"] and "  c   " not in ran.out
    assert "> no call leads there: n WHY\n> " in ran.out
    assert (drafted_files / "r.wq").read_bytes() == before


def test_a_call_behind_which_an_item_waits_for_sure(ask, drafted_files, one_site):
    """Then it can't be cut: that would contradict the line."""
    text = one_site.replace(LOG, LOG.replace("?", ""))
    (drafted_files / "r.wq").write_text(text)
    number = text.splitlines().index(LOG.replace("?", "")) + 1
    ran = ask("c", "c 1 never")
    assert f"line {number} says for sure that an item waits behind it: take that away first\n" in ran.out
    assert ran.status == DEPENDS and (drafted_files / "r.wq").read_text() == text


def test_an_interrupt_behind_a_cut(wqplan, drafted_files, two_ways):
    """What was cut is in the declaration, and every line is."""
    talking = Talk(("ask", "r.wq", "r.assign"), drafted_files)
    for answer in ("c", "c 1 not then"):
        assert talking.wait().endswith("\n> ")
        talking.answer(answer)
    assert talking.wait().endswith("\n> ")
    os.killpg(talking.process.pid, signal.SIGINT)
    assert talking.end().status == -signal.SIGINT
    assert changed(two_ways, (drafted_files / "r.wq").read_text()) == ([], ["# no wait: r.c r_send r_sent(r): not then"])
    assert not (drafted_files / "r.wq.new").exists()


def test_a_cut_of_what_somebody_changes_meanwhile(wqplan, drafted_files, one_site):
    """Both changes are kept."""
    talking = Talk(("ask", "r.wq", "r.assign"), drafted_files)
    talking.wait()
    talking.answer("c")
    talking.wait()
    (drafted_files / "r.wq").write_text("# by another hand\n" + one_site)
    talking.answer("c 1 never")
    assert "2 unsure lines led only through it" in talking.wait() and talking.end().status == 0
    gone, new = changed(one_site, (drafted_files / "r.wq").read_text())
    assert len(gone) == 2 and new == ["# by another hand", "# no wait: r.c r_send r_sent(r): never"]


# NAMEs: a waits for b behind it, c for d behind it, and n, on a workqueue of its own, for c. x has no rescuer.
NAMED = "item a\nitem b\nitem c\nitem d\nitem n\nitem x\nflush? a b\nflush? c d\nflush? n c\n"
ON = "wq 0 a b\nwq 1 c d\nwq 2 n\nnorescuer 3 x\n"


@pytest.fixture
def named(ask, drafted_files):
    """named(NAMEs, answers ..): what is asked about NAMEd items of the small declaration, which cites no source."""
    (drafted_files / "r.wq").write_text(NAMED)
    (drafted_files / "r.assign").write_text(ON)
    return lambda names, *answers: ask(*answers, words=("ask", "r.wq", "r.assign", *(["--needed", *names.split()] if names else [])))


def test_what_matters_without_names(named, drafted_files):
    """The two circles, and not the way of n to one of them."""
    ran = named("", "n never", "n never")
    assert questions(ran.out) == ["flush? a b", "flush? c d"]
    assert ran.status == 0 and ran.out.endswith("\nsafe whatever the 1 unsure line left turns out to be\n")


def test_what_matters_to_a_name(named, drafted_files):
    """The circle that n waits for, and its way there; and not the other circle."""
    ran = named("n", "y", "y")
    assert questions(ran.out) == ["flush? c d", "flush? n c"]
    both = "    n, on workqueue 2, waits for c  (not sure)\n    c, on workqueue 1, waits for d"
    assert f"\n  n can be held up with this and 1 more:\n{both}  (not sure)\n" in ran.out
    assert f"\n  n can be held up with this line:\n{both}\n" in ran.out
    assert ran.status == 1 and ran.out.endswith("""
hangs for sure, whatever the 1 unsure line left turns out to be. n is held up:
  n, on workqueue 2, waits for c
  c, on workqueue 1, waits for d
run 7
queue n
queue c
queue d
start 2 n
wait 2 c
start 1 c
wait 1 d
""")
    text = NAMED.replace("flush? c d", "flush c d").replace("flush? n c", "flush n c")
    assert (drafted_files / "r.wq").read_text() == text


def test_what_holds_up_no_name(named):
    """One line is enough, though without a NAME it still depends on another."""
    ran = named("n", "n never")
    assert questions(ran.out) == ["flush? c d"] and ran.status == 0
    said, _, notes = ran.out.partition("\nsafe whatever the 2 unsure lines left turn out to be: nothing holds up n\n")
    assert said and all(line.startswith("note: ") for line in notes.splitlines())
    assert questions(named("").out) == ["flush? a b"]


def test_a_name_that_is_behind_who_waits(named):
    ran = named("b", "y")
    assert questions(ran.out) == ["flush? a b"]
    assert "\n  b can be held up with this line:\n    b, on workqueue 0, is behind a\n    a, on workqueue 0, waits for b  (not sure)\n" in ran.out
    assert ran.out.endswith("""
hangs for sure, whatever the 2 unsure lines left turn out to be. b is held up:
  b, on workqueue 0, is behind a
  a, on workqueue 0, waits for b
run 4
queue a
queue b
start 0 a
wait 0 b
""")


def test_which_of_several_names(named):
    """For d one line is enough, for n two are; once it isn't so, neither is held up."""
    ran = named("n d n", "n never")
    assert questions(ran.out) == ["flush? c d"] and ran.status == 0
    assert "\n  d can be held up with this line:\n    d, on workqueue 1, is behind c\n    c, on workqueue 1, waits for d  (not sure)\n" in ran.out
    assert "\nsafe whatever the 2 unsure lines left turn out to be: nothing holds up n, d\n" in ran.out


def test_a_name_that_waits_and_one_behind_another(ask, drafted_files):
    """a and c wait in a circle, and d is behind c: whichever of a and d the run is for, a waits itself."""
    (drafted_files / "r.wq").write_text("item a\nitem c\nitem d\nflush? a d\nflush? c a\n")
    (drafted_files / "r.assign").write_text("wq 0 a\nwq 1 c d\n")
    for names in (("a", "d"), ("d", "a")):
        _, _, said = ask("q", words=("ask", "r.wq", "r.assign", "--needed", *names)).out.partition("\n  a can be held up with this and 1 more:\n")
        assert sorted(said.splitlines()[:2]) == [
            "    a, on workqueue 0, waits for d  (not sure)",
            "    c, on workqueue 1, waits for a  (not sure)",
        ]


def test_a_name_without_a_rescuer(named, drafted_files):
    """It is held up whatever the lines turn out to be: nothing is asked."""
    assert named("n x") == named("x") == Ran(1, """
hangs for sure, whatever the 3 unsure lines left turn out to be. x is held up:
  x is on a workqueue without a rescuer: nothing guarantees that it runs
run 1
queue x
""", "")


def test_a_way_in_the_source_to_what_is_named(ask, drafted_files):
    """The source is shown as without NAMEs. r_log waits for nothing, so nothing of the draft is asked for it."""
    ran = ask("s", words=("ask", "r.wq", "r.assign", "--needed", "r_send"))
    assert sorted(questions(ran.out)) == ["flush? r_retry r_send", "flush? r_send r_retry"] and ran.status == DEPENDS
    assert "\n  r_send can be held up with this line:\n" in ran.out and "    the wait:\n" in ran.out
    ran = ask(words=("ask", "--needed", "r_log", "--", "r.wq", "r.assign", "r.c"))
    assert ran.status == 0 and ran.out.startswith("\nsafe whatever the 3 unsure lines left turn out to be: nothing holds up r_log\n")


@pytest.fixture
def program(wqplan, drafted_files, monkeypatch):
    """program(text): a script that is asked in place of wqplan."""

    def put(text):
        path = drafted_files / "asked"
        path.write_text("#!/bin/sh\n" + text)
        path.chmod(0o755)
        monkeypatch.setenv("WQPLAN", str(path))

    return put


@pytest.mark.parametrize("names,words", [("n a", "hang r.assign -- n a"), ("", "hang r.assign")])
def test_each_question_has_the_names(named, program, wqplan, drafted_files, names, words):
    """The first one, those without lines that are put off, and those about what was written."""
    program(f'(word=$1; shift 2; echo "$word $*") >>{drafted_files}/words\nexec {wqplan} "$@"\n')
    assert named(names, "s", "y", "q").status in (1, DEPENDS)
    found = (drafted_files / "words").read_text().splitlines()
    assert len(found) > 3 and set(found) == {words}


NOTES = """\
note: nothing on the workqueue of `n` declares a flush. Does reclaim wait for its end, or for what another item does?
note: nothing holds up what is named; other items can hang: ask without a NAME
"""


def test_notes_beside_safe(named, program):
    """Those that are about NAMEs are passed on."""
    lines = ["note: safe whatever the 3 unsure lines turn out to be", *NOTES.splitlines()]
    program("echo safe\n" + "".join(f"echo '{line}' | sed \"s|^|$2: |\" >&2\n" for line in lines))
    safe = "\nsafe whatever the 3 unsure lines left turn out to be"
    assert named("n") == Ran(0, f"{safe}: nothing holds up n\n{NOTES}", "")
    assert named("") == Ran(0, f"{safe}\n", "")


def test_a_name_with_a_dash(ask, drafted_files):
    (drafted_files / "r.wq").write_text("item -a\nitem --\nflush -a --\n")
    (drafted_files / "r.assign").write_text("wq 0 -a --\n")
    ran = ask(words=("ask", "r.wq", "r.assign", "--needed=-a"))
    assert ran.status == 1 and ran.out.startswith("\nhangs for sure. -a is held up:\n  -a, on workqueue 0, waits for --\nrun 4\n")
    ran = ask(words=("ask", "r.wq", "r.assign", "--needed=--", "--needed=-a"))
    assert ran.status == 1 and ran.out.startswith("\nhangs for sure. -a is held up:\n")


@pytest.mark.parametrize("words,said", [
    (("r.wq", "r.assign", "--needed", "r_send", "r_sent"), "r.wq: no item `r_sent` is declared"),
    (("r.wq", "r.assign", "r_send"), "r_send is an item, and was taken for a file: write `--needed r_send`"),
    (("r.wq", "r.assign", "r_sent"), "r_sent: no such file"),
])
def test_what_is_no_name(wqsource, wqplan, drafted_files, words, said):
    assert wqsource("ask", *words, cwd=drafted_files) == Ran(3, "", f"wqsource: {said}\n")
