"""Messages as a terminal shows them, and an output whose reader has left."""
from __future__ import annotations

import subprocess

import pytest
from conftest import APP, COMMAND, ran
from hypothesis import given, strategies as st
from terminals import Terminal

from telovamish.faults import folded

EXAMPLES = APP.parent.parent / "examples"
FAULT = """telovamish: line 1, column 3: unknown word 'xx'
  at=1 xx and a line that is longer than forty columns of a terminal
       ^
  expected client, session, request, register or create_accounts"""


def test_lines_break_between_words():
    assert (
        folded(FAULT, 40)
        == """telovamish: line 1, column 3: unknown
  word 'xx'
  at=1 xx and a line that is longer than forty columns of a terminal
       ^
  expected client, session, request,
    register or create_accounts"""
    )


@given(st.lists(st.from_regex("[a-z_]{1,12}", fullmatch=True), min_size=1), st.integers(30, 120))
def test_no_word_is_cut_and_none_is_lost(words, width):
    shown = folded(f"telovamish: {' '.join(words)}", width)
    assert shown.split() == ["telovamish:", *words]
    assert all(len(line) <= width for line in shown.split("\n"))


@pytest.mark.parametrize("columns", [40, 80])
def test_a_terminal_s_width(tbs, state, columns):
    it = Terminal(
        "--command", "lookup_accounts id=1 amount=2 led;", state=state,
        env={"TBS": tbs, "COLUMNS": str(columns)},
    )  # fmt: skip
    lines = it.rest().splitlines()
    assert max(map(len, lines)) <= columns and any("^" in line for line in lines), lines


@pytest.mark.parametrize("width", ["80", "40"])
def test_help_cuts_no_line(width):
    out = ran("--help", env={"COLUMNS": width})[1]
    assert b"..." not in out.split(b"Commands:")[1] or width == "40"


# who reads the output has left


@pytest.mark.parametrize(
    "form, given",
    [("requests", "first.script"), ("replies", "first.replies"), ("script", "first.text")],
)
def test_a_reader_that_has_left_is_no_fault(form, given):
    line = f"yes '' | head -c 0; cat {EXAMPLES}/{given} | {COMMAND} {form} | true; exit ${{PIPESTATUS[1]}}"
    it = subprocess.run(["bash", "-c", line], capture_output=True, timeout=60)
    assert (it.returncode in (0, 1), it.stderr) == (True, b"")


def test_a_reader_that_leaves_ends_a_run(tbs):
    with subprocess.Popen(
        [COMMAND, "run", "--program", tbs],
        stdin=subprocess.PIPE, stdout=subprocess.PIPE, stderr=subprocess.PIPE,
    ) as it:  # fmt: skip
        it.stdout.close()
        it.stdin.write(b"register;\n")
        it.stdin.close()
        assert (it.wait(60), it.stderr.read()) == (1, b"")


# what an encoding has not


def test_a_name_that_ascii_has_not(tbs, tmp_path):
    (tmp_path / "names.toml").write_text('[account]\n1 = "Zoë"\n', encoding="utf-8")
    text = "create_accounts id=1 ledger=7 code=1; lookup_accounts id=1;"
    env = {"TBS": tbs, "PYTHONIOENCODING": "ascii", "LC_ALL": "C"}
    words = ["run", "--names", str(tmp_path / "names.toml")]
    status, out, errors = ran(*words, given=text.encode(), env=env)
    assert (status, errors) == (0, "")
    assert b"1 Zo\\xeb" in out


# bytes and terminals


@pytest.mark.parametrize("form", ["script", "pairs"])
def test_bytes_are_not_written_to_a_terminal(state, form):
    it = Terminal(form, state=state)
    it.wait(f"{form} writes bytes, and not to a terminal")
    assert it.ended() == 2


@pytest.mark.parametrize("form", ["audit", "explain", "requests", "replies", "dump"])
def test_a_form_that_waits_for_typed_input_says_so(state, env, form):
    it = Terminal(form, state=state, env=env)
    it.wait(f"{form} reads standard input; Ctrl-D ends it")
    it.close()
