"""How a check counts what its parts print: tools/parts.py."""

import pytest
from parts import MOST, PYTEST, Counts, Part, by_status, closing_line, ended, failures, go_counts
from parts import java_counts, node_counts, pytest_counts, run, settled, summed

GO = "=== RUN A\n--- PASS: A (0.0s)\n    --- PASS: A/b (0.0s)\n--- FAIL: C (0s)\n--- SKIP: D (0s)\n"
COUNTED = {
    "a closing line": (closing_line, "2 passed, 1 failed\nx\n30 passed, 4 failed, 5 more\n", 30, 4),
    "pytest": (
        pytest_counts,
        "1 failed here\n2 failed, 7 passed, 1 skipped, 3 errors in 1s\n",
        7,
        5,
    ),
    "pytest, all passed": (pytest_counts, "7 passed in 1s\n", 7, 0),
    "Go, of which one is skipped": (go_counts, GO, 2, 2),
    "JUnit": (java_counts, "OK (12 tests)\n", 12, 0),
    "JUnit, some failed": (java_counts, "Tests run: 12,  Failures: 2\n", 10, 2),
    "Node": (node_counts, "# pass 9\n# fail 1\n# skipped 0\n", 9, 1),
    "Node, of which one is skipped": (node_counts, "# pass 9\n# fail 0\n# skipped 2\n", 9, 2),
}


@pytest.mark.parametrize("name", COUNTED)
def test_what_is_counted(name):
    count, text, passed, failed = COUNTED[name]
    assert count(text) == (passed, failed)


SHELL = {
    "one that passes": ("echo '3 passed, 0 failed'", (3, 0)),
    "a status that the counts do not show": ("echo '3 passed, 0 failed'; exit 1", (2, 1)),
    "nothing that passed": ("true", (0, 1)),
    "failures": ("echo '3 passed, 2 failed'; exit 1", (3, 2)),
    "within CI": ("[ $CI = true ] && echo '1 passed, 0 failed'", (1, 0)),
}


@pytest.mark.parametrize("name", SHELL)
def test_a_part_is_run_once(name, tmp_path):
    words, counts = SHELL[name]
    log = tmp_path / "log"
    result = run(Part(name, ".", ["sh", "-c", f"echo run >> {log}; {words}"], closing_line))
    assert result.counts == counts and log.read_text() == "run\n"


def test_a_command_that_is_not_there_has_failed():
    assert run(Part("none", ".", ["/nothing/here"], by_status)).counts == (0, 1)


def test_the_end_says_what_was_left_out(capsys):
    words = "echo 'left out as slow: 2 (6 s): kills'; echo 'SKIPPED [1] a.py:1: needs root'"
    results = [
        run(Part("files", ".", ["sh", "-c", f"{words}; echo '3 passed, 1 failed'"], closing_line)),
        run(Part("format", ".", ["true"], by_status)),
    ]
    assert ended(results) == 1
    lines = capsys.readouterr().out.splitlines()
    assert lines[:2] == [
        "files: left out as slow: 2 (6 s): kills",
        "files: SKIPPED [1] a.py:1: needs root",
    ]
    assert lines[2].startswith("FAILED: files: 3 passed, 1 failed in ")
    assert lines[-1] == "4 passed, 1 failed"


NAMED = {
    "pytest": "FAILED tests/test_a.py::test_b[one, two] - assert 1 == 2",
    "pytest, amid a fixture": "ERROR tests/test_a.py::test_b - OSError: no",
    "a place that differs": "differs: is not reached, and not in the list: src/x.py, f: return 1",
    "a script": "FAILED: session/one: no reply",
    "proofs": "rt: FAILED: tb_file/an_edit",
    "Go": "    --- FAIL: TestA/b (0.00s)",
    "a package in Go": "FAIL\ttelovamish.org/tbclient [build failed]",
    "JUnit": "1) saved(org.telovamish.tbclient.SavedTest)",
    "Node": "    not ok 3 - a session is saved",
    "a script without names": "expected 1, found 2",
}


@pytest.mark.parametrize("line", NAMED.values(), ids=NAMED)
def test_what_failed_is_named_at_the_end(line, capsys):
    text = f"ok 1 - a\n--- PASS: TestB (0.0s)\n{line}\n2 passed, 1 failed"
    result = run(Part("it", ".", ["printf", "%s\n", text], closing_line))
    assert ended([result]) == 1
    lines = capsys.readouterr().out.splitlines()
    assert lines[0].startswith("FAILED: it: 2 passed, 1 failed in ")
    assert f"    {line.strip()}" in lines and len(lines) <= 5


TESTS = """
import pytest

@pytest.fixture
def server():
    yield
    raise OSError("it did not end")

def test_that_fails():
    assert False

def test_ends(server):
    pass
"""


def test_failures_of_each_kind_are_within_the_last_lines(tmp_path, capsys):
    """A test that fails, one whose fixture fails at its end, and a command that fails."""
    (tmp_path / "test_it.py").write_text(TESTS)
    tests = Part("tests", str(tmp_path), [*PYTEST, "not slow"], pytest_counts)
    results = [run(tests), run(Part("format", ".", ["sh", "-c", "echo a.py; exit 3"], by_status))]
    assert ended(results) == 1
    lines = capsys.readouterr().out.splitlines()
    assert lines[-1] == "1 passed, 3 failed" and len(lines) < MOST
    assert any(it.startswith("    FAILED test_it.py::test_that_fails - ") for it in lines)
    assert "    ERROR test_it.py::test_ends - OSError: it did not end" in lines
    assert lines[-3].startswith("FAILED: format: 0 passed, 1 failed") and lines[-2] == "    a.py"


@pytest.mark.parametrize("parts, each", [(1, 100), (5, 100), (40, 1)])
def test_no_more_lines_than_the_end_has(parts, each):
    words = "".join(f"FAILED: case {it}\\n" for it in range(each))
    part = Part("it", ".", ["printf", f"{words}0 passed, {each} failed\\n"], closing_line)
    lines = failures([run(part)] * parts)
    assert len(lines) <= MOST
    assert len([it for it in lines if it.startswith("FAILED: it: ")]) == min(parts, MOST)
    assert (each == 1) or lines[-1].endswith(" more")


AGAIN = {
    "one that passes alone": (
        "[ -e {0} ] && echo '3 passed, 0 failed' || echo '2 passed, 1 failed'",
        3,
        0,
    ),
    "one that fails again": ("echo '2 passed, 1 failed'", 2, 1),
    "one that passed": ("echo '3 passed, 0 failed'", 3, 0),
}


@pytest.mark.parametrize("name", AGAIN)
def test_what_failed_is_run_once_more(name, tmp_path, capsys):
    words, passed, failed = AGAIN[name]
    mark = tmp_path / "ran"
    first = run(Part(name, ".", ["sh", "-c", words.format(mark)], closing_line))
    mark.touch()
    second = settled(first)
    assert second.counts == (passed, failed)
    is_mended = first.counts.failed > second.counts.failed
    assert [it for it in second.noted if "passed alone" in it] == (
        ["failed while other parts ran, and passed alone: 1"] if is_mended else []
    )
    assert ("once more" in capsys.readouterr().out) == bool(first.counts.failed)


def test_no_part_is_a_failure():
    assert summed([]) == Counts(0, 1)
