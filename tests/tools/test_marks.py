"""What CI says of tests that it leaves out or that are skipped: tools/testing/marks.py."""

import os
import subprocess
import sys

import pytest

from ..conftest import ROOT

SLOW = """
import pytest

@pytest.mark.slow(reason="kills", seconds=3)
@pytest.mark.parametrize("number", [1, 2])
def test_kills(number):
    raise AssertionError("it ran")

def test_runs():
    pass
"""
SKIPPED = """
import pytest, unittest

def test_missing():
    pytest.skip("gcc is not there")

@pytest.mark.skipif(True, reason="gcc is not there")
def test_missing_by_a_mark():
    pass

class Missing(unittest.TestCase):
    @unittest.skipUnless(False, "gcc is not there")
    def test_missing(self):
        pass

def test_runs():
    pass
"""
WRONG = ["", "()", "('kills', 3)", "(reason='kills')", "(seconds=3)", "(reason=' ', seconds=3)"]
WRONG += ["(reason='kills', seconds=0)", "(reason='kills', seconds='3')"]


@pytest.fixture(name="tried")
def fixture_tried(tmp_path):
    """Runs pytest over a file: its exit status and its lines."""

    def tried(text, *words, ci="true"):
        (tmp_path / "test_it.py").write_text(text)
        env = {**os.environ, "CI": ci, "PYTHONPATH": str(ROOT / "tools/testing")}
        words = [sys.executable, "-m", "pytest", "-q", "-p", "marks", "-rs", *words]
        done = subprocess.run(words, cwd=tmp_path, env=env, capture_output=True, text=True)
        return done.returncode, done.stdout + done.stderr

    return tried


@pytest.mark.parametrize("workers", [[], ["-n", "2"]], ids=["one process", "workers"])
def test_slow_tests_are_left_out_by_count_and_reason(tried, workers):
    status, said = tried(SLOW, "-m", "not slow", *workers)
    assert status == 0 and "1 passed" in said
    assert "left out as slow: 2 (6 s): kills\n" in said


def test_slow_tests_run_alone(tried):
    status, said = tried(SLOW, "-m", "slow")
    assert status == 1 and "2 failed" in said and "left out" not in said


@pytest.mark.parametrize("mark", WRONG)
def test_a_slow_test_has_a_reason_and_its_seconds(tried, mark):
    status, said = tried(f"import pytest\n@pytest.mark.slow{mark}\ndef test_it(): pass\n")
    assert status == 4 and "test_it.py::test_it: wants slow(reason=" in said


def test_a_skipped_test_has_failed_in_ci(tried):
    status, said = tried(SKIPPED)
    assert status == 1 and "2 failed, 1 passed, 1 error" in said
    assert said.count("gcc is not there: within CI nothing is skipped") >= 3


def test_a_skipped_file_has_failed_in_ci(tried):
    status, said = tried("import pytest\npytest.skip('no gcc', allow_module_level=True)\n")
    assert status == 2 and "no gcc: within CI nothing is skipped" in said


def test_a_skipped_test_is_none_of_a_person(tried):
    status, said = tried(SKIPPED, ci="")
    assert status == 0 and "1 passed, 3 skipped" in said


def test_another_user_may_be_missing(tried):
    text = "import pytest\ndef test_it(): pytest.skip('needs root, to be nobody')\n"
    status, said = tried(text)
    assert status == 0 and "needs root, to be nobody" in said
