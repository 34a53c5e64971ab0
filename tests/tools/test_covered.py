"""What the comparison of what tests reach says: tools/covered.py."""

import re
import subprocess

import covered_go
import pytest
import unreached

from ..conftest import ROOT

ABOUT = """
[tool.setuptools]
package-dir = { "" = "src" }
packages = ["it"]
"""
SOURCE = """
def sign(number):
    if number < 0:
        return -1
    return 1


def other():
    return 0
"""
TEST = """
import sys
sys.path.append("src")
from it import sign

def test_it():
    assert sign(1) == 1

def test_more():
    assert sign(1) == 2
"""
IF, OTHER = "src/it/__init__.py, sign: return -1", "src/it/__init__.py, other: return 0"
WHOLE = f"[Not tested]\n{IF}\n{OTHER}\n"


@pytest.fixture(name="package")
def fixture_package(tmp_path):
    """A package with a test that reaches one of its two functions, and of that one branch."""
    (tmp_path / "src/it").mkdir(parents=True)
    (tmp_path / "tests").mkdir()
    (tmp_path / "pyproject.toml").write_text(ABOUT)
    (tmp_path / "src/it/__init__.py").write_text(SOURCE)
    return tmp_path


CASES = {
    "as the list says": (WHOLE, []),
    "a function": (WHOLE.replace("return 0", "*"), []),
    "one that is not in the list": (
        f"[Not tested]\n{IF}\n",
        [f"differs: is not reached, and not in the list: {OTHER}"],
    ),
    "one that is reached": (
        f"{WHOLE}src/it/__init__.py, sign: return 1\n",
        ["differs: is in the list, and is reached: src/it/__init__.py, sign: return 1"],
    ),
    "a reached function": (
        f"{WHOLE}src/it/__init__.py, none: *\n",
        ["differs: is in the list, and is reached: src/it/__init__.py, none: *"],
    ),
    "one without a reason": (
        f"{IF}\n{WHOLE}",
        [f"differs: no place with a reason: {IF}"],
    ),
    "one that is reached by chance, and was not": (WHOLE.replace("Not", "Sometimes: "), []),
    "one that is reached by chance, and was": (
        f"{WHOLE}\n[Sometimes: by time]\nsrc/it/__init__.py, sign: return 1\n",
        [],
    ),
    "one that is reached by chance, and is gone": (
        f"{WHOLE}\n[Sometimes: by time]\nsrc/it/__init__.py, sign: return 2\n",
        ["differs: is not in the file: src/it/__init__.py, sign: return 2"],
    ),
}


@pytest.mark.parametrize("kept, wanted", CASES.values(), ids=CASES)
def test_places(package, kept, wanted):
    path = package / "tests/unreached.txt"
    path.write_text(kept)
    places = [unreached.Place(*re.split(": |, ", it, 2)) for it in (IF, OTHER)]
    assert [f"differs: {it}" for it in unreached.compared(package, path, places)] == wanted


def test_a_test_that_fails_and_a_place_that_differs_are_named(package):
    (package / "tests/unreached.txt").write_text(f"[Not tested]\n{OTHER}\n")
    (package / "tests/test_it.py").write_text(TEST)
    words = [ROOT / "tools/covered.py", package]
    ran = subprocess.run(words, stdout=subprocess.PIPE, text=True)
    lines = ran.stdout.splitlines()
    assert ran.returncode == 1 and lines[-1] == "1 passed, 2 failed"
    assert f"differs: is not reached, and not in the list: {IF}" in lines
    assert any(it.startswith("FAILED tests/test_it.py::test_more - ") for it in lines)


MODULE = {
    "go.mod": "module a.test/it\n\ngo 1.19\n",
    "it.go": """package it

type sign struct{}

func (s *sign) Of(number int) (int, error) {
\tif number < 0 {
\t\treturn -1, nil
\t}
\terr := wrong(number)
\tif err != nil {
\t\treturn 0, err
\t}
\terr = wrong(-number)
\tif err != nil {
\t\treturn 0, err
\t}
\treturn 1, nil
}

func wrong(int) error { return nil }
""",
    "part/part.go": "package part\n\nfunc Half(number int) int { return number / 2 }\n",
    "part/other.go": "//go:build none\n\npackage part\n\nfunc Whole(n int) int { return n }\n",
    "it_test.go": """package it

import (
\t"testing"

\t"a.test/it/part"
)

func TestIt(t *testing.T) {
\tif one, _ := new(sign).Of(part.Half(2)); one != 1 {
\t\tt.Error(one)
\t}
}
""",
}
GO_PLACES = [
    "it.go, sign.Of: if number < 0 {",
    "it.go, sign.Of: err := wrong(number) -> if err != nil {",
    "it.go, sign.Of: err = wrong(-number) -> if err != nil {",
    "part/other.go, module: *",
]


@pytest.fixture(name="module")
def fixture_module(tmp_path):
    """A module with a test that reaches one function of each of its packages."""
    for name, text in MODULE.items():
        (tmp_path / name).parent.mkdir(exist_ok=True)
        (tmp_path / name).write_text(text)
    return tmp_path


def test_places_in_go(module):
    counts, found = covered_go.measured(module, [])
    assert counts == (1, 0) and list(map(str, found)) == GO_PLACES


def test_a_test_in_go_that_fails_is_named(module):
    (module / "part/part_test.go").write_text(
        'package part\n\nimport "testing"\n\nfunc TestHalf(t *testing.T) { t.Error(Half(1)) }\n'
    )
    ran = subprocess.run([ROOT / "tools/covered.py", module], stdout=subprocess.PIPE, text=True)
    lines = ran.stdout.splitlines()
    assert ran.returncode == 1 and lines[-1] == f"1 passed, {1 + len(GO_PLACES)} failed"
    assert any(it.startswith("--- FAIL: TestHalf ") for it in lines)
    differing = [f"differs: is not reached, and not in the list: {it}" for it in GO_PLACES]
    assert [it for it in lines if it.startswith("differs: ")] == differing
