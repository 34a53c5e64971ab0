"""What the tests over ledgers' files share."""

import os
import random
import subprocess
import tempfile
from pathlib import Path

import pytest
import tried

from . import cases


@pytest.fixture
def folder():
    """A folder that other users can reach too."""
    with tempfile.TemporaryDirectory() as made:
        os.chmod(made, 0o755)
        yield made


@pytest.fixture
def rng(pytestconfig):
    return random.Random(pytestconfig.getoption("seed"))


@pytest.fixture
def counted():
    """A test's cases: some were tried, and all hold. Without that the test has failed, which an
    assertion here, after the test, would not say."""
    tried.passed = tried.failed = 0
    cases.failed.clear()


@pytest.hookimpl(hookwrapper=True)
def pytest_pyfunc_call(pyfuncitem):
    outcome = yield
    if "counted" in pyfuncitem.fixturenames and outcome.excinfo is None:
        if cases.failed or not tried.passed:
            raise AssertionError(", ".join(cases.failed) or "no case was tried")


@pytest.fixture(scope="session")
def shim(tmp_path_factory):
    """The library that lets a program's calls fail or lie, and writes them down. Wants gcc."""
    made = tmp_path_factory.mktemp("shim") / "shim.so"
    words = ["gcc", "-O1", "-Wall", "-Wextra", "-shared", "-fPIC", "-o", made]
    subprocess.run([*words, Path(__file__).parent / "shim.c"], check=True)
    return str(made)
