"""Fixtures of the tests: a folder with a file of tables, its pages, and a built program."""

import pytest
from hypothesis import HealthCheck, settings
from telovamish.programs import found

from helpers.pages import Pages
from helpers.tables import Tables

# the same examples in each run, and no limit of time on a busy machine
settings.register_profile(
    "books",
    max_examples=100,
    deadline=None,
    derandomize=True,
    suppress_health_check=[HealthCheck.too_slow],
)
settings.load_profile("books")


@pytest.fixture
def tables(tmp_path):
    return Tables(tmp_path)


@pytest.fixture
def pages(tmp_path):
    return Pages(tmp_path)


@pytest.fixture(scope="session")
def tbs():
    """The built program. The test fails without it: that is no skip."""
    path = found("tbs")
    if path is None:
        pytest.fail("no program tbs: build it in crates/tbs, or set TBS")
    return path
