"""What the tests of programs share."""

import pytest

from .runs import Program


@pytest.fixture
def server(tbs):
    """A built `tbs`."""
    return Program(tbs)
