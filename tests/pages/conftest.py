"""What the tests of pages share."""

import pytest

from .clones import Clone


@pytest.fixture
def clone(tmp_path, program):
    return Clone(tmp_path, program)
