"""Each bug of bugs.py still has its place, and by hand, or by `make slow`, is found."""

import pytest

from .bugs import BUGS, found_by

of_each = pytest.mark.parametrize("bug", BUGS, ids=lambda it: it.name)


@of_each
def test_a_bug_has_its_place(bug):
    assert bug.is_there()


@pytest.mark.slow(reason="builds and tests a copy for each bug", seconds=40)
@of_each
def test_a_bug_is_found(bug, tmp_path):
    found = found_by(bug, tmp_path)
    print(found)
    assert found
