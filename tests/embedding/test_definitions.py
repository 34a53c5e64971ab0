"""The header, the wrapper in Rust and the client in Python have the names, layouts and frames of
the definitions."""

import pytest

from . import names, wrappers


@pytest.mark.parametrize("part", [names.comparisons, wrappers.cases], ids=["names", "wrappers"])
def test_each_case_holds(part):
    cases = list(part())
    assert cases
    assert [(what, why) for what, holds, why in cases if not holds] == []
