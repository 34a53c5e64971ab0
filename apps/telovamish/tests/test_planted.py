"""The bugs of planted.py, which run by hand: each still has a place."""
from __future__ import annotations

import pytest
from planted import BUGS, HERE, is_there


@pytest.mark.parametrize(
    "file, old, new, tests", BUGS, ids=[f"{it[0]}: {it[2][:40]}" for it in BUGS]
)
def test_a_bug_has_its_place(file: str, old: str, new: str, tests: str) -> None:
    assert is_there(file, old) and new != old
    named = [it for it in tests.split() if it.endswith(".py")]
    assert named and all((HERE / it).exists() for it in named)
