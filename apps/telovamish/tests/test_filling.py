"""What a statement leaves out: from the statements before it, and from a ledger's replies."""
from __future__ import annotations

from typing import Optional

import pytest

from telovamish.filling import Known, Live, Session
from telovamish.reader import Pair
from telovamish.words import U32

LOOKUP = "lookup_accounts"


def noted(*numbers: tuple[int, int, int]) -> Known:
    """What statements say of clients: each one's client, session and request."""
    known = Known()
    for client, session, request in numbers:
        name = LOOKUP if session else "register"
        known.note(Pair(0, client, session, request, name, b""))
    return known


@pytest.mark.parametrize(
    "numbers, word, filled",
    [
        pytest.param([], LOOKUP, {}, id="nothing-before-it"),
        pytest.param(
            [(7, 3, 5)], LOOKUP, {"client": 7, "session": 3, "request": 6}, id="the-next-request"
        ),
        pytest.param([(7, 3, 5)], "register", {"client": 7}, id="a-register-has-no-number"),
        pytest.param([(7, 3, 5), (8, 0, 0)], "register", {"client": 8}, id="the-last-client"),
        pytest.param(
            [(7, 3, 5), (8, 4, 1)],
            LOOKUP,
            {"client": 8, "session": 4, "request": 2},
            id="the-last-client-and-its-session",
        ),
        pytest.param([(7, 3, 5), (7, 0, 0)], LOOKUP, {}, id="a-session-ends-by-a-register"),
        pytest.param([(7, 3, U32)], LOOKUP, {}, id="no-number-is-left"),
    ],
)
def test_a_statement_that_names_nothing(
    numbers: list[tuple[int, int, int]], word: str, filled: dict[str, int]
) -> None:
    assert noted(*numbers).fill({}, word) == filled


@pytest.mark.parametrize(
    "given, filled",
    [
        ({"client": 7}, {"session": 3, "request": 6}),
        ({"client": 9}, {}),
        ({"session": 3}, {"client": 8, "request": 1}),
        ({"client": 7, "session": 3}, {"request": 6}),
        ({"client": 7, "session": 4}, {"request": 1}),
        ({"client": 7, "request": 2}, {}),
        ({"client": 7, "session": 3, "request": 2}, {}),
    ],
    ids=lambda it: " ".join(f"{name}={number}" for name, number in it.items()) or "nothing",
)
def test_a_statement_that_names_some(given: dict[str, int], filled: dict[str, int]) -> None:
    assert noted((7, 3, 5), (8, 4, 1)).fill(given, LOOKUP) == filled


@pytest.mark.parametrize(
    "learned, wanted",
    [
        pytest.param([(1, 1)], Session(1, 2), id="the-last-request"),
        pytest.param([(1, 5), (1, 3)], Session(1, 6), id="an-earlier-one"),
        pytest.param([(1, 5), (9, 1)], Session(9, 2), id="another-session"),
    ],
)
def test_what_a_ledger_replied(learned: list[tuple[int, int]], wanted: Session) -> None:
    live = Live(7)
    for number, last in learned:
        live.learn(7, number, last)
    assert live.session_of(7) == wanted and live.session_of(8) == Session(1, 1)


@pytest.mark.parametrize(
    "given, word, client",
    [
        ({}, LOOKUP, None),
        ({"client": 9}, LOOKUP, 9),
        ({"client": 9}, "register", None),
        ({"client": 9, "session": 1}, LOOKUP, None),
        ({"client": 9}, "no_word", None),
    ],
)
def test_a_client_without_a_session(
    given: dict[str, int], word: str, client: Optional[int]
) -> None:
    assert noted((7, 3, 5)).has_no_session(given, word) == client
