"""Completion of questions at the prompt of telovamish."""

import pytest
from telovamish.filling import Known
from telovamish.terminal import Words

from tb_sql.completing import Completer
from tb_sql.filters import ACCOUNT_FILTER, OPERATIONS, QUERY_FLAGS


@pytest.mark.parametrize(
    "before, words",
    [
        ("get_account_transfers ", [f"{it}=" for it in ACCOUNT_FILTER]),
        ("register; query_accounts flags=", list(QUERY_FLAGS)),
        ("query_accounts flags=rev", list(QUERY_FLAGS)),
        (
            "get_account_balances account_id=1 ",
            [f"{it}=" for it in ACCOUNT_FILTER if it != "account_id"],
        ),
    ],
)
def test_the_words_of_a_question(before, words):
    assert Completer(Known()).words_at(before) == words


def test_the_words_of_a_statement():
    """Those of telovamish, and the questions where a statement may begin."""
    assert {"register", "help", *OPERATIONS} <= set(Completer(Known(7)).words_at(""))
    within = "register at"
    assert Completer(Known()).words_at(within) == Words(Known()).words_at(within)
