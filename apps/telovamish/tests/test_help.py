"""What `help` says of a word."""
from __future__ import annotations

import pytest

from telovamish.help import HELP, MEANS, PROGRAM_FAULTS, help_on, words
from telovamish.messages import ELSEWHERE
from telovamish.words import ACCOUNT, ACCOUNT_FLAGS, HEADER, KINDS, TRANSFER, TRANSFER_FLAGS


@pytest.mark.parametrize(
    "word, said",
    [
        ("pending", "pending: flag of create_transfers: the amount is held until"),
        ("exists", "exists: result 21 of create_accounts: the same account exists already"),
        ("newer_request", "newer_request: status: the request skips a number"),
        ("pendin", "pendin: not known; did you mean pending?"),
        ("amount", "the ledger's smallest unit: 1250 is 12.50 EUR"),
        ("code", "the kind of account or transfer"),
        ("ledger", "the currency or unit"),
        ("user_data_128", "yours, as an id in another system"),
        ("pending_id", "the pending transfer that a post or void resolves"),
        ("debits_posted", "the sum of its posted debits"),
        ("flags", "linked, debits_must_not_exceed_credits"),
        ("flags", "balancing_debit, balancing_credit"),
        ("at", "it never looks back"),
        ("commit", "the number of an entry in the history"),
        ("NotCopied", "fault of tbd: the torn bytes that a start cuts off could not be copied"),
        ("get_account_transfers", "no operation here: the books answer it: telovamish --books"),
        ("zzzz", "zzzz: not known\n"),
    ],
)
def test_what_a_word_is_for(word, said):
    assert said in help_on(word)


@pytest.mark.parametrize("word", sorted({*KINDS, *HEADER, *ELSEWHERE, *PROGRAM_FAULTS}))
def test_each_word_is_known(word):
    assert "not known" not in help_on(word)


@pytest.mark.parametrize("field", sorted({*ACCOUNT, *TRANSFER}))
def test_each_field_says_what_it_is_for(field):
    assert MEANS[field] in help_on(field)


@pytest.mark.parametrize("flag", sorted({*ACCOUNT_FLAGS, *TRANSFER_FLAGS}))
def test_each_flag_is_listed(flag):
    assert flag in help_on("flags")


def test_no_meaning_is_of_a_word_that_is_gone():
    assert {*MEANS} == {*ACCOUNT, *TRANSFER}
    assert "help WORD" in HELP and len(words()) > 100
