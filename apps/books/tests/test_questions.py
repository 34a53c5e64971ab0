"""Questions among statements: what is found of them, however the text comes."""

import pytest
from hypothesis import given
from hypothesis import strategies as st

from tb_sql.errors import Refused
from tb_sql.questions import Question, Split

TEXT = b"""# get_account_transfers account_id=1;
register; query_accounts ledger=7 # a ; here
  limit=1; create_accounts id=1 # query_accounts;
, id=2 ledger=7; query_accounts_x; lookup_accounts id=1, query_accounts; get_account_balances
account_id=1"""


def parts_of(pieces):
    """The questions of a text, and the text with blanks in their places."""
    split, questions, text = Split(), [], b""
    for piece in [*pieces, None]:
        for part in split.feed(piece or b"", piece is None):
            if isinstance(part, Question):
                questions.append(part.text)
                part = part.blank
            text += part
    return questions, text


def test_whole():
    found, text = parts_of([b"query_accounts limit=1;\nregister; query_transfers"])
    assert found == [b"query_accounts limit=1;", b"query_transfers"]
    assert text == b" " * 23 + b"\nregister; " + b" " * 15


@given(st.sets(st.integers(1, len(TEXT) - 1)))
def test_in_pieces(cuts):
    """The parts are the same wherever a text is cut."""
    pieces = [TEXT[a:b] for a, b in zip([0, *sorted(cuts)], [*sorted(cuts), len(TEXT)])]
    found, text = parts_of(pieces)
    assert (found, text) == parts_of([TEXT])
    assert [len(it) > 10 for it in found] == [True, True]
    assert len(text) == len(TEXT)


def test_a_statement_is_passed_on_at_once():
    split = Split()
    assert list(split.feed(b"create_acc")) == [b"create_acc"]
    assert list(split.feed(b"ounts id=1;")) == [b"ounts id=1;"]
    assert list(split.feed(b"query_acc")) == []
    assert list(split.feed(b"x;")) == [b"query_accx;"]


def test_fields():
    assert Question(b"query_accounts\tledger=7 # x=1\n limit=2 ;").words == {
        "ledger": "7",
        "limit": "2",
    }
    named = Question(b'get_account_transfers account_id="Anna  Schmidt" code="a=b";')
    assert named.words == {"account_id": "Anna  Schmidt", "code": "a=b"}
    with pytest.raises(Refused):
        Question(b"query_accounts ledger;").words  # noqa: B018
