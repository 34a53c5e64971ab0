"""What tables add to the command telovamish: names, and answers to questions among statements."""

import json

import pytest
from telovamish.filling import Known
from telovamish.running import Printer
from telovamish.sending import Desk

from helpers.histories import BOOKS
from helpers.made import Made, account, transfer
from tb_sql.completing import Completer
from tb_sql.errors import Failed, Refused
from tb_sql.terminal import NO_LEDGER, Books

PARTS = [b"get_account_tran", b'sfers account_id="house";\nregister; get_account_transfers']


@pytest.fixture
def shop(tables):
    tables.load(Made().register().accounts(account(1), account(2)).transfers(transfer(11, 1, 2, 5)))
    tables.name(("account", 1, "House", 0), ("ledger", 700, "EUR", 2))
    return tables


def asked(books, parts, as_json=False):
    """What is left of a text: statements, with spaces in the places of questions."""
    desk = Desk(books.ledger(), 7)
    return b"".join(books.answered(iter(parts), Printer(as_json, books=books), desk))


def test_questions_among_statements(shop, capsys):
    rest = asked(Books(None, shop.path), PARTS)
    assert rest == b" " * 41 + b"\nregister; " + b" " * 21
    out, said = capsys.readouterr()
    assert "0.05 EUR (5)" in out and "1 House" in out
    assert "1 row, at commit 3" in out and out.endswith("0 rows, at commit 3\n")
    assert said == "telovamish: line 2: account_id is not given\n"


def test_answers_in_json(shop, capsys):
    asked(Books(None, shop.path), PARTS, as_json=True)
    found = json.loads(capsys.readouterr()[0].splitlines()[0])
    assert found["results"][0]["debit_name"] == "House"
    assert found["results"][0]["amount_written"] == "0.05 EUR"


def test_other_names_than_those_of_the_tables(shop, capsys):
    (shop.room / "books.toml").write_text(BOOKS.replace("House", "Castle"))
    asked(Books(str(shop.room / "books.toml"), shop.path), [b"query_accounts id=castle;"[:15]])
    assert "1 Castle" in capsys.readouterr()[0]


def test_names_without_tables(shop):
    """All parts are statements."""
    (shop.room / "books.toml").write_text(BOOKS)
    books = Books(str(shop.room / "books.toml"), None)
    assert books.names.name("account", 1) == "House"
    assert asked(books, PARTS) == b"".join(PARTS)
    assert Books(None, None).names.rows == []


@pytest.mark.parametrize(
    "text, says",
    [
        (b"register;\nquery_accounts colour=1;", "line 2: query_accounts has no field colour"),
        (b"query_accounts code=x;", "line 1: code must be a number"),
    ],
)
def test_a_wrong_question(shop, text, says):
    """It is refused with its line."""
    with pytest.raises(Refused, match=says):
        asked(Books(None, shop.path), [text])


def test_tables_that_are_damaged(shop):
    books = Books(None, shop.path)
    shop.change("DROP TABLE transfers")
    with pytest.raises(Failed, match="no such table: transfers"):
        asked(books, [b"query_transfers;"])


def test_completion(shop):
    assert isinstance(Books(None, shop.path).completer(Known()), Completer)


def test_no_ledger(shop):
    """Tables take no statement."""
    with pytest.raises(Refused, match=NO_LEDGER):
        Books(None, shop.path).ledger().transport.exchange(0, b"")
