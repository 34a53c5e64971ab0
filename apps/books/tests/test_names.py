"""Names and decimal places: what a file gives, and what is refused."""

import csv
import io
import re
from decimal import Context, Decimal

import pytest
from hypothesis import given
from hypothesis import strategies as st

from helpers.cases import case
from helpers.histories import BOOKS
from helpers.made import MAX, Made, account
from tb_sql.errors import Failed, Refused
from tb_sql.names import Names, decimal, read_names
from tb_sql.numbers import is_id
from tb_sql.pages.downloads import cell, spreadsheet


def written(tables, text):
    """The path of a file of names."""
    path = tables.room / "books.toml"
    path.write_text(text, encoding="utf-8")
    return str(path)


def test_right(tables):
    names = read_names(written(tables, BOOKS))
    assert names.name("ledger", 700) == "EUR"
    assert names.name("code", 10) == "customer deposit"
    assert names.name("account", 1) == "House"
    assert names.name("account", 9) == ""
    assert names.amount(188125, 700) == "1,881.25 EUR"
    assert names.amount(188125, 701) is None


def test_a_name_that_nothing_has():
    with pytest.raises(ValueError, match="no account has the name 'Otto'"):
        Names([("ledger", 1, "Otto", 0)]).number("account", "Otto")


@pytest.mark.parametrize(
    "value, places, wanted",
    [
        (188125, 2, "1,881.25"),
        (5, 2, "0.05"),
        (0, 2, "0.00"),
        (-5, 2, "-0.05"),
        (-188125, 0, "-188,125"),
        (MAX, 38, "3.40282366920938463463374607431768211455"),
    ],
    ids=case,
)
def test_decimal(value, places, wanted):
    assert decimal(value, places) == wanted


@pytest.mark.parametrize(
    "text, line, key",
    [
        (BOOKS.replace("places = 2", 'places = "2"'), 4, "ledger.700.places"),
        (BOOKS.replace("places = 2", "places = 39"), 4, "ledger.700.places"),
        (BOOKS.replace("places = 2", "places = true"), 4, "ledger.700.places"),
        (BOOKS.replace("places", "digits"), 4, "ledger.700.digits"),
        (BOOKS.replace('name = "EUR"', "name = 7"), 3, "ledger.700.name"),
        (BOOKS.replace('name = "EUR"\n', ""), 2, "ledger.700"),
        (BOOKS.replace("10 =", "x10 ="), 7, "code.x10"),
        (BOOKS.replace("10 =", "65536 ="), 7, "code.65536"),
        (BOOKS.replace('1 = "House"', "1 = 3"), 10, "account.1"),
        (BOOKS.replace('"House"', '""'), 10, "account.1"),
        (BOOKS.replace('"House"', '"a\\tb"'), 10, "account.1"),
        (BOOKS.replace("[account]", "[accounts]"), 9, "accounts"),
        (BOOKS.replace("[account]", '[account]\n01 = "Safe"'), 11, "account.1"),
        ("ledger = 5\n", 1, "ledger"),
        ("\nledger.700 = { name = 'EUR', places = -1 }\n", 2, "ledger.700.places"),
    ],
    ids=[
        "places as text",
        "39 places",
        "true places",
        "another field",
        "a number as a name",
        "no name",
        "no number",
        "a code above 16 bits",
        "an account's number as a name",
        "an empty name",
        "a tab in a name",
        "another table",
        "two names of one",
        "a number as a table",
        "places below 0",
    ],
)
def test_wrong(tables, text, line, key):
    """Each is refused with its line and key."""
    with pytest.raises(Refused, match=f"books.toml, line {line}, key {re.escape(key)}: "):
        read_names(written(tables, text))


@pytest.mark.parametrize(
    "text, says", [("[ledger\n", "line 1"), (f"a = {'[' * 9999}", "nested too deeply")], ids=case
)
def test_no_toml(tables, text, says):
    with pytest.raises(Refused, match=says):
        read_names(written(tables, text))


def test_no_file(tables):
    with pytest.raises(Failed, match="none.toml: No such file or directory"):
        read_names(str(tables.room / "none.toml"))


def test_a_file_in_another_encoding(tables):
    (tables.room / "books.toml").write_bytes(BOOKS.replace("House", "H\xe4user").encode("latin-1"))
    with pytest.raises(Refused, match="books.toml is no text in UTF-8"):
        read_names(str(tables.room / "books.toml"))


def test_a_wrong_file(tables):
    """It is refused before anything is read."""
    file = written(tables, BOOKS.replace("places = 2", "places = -2"))
    status, _, said = tables.said("load", tables.path, "--names", file)
    assert (status, said.count("\n")) == (2, 1)
    assert "line 4, key ledger.700.places" in said


def test_a_right_file(tables):
    """Its names are kept in the tables, once."""
    file, made = written(tables, BOOKS), Made().register().accounts(account(1))
    for _ in range(2):
        ended = tables.command("load", tables.path, "--quiet", "--names", file, made=made)
        assert ended == (0, "", "")
        assert len(tables.rows("SELECT * FROM names")) == 4


AMOUNTS = st.integers(-MAX, MAX)
PLACES = st.integers(0, 38)
# what a name may have: printable characters
PRINTABLE = st.text(st.characters(blacklist_categories=("C", "Z")), min_size=1, max_size=200)


@given(AMOUNTS, PLACES)
def test_each_amount_is_exact(value, places):
    """Without its commas it is the number over a power of ten, with all its places."""
    text = decimal(value, places)
    number = Decimal(text.replace(",", ""))
    assert Context(prec=60).compare(number.scaleb(places, Context(prec=60)), Decimal(value)) == 0
    assert len(text.partition(".")[2]) == places
    assert re.fullmatch(r"-?\d{1,3}(,\d{3})*(\.\d+)?", text)


@given(PRINTABLE, st.integers(0, MAX))
def test_each_name_is_found_again(name, number):
    names = Names([("account", number, name, 0)])
    assert names.name("account", number) == name
    assert names.matching(name) == names.rows
    assert names.has("account", name) != is_id(name)
    assert names.number("account", name) == number


@given(st.lists(st.tuples(AMOUNTS, PLACES, PRINTABLE), max_size=20))
def test_each_row_of_a_spreadsheet_is_read_again(rows):
    """By a reader of CSV: amounts are numbers, units and names are those that were written."""
    names = ["id", "name", "amount", "amount_written"]
    given = [(MAX, it, value, f"{decimal(value, at)} {it}") for value, at, it in rows]
    head, shown = spreadsheet(names, given)
    text = io.StringIO()
    csv.writer(text, lineterminator="\n").writerows([head, *shown])
    found = list(csv.reader(io.StringIO(text.getvalue())))
    assert found[0] == ["id", "name", "amount", "unit"]
    for (value, places, name), row in zip(rows, found[1:], strict=True):
        number = decimal(value, places).replace(",", "")
        assert row == [f"#{MAX}", cell(name), number, cell(name)]


@given(st.text())
def test_no_cell_begins_as_a_formula(text):
    """Except an amount, which has only digits, commas, a point, letters and spaces."""
    shown = cell(text)
    assert shown.removeprefix("'") == text.removeprefix("'")
    assert shown[:1] not in tuple("=+@\t\r") and (shown[:1] != "-" or "(" not in shown)
