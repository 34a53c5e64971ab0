"""TigerBeetle's questions on a terminal: tables with names and decimal places, and JSON."""

import json

import pytest

from helpers.cases import case
from helpers.histories import BOOKS
from helpers.made import Made, account, transfer


@pytest.fixture(autouse=True)
def shop(tables, monkeypatch):
    """Accounts and transfers, and a file of names."""
    made = Made().register()
    made.accounts(account(1, flags=["history"]), account(2), account(3, ledger=1))
    tables.load(made.transfers(transfer(11, 1, 2, 188125), transfer(12, 2, 1, 125)))
    (tables.room / "books.toml").write_text(BOOKS)
    tables.names = str(tables.room / "books.toml")
    monkeypatch.setenv("COLUMNS", "200")


def ask(tables, *words):
    """The status of a question, and what it wrote."""
    return tables.said("ask", tables.path, *words)


def test_a_table(tables):
    status, out, said = ask(tables, "get_account_transfers", "account_id=1", "flags=debits")
    assert (status, said) == (0, "")
    head, _, line, end = out.splitlines()
    assert head.split()[:3] == ["id", "debit_account_id", "credit_account_id"]
    assert line.split()[:6] == ["11", "1", "2", "188125", "700", "10"]
    assert end == "1 row, at commit 3"


def test_names_and_places(tables):
    _, out, _ = ask(tables, "query_transfers", "--names", tables.names)
    parts = ("1,881.25 EUR (188125)", "1.25 EUR    (125)", "700 EUR", "10 customer deposit")
    for part in (*parts, "1 House"):
        assert part in out
    _, out, _ = ask(tables, "query_accounts", "ledger=700", "--names", tables.names)
    assert "1,881.25 EUR (188125)" in out
    assert "1 House" in out
    _, out, _ = ask(tables, "get_account_balances", "account_id=1", "--names", tables.names)
    assert "1,881.25 EUR (188125)" in out
    assert out.endswith("2 rows, at commit 3\n")


def test_the_names_of_the_tables(tables):
    tables.change("INSERT INTO names VALUES ('ledger', 700, 'USD', 3)")
    assert "188.125 USD (188125)" in ask(tables, "query_transfers")[1]


def test_json(tables):
    words = ["account_id=1", "flags=credits,reversed", "limit=1", "--json"]
    found = json.loads(ask(tables, "get_account_transfers", *words)[1])
    assert found["commit"] == "3"
    assert [it["id"] for it in found["results"]] == ["12"]
    assert found["results"][0]["amount"] == "125"


@pytest.mark.parametrize(
    "words, count",
    [
        (["timestamp_min=2026-09-21", "timestamp_max=2026-09-21"], 2),
        (["timestamp_max=2026-09-20"], 0),
        (["timestamp_max=2262-04-11"], 2),
        (["timestamp_min=2026-09-22"], 0),
        (["timestamp_min=2026-09-21T14:13:20.000000006Z"], 1),
        (["timestamp_max=2026-09-21T14:13:20.000000005Z"], 1),
        (["limit=0x1"], 1),
    ],
    ids=case,
)
def test_dates(tables, words, count):
    """A timestamp as a date; the last one has its whole day."""
    said = ask(tables, "query_transfers", *words)[1].splitlines()[-1]
    assert said.split()[0] == str(count)


def test_flags(tables):
    said = ask(tables, "get_account_transfers", "account_id=1", "flags=debits|reversed")[1]
    assert said.endswith("1 row, at commit 3\n"), said


@pytest.mark.parametrize(
    "question, words, note",
    [
        ("query_transfers", ["limit=0"], ""),
        ("query_transfers", ["code=11"], ""),
        (
            "query_accounts",
            ["timestamp_min=7", "timestamp_max=6"],
            "timestamp_min is after timestamp_max, or one of them is above 2^63 - 1",
        ),
        ("get_account_transfers", [], "account_id is not given"),
        ("get_account_transfers", ["account_id=99999"], "there is no account 99999"),
        (
            "get_account_transfers",
            ["account_id=1", "flags=reversed"],
            "flags has neither debits nor credits",
        ),
        ("get_account_transfers", ["account_id=1", "code=11"], ""),
        (
            "get_account_balances",
            ["account_id=2"],
            "account 2 does not have the flag history: its balances are not kept",
        ),
    ],
    ids=case,
)
def test_no_rows(tables, question, words, note):
    """Why, on standard error, if that is known: TigerBeetle's answer is only empty."""
    said = f"tb-sql: {note}\n" if note else ""
    assert ask(tables, question, *words) == (0, "0 rows, at commit 3\n", said)


def test_as_many_rows_as_an_answer_has(tables, monkeypatch):
    monkeypatch.setattr("tb_sql.filters.ITEMS_MAX", 2)
    said = ask(tables, "query_transfers", "limit=9000")[2]
    assert said == "tb-sql: these are 2 rows, the most that an answer has: there may be more\n"


@pytest.mark.parametrize("name", ["House", "house", " HOUSE ", "1", "#1", "0x1"])
def test_an_account_by_its_name(tables, name):
    words = ["get_account_transfers", f"account_id={name}", "flags=debits", "--names", tables.names]
    status, out, said = ask(tables, *words)
    assert (status, said) == (0, "")
    assert out.endswith("1 row, at commit 3\n")


def test_a_ledger_and_a_code_by_their_names(tables):
    words = ["query_transfers", "ledger=eur", "code=customer deposit", "--names", tables.names]
    assert ask(tables, *words)[1].endswith("2 rows, at commit 3\n")


def test_a_name_that_the_tables_have(tables):
    tables.name(("account", 1, "Anna Schmidt", 0))
    said = ask(tables, "get_account_transfers", "account_id=Anna Schmidt")[1]
    assert said.endswith("2 rows, at commit 3\n")


def test_a_name_that_is_a_number(tables):
    """A number is an id."""
    tables.name(("account", 1, "2", 0))
    said = ask(tables, "get_account_transfers", "account_id=2", "flags=credits", "--json")[1]
    assert [it["id"] for it in json.loads(said)["results"]] == ["11"]


@pytest.mark.parametrize(
    "words, says",
    [
        (["limit"], "'limit' is no field of its own"),
        (["limit=1", "limit=2"], "'limit=2' is no field of its own"),
        (["colour=1"], "query_accounts has no field colour"),
        (["limit=-1"], "limit must be a number from 0"),
        (["limit=2026-09-21"], "limit must be a number from 0 to 4294967295, not '2026-09-21'"),
        (["timestamp_min=2026-13-01"], "or a date in UTC, not '2026-13-01'"),
        (["timestamp_max=9999-01-01"], "timestamp_max must be a number from 0 to"),
        (["flags=debits"], "no flag 'debits'"),
        (["ledger=GBP"], "or a name that is known, not 'GBP'"),
    ],
    ids=case,
)
def test_wrong_fields(tables, words, says):
    status, out, said = ask(tables, "query_accounts", *words)
    assert (status, out, says in said) == (2, "", True), said


def test_a_commit_is_waited_for(tables):
    assert ask(tables, "query_accounts", "--commit", "3", "--wait", "0")[0] == 0
    status, out, said = ask(tables, "query_accounts", "--commit", "4", "--wait", "0.1")
    assert (status, out) == (1, "")
    assert said == "tb-sql: The tables end at commit 3: 4 did not come.\n"
