"""Tables as CSV: what is in them, ranges of times, moments, and the form for spreadsheets."""

import csv
import io

import pytest

from helpers.made import MAX, START, Made, account, transfer
from tb_sql.numbers import time_text
from tb_sql.pages import downloads

DAY = 86400 * 10**9
NAMES = (("ledger", 700, "EUR", 2), ("account", 1, "House", 0), ("account", 2, "=A1", 0))


def three_days():
    """A transfer on each of three days, 2026-09-21 the first."""
    made = Made().register().accounts(account(1), account(2))
    for day in range(3):
        made.transfers(transfer(11 + day, 1, 2, 127431 + day)).later(DAY)
    return made


def test_a_statement(pages):
    audit = Made().register().accounts(account(1), account(2))
    audit.transfers(transfer(11, 1, 2, MAX)).later(DAY)
    pages.load(audit.transfers(transfer(12, 2, 1, 5)))
    rows = pages.csv("/csv/statement.csv?account=1")
    assert rows[0][:7] == "account_id number time counterparty_id debit credit balance".split()
    assert [it[4:7] for it in rows[1:]] == [[str(MAX), "0", str(MAX)], ["0", "5", str(MAX - 5)]]
    assert len(pages.csv("/csv/statement.csv?account=1&to=2026-09-21")) == 2
    (time,) = pages.rows("SELECT min(timestamp) FROM postings WHERE account_id = 1")[0]
    for last, count in ((time - 1, 1), (time, 2)):  # both ends are included
        assert len(pages.csv(f"/csv/statement.csv?account=1&to={time_text(last)}")) == count
    assert len(pages.csv("/csv/statement.csv")) == 5


@pytest.mark.parametrize("name", ["transfers", "named_transfers"])
@pytest.mark.parametrize(
    "days, ids",
    [
        ("from=2026-09-22&to=2026-09-22", ["12"]),
        ("from=2026-09-22", ["12", "13"]),
        ("to=2026-09-22", ["11", "12"]),
        ("from=2026-09-24", []),
        ("", ["11", "12", "13"]),
    ],
    ids=["a day", "from a day", "to a day", "after all", "all"],
)
def test_transfers_by_day(pages, name, days, ids):
    pages.load(three_days())
    head, *rows = pages.csv(f"/csv/{name}.csv?{days}")
    assert [it[head.index("id")] for it in rows] == ids


def test_entries_by_day(pages):
    pages.load(three_days())
    rows = pages.csv("/csv/entries.csv?from=2026-09-22&to=2026-09-22")[1:]
    assert [it[0] for it in rows] == ["4"]


@pytest.mark.parametrize(
    "at, sum",
    [("2026-09-20", None), ("2026-09-21", 127431), ("2026-09-22", 254863), ("", 382296)],
    ids=["before all", "the first day", "the second day", "after the last entry"],
)
def test_a_trial_balance_at_a_day(pages, at, sum):
    pages.load(three_days())
    pages.name(*NAMES)
    wanted = [] if sum is None else [["700", "2", "0", str(sum), "0", str(sum), "1"]]
    found = pages.csv(f"/csv/trial_balance.csv?at={at}")
    assert found[0][:4] == ["ledger", "accounts", "debits_pending", "debits_posted"]
    assert found[1:] == wanted
    rows = list(csv.DictReader(io.StringIO(pages.get(f"/csv/named_trial_balance.csv?at={at}"))))
    assert [(it["name"], it["debits_posted"]) for it in rows] == [("EUR", it[3]) for it in wanted]
    if at == "2026-09-21":
        assert rows[0]["debits_posted_written"] == "1,274.31 EUR"


def test_a_trial_balance_at_the_last_entry_is_the_view(pages):
    """Pending transfers too, and a ledger that has no name."""
    made = three_days().accounts(account(3, ledger=5), account(4, ledger=5))
    made.transfers(transfer(21, 3, 4, MAX // 2, ["pending"], ledger=5))
    pages.load(made)
    pages.name(*NAMES)
    for name in ("trial_balance", "named_trial_balance"):
        whole = pages.csv(f"/csv/{name}.csv")
        assert pages.csv(f"/csv/{name}.csv?at=2026-12-31") == whole
        assert len(whole) == 3


def sheet(pages, address):
    text = pages.get(address)
    assert text[0] == "\ufeff"
    return list(csv.DictReader(io.StringIO(text[1:])))


def test_a_statement_for_a_spreadsheet(pages):
    """A day, a time that is not after it, amounts that can be summed, ids as text."""
    made = Made(time=START - 3 * DAY // 2).register()
    made.accounts(account(1), account(MAX - 1), account(3, ledger=5), account(4, ledger=5))
    made.transfers(transfer(11, MAX - 1, 1, 127431), transfer(12, 1, MAX - 1, 131870))
    pages.load(made.transfers(transfer(13, 3, 4, 7, ledger=5)))
    pages.name(*NAMES)
    rows = sheet(pages, "/csv/named_statement.csv?account=1&spreadsheet=1")
    assert rows[0] == {
        "account_id": "#1",
        "name": "House",
        "number": "1",
        "date": "2026-09-20",
        "time": "02:13:20",
        "timestamp": f"#{START - 3 * DAY // 2 + 6}",
        "counterparty_id": f"#{MAX - 1}",
        "counterparty_name": "",
        "transfer_id": "#11",
        "code": "10",
        "code_name": "",
        "debit": "0.00",
        "credit": "1274.31",
        "balance": "-1274.31",
        "unit": "EUR",
    }
    assert [it["balance"] for it in rows] == ["-1274.31", "44.39"]
    rows = sheet(pages, "/csv/named_statement.csv?account=3&spreadsheet=1")
    assert [(it["debit"], it["unit"]) for it in rows] == [("7", "")]


def test_other_tables_for_a_spreadsheet(pages):
    pages.load(three_days())
    pages.name(*NAMES)
    (day,) = sheet(pages, "/csv/named_transfers.csv?from=2026-09-22&to=2026-09-22&spreadsheet=1")
    assert (day["date"], day["amount"], day["unit"]) == ("2026-09-22", "1274.32", "EUR")
    assert (day["debit_account_id"], day["credit_account_id"]) == ("#1", "#2")
    assert (day["debit_name"], day["credit_name"]) == ("House", "'=A1")
    house, other = sheet(pages, "/csv/named_accounts.csv?spreadsheet=1")
    assert (house["id"], house["debits_posted"]) == ("#1", "3822.96")
    assert other["credits_posted"] == "3822.96"
    (trial,) = sheet(pages, "/csv/named_trial_balance.csv?at=2026-09-21&spreadsheet=1")
    assert (trial["debits_posted"], trial["unit"]) == ("1274.31", "EUR")


@pytest.mark.parametrize("name", ["named_statement", "named_trial_balance"])
def test_no_mark_for_programs(pages, name):
    pages.load(three_days())
    assert not pages.get(f"/csv/{name}.csv").startswith("\ufeff")


@pytest.mark.parametrize(
    "value, wanted",
    [
        ("=HYPERLINK(1)", "'=HYPERLINK(1)"),
        ("+1", "'+1"),
        ("@SUM(A1)", "'@SUM(A1)"),
        ("\tx", "'\tx"),
        ("-1+1", "'-1+1"),
        ("-5 +HYPERLINK(1)", "'-5 +HYPERLINK(1)"),
        ("-5", "-5"),
        ("-131,869.90 EUR", "-131,869.90 EUR"),
        ("House", "House"),
        (-5, -5),
        (None, None),
    ],
)
def test_no_cell_is_a_formula(value, wanted):
    assert downloads.cell(value) == wanted


def test_written_amounts_are_no_formulas(pages):
    pages.load(three_days())
    pages.name(*NAMES)
    rows = list(csv.DictReader(io.StringIO(pages.get("/csv/named_statement.csv?account=2"))))
    assert (rows[0]["balance"], rows[0]["balance_written"]) == ("-127431", "-1,274.31 EUR")
    assert rows[0]["name"] == "'=A1"


@pytest.mark.parametrize("address", ["/csv/sqlite_master.csv", "/csv/accounts;.csv"])
def test_no_table(pages, address):
    pages.load(three_days())
    pages.get(address, 404)
