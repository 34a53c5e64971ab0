"""The views, by values worked out by hand."""

import contextlib
import sqlite3

import pytest

from helpers.histories import NAMES
from helpers.made import MAX, START, Made, account, transfer
from tb_sql.names import decimal
from tb_sql.numbers import held


def test_statement(tables):
    audit = Made().register().accounts(account(1), account(2), account(3))
    tables.load(audit.transfers(transfer(11, 1, 2, 100), transfer(12, 3, 1, 130)))
    assert tables.rows("SELECT * FROM statement WHERE account_id = 1 ORDER BY timestamp") == [
        (1, 1, "2026-09-21T14:13:20.000000005Z", 2, 100, 0, 100, 11, START + 5),
        (1, 2, "2026-09-21T14:13:20.000000006Z", 3, 0, 130, -30, 12, START + 6),
    ]


def test_trial_balance(tables):
    audit = Made().register().accounts(account(1), account(2), account(3, 701), account(4, 701))
    audit.transfers(transfer(11, 1, 2, 7), transfer(12, 3, 4, 9, ["pending"], ledger=701))
    tables.load(audit)
    assert tables.rows("SELECT * FROM trial_balance ORDER BY ledger") == [
        (700, 2, 0, 7, 0, 7, 1),
        (701, 2, 9, 0, 9, 0, 1),
    ]


def test_sums_of_128_bits_are_exact(tables):
    """At the bounds of 63 bits, of a limb, and above 128 bits."""
    cases = [
        [1, 2, 3],
        [(1 << 63) - 1],
        [(1 << 63) - 2, 1],
        [(1 << 63) - 1, 1],
        [9223372029999999999, 9999999999],
        [9223372030000000000],
        [10**10 - 1, 1],
        [10**20 - 1, 1],
        [10**30 - 1, 1],
        [10**38, 10**38, 10**38],
        [MAX, MAX, MAX, 1],
        [MAX // 3 + it for it in range(50)],
    ]
    tables.load(Made().register())
    with contextlib.closing(sqlite3.connect(tables.path)) as connection:
        for ledger, amounts in enumerate(cases):
            connection.executemany(
                "INSERT INTO accounts VALUES (?, ?, ?, ?, 0, ?, 0, 0, 0, ?, 1, 0, 0, 1, 0)",
                [
                    (1000 * ledger + at, 1000 * ledger + at, 0, held(it), held(it), ledger)
                    for at, it in enumerate(amounts)
                ],
            )
        connection.commit()
    rows = tables.rows("SELECT ledger, debits_posted, balances FROM trial_balance ORDER BY 1")
    assert rows == [(at, held(sum(it)), 1) for at, it in enumerate(cases)]
    tables.change("UPDATE accounts SET debits_posted = ? WHERE id = 10000", str(MAX - 1))
    assert tables.rows("SELECT ledger, debits_posted FROM trial_balance WHERE balances = 0") == [
        (10, str(3 * MAX))
    ]


def test_pending_by_expiry(tables):
    audit = Made().register().accounts(account(1), account(2))
    audit.transfers(
        transfer(11, 1, 2, 5, ["pending"]),
        transfer(12, 1, 2, 6, ["pending"], timeout=20),
        transfer(13, 1, 2, 7, ["pending"], timeout=10),
        transfer(14, 1, 2, 8),
    )
    tables.load(audit)
    assert tables.rows("SELECT id, expires, amount FROM pending_transfers") == [
        (13, "2026-09-21T14:13:30.000000006Z", 7),
        (12, "2026-09-21T14:13:40.000000005Z", 6),
        (11, None, 5),
    ]


def test_refusals_and_retries(tables):
    audit = Made().register().accounts(account(1), account(2))
    audit.transfers(transfer(11, 1, 2, 5))
    audit.transfers(
        transfer(11, 1, 2, 5, result="exists"),
        transfer(12, 1, 9, 5, result="linked_event_failed"),
    )
    audit.transfers(transfer(11, 1, 2, 5, result="exists"))
    tables.load(audit)
    assert tables.rows("SELECT * FROM refusals ORDER BY result") == [
        ("create_transfers", "exists", 2, 4, 5),
        ("create_transfers", "linked_event_failed", 1, 4, 4),
    ]
    assert tables.rows("SELECT id, commit_number, place FROM retries ORDER BY 2") == [
        (11, 4, 0),
        (11, 5, 0),
    ]


def test_sessions(tables):
    audit = Made(clients_max=1, time=0).register(7).register(8)
    tables.load(audit)
    assert tables.rows("SELECT session, client, registered, evicted FROM session_list") == [
        (1, 7, "1970-01-01T00:00:00.000000001Z", "1970-01-01T00:00:00.000000002Z"),
        (2, 8, "1970-01-01T00:00:00.000000002Z", None),
    ]


@pytest.fixture
def named(tables):
    """Tables with names, of which one could be a formula."""
    made = Made().register().accounts(account(1), account(2), account(3, ledger=701))
    tables.load(made.transfers(transfer(11, 1, 2, 188125), transfer(12, 2, 1, 5)))
    tables.name(*NAMES, ("account", 2, "=HYPERLINK(1)", 0))
    return tables


def test_views_with_names(named):
    assert named.rows(
        "SELECT name, counterparty_name, debit, debit_written, balance, balance_written"
        " FROM named_statement WHERE account_id = 1 ORDER BY number"
    ) == [
        ("House", "=HYPERLINK(1)", 188125, "1,881.25 EUR", 188125, "1,881.25 EUR"),
        ("House", "=HYPERLINK(1)", 0, "0.00 EUR", 188120, "1,881.20 EUR"),
    ]
    found = named.rows("SELECT ledger, name, debits_posted_written FROM named_trial_balance")
    assert found == [(700, "EUR", "1,881.30 EUR"), (701, None, None)]
    assert named.rows("SELECT balance_written FROM named_statement WHERE account_id = 2") == [
        ("-1,881.25 EUR",),
        ("-1,881.20 EUR",),
    ]


@pytest.mark.parametrize("places", [0, 1, 2, 3, 9, 38])
def test_written_amounts_are_those_of_python(named, places):
    named.change("UPDATE names SET places = ? WHERE kind = 'ledger'", places)
    for value in (0, 1, 999, 1000, 10**18, 2**63, 10**38, MAX):
        named.change("UPDATE transfers SET amount = ? WHERE id = 11", str(value))
        found = named.row("SELECT amount_written FROM named_transfers WHERE id = 11")[0]
        assert found == f"{decimal(value, places)} EUR"
