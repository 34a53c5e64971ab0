"""The check: what is right passes, and each column that is changed is found and named."""

import argparse
import contextlib
import io
import json
import re
import shutil
import sqlite3

import pytest
from tb_client import Reply
from telovamish.records import Account
from telovamish.streams import read_request

from helpers.cases import case
from helpers.histories import history
from helpers.made import MAX, START, Made, account, transfer
from helpers.tables import Tables, stand_in
from tb_sql import checking
from tb_sql.numbers import held
from tb_sql.schema import KEYS, TABLES, columns

# the columns that other rows determine; the entry's digest covers all others
DERIVED = {
    "position": ["commit_number", "time", "digest"],
    "entries": ["commit_number"],
    "sessions": columns("sessions"),
    "accounts": ["flags", "postings"]
    + [f"{side}_{it}" for side in ("debits", "credits") for it in ("pending", "posted")],
    "transfers": ["state", "expires_at", "ended_at", "ended_by"],
    "postings": columns("postings"),
    "balances": columns("balances"),
    "refused": [],
}


def another(column, value):
    """Another value of a column."""
    if column == "head":
        return json.dumps({**json.loads(value), "clients_max": 3})
    if column == "digest" or isinstance(value, str) and not value.isdigit():
        return value[:-1] + ("x" if value[-1:] != "x" else "y")
    return held(int(value or 0) + 1_000_003)


class Steps:
    """In place of a ledger's file: its steps."""

    def __init__(self, steps):
        self.steps = steps

    def __call__(self, *_):
        return self

    def read(self, loading):
        loading.read(iter(self.steps))


# each column; the database and each opening test the others
COLUMNS = [(table, it) for table in TABLES for it in columns(table) if it not in ("one", "schema")]
EACH_COLUMN = pytest.mark.parametrize("table, column", COLUMNS, ids=map(".".join, COLUMNS))


def more():
    """A history in which each table has a row."""
    made = history().accounts(account(20, flags=["history"]), account(21, flags=["closed"]))
    return made.transfers(transfer(9001, 20, 1, 5), transfer(9002, 20, 1, 5, ["pending"]))


@pytest.fixture(scope="module")
def whole(tmp_path_factory):
    """A file of tables that is right."""
    tables = Tables(tmp_path_factory.mktemp("whole"))
    tables.load(more())
    assert tables.said("check", tables.path)[::2] == (0, "")
    return tables


@pytest.fixture
def changed(whole, tables, table, column):
    """The same with another value of a column, in one row."""
    shutil.copy(whole.path, tables.path)
    where = {"transfers": "WHERE state = 'voided'"}.get(table, "")
    row = tables.rows(f"SELECT * FROM {table} {where} ORDER BY 1, 2")[0]
    named = dict(zip(columns(table), row))
    key = " AND ".join(f"{it} = ?" for it in KEYS[table])
    text = f"UPDATE {table} SET {column} = ? WHERE {key}"
    tables.change(text, another(column, named[column]), *(named[it] for it in KEYS[table]))
    return tables


@EACH_COLUMN
def test_by_the_tables_themselves(changed, table, column):
    status, _, said = changed.said("check", changed.path)
    assert status == 1, said
    if column in DERIVED[table]:
        assert re.search(f"{table} .*\\b{column}\\b", said)
    else:
        assert "digest" in said


@EACH_COLUMN
def test_by_the_history(changed, monkeypatch, table, column):
    monkeypatch.setattr(checking, "Ledger", Steps(more().steps))
    monkeypatch.setattr(checking, "Programs", lambda *_: None)
    status, _, said = changed.said("check", changed.path, "--ledger", "it")
    assert status == 1, said
    assert re.search(f"tb-sql: {table} .*: {column}: ", said)


def test_by_a_file(tables, monkeypatch):
    made = more()
    tables.load(made)
    file, replies = tables.room / "ledger.tbk", tables.room / "replies"
    file.write_bytes(made.bytes)
    replies.write_bytes(made.replies)
    words = ["check", tables.path, "--ledger", str(file)]
    words += [word for it in ("tbd", "tbs") for word in (f"--{it}", stand_in(tables.room, it))]
    monkeypatch.setenv("REPLIES", str(replies))
    status, out, said = tables.said(*words)
    assert (status, said) == (0, "")
    assert "each row is that of the history" in out
    tables.change("UPDATE transfers SET code = 11 WHERE id = 9001")
    status, _, said = tables.said(*words)
    assert status == 1
    assert re.search("transfers timestamp [0-9]+, id 9001: code: 11 in the tables, 10", said)


@pytest.fixture
def books(tables):
    """Tables that are right."""
    tables.load(history())
    return tables


def two(tables, transfers, **more):
    """Tables of two accounts, and these transfers."""
    tables.load(Made().register().accounts(account(1), account(2, **more)).transfers(*transfers))


def found(tables, *changes):
    """What a check of tables with these changes says."""
    for text in changes:
        tables.change(text)
    status, out, said = tables.said("check", tables.path)
    assert (status, out) == (1, ""), said
    assert said.count("\n") == 1
    return said


def test_right(books):
    status, out, said = books.said("check", books.path)
    assert (status, said) == (0, "")
    assert "8 accounts of 1 ledgers are the sums of 80 postings" in out


def test_great_amounts(tables):
    made = Made().register().accounts(account(1), account(MAX - 1))
    tables.load(made.transfers(transfer(5, 1, MAX - 1, MAX)))
    assert tables.said("check", tables.path)[0] == 0


@pytest.mark.parametrize(
    "change, wanted",
    [
        ("DELETE FROM postings WHERE account_id = 1 AND number = 3", "is not in the tables"),
        ("DELETE FROM entries WHERE commit_number = 5", "commit_number 6: 5 is next"),
        ("DELETE FROM transfers WHERE id = 2005", "digest"),
        ("DELETE FROM refused WHERE place = 2", "digest"),
        ("DELETE FROM sessions", "sessions session 1 is not in the tables"),
        (
            "INSERT INTO sessions VALUES (9999, 1, 1, 1, NULL)",
            "sessions session 9999 is not in the history",
        ),
    ],
)
def test_rows_that_are_missing_or_too_many(books, change, wanted):
    assert wanted in found(books, change)


@pytest.mark.parametrize(
    "flag, wanted",
    [
        ("debits_must_not_exceed_credits", "account 1: its debits exceed its credits"),
        ("credits_must_not_exceed_debits", "account 2: its credits exceed its debits"),
    ],
)
def test_limits(tables, flag, wanted):
    """They hold in tables whose rows agree."""
    made = Made().register().accounts(account(1, flags=[flag]), account(2, flags=[flag]))
    tables.load(made.transfers(transfer(5, 1, 2, 9)))
    assert wanted in found(tables)


def test_sums_above_128_bits(tables):
    two(tables, [transfer(5, 1, 2, MAX), transfer(6, 1, 2, MAX)])
    assert "are not of 128 bits" in found(tables)


@pytest.mark.parametrize(
    "flags, wanted", [([], "debits posted"), (["pending"], "debits pending")], ids=case
)
def test_ledgers(tables, flags, wanted):
    """Their debits are equal to their credits in tables whose rows agree."""
    two(tables, [transfer(5, 1, 2, 9, flags)], ledger=5)
    assert wanted in found(tables)


@pytest.mark.parametrize(
    "text",
    [
        "UPDATE entries SET time = 'x' WHERE commit_number = 3",
        "UPDATE accounts SET flags = 'x' WHERE id = 3",
        "UPDATE accounts SET credits_pending = x'00ff' WHERE id = 2",
        "UPDATE transfers SET amount = '1e3' WHERE id = 2001",
    ],
)
def test_values_that_are_no_numbers(books, text):
    found(books, text)


def test_closed(tables):
    two(tables, [transfer(5, 1, 2, 1, ["pending", "closing_debit"])])
    assert tables.said("check", tables.path)[0] == 0
    assert "id 1: flags: 0" in found(tables, "UPDATE accounts SET flags = 0")


class Served:
    """A server in place of a socket. It registers a client, and looks up accounts, which have
    these fields; both are entries of the history."""

    def __init__(self, made, fields):
        self.made, self.fields = made, fields

    def exchange(self, moment, frame):
        request, records = read_request(io.BytesIO(frame), moment), b""
        if request.operation == "register":
            self.made.register(request.client)
        else:
            ids = [request.body[at : at + 16] for at in range(0, len(request.body), 16)]
            numbers = [int.from_bytes(it, "little") for it in ids]
            self.made.lookup(*numbers)
            records = b"".join(self.record(it) for it in numbers if it in self.fields)
        _, it = self.made.steps[-1]
        number = request.request
        reply = Reply(it.client, it.session, number, it.operation, 0, it.commit, records)
        return reply.to_bytes()

    def record(self, id):
        it = Account.read(bytes(128))
        for name, value in {"id": id, "ledger": 700, "code": 10, **self.fields[id]}.items():
            setattr(it, name, value)
        return it.to_bytes()

    def close(self):
        pass


# by hand: a transfer of 100 that is posted, and one of 30 that is pending
FIELDS = {
    1: {"debits_posted": 100, "debits_pending": 30, "timestamp": START + 2},
    2: {"credits_posted": 100, "credits_pending": 30, "timestamp": START + 3},
}


@pytest.fixture
def server(tables, monkeypatch):
    """Tables, and a server of the same history."""
    made = Made().register().accounts(account(1), account(2))
    made.transfers(transfer(11, 1, 2, 100), transfer(12, 1, 2, 30, ["pending"]))
    tables.load(made)
    served = Served(made, {id: dict(it) for id, it in FIELDS.items()})
    monkeypatch.setattr(checking, "transport_to", lambda _: served)
    monkeypatch.setattr(checking, "Ledger", Steps(made.steps))
    monkeypatch.setattr(checking, "Programs", lambda *_: None)
    return served


def test_a_server(tables, server):
    """The lookup is an entry, which the tables reach by the ledger."""
    status, out, said = tables.said("check", tables.path, "--server", "it", "--ledger", "it")
    assert (status, said) == (0, "")
    assert "2 accounts are those of the server, at commits 5 to 5" in out
    assert tables.rows("SELECT commit_number FROM position") == [(5,)]


@pytest.mark.parametrize(
    "name, value, wanted", [("debits_posted", 101, 100), ("code", 11, 10), ("flags", 32, 0)]
)
def test_another_server(tables, server, name, value, wanted):
    server.fields[1][name] = value
    status, _, said = tables.said("check", tables.path, "--server", "it", "--ledger", "it")
    difference = f"account 1, {name} at entry 5: {wanted} in the tables, {value} at the server"
    assert (status, said) == (1, f"tb-sql: {difference}\n")


def test_a_server_without_an_account(tables, server):
    del server.fields[2]
    status, _, said = tables.said("check", tables.path, "--server", "it", "--ledger", "it")
    assert (status, said) == (1, "tb-sql: account 2 is not on both sides at entry 5\n")


def test_tables_that_do_not_reach_the_server(tables, server):
    words = ["check", tables.path, "--server", "it", "--wait", "0"]
    status, _, said = tables.said(*words)
    assert status == 1
    assert "the tables end at entry 3, and the server answered at 5: load the rest" in said


def test_a_server_without_accounts(tables, server):
    for table in ("accounts", "transfers", "postings", "refused"):
        tables.change(f"DELETE FROM {table}")
    with contextlib.closing(sqlite3.connect(tables.path)) as connection:
        given = argparse.Namespace(server="it", ledger=None, wait=0)
        said = checking.Server(given, connection, server).compare()
    assert said == "there are no accounts to compare"
