"""What the pages ask: bounded steps, pages of rows, each row once, wrong rows."""

import contextlib
import html
import re
import sqlite3
import unittest.mock

import pytest

from helpers.cases import case
from helpers.histories import history
from helpers.made import START, Made, account, transfer
from tb_sql.errors import Failed, Stop
from tb_sql.pages import queries


@pytest.mark.parametrize(
    "column, wrong", [("commit_number", "x"), ("time", 1.5), ("head", "{")], ids=case
)
def test_edited_position(pages, column, wrong):
    """Each page reports it as a load does, and no page is served."""
    pages.load(history())
    pages.change(f"UPDATE position SET {column} = ?", wrong)
    for address in ("/", "/account/1", "/csv/accounts.csv"):
        assert "has no position in a history" in pages.words(address, 500)
    with pytest.raises(Stop):
        queries.Tables(pages.path)


@pytest.mark.parametrize(
    "table, column, wrong, address",
    [
        ("accounts", "debits_pending", 1.5, "/accounts"),
        ("accounts", "user_data_128", "", "/account/1"),
        ("transfers", "amount", b"7", "/transfers"),
        ("transfers", "state", b"pending", "/transfer/2000"),
        ("entries", "operation", b"register", "/transfer/1000"),
        ("entries", "refused_so_far", "one", "/"),
        ("sessions", "requests", 0.5, "/sessions"),
    ],
    ids=case,
)
def test_a_value_of_another_kind(pages, table, column, wrong, address):
    """A page names it, and not as a fault of the server."""
    pages.load(history())
    pages.words(address)
    pages.change(f"UPDATE {table} SET {column} = ?", wrong)
    said = f"A value that no table has: {column} is {wrong!r}."
    assert said in pages.words(address, 500)


@pytest.mark.parametrize(
    "table, column, address",
    [
        ("accounts", "debits_posted", "/account/1"),
        ("accounts", "flags", "/account/1"),
        ("transfers", "commit_number", "/transfer/1000"),
        ("entries", "time", "/"),
    ],
)
def test_text_in_place_of_a_number(pages, table, column, address):
    pages.load(history())
    pages.change(f"UPDATE {table} SET {column} = 'x' || {column}")
    assert "A value that no table has" in pages.words(address, 500)


def test_hostile_text_in_place_of_a_number(pages):
    """In tables that another program changed."""
    pages.load(Made().register().accounts(account(1)))
    pages.change("UPDATE accounts SET user_data_32 = '<script>', user_data_128 = '\"<b>'")
    page = pages.get("/account/1", 500)
    assert re.search("<script|<b>", page) is None
    assert page.count("&lt;b&gt;") == 1


@pytest.mark.parametrize("first, words", [("/account/1", "Older"), ("/account/1?after=0", "Newer")])
def test_paging_meets_each_posting_once(pages, first, words):
    audit = Made().register().accounts(account(1), account(2))
    audit.transfers(*(transfer(100 + it, 1, 2, 1) for it in range(230)))
    pages.load(audit)
    met, address, count = [], first, 0
    while address:
        page = pages.get(address)
        met += re.findall(
            r'<th scope="row" role="rowheader"><a class="id" href="/transfer/(\d+)"', page
        )
        found = re.search(rf'<a rel="\w+" href="([^"]*)">{words}</a>', page)
        address, count = html.unescape(found[1]) if found else None, count + 1
    assert sorted(map(int, met)) == list(range(100, 330))
    assert count == 5


@pytest.mark.parametrize("address", ["/transfers", "/accounts", "/account/1", "/sessions"])
def test_the_oldest_page_is_the_last_one(pages, address):
    pages.load(history())
    page = pages.get(f"{address}?after=0")
    assert not (">Older</a>" in page), address


@pytest.mark.parametrize("more", ["before=0", f"after={(1 << 63) - 1}"], ids=["before", "after"])
@pytest.mark.parametrize(
    "rows, address, none",
    [
        ("sessions", "/sessions?", "No client has registered."),
        ("transfers", "/transfers?", "There are no transfers."),
        ("transfers", "/transfers?from=2026-01-01&", "There are no transfers between these"),
        ("accounts", "/accounts?", "There are no accounts."),
        ("accounts", "/accounts?ledger=700&", "There are no accounts of ledger 700."),
    ],
)
def test_pages_beyond_the_rows(pages, rows, address, none, more):
    """They say so. They reported that there are no rows at all."""
    pages.load(history())
    said = pages.words(address + more)
    assert f"There are no {rows} on this page." in said
    assert none not in said


def test_the_end_of_time(pages):
    """What has the last time that there is, 2^63 - 1, is shown and counted."""
    end = (1 << 63) - 1
    audit = Made(time=end - 6).register().accounts(account(1), account(2))
    audit.transfers(*(transfer(id, 1, 2, 7) for id in (11, 12, 13)))
    assert audit.time == end
    pages.load(audit)
    said = pages.words("/account/1")
    for part in ("Debits 21", "Balance after 21 debit", "Postings 1 to 3 of 3"):
        assert part in said
    assert "23:47:16 13" in pages.words("/transfers")
    assert "16.854775807Z" in pages.get("/transfers")
    assert "/transfer/13" in pages.get(f"/transfers?after={end - 1}")
    assert "3 in all, from" in pages.get("/")
    assert len(pages.csv("/csv/statement.csv?account=1")) == 4
    assert "There are no transfers" in pages.words(f"/transfers?after={end}")
    assert "no postings on this page" in pages.words(f"/account/1?after={end}")


def test_a_million_postings(pages):
    """The postings of one account, made in the database: pages and the chart take a bounded
    time."""
    pages.load(Made().register().accounts(account(1), account(2)))
    with contextlib.closing(sqlite3.connect(pages.path)) as connection:
        connection.execute(
            "WITH RECURSIVE at(n) AS"
            " (SELECT 1 UNION ALL SELECT n + 1 FROM at WHERE n < 1000000) INSERT INTO postings"
            " SELECT 1, ? + n * 1000000000, n, n, 2, 1, 0, n, 0, n FROM at",
            (START,),
        )
        connection.execute("UPDATE accounts SET postings = 1000000, debits_posted = 1000000")
        connection.commit()
    said = pages.words("/account/1")
    assert "Postings 999,951 to 1,000,000 of 1,000,000" in said
    assert "at 241 moments" in said
    assert "Postings 1 to 50 of" in pages.words("/account/1?after=0")


def without_end(pages):
    """Tables with many rows, made in the database."""
    pages.load(Made().register().accounts(account(1), account(2)))
    made = "WITH RECURSIVE at(n) AS (SELECT 9 UNION ALL SELECT n + 1 FROM at WHERE n < ?)"
    rows = {
        "postings": "1, n + ?, n, n, 2, 1, 0, n, 0, n",
        "entries": "n, n + ?, 7, 1, n, 'lookup_accounts', 0, 0, 2, 0, 0, 'x'",
        "accounts": "n + ?, n, 0, 0, 0, 0, 0, 0, 0, 700 + n % 3, 1, 0, 0, 2, 0",
    }
    for table, row in rows.items():
        pages.change(f"INSERT INTO {table} {made} SELECT {row} FROM at", MANY, START + 9)
    return queries.Tables(pages.path)


MANY = 100_000
ASKED = {
    "overview": lambda it: len(it.activity(queries.Range())) == queries.BARS,
    "account": lambda it: len(it.balances(1, queries.Range())[0]) == queries.POINTS + 1,
    "accounts": lambda it: it.ledgers() == [700, 701, 702],
    "search": lambda it: len(it.sessions_of(7)) == 1,
}


@pytest.mark.parametrize("name", ASKED)
def test_steps(pages, name):
    """What a page asks takes no longer with a longer history, or with more accounts."""
    with contextlib.closing(without_end(pages)) as tables:
        steps = []
        tables.reading._connection.set_progress_handler(lambda: steps.append(100), 100)
        assert ASKED[name](tables)
        tables.reading._connection.set_progress_handler(None, 0)
        assert sum(steps) < MANY / 10


def test_sessions_of_a_client(pages):
    audit = Made(clients_max=1)
    for _ in range(3):
        audit.register(7).accounts(account(audit.commit))
        audit.register(8)
    pages.load(audit)
    said = pages.words("/search?id=7")
    assert "A client with 3 sessions: 7, 1 requests, evicted; 4, 1 requests" in said
    # another program's session, above its entry: it was looked for without an end
    pages.change("UPDATE entries SET session = 1000 WHERE client = 7 AND session <> 0")
    said = pages.words("/search?id=7", 500)
    assert "A value that no table has: session is 1000." in said


def test_tables_that_another_program_has_locked(pages):
    """In another mode than this one's: what is not committed is not shown."""
    pages.load(history())
    pages.change("PRAGMA journal_mode = DELETE")
    with contextlib.closing(sqlite3.connect(pages.path, isolation_level=None)) as other:
        other.execute("PRAGMA cache_size = 2")
        for lock in ("BEGIN EXCLUSIVE", "UPDATE postings SET debit = 987654321"):
            other.execute(lock)
            with unittest.mock.patch("tb_sql.sqlite_store.PATIENCE", 0.1):
                page = pages.get("/account/1", 500)
            assert "database is locked" in page


@pytest.fixture
def unlocked(pages, monkeypatch):
    """Pages that are read without locks, as in a folder that cannot be written; and what writes to
    their tables."""
    connect, audit = sqlite3.connect, history()
    pages.load(audit)

    def connected(name, **words):
        return connect(name.replace("mode=ro", "immutable=1"), **words)

    def written(*_):
        pages.load(audit.register(1000 + audit.commit))
        return []

    monkeypatch.setattr("sqlite3.connect", connected)
    pages.get("/accounts")
    pages.get("/csv/transfers.csv")
    return written


WRITTEN = "was written while it was read"


def test_a_page_of_two_moments(pages, unlocked, monkeypatch):
    monkeypatch.setattr(queries.Tables, "ledgers", unlocked)
    assert WRITTEN in pages.get("/accounts", 500)


def test_a_check_of_two_moments(pages, unlocked, monkeypatch):
    monkeypatch.setattr("tb_sql.checking.Tables.check", unlocked)
    status, _, said = pages.said("check", pages.path)
    assert (status, WRITTEN in said) == (1, True), said


def test_a_download_of_two_moments(pages, unlocked, monkeypatch):
    monkeypatch.setattr("tb_sql.pages.downloads.CSV_ROWS", 10)
    rows = pages.reply("/csv/transfers.csv").iter_encoded()
    unlocked()
    with pytest.raises(Failed, match=WRITTEN):
        list(rows)


def test_nothing_is_written(pages):
    pages.load(history())
    before = pages.contents()
    pages.get("/")
    with contextlib.closing(queries.Tables(pages.path)) as tables:
        with pytest.raises(sqlite3.OperationalError):
            tables.all("DELETE FROM accounts")
    assert pages.contents() == before
