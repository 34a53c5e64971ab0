"""What the pages ask the tables. Each question takes a bounded number of steps through an index,
whatever the history's length, except three: the trial balance looks at each account, the reasons
at each refused event, and what is pending at each open transfer (of the account, on its page)."""

from __future__ import annotations

import time
from typing import Any, Dict, Iterator, List, NamedTuple, Optional, Tuple

from ..errors import AGAIN, Failed
from ..loading import is_postgresql
from ..numbers import Number
from ..reading import PostgresReading, Reading, Row, SqliteReading

ROWS = 50  # of a page
POINTS = 240  # of a chart of an account
BARS = 48
PAUSE = 0.05  # seconds between two looks at the last commit
LAST = (1 << 63) - 1


class Range(NamedTuple):
    """Times from the first one to the last one, both included."""

    start: int = 0
    end: int = LAST


class Page(NamedTuple):
    """Rows, the newest first, and the first rows of the pages next to it."""

    rows: List[Row]
    newer: Optional[int]
    older: Optional[int]


class Bar(NamedTuple):
    """What was counted in a span of time."""

    start: int
    end: int
    transfers: int
    refused: int


class Summary(NamedTuple):
    """An account's postings within a range: the sums before it, and after it."""

    first: int
    last: int
    debits: int
    credits: int
    opening: int
    closing: int


POSTINGS = (
    "SELECT p.*, t.code, t.pending_id, h.amount AS was_pending FROM postings AS p"
    " LEFT JOIN transfers AS t ON t.timestamp = p.timestamp"
    " LEFT JOIN transfers AS h ON h.id = t.pending_id AND t.pending_id <> 0"
    " WHERE p.account_id = ? AND {}"
)


class Account(NamedTuple):
    """Which accounts are wanted: of a ledger, of a code, with this in one of its user data."""

    ledger: Optional[int] = None
    code: Optional[int] = None
    user_data: Optional[Number] = None

    def where(self) -> Tuple[str, List[Any]]:
        """The condition in SQL, and its values."""
        tests: List[str] = []
        values: List[Any] = []
        for name, value in (("ledger", self.ledger), ("code", self.code)):
            if value is not None:
                tests.append(f"{name} = ?")
                values.append(value)
        if self.user_data is not None:
            sizes = (128, 64, 32) if isinstance(self.user_data, int) else (128, 64)
            tests.append("(" + " OR ".join(f"user_data_{bits} = ?" for bits in sizes) + ")")
            values += [self.user_data] * len(sizes)
        return " AND ".join(tests) or "1 = 1", values


# what accounts are sorted by, the greatest first
SORTS = {
    "newest": "timestamp DESC",
    "id": "{id}",
    "balance": "{balance} DESC, timestamp",
    "code": "code, timestamp",
    "postings": "postings DESC, timestamp",
}


class Late(Failed):
    """The tables do not have an entry yet."""


class Tables:
    """What the pages ask, of one moment."""

    def __init__(self, name: str) -> None:
        self.reading: Reading = (
            PostgresReading(name) if is_postgresql(name) else SqliteReading(name)
        )
        self.one, self.all, self.each = self.reading.one, self.reading.all, self.reading.each
        self.close, self.check_still = self.reading.close, self.reading.check_still

    def position(self) -> Row:
        row = self.one("SELECT * FROM position")
        assert row is not None
        return row

    def counts(self) -> Dict[str, int]:
        """How many accounts, transfers and refused events there are, and open pending transfers."""
        row = self.one(
            "SELECT accounts_so_far, transfers_so_far, refused_so_far FROM entries"
            " ORDER BY commit_number DESC LIMIT 1"
        )
        pending = self.one("SELECT count(*) FROM transfers WHERE state = 'pending'")
        assert pending is not None
        accounts, transfers, refused = row or (0, 0, 0)
        return {
            "accounts": accounts,
            "transfers": transfers,
            "refused": refused,
            "pending": pending[0],
        }

    def times(self) -> Tuple[int, int]:
        """The first entry's time and the last one's."""
        # apart: of both in one question SQLite would read each entry
        row = self.one("SELECT (SELECT min(time) FROM entries), (SELECT max(time) FROM entries)")
        return (row[0], row[1]) if row and row[0] is not None else (0, 0)

    def trial_balance(self) -> List[Row]:
        return self.all("SELECT * FROM trial_balance ORDER BY ledger")

    def activity(self, range: Range) -> List[Bar]:
        """Transfers and refused events by spans of time of one length."""
        first, last = self.times()
        start, end = max(range.start, first), min(range.end, last) + 1
        if start >= end:
            return []
        step = max(1, -(-(end - start) // BARS))
        bars, before = [], self._so_far(start)
        while start < end:
            after = self._so_far(start + step)
            bars.append(Bar(start, start + step, after[0] - before[0], after[1] - before[1]))
            start, before = start + step, after
        return bars

    def _so_far(self, time: int) -> Tuple[int, int]:
        """Transfers and refused events of the entries before a time."""
        row = self.one(
            "SELECT transfers_so_far, refused_so_far FROM entries WHERE time <= ?"
            " ORDER BY time DESC LIMIT 1",
            min(time - 1, LAST),
        )
        return (row[0], row[1]) if row else (0, 0)

    def refusals(self, limit: int = 100) -> List[Row]:
        return self.all(
            "SELECT * FROM refusals ORDER BY events DESC, operation, result LIMIT ?", limit
        )

    def account(self, id: Number) -> Optional[Row]:
        return self.one("SELECT * FROM accounts WHERE id = ?", id)

    def transfer(self, id: Number) -> Optional[Row]:
        return self.one("SELECT * FROM transfers WHERE id = ?", id)

    def entry(self, commit: int) -> Optional[Row]:
        return self.one("SELECT * FROM entries WHERE commit_number = ?", commit)

    def refused_by_id(self, id: Number) -> List[Row]:
        """The latest ones, and one more if there are more than a page has."""
        return self.all(
            "SELECT r.*, e.time FROM refused AS r JOIN entries AS e USING (commit_number)"
            " WHERE r.id = ? ORDER BY commit_number DESC, place DESC LIMIT ?",
            id,
            ROWS + 1,
        )

    def sessions_of(self, client: Number) -> List[Row]:
        """The sessions of a client, the latest first: before the first entry of each the last one
        of the session before it. One more if there are more than a page has."""
        found: List[Row] = []
        before = LAST
        while len(found) <= ROWS:
            row = self.one(
                "SELECT commit_number, session FROM entries WHERE client = ? AND commit_number < ?"
                " ORDER BY commit_number DESC LIMIT 1",
                client,
                before,
            )
            if row is None:
                break
            before = row["session"] or row["commit_number"]
            if before > row["commit_number"]:  # which would be read again and again
                raise Failed(f"A value that no table has: session is {before}. {AGAIN}")
            found += self.all("SELECT * FROM session_list WHERE session = ?", before)
        return found

    def summary(self, id: Number, range: Range) -> Optional[Summary]:
        """The account's postings within a range; nothing if there are no postings."""
        within = "FROM postings WHERE account_id = ? AND timestamp >= ? AND timestamp <= ?"
        first = self.one(f"SELECT * {within} ORDER BY timestamp LIMIT 1", id, *range)
        last = self.one(f"SELECT * {within} ORDER BY timestamp DESC LIMIT 1", id, *range)
        if first is None or last is None:
            return None
        debits_before = int(first["debits_posted"]) - int(first["debit"])
        credits_before = int(first["credits_posted"]) - int(first["credit"])
        return Summary(
            first["number"],
            last["number"],
            int(last["debits_posted"]) - debits_before,
            int(last["credits_posted"]) - credits_before,
            debits_before - credits_before,
            int(last["balance"]),
        )

    def balance_at(self, id: Number, time: int) -> int:
        """The posted balance at the end of a time."""
        row = self.one(
            "SELECT balance FROM postings WHERE account_id = ? AND timestamp <= ?"
            " ORDER BY timestamp DESC LIMIT 1",
            id,
            time,
        )
        return int(row[0]) if row else 0

    def statement(
        self, id: Number, range: Range, before: Optional[int], after: Optional[int]
    ) -> Page:
        """A page of an account's postings, with the amount that was pending for each."""
        return self._page(POSTINGS, [id], range, before, after, "p.timestamp")

    def month(self, id: Number, range: Range, limit: int) -> List[Row]:
        """An account's postings within a range, the oldest first."""
        within = POSTINGS.format("p.timestamp >= ? AND p.timestamp <= ?")
        return self.all(f"{within} ORDER BY p.timestamp LIMIT ?", id, *range, limit)

    def trial_balance_at(self, time: int) -> List[List[int]]:
        """Each ledger with its number of accounts and its four sums, as they were after all that
        came up to a time: by each account's last posting, and what was pending then."""
        found: Dict[int, List[int]] = {}
        for row in self.all(
            "SELECT a.ledger, p.debits_posted, p.credits_posted FROM accounts AS a"
            " LEFT JOIN postings AS p ON p.account_id = a.id AND p.timestamp = (SELECT"
            " max(b.timestamp) FROM postings AS b WHERE b.account_id = a.id AND b.timestamp <= ?)"
            " WHERE a.timestamp <= ?",
            time,
            time,
        ):
            sums = found.setdefault(row[0], [row[0], 0, 0, 0, 0, 0])
            sums[1] += 1
            sums[3] += int(row[1] or 0)
            sums[5] += int(row[2] or 0)
        for row in self.all(
            "SELECT d.ledger AS debit_ledger, c.ledger AS credit_ledger, t.amount FROM transfers"
            " AS t JOIN accounts AS d ON d.id = t.debit_account_id"
            " JOIN accounts AS c ON c.id = t.credit_account_id WHERE t.state IS NOT NULL"
            " AND t.timestamp <= ? AND (t.ended_at IS NULL OR t.ended_at > ?)",
            time,
            time,
        ):
            found[row[0]][2] += int(row[2])
            found[row[1]][4] += int(row[2])
        return [found[it] for it in sorted(found)]

    def transfers(self, range: Range, before: Optional[int], after: Optional[int]) -> Page:
        return self._page("SELECT * FROM transfers WHERE {}", [], range, before, after)

    def accounts(self, wanted: Account, before: Optional[int], after: Optional[int]) -> Page:
        """A page of accounts, the newest first."""
        where, values = wanted.where()
        text = f"SELECT * FROM accounts WHERE {where} AND {{}}"
        return self._page(text, values, Range(), before, after)

    def accounts_sorted(self, wanted: Account, sort: str, page: int) -> Tuple[List[Row], bool]:
        """A page of accounts in an order, and whether there are more."""
        where, values = wanted.where()
        balance = self.reading.balance_key
        order = SORTS[sort].format(balance=balance, id=self.reading.id_key)
        rows = self.all(
            f"SELECT * FROM accounts WHERE {where} ORDER BY {order} LIMIT ? OFFSET ?",
            *values,
            ROWS + 1,
            page * ROWS,
        )
        return rows[:ROWS], len(rows) > ROWS

    def ledgers(self) -> List[int]:
        """The first ledgers, each found after the one before it."""
        rows = self.all(
            "WITH RECURSIVE found(ledger) AS (SELECT min(ledger) FROM accounts UNION ALL"
            " SELECT (SELECT min(ledger) FROM accounts AS a WHERE a.ledger > f.ledger)"
            " FROM found AS f WHERE f.ledger IS NOT NULL)"
            " SELECT ledger FROM found WHERE ledger IS NOT NULL LIMIT 1000"
        )
        return [it["ledger"] for it in rows]

    def _page(
        self,
        text: str,
        values: List[Any],
        range: Range,
        before: Optional[int],
        after: Optional[int],
        key: str = "timestamp",
    ) -> Page:
        """A page of rows by a key: those before one of it, those after one, or the newest."""
        start, end = range
        if after is not None:
            order, start = "ASC", max(start, after + 1)
        else:
            order, end = "DESC", min(end, before - 1) if before is not None else end
        if start > end:
            return Page([], None, None)
        asked = f"{text.format(f'{key} >= ? AND {key} <= ?')} ORDER BY {key} {order} LIMIT ?"
        rows = self.all(asked, *values, start, end, ROWS + 1)
        is_more, rows = len(rows) > ROWS, rows[:ROWS]
        if after is not None:
            rows.reverse()
        if not rows:
            return Page([], None, None)
        key = key.rpartition(".")[2]
        newest, oldest = rows[0][key], rows[-1][key]
        is_newer = is_more if after is not None else before is not None
        is_older = after > 0 if after is not None else is_more
        return Page(rows, newest if is_newer else None, oldest if is_older else None)

    def balances(self, id: Number, range: Range) -> Tuple[List[Tuple[int, int]], bool]:
        """Points of an account's balance: each posting if there are few, otherwise the last one
        before each of some moments. Says whether each posting is among them."""
        found = self.summary(id, range)
        if found is None:
            return [], True
        within = "account_id = ? AND timestamp >= ? AND timestamp <= ?"
        if found.last - found.first < POINTS:
            rows = self.all(
                f"SELECT timestamp, balance FROM postings WHERE {within} ORDER BY timestamp",
                id,
                *range,
            )
            return [(it[0], int(it[1])) for it in rows], True
        ends = self.one(
            f"SELECT (SELECT min(timestamp) FROM postings WHERE {within}),"
            f" (SELECT max(timestamp) FROM postings WHERE {within})",
            *(id, *range, id, *range),
        )
        assert ends is not None
        first, last = ends
        points = []
        for at in _moments(first, last):
            row = self.one(
                "SELECT timestamp, balance FROM postings WHERE account_id = ? AND timestamp <= ?"
                " ORDER BY timestamp DESC LIMIT 1",
                id,
                at,
            )
            assert row is not None
            points.append((at, int(row[1])))
        return points, False

    def pending_of(self, id: Number) -> List[Row]:
        """The open pending transfers of an account, by expiry, and one more if there are more than
        a page has."""
        of_account = "SELECT * FROM transfers WHERE state = 'pending' AND {}_account_id = ?"
        return self.all(
            f"SELECT * FROM ({of_account.format('debit')} UNION ALL {of_account.format('credit')})"
            " AS t ORDER BY expires_at IS NULL, expires_at, timestamp LIMIT ?",
            id,
            id,
            ROWS + 1,
        )

    def pending(self, limit: int, after: Optional[int] = None) -> List[Row]:
        """The open pending transfers that expire first: of all, or of those that come after the
        transfer of a timestamp. Those that never expire come last."""
        expires_at: Optional[int] = -1
        if after is not None:
            last = self.one("SELECT expires_at FROM transfers WHERE timestamp = ?", after)
            if last is None:
                return []
            expires_at = last[0]
        within = "SELECT * FROM transfers WHERE state = 'pending' AND expires_at"
        rows: List[Row] = []
        if expires_at is not None:
            is_later = "(expires_at > ? OR timestamp > ?) ORDER BY expires_at, timestamp LIMIT ?"
            values = (expires_at, expires_at, after or 0, limit)
            rows = self.all(f"{within} >= ? AND {is_later}", *values)
        if len(rows) < limit:
            first = after or 0 if expires_at is None else 0
            order = "timestamp > ? ORDER BY timestamp LIMIT ?"
            rows += self.all(f"{within} IS NULL AND {order}", first, limit - len(rows))
        return rows

    def refused(
        self, operation: str, result: str, before: Optional[Tuple[int, int]]
    ) -> Tuple[List[Row], Optional[Tuple[int, int]]]:
        """Refused events of a reason, the latest first, and the place before which more are."""
        rows = self.all(
            "SELECT r.*, e.time FROM refused AS r JOIN entries AS e USING (commit_number)"
            " WHERE r.operation = ? AND r.result = ? AND (r.commit_number, r.place) < (?, ?)"
            " ORDER BY r.commit_number DESC, r.place DESC LIMIT ?",
            operation,
            result,
            *(before or (LAST, 0)),
            ROWS + 1,
        )
        if len(rows) <= ROWS:
            return rows, None
        last = rows[ROWS - 1]
        return rows[:ROWS], (last["commit_number"], last["place"])

    def sessions(self, before: Optional[int], after: Optional[int]) -> Page:
        return self._page(
            "SELECT * FROM session_list WHERE {}", [], Range(), before, after, key="session"
        )


def _moments(first: int, last: int) -> Iterator[int]:
    """Moments at equal distances, the first and the last one among them."""
    for at in range(POINTS + 1):
        yield first + (last - first) * at // POINTS


def tables_at(name: str, commit: int, seconds: float) -> Tables:
    """The tables, once they have an entry. Raises `Late` if it does not come in these seconds."""
    deadline = time.monotonic() + seconds
    while True:
        tables = Tables(name)
        last = tables.position()["commit_number"]
        if last >= commit:
            return tables
        tables.close()
        if time.monotonic() > deadline:
            raise Late(f"The tables end at commit {last}: {commit} did not come.")
        time.sleep(PAUSE)
