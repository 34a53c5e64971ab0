"""Compares tables with what they are to be: rows that are made again, from the events in the tables
themselves or from the history, limits, and the accounts of a server."""

from __future__ import annotations

import argparse
import itertools
import os
import sqlite3
import tempfile
import time
from typing import Any, Dict, List, Optional, Sequence, Tuple

from telovamish.faults import Fault

from .errors import Failed, Refused, Stop
from .events import Changed, steps_of
from .loading import Loading, is_postgresql, store_of
from .numbers import (
    CLOSED,
    CLOSING_CREDIT,
    CLOSING_DEBIT,
    CREDITS_LIMITED,
    DEBITS_LIMITED,
    ID_MAX,
    Number,
)
from .output import say
from .schema import KEYS, SUMS, TABLES, columns
from .sources import Ledger, Programs
from .sqlite_store import SqliteStore, check_schema, check_still, connect_read_only, write_time

LOOKED_UP = 8190  # ids of a lookup
PAUSE = 0.2  # seconds between two looks at the tables

Sums = Dict[str, int]


class Difference(Stop):
    """The first thing that is not as it has to be."""

    status = 1


def check_tables(given: argparse.Namespace) -> int:
    """Prints what was compared; the first difference is raised."""
    if is_postgresql(given.file):
        raise Refused("check reads only a file of SQLite: load the history into one")
    transport = None if given.server is None else transport_to(given.server)
    connection = connect_read_only(given.file)
    check_schema(connection, given.file)
    try:
        connection.isolation_level = None
        connection.execute("BEGIN")
        say(checked(connection, given))
        connection.execute("COMMIT")
        if transport is not None:
            say(Server(given, connection, transport).compare())
    finally:
        connection.close()
    return 0


def transport_to(server: str) -> Any:
    """The way to a server, to which no connection is made yet."""
    try:
        import tb_client
    except ImportError:
        raise Failed("tb_client is not installed: it is the client in clients/python") from None
    host, colon, port = server.rpartition(":")
    is_tcp = bool(colon) and "/" not in server
    if is_tcp and not (port.isascii() and port.isdigit() and len(port) < 20):
        raise Refused(f"--server {server[:300]!r}: write HOST:PORT, or a path with a slash")
    try:
        return tb_client.Socket((host.strip("[]"), int(port)) if is_tcp else server)
    except tb_client.Invalid as error:
        raise Refused(f"--server {server[:300]!r}: {error}") from None


def checked(connection: sqlite3.Connection, given: argparse.Namespace) -> str:
    """What was compared; the first difference is raised, also if it is not a number."""
    before = write_time(connection, given.file)
    tables = Tables(connection)
    try:
        return tables.check(given)
    except (TypeError, ValueError) as error:
        raise Difference(f"a value that no table has: {error}") from None
    finally:
        check_still(connection, given.file, before)


def pending_sums(
    connection: sqlite3.Connection, where: str, *values: Any
) -> Dict[Number, Tuple[List[int], bool]]:
    """The pending sums of each account, debits and credits, by some pending transfers, and whether
    one of these closes it."""
    found: Dict[Number, Tuple[List[int], bool]] = {}
    for amount, flags, *ids in connection.execute(
        f"SELECT amount, flags, debit_account_id, credit_account_id FROM transfers WHERE {where}",
        values,
    ):
        for side, (id, closing) in enumerate(zip(ids, (CLOSING_DEBIT, CLOSING_CREDIT))):
            sums, closed = found.get(id, ([0, 0], False))
            sums[side] += int(amount)
            found[id] = sums, closed or bool(flags & closing)
    return found


class Tables:
    """The tables, of one moment."""

    def __init__(self, connection: sqlite3.Connection) -> None:
        self.connection = connection

    def check(self, given: argparse.Namespace) -> str:
        """Compares all. What was compared."""
        commit = self.one("SELECT commit_number FROM position")
        with tempfile.TemporaryDirectory() as folder:
            path = os.path.join(folder, "again.sqlite")
            self._make_again(path, given, commit)
            self._compare(path)
        ledgers = self._check_ledgers()
        accounts, postings = (
            self.one(f"SELECT count(*) FROM {it}") for it in ("accounts", "postings")
        )
        what = "the history" if given.ledger else "their own events"
        return (
            f"{accounts:,} accounts of {ledgers:,} ledgers are the sums of {postings:,} postings, "
            f"and each row is that of {what}, at commit {commit:,}"
        )

    def one(self, text: str, *values: Any) -> Any:
        row = self.connection.execute(text, values).fetchone()
        return row[0] if row else None

    def _make_again(self, path: str, given: argparse.Namespace, commit: int) -> None:
        """Makes the rows again in another file."""
        store = SqliteStore(path, is_kept=False)
        loading = Loading(store, until=commit if given.ledger else None)
        try:
            if given.ledger:
                Ledger(given.ledger, Programs(given.tbd, given.tbs)).read(loading)
            else:
                loading.read(steps_of(self.connection))
        except (Changed, Refused, Fault) as error:
            raise Difference(str(error)) from None
        finally:
            store.close()
        if loading.commit_number != commit:
            raise Difference(
                f"position one 1: commit_number: {commit} in the tables, and the history ends at "
                f"entry {loading.commit_number}"
            )

    def _compare(self, path: str) -> None:
        """Compares each row of each table with that of another file."""
        again = connect_read_only(path)
        try:
            for table in TABLES:
                text = f"SELECT * FROM {table} ORDER BY {', '.join(KEYS[table])}"
                rows = self.connection.execute(text), again.execute(text)
                for found, wanted in itertools.zip_longest(*rows):
                    if found != wanted:
                        raise Difference(self._named(table, found, wanted))
        finally:
            again.close()

    def _named(self, table: str, found: Any, wanted: Any) -> str:
        """The row and the column that differ."""
        names, keys = columns(table), KEYS[table]
        if wanted is None:
            return f"{shown(table, found)} is not in the history"
        row = dict(zip(names, wanted))
        if found is not None and all(found[names.index(it)] == row[it] for it in keys):
            name = next(it for it, value in zip(names, found) if value != row[it])
            return differing(table, wanted, name, found[names.index(name)])
        for key in keys:  # which may have been changed itself
            others = [it for it in names if it != key]
            where = " AND ".join(f"{it} IS ?" for it in others)
            values = self.connection.execute(
                f"SELECT {key} FROM {table} WHERE {where}", [row[it] for it in others]
            ).fetchone()
            if values:
                return differing(table, wanted, key, values[0])
        return f"{shown(table, wanted)} is not in the tables"

    def _check_ledgers(self) -> int:
        """In each ledger debits are equal to credits, posted and pending ones, and the limits of
        each account hold."""
        sums: Dict[int, List[int]] = {}
        for id, ledger, flags, *found in self.connection.execute(
            "SELECT id, ledger, flags, debits_pending, debits_posted, credits_pending,"
            " credits_posted FROM accounts"
        ):
            amounts = list(map(int, found))
            check_limits(id, amounts, flags)
            before = sums.get(ledger, [0, 0, 0, 0])
            sums[ledger] = [one + other for one, other in zip(before, amounts)]
        for ledger, (debits_pending, debits, credits_pending, credits) in sums.items():
            if debits != credits:
                raise Difference(f"ledger {ledger}: {debits} debits posted, {credits} credits")
            if debits_pending != credits_pending:
                raise Difference(
                    f"ledger {ledger}: {debits_pending} debits pending, {credits_pending} credits"
                )
        return len(sums)


def shown(table: str, row: Sequence[Any]) -> str:
    """A row by its key, and by its id if it has one."""
    named = dict(zip(columns(table), row))
    keys = [*KEYS[table], *(["id"] if "id" in named else [])]
    return f"{table} " + ", ".join(f"{it} {named[it]}" for it in keys)


def differing(table: str, wanted: Sequence[Any], column: str, found: Any) -> str:
    right = dict(zip(columns(table), wanted))[column]
    return f"{shown(table, wanted)}: {column}: {found!r} in the tables, {right!r} is right"


def check_limits(id: Number, sums: Sequence[int], flags: int) -> None:
    """The limits of an account hold, and its sums are of 128 bits."""
    debits_pending, debits, credits_pending, credits = sums
    if flags & DEBITS_LIMITED and debits_pending + debits > credits:
        raise Difference(f"account {id}: its debits exceed its credits")
    if flags & CREDITS_LIMITED and credits_pending + credits > debits:
        raise Difference(f"account {id}: its credits exceed its debits")
    if min(sums) < 0 or max(debits_pending + debits, credits_pending + credits) > ID_MAX:
        raise Difference(f"account {id}: its sums {list(sums)} are not of 128 bits")


FIELDS = (
    *SUMS,
    "user_data_128",
    "user_data_64",
    "user_data_32",
    "ledger",
    "code",
    "flags",
    "timestamp",
)


class Moment:
    """The accounts as they were at the time of an entry, by postings and pending transfers."""

    def __init__(self, connection: sqlite3.Connection, at: int) -> None:
        self.connection = connection
        self.at = at
        self._now = pending_sums(connection, "state = 'pending'")
        self._then = pending_sums(
            connection,
            "state IS NOT NULL AND timestamp <= ? AND (ended_at IS NULL OR ended_at > ?)",
            at,
            at,
        )

    def account(self, id: Number) -> Optional[Sums]:
        """What a lookup of an account returns then."""
        row = self.connection.execute(
            "SELECT user_data_128, user_data_64, user_data_32, ledger, code, flags, timestamp"
            " FROM accounts WHERE id = ? AND timestamp <= ?",
            (id, self.at),
        ).fetchone()
        if row is None:
            return None
        posted = self.connection.execute(
            "SELECT debits_posted, credits_posted FROM postings"
            " WHERE account_id = ? AND timestamp <= ? ORDER BY timestamp DESC LIMIT 1",
            (id, self.at),
        ).fetchone()
        debits, credits = map(int, posted or (0, 0))
        (debits_pending, credits_pending), is_closed = self._then.get(id, ([0, 0], False))
        kept = dict(zip(FIELDS, (debits_pending, debits, credits_pending, credits, *map(int, row))))
        was_made_closed = kept["flags"] & CLOSED and not self._now.get(id, ([], False))[1]
        kept["flags"] &= ~CLOSED
        kept["flags"] |= CLOSED if is_closed or was_made_closed else 0
        return kept


class Server:
    """A server whose accounts are compared."""

    def __init__(
        self, given: argparse.Namespace, connection: sqlite3.Connection, transport: Any
    ) -> None:
        self.given = given
        self.connection = connection
        self.transport = transport
        self.last_reply = b""
        self.answers: List[Tuple[int, List[Number], Dict[int, Any]]] = []

    def compare(self) -> str:
        """Asks for all accounts, waits until the tables have the entries of these lookups, and
        compares at each. What was compared."""
        self._ask()
        if not self.answers:
            return "there are no accounts to compare"
        self._reach(self.answers[-1][0])
        compared = sum(self._compare(*answer) for answer in self.answers)
        first, last = self.answers[0][0], self.answers[-1][0]
        return f"{compared:,} accounts are those of the server, at commits {first:,} to {last:,}"

    def exchange(self, moment: int, frame: bytes) -> bytes:
        """The transport of the session, which keeps the last reply."""
        self.last_reply = self.transport.exchange(moment, frame)
        reply: bytes = self.last_reply
        return reply

    def _ask(self) -> None:
        import tb_client

        ids = [row[0] for row in self.connection.execute("SELECT id FROM accounts ORDER BY 1")]
        try:
            session = tb_client.Session.register(self)
            for first in range(0, len(ids), LOOKED_UP):
                asked = ids[first : first + LOOKED_UP]
                found = session.lookup_accounts([int(it) for it in asked])
                commit = tb_client.Reply.from_bytes(self.last_reply).commit
                self.answers.append((commit, asked, {it.id: it for it in found}))
            self.transport.close()
        except (tb_client.ClientError, ValueError) as error:
            raise Failed(f"{self.given.server}: {type(error).__name__}: {error}") from None

    def _reach(self, commit: int) -> None:
        """Waits until the tables have an entry, and loads them if a ledger is given."""
        deadline = time.monotonic() + self.given.wait
        while self._position() < commit:
            if self.given.ledger:
                self._load(commit)
            elif time.monotonic() < deadline:
                time.sleep(PAUSE)
            if self._position() < commit and time.monotonic() >= deadline:
                raise Failed(
                    f"the tables end at entry {self._position()}, and the server answered at "
                    f"{commit}: load the rest meanwhile, or wait longer by --wait"
                )

    def _position(self) -> int:
        row = self.connection.execute("SELECT commit_number FROM position").fetchone()
        return int(row[0])

    def _load(self, commit: int) -> None:
        ledger = Ledger(self.given.ledger, Programs(self.given.tbd, self.given.tbs))
        store = store_of(self.given.file)
        try:
            ledger.read(Loading(store, until=commit))
        except Refused as error:
            raise Difference(str(error)) from None
        finally:
            store.close()

    def _compare(self, commit: int, asked: List[Number], found: Dict[int, Any]) -> int:
        """Compares the accounts of one answer, as they were at its entry."""
        row = self.connection.execute(
            "SELECT time, operation FROM entries WHERE commit_number = ?", (commit,)
        ).fetchone()
        if row is None or row[1] != "lookup_accounts":
            raise Difference(f"entry {commit} is no lookup: this is another ledger's server")
        moment = Moment(self.connection, row[0])
        for id in asked:
            kept, answered = moment.account(id), found.get(int(id))
            if kept is None or answered is None:
                raise Difference(f"account {id} is not on both sides at entry {commit}")
            for name in FIELDS:
                if kept[name] != int(getattr(answered, name)):
                    raise Difference(
                        f"account {id}, {name} at entry {commit}: {kept[name]} in the tables, "
                        f"{int(getattr(answered, name))} at the server"
                    )
        return len(asked)
