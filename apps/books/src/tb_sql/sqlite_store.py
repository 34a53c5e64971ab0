"""The tables in a file of SQLite."""

from __future__ import annotations

import operator
import os
import pathlib
import sqlite3
import stat
from typing import Any, Iterable, List, Optional, Sequence, Tuple

from .errors import Failed, Refused
from .rows import Changes, Position
from .schema import SCHEMA, TABLES, columns, sqlite_schema

CACHE_KIB = 81_920
PATIENCE = 30.0  # seconds, for another process that writes


def connect_read_only(path: str) -> sqlite3.Connection:
    """A connection that cannot write. If its folder cannot be written either, the file is read
    as one that nobody changes, if nobody does."""
    if not os.path.exists(path):
        raise Failed(f"there is no file {path}: tb-sql load makes it")
    if stat.S_ISFIFO(os.stat(path).st_mode):  # or SQLite waits for its other end
        raise Failed(f"{path} is no file")
    whole = pathlib.Path(path).resolve()  # the WAL lies next to what a link names
    for mode in ("mode=ro", "immutable=1"):
        try:
            connection = sqlite3.connect(
                f"{whole.as_uri()}?{mode}", uri=True, timeout=PATIENCE, check_same_thread=False
            )
            connection.execute("PRAGMA query_only = 1")
            connection.execute("SELECT 1 FROM sqlite_master").fetchone()
            return connection
        except sqlite3.DatabaseError as error:
            fault = str(error)
        is_written = any(os.path.exists(f"{whole}{it}") for it in ("-wal", "-journal"))
        if is_written or "locked" in fault:
            break
    raise Failed(f"{path}: {fault}")


def write_time(connection: sqlite3.Connection, path: str) -> Optional[int]:
    """When a file that is read without locks was written last, which is to stay so while it is
    read; nothing of a file with locks."""
    if connection.execute("PRAGMA journal_mode").fetchone()[0] == "wal":
        return None
    return os.stat(path).st_mtime_ns


def check_still(connection: sqlite3.Connection, path: str, before: Optional[int]) -> None:
    """Refuses what was read while the file was written."""
    if before is not None and write_time(connection, path) != before:
        raise Failed(f"{path} was written while it was read: read it again")


def check_schema(connection: sqlite3.Connection, path: str) -> None:
    """Refuses a database without these tables, or without a position in a history."""
    try:
        found = connection.execute("SELECT schema FROM position").fetchone()
    except sqlite3.DatabaseError as error:
        if error.sqlite_errorcode != sqlite3.SQLITE_ERROR:  # damaged, locked or not readable
            raise Failed(f"{path}: {error}") from None
        raise Refused(f"{path} is no database of tb-sql: {error}") from None
    if found is not None and found[0] != SCHEMA:
        raise Refused(
            f"{path} has the tables of another version: delete it, and load the history again"
        )
    Position.of(path, position_row(connection))


def position_row(connection: sqlite3.Connection) -> Optional[Sequence[Any]]:
    found: Optional[Sequence[Any]] = connection.execute(
        "SELECT head, profile, commit_number, time, digest FROM position"
    ).fetchone()
    return found


class SqliteStore:
    """A file of SQLite that one process writes, while others read it."""

    def __init__(self, path: str, is_kept: bool = True) -> None:
        self.path = path
        self.is_new = False
        try:
            # by its whole path: of "", ":memory:" and "file:.." SQLite would keep nothing
            whole = os.path.abspath(path)
            self._connection = sqlite3.connect(whole, timeout=PATIENCE, isolation_level=None)
            self._look()  # first: another program's database is left as it is
            self._opened = self._file()
            self._connection.execute("PRAGMA journal_mode = WAL")
            self._connection.execute(f"PRAGMA synchronous = {'NORMAL' if is_kept else 'OFF'}")
            self._connection.execute(f"PRAGMA cache_size = -{CACHE_KIB}")
        except sqlite3.Error as error:
            raise Failed(f"{path}: {error}") from None

    def _look(self) -> None:
        self.is_new = self._is_empty()
        if not self.is_new:
            check_schema(self._connection, self.path)

    def _file(self) -> Optional[Tuple[int, int]]:
        """Which file has the name now."""
        try:
            found = os.stat(self.path)
        except OSError:
            return None
        return found.st_dev, found.st_ino

    def _is_empty(self) -> bool:
        found = self._connection.execute("SELECT 1 FROM sqlite_master WHERE type = 'table' LIMIT 1")
        return found.fetchone() is None

    def close(self) -> None:
        self._connection.close()

    def position(self) -> Optional[Position]:
        """How far the tables are; nothing if there are no tables."""
        return None if self.is_new else Position.of(self.path, position_row(self._connection))

    def write_names(self, rows: Sequence[Sequence[Any]]) -> None:
        """Puts names in the place of those that are there."""
        with self._connection:
            self._connection.execute("BEGIN IMMEDIATE")
            self._connection.execute("DELETE FROM names")
            self._connection.executemany("INSERT INTO names VALUES (?, ?, ?, ?)", rows)

    def write(self, changes: Changes, position: Position, before: Optional[Position]) -> None:
        """Writes rows and the position that they lead to, in one transaction. Raises `ValueError`
        if one of them cannot be there."""
        if self._file() != self._opened:
            raise Failed(f"{self.path} was deleted or replaced meanwhile: load again")
        try:
            self._connection.execute("BEGIN IMMEDIATE")
            try:
                self._write(changes, position, before)
                self._connection.execute("COMMIT")
            except BaseException:
                if self._connection.in_transaction:
                    self._connection.execute("ROLLBACK")
                raise
        except sqlite3.IntegrityError as error:
            raise ValueError(f"{self.path}: {error}") from None
        except sqlite3.Error as error:
            raise Failed(f"{self.path}: {error}") from None
        self.is_new = False

    def _write(self, changes: Changes, position: Position, before: Optional[Position]) -> None:
        if before is None:
            if not self._is_empty():
                raise Failed(f"{self.path}: another load writes to it")
            for statement in sqlite_schema():
                self._connection.execute(statement)
        self._move(position, before)
        self._insert("entries", changes.entries)
        self._insert("accounts", changes.accounts)
        self._insert("transfers", changes.transfers)
        # in the order of their keys, so that neighbours are written together
        self._insert("postings", by_key(changes.postings))
        self._insert("balances", by_key(changes.balances))
        self._insert("refused", changes.refused)
        self._connection.executemany(
            "UPDATE accounts SET debits_pending = ?, debits_posted = ?, credits_pending = ?,"
            " credits_posted = ?, flags = ?, postings = ? WHERE id = ?",
            changes.changed,
        )
        self._connection.executemany(
            "UPDATE transfers SET state = ?, ended_at = ?, ended_by = ? WHERE id = ?", changes.ended
        )
        self._connection.executemany(
            "INSERT INTO sessions VALUES (?, ?, ?, ?, NULL) ON CONFLICT (session) DO UPDATE"
            " SET requests = excluded.requests, last_commit = excluded.last_commit",
            (
                (it.session, it.client, it.requests, it.last_commit)
                for it in changes.sessions.values()
            ),
        )
        self._connection.executemany(
            "UPDATE sessions SET evicted_by = ? WHERE session = ?", changes.evicted
        )

    def _move(self, position: Position, before: Optional[Position]) -> None:
        row = (position.profile, position.commit_number, position.time, position.digest)
        if before is None:
            self._connection.execute(
                "INSERT INTO position VALUES (1, ?, ?, ?, ?, ?, ?)", (SCHEMA, position.head, *row)
            )
            return
        moved = self._connection.execute(
            "UPDATE position SET profile = ?, commit_number = ?, time = ?, digest = ?"
            " WHERE commit_number = ? AND digest = ?",
            (*row, before.commit_number, before.digest),
        )
        if moved.rowcount != 1:
            raise Failed(f"{self.path}: another load writes to it")

    def _insert(self, table: str, rows: Iterable[Sequence[Any]]) -> None:
        places = ", ".join("?" * len(columns(table)))
        self._connection.executemany(f"INSERT INTO {table} VALUES ({places})", rows)


def by_key(rows: Sequence[Sequence[Any]]) -> List[Sequence[Any]]:
    """Rows of accounts in the order of their keys."""
    try:
        return sorted(rows, key=operator.itemgetter(0, 1))
    except TypeError:  # the ids of some are texts
        return sorted(rows, key=lambda it: (isinstance(it[0], str), it[0], it[1]))


def contents(connection: sqlite3.Connection) -> List[Tuple[str, List[Any]]]:
    """All rows of all tables, in the order of their keys: equal for equal databases."""
    return [
        (table, connection.execute(f"SELECT * FROM {table} ORDER BY 1, 2").fetchall())
        for table in TABLES
    ]
