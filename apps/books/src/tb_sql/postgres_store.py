"""The same tables in PostgreSQL, by psycopg 3."""

from __future__ import annotations

from typing import Any, Iterable, List, Optional, Sequence, Tuple

from .errors import Failed, Refused
from .rows import Changes, Position
from .schema import SCHEMA, columns, postgres_schema

CHANGED = (
    "debits_pending numeric(39), debits_posted numeric(39), credits_pending numeric(39),"
    " credits_posted numeric(39), flags integer, postings bigint, id numeric(39)"
)
ENDED = "state text, ended_at bigint, ended_by numeric(39), id numeric(39)"
LOCK = 0x7462_5F73_716C  # of the transaction that writes


def psycopg_module(url: str) -> Any:
    """The module that reads the database of a URL, which it takes only as text."""
    if not url.isprintable():  # which bytes that are no text are not
        raise Refused(f"{url.partition('?')[0].rpartition('@')[2]!r} is no URL of PostgreSQL")
    try:
        import psycopg
    except ImportError:
        raise Failed("psycopg 3 is not installed (Debian: python3-psycopg)") from None
    return psycopg


def error_text(error: Any) -> str:
    """What the database says, in one line: its message and the detail, without the place in a
    statement. A connection that fails has only words."""
    found = [it for it in (error.diag.message_primary, error.diag.message_detail) if it]
    return " ".join((": ".join(found) or str(error)).split())


class PostgresStore:
    """A schema of a PostgreSQL database, the first one of its search path."""

    def __init__(self, url: str) -> None:
        self._psycopg = psycopg_module(url)
        self.path = url.partition("?")[0].rpartition("@")[2]
        self.is_new = False
        try:
            # of a database in SQL_ASCII, whose texts would otherwise come as bytes
            self._connection = self._psycopg.connect(url, autocommit=True, client_encoding="UTF8")
            try:
                self._look()
            except BaseException:
                self.close()
                raise
        except self._psycopg.Error as error:
            raise self._failed(error) from None

    def _look(self) -> None:
        self.is_new = self._is_empty(self._connection)
        if self.is_new:
            return
        try:
            row = self._connection.execute("SELECT schema FROM position").fetchone()
        except self._psycopg.Error as error:
            raise Refused(f"{self.path} has other tables: {error_text(error)}") from None
        if row is not None and row[0] != SCHEMA:
            raise Refused(
                f"{self.path} has the tables of another version: drop them, and load again"
            )

    @staticmethod
    def _is_empty(asked: Any) -> bool:
        return asked.execute("SELECT to_regclass('position')").fetchone()[0] is None

    def close(self) -> None:
        self._connection.close()

    def _asked(self, text: str, *values: Any) -> Any:
        """The rows that the database returns."""
        try:
            return self._connection.execute(text, values)
        except self._psycopg.Error as error:
            raise self._failed(error) from None

    def _failed(self, error: Exception) -> Failed:
        return Failed(f"{self.path}: {error_text(error)}")

    def position(self) -> Optional[Position]:
        """How far the tables are; nothing if there are no tables."""
        if self.is_new:
            return None
        row = self._asked(
            "SELECT head, profile, commit_number, time, digest FROM position"
        ).fetchone()
        return Position.of(self.path, row)

    def write_names(self, rows: Sequence[Sequence[Any]]) -> None:
        """Puts names in the place of those that are there."""
        try:
            with self._connection.transaction():
                cursor = self._connection.cursor()
                cursor.execute("DELETE FROM names")
                cursor.executemany("INSERT INTO names VALUES (%s, %s, %s, %s)", rows)
        except self._psycopg.Error as error:
            raise self._failed(error) from None

    def write(self, changes: Changes, position: Position, before: Optional[Position]) -> None:
        """Writes rows and the position that they lead to, in one transaction. Raises `ValueError`
        if one of them cannot be there."""
        try:
            with self._connection.transaction():
                cursor = self._connection.cursor()
                cursor.execute("SELECT pg_advisory_xact_lock(%s)", (LOCK,))
                self._write(cursor, changes, position, before)
        except self._psycopg.IntegrityError as error:
            raise ValueError(f"{self.path}: {error_text(error)}") from None
        except self._psycopg.Error as error:
            raise self._failed(error) from None
        self.is_new = False

    def _write(
        self, cursor: Any, changes: Changes, position: Position, before: Optional[Position]
    ) -> None:
        if before is None:
            if not self._is_empty(cursor):
                raise Failed(f"{self.path}: another load writes to it")
            for statement in postgres_schema():
                cursor.execute(statement)
        self._move(cursor, position, before)
        copied: List[Tuple[str, Sequence[Sequence[Any]]]] = [
            ("entries", changes.entries),
            ("accounts", changes.accounts),
            ("transfers", changes.transfers),
            ("postings", changes.postings),
            ("balances", changes.balances),
            ("refused", changes.refused),
        ]
        for table, rows in copied:
            self._copy(cursor, table, columns(table), rows)
        self._update(cursor, changes)
        cursor.executemany(
            "INSERT INTO sessions VALUES (%s, %s, %s, %s, NULL) ON CONFLICT (session) DO UPDATE"
            " SET requests = excluded.requests, last_commit = excluded.last_commit",
            [
                (it.session, int(it.client), it.requests, it.last_commit)
                for it in changes.sessions.values()
            ],
        )
        cursor.executemany(
            "UPDATE sessions SET evicted_by = %s WHERE session = %s", changes.evicted
        )

    def _update(self, cursor: Any, changes: Changes) -> None:
        """Changes the rows of accounts and of pending transfers that were there before."""
        cursor.execute(f"CREATE TEMP TABLE changed ({CHANGED}) ON COMMIT DROP")
        cursor.execute(f"CREATE TEMP TABLE ended ({ENDED}) ON COMMIT DROP")
        names = [it.split()[0] for it in CHANGED.split(", ")]
        self._copy(cursor, "changed", names, changes.changed)
        self._copy(cursor, "ended", ["state", "ended_at", "ended_by", "id"], changes.ended)
        sets = ", ".join(f"{it} = c.{it}" for it in names[:-1])
        cursor.execute(f"UPDATE accounts AS a SET {sets} FROM changed AS c WHERE a.id = c.id")
        cursor.execute(
            "UPDATE transfers AS t SET state = e.state, ended_at = e.ended_at,"
            " ended_by = e.ended_by FROM ended AS e WHERE t.id = e.id"
        )

    def _move(self, cursor: Any, position: Position, before: Optional[Position]) -> None:
        row = (position.profile, position.commit_number, position.time, position.digest)
        if before is None:
            cursor.execute(
                "INSERT INTO position VALUES (1, %s, %s, %s, %s, %s, %s)",
                (SCHEMA, position.head, *row),
            )
            return
        cursor.execute(
            "UPDATE position SET profile = %s, commit_number = %s, time = %s, digest = %s"
            " WHERE commit_number = %s AND digest = %s",
            (*row, before.commit_number, before.digest),
        )
        if cursor.rowcount != 1:
            raise Failed(f"{self.path}: another load writes to it")

    def _copy(
        self, cursor: Any, table: str, names: List[str], rows: Iterable[Iterable[Any]]
    ) -> None:
        """Appends rows. None of their texts has a character that COPY treats specially."""
        with cursor.copy(f"COPY {table} ({', '.join(names)}) FROM STDIN") as copy:
            for row in rows:
                copy.write_row(row)
