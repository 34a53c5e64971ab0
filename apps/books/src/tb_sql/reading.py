"""Reads tables, of a file of SQLite or of a PostgreSQL database, without writing: all that one
`Reading` reads is of one moment."""

from __future__ import annotations

import re
from typing import Any, Dict, Iterator, List, Optional, Sequence, Tuple

from .errors import AGAIN, Failed, Refused
from .numbers import Number, held
from .postgres_store import error_text, psycopg_module
from .rows import Position
from .schema import SCHEMA, TABLES
from .sqlite_store import check_schema, check_still, connect_read_only, write_time

# the columns of text: of tables, and times as a view writes them. All others hold numbers
TEXTS = {it.split()[0] for table in TABLES.values() for it in table if it.split()[1] == "text"}
TEXTS |= {"registered", "last", "evicted", "kind", "name", "side"}
DIGITS = re.compile("-?[0-9]{1,40}")
WAIT = 5  # seconds to connect to PostgreSQL


class Row:
    """A row, whose values are found by name and by place."""

    __slots__ = ("_names", "_values")

    def __init__(self, names: Dict[str, int], values: Sequence[Any]) -> None:
        self._names, self._values = names, values

    def __getitem__(self, key: Any) -> Any:
        return self._values[self._names[key] if isinstance(key, str) else key]

    def __iter__(self) -> Iterator[Any]:
        return iter(self._values)


def checked(name: str, value: Any) -> Any:
    """A value. Raises `Failed` if another program wrote one of another kind."""
    is_right = value is None or (
        name in TEXTS or DIGITS.fullmatch(value) is not None
        if isinstance(value, str)
        else isinstance(value, int) and name not in TEXTS
    )
    if not is_right:
        raise Failed(f"A value that no table has: {name} is {value!r:.60}. {AGAIN}")
    return value


class Reading:
    """What both databases have: questions with `?` for each value."""

    balance_key = "debits_posted - credits_posted"  # by which accounts are sorted
    id_key = "id"

    def _asked(self, text: str, values: Sequence[Any]) -> Tuple[List[str], Iterator[Sequence[Any]]]:
        raise NotImplementedError

    def close(self) -> None:
        raise NotImplementedError

    def check_still(self) -> None:
        """Says that what was read is of one moment."""

    def _rows(self, text: str, values: Sequence[Any]) -> Iterator[Row]:
        names, rows = self._asked(text, values)
        places = {name: place for place, name in enumerate(names)}
        for row in rows:
            yield Row(places, list(map(checked, names, row)))

    def one(self, text: str, *values: Any) -> Optional[Row]:
        return next(self._rows(text, values), None)

    def all(self, text: str, *values: Any) -> List[Row]:
        return list(self._rows(text, values))

    def each(self, text: str, *values: Any) -> Tuple[List[str], Iterator[Sequence[Any]]]:
        """The names of the columns, and the rows one after another."""
        return self._asked(text, values)


class SqliteReading(Reading):
    """A file of SQLite, opened read only."""

    balance_key = "balance_key(debits_posted, credits_posted)"
    id_key = "typeof(id) = 'text', length(id), id"

    def __init__(self, path: str) -> None:
        self._path, self._connection = path, connect_read_only(path)
        self._connection.create_function("balance_key", 2, balance_key, deterministic=True)
        self._written = write_time(self._connection, path)
        check_schema(self._connection, path)
        self._connection.isolation_level = None
        self._connection.execute("BEGIN")

    def close(self) -> None:
        self._connection.close()

    def check_still(self) -> None:
        check_still(self._connection, self._path, self._written)

    def _asked(self, text: str, values: Sequence[Any]) -> Tuple[List[str], Iterator[Sequence[Any]]]:
        cursor = self._connection.execute(text, values)
        return [it[0] for it in cursor.description], cursor


class PostgresReading(Reading):
    """A PostgreSQL database, in a transaction that cannot write."""

    def __init__(self, url: str) -> None:
        self._psycopg = psycopg_module(url)
        self._path = url.partition("?")[0].rpartition("@")[2]
        try:
            self._connection = self._psycopg.connect(
                url,
                client_encoding="UTF8",
                connect_timeout=WAIT,
                options="-c default_transaction_read_only=on",
            )
            self._connection.isolation_level = self._psycopg.IsolationLevel.REPEATABLE_READ
            self._connection.read_only = True
        except self._psycopg.Error as error:
            raise self._failed(error) from None
        try:
            self._check_schema()
        except BaseException:
            self.close()
            raise

    def _check_schema(self) -> None:
        found = next(self._asked("SELECT * FROM position", ())[1], None)
        if found is not None and found[1] != SCHEMA:
            raise Refused(f"{self._path} has the tables of another version")
        Position.of(self._path, found[2:] if found else None)

    def close(self) -> None:
        self._connection.close()

    def _failed(self, error: Any) -> Failed:
        return Failed(f"{self._path}: {error_text(error)}")

    def _asked(self, text: str, values: Sequence[Any]) -> Tuple[List[str], Iterator[Sequence[Any]]]:
        cursor = self._connection.cursor()
        try:
            cursor.execute(text.replace("%", "%%").replace("?", "%s"), tuple(values))
        except self._psycopg.Error as error:
            raise self._failed(error) from None
        return [it.name for it in cursor.description], map(plain, cursor)


def plain(row: Sequence[Any]) -> List[Any]:
    """A row with numbers as SQLite has them."""
    return [it if it is None or isinstance(it, str) else held(int(it)) for it in row]


def balance_key(debits: Number, credits: Number) -> str:
    """A text that sorts as a balance does."""
    return f"{int(debits) - int(credits) + 10**40:041d}"
