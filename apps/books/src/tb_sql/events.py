"""The events of tables again: the rows that entries made, as requests and replies. The model makes
all other columns of them."""

from __future__ import annotations

import itertools
import json
import operator
import sqlite3
from typing import Any, Dict, Iterator, List, Sequence, Tuple, Type

from tb_client import Reply
from tb_client.layout import RESULT_FORMAT
from telovamish.objects import TYPES
from telovamish.reader import Pair
from telovamish.records import Account, Record, Transfer
from telovamish.streams import Entry, Head, Mark
from telovamish.words import ACCOUNT_FLAGS, KIND, OPERATIONS, RESULTS, TRANSFER_FLAGS

from .errors import Stop
from .histories import Step
from .rows import TRANSFER_MADE, account_made, digest_of
from .schema import SUMS, columns

BATCHES = ("create_accounts", "create_transfers")
CODES = {it: {name: code for code, name in RESULTS[it].items()} for it in BATCHES}
ACCOUNT_COLUMNS, TRANSFER_COLUMNS = columns("accounts"), columns("transfers")
NOTHING = dict.fromkeys(("reserved", *SUMS), 0)  # of an account, as it is made
Row = Sequence[Any]


class Changed(Stop):
    """A row is another one than a load wrote."""

    status = 1


class Made:
    """The rows of a table, those of one entry after those of another."""

    def __init__(self, connection: sqlite3.Connection, table: str, order: str) -> None:
        self.table = table
        at = columns(table).index("commit_number")
        rows = connection.execute(f"SELECT * FROM {table} ORDER BY {order}")
        self._groups = itertools.groupby(rows, operator.itemgetter(at))
        self._next = next(self._groups, None)

    def take(self, commit: int) -> List[Row]:
        """The rows of an entry."""
        if self._next is None or self._next[0] != commit:
            return []
        rows = list(self._next[1])
        self._next = next(self._groups, None)
        return rows

    def check_end(self) -> None:
        if self._next is not None:
            raise Changed(
                f"{self.table}: a row has the commit_number {self._next[0]}, in another place than "
                "the rows of this entry"
            )


def steps_of(connection: sqlite3.Connection) -> Iterator[Step]:
    """The head, the entries with replies, and the mark."""
    head, profile = connection.execute("SELECT head, profile FROM position").fetchone()
    shown = json.loads(head)
    yield Head(shown["profile"], shown["clients_max"]), None
    tables = (
        Made(connection, "accounts", "timestamp"),
        Made(connection, "transfers", "timestamp"),
        Made(connection, "refused", "commit_number, place"),
    )
    before = 0
    for row in connection.execute("SELECT * FROM entries ORDER BY commit_number"):
        if row[0] != before + 1:
            raise Changed(f"entries commit_number {row[0]}: {before + 1} is next")
        before = row[0]
        yield step_of(row, *(it.take(before) for it in tables))
    for table in tables:
        table.check_end()
    if profile != shown["profile"]:
        yield Mark(profile), None


def step_of(
    row: Row, accounts: List[Row], transfers: List[Row], refused: List[Row]
) -> Tuple[Entry, Reply]:
    """An entry again. Raises `Changed` if its rows have another digest than it has."""
    commit, time, client, session, request, operation, events, *_, digest = row
    made = [it[:TRANSFER_MADE] for it in transfers]
    if digest_of(row[:-1], map(account_made, accounts), made, refused) != digest:
        raise Changed(
            f"entries commit_number {commit}: digest: this row or one that its entry made was "
            "changed; --ledger names the row and the column"
        )
    body, results = bytes(16 * events), b""
    if operation in BATCHES:
        created = [*map(account_of, accounts), *map(transfer_of, transfers)]
        body = body_of(events, created, refused)
        results = b"".join(RESULT_FORMAT.pack(it[1], code_of(it)) for it in refused)
    pair = Pair(time, int(client), session, request, operation, body)
    reply = Reply(pair.client, session, request, OPERATIONS[operation], 0, commit, results)
    return Entry(commit, time, pair), reply


def body_of(events: int, created: List[bytes], refused: List[Row]) -> bytes:
    """The records of a batch: the refused ones by their places, and the others in their order."""
    records = {it[1]: refused_of(it) for it in refused}
    free = (place for place in range(events) if place not in records)
    records.update(zip(free, created))
    return b"".join(records[it] for it in sorted(records))


def code_of(row: Row) -> int:
    _, _, operation, result, *_ = row
    return CODES[operation].get(result) or int(result)


def refused_of(row: Row) -> bytes:
    """A refused record as it was sent, from its JSON."""
    operation, shown = row[2], json.loads(row[5])
    kind = KIND[operation]
    names = ACCOUNT_FLAGS if kind == "account" else TRANSFER_FLAGS
    flags = sum(names[it] if it in names else int(it) for it in shown.pop("flags"))
    return record_of(TYPES[kind], {**shown, "flags": flags})


def account_of(row: Row) -> bytes:
    found = dict(zip(ACCOUNT_COLUMNS, row))
    return record_of(Account, {**found, **NOTHING, "flags": found["created_flags"], "timestamp": 0})


def transfer_of(row: Row) -> bytes:
    return record_of(Transfer, {**dict(zip(TRANSFER_COLUMNS, row)), "timestamp": 0})


def record_of(kind: Type[Record], found: Dict[str, Any]) -> bytes:
    it = kind()
    for name in kind.__slots__:
        setattr(it, name, int(found[name]))
    return it.to_bytes()
