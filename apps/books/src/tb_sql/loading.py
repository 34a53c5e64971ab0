"""Enters a history into a database, from the position that the database has."""

from __future__ import annotations

import json
import time
from typing import Callable, Iterable, Optional, Union

from tb_client import Reply
from telovamish.model import Ledger
from telovamish.streams import Entry, Head, Item, Mark

from .errors import AGAIN, Refused
from .histories import Step
from .postgres_store import PostgresStore
from .rows import Position, Rows, digest_of_position
from .sqlite_store import SqliteStore

Store = Union[SqliteStore, PostgresStore]

EVENTS_MAX = 40_000  # of a transaction, and those of the entry that reaches it
STALE = 1.0  # seconds after which what is whole is written, though more comes
RARELY = 20  # a write comes no sooner than after this many times the time that the last one took


def is_postgresql(name: str) -> bool:
    return name.startswith(("postgresql://", "postgres://"))


def store_of(name: str) -> Store:
    """The database of this name: a URL of PostgreSQL, or a file."""
    return PostgresStore(name) if is_postgresql(name) else SqliteStore(name)


class Loading:
    """Enters the items of a history, from the first one on: rows are written of those that the
    database does not have yet."""

    def __init__(self, store: Store, until: Optional[int] = None) -> None:
        self.store = store
        self.until = until  # the last commit that is entered
        self.entries = self.events = 0  # that came to the tables
        self._entered = [0, 0]  # the same, with those that are not written yet
        self._before = store.position()
        self._position: Optional[Position] = None  # of the last entry that was entered
        self._rows: Optional[Rows] = None
        self._ledger = Ledger(1)
        self._digest = ""  # of the last entry

    @property
    def commit_number(self) -> int:
        """The last entry that is in the tables."""
        return self._before.commit_number if self._before else 0

    @property
    def time(self) -> int:
        return self._before.time if self._before else 0

    @property
    def is_met(self) -> bool:
        """Says that the input has the last entry that the tables had at first."""
        return self._position is not None and self._position.commit_number >= self.commit_number

    @property
    def is_done(self) -> bool:
        """Says that the last commit that is wanted was entered."""
        return (
            self.until is not None
            and self._position is not None
            and self._position.commit_number >= self.until
        )

    def read(self, steps: Iterable[Step], tell: Callable[[], None] = lambda: None) -> None:
        """Enters items to their end. What is whole is written, also if the input fails."""
        written, took = time.monotonic(), 0.0
        try:
            for step in steps:
                now = time.monotonic()
                if step is not None:
                    self.take(*step)
                if step is None or now - written > max(STALE, RARELY * took) or self._is_full:
                    self.write()
                    tell()
                    written = time.monotonic()
                    took = written - now
                if self.is_done:
                    break
        except Refused:
            self.write()
            raise
        self.write()

    @property
    def _is_full(self) -> bool:
        return self._rows is not None and self._rows.changes.events >= EVENTS_MAX

    def ended(self) -> None:
        """Refuses a whole history that ends before the kept entries do."""
        if not self.is_met:
            self.ends_before()

    def ends_before(self) -> None:
        """Refuses a history that ends before the last entry that is kept."""
        raise Refused(
            f"this history ends before entry {self.commit_number}, the last one in "
            f"{self.store.path}: it is another ledger's, or an older copy. {AGAIN}"
        )

    def write(self) -> None:
        """Writes what was entered after the last write."""
        position, before = self._position, self._before
        if position is None or self._rows is None:
            return
        now = position.commit_number, position.profile
        if before and now <= (before.commit_number, before.profile):
            return
        position.digest = digest_of_position(position, self._digest)
        try:
            self.store.write(self._rows.take(), position, before)
        except ValueError as error:
            raise Refused(f"entry {position.commit_number}: {error}") from None
        self._before = Position(**vars(position))
        self.entries, self.events = self._entered

    def take(self, item: Item, reply: Optional[Reply]) -> None:
        """Enters an item."""
        if isinstance(item, Head):
            self._begin(item)
        elif isinstance(item, Mark):
            assert self._position
            self._position.profile = item.profile
        elif reply is not None:
            self._enter(item, reply)

    def _begin(self, item: Head) -> None:
        head = json.dumps(item._asdict())
        if self._before and self._before.head != head:
            raise Refused(
                f"this is another ledger's history: its head is {head}, and that in "
                f"{self.store.path} is {self._before.head}. {AGAIN}"
            )
        self._ledger = Ledger(item.clients_max)
        self._rows = Rows(self._ledger)
        self._position = Position(head, item.profile)

    def _enter(self, entry: Entry, reply: Reply) -> None:
        rows, position, kept = self._rows, self._position, self.commit_number
        assert rows and position
        facts = self._ledger.enter(entry, reply)
        position.commit_number, position.time = entry.commit, entry.time
        if entry.commit < kept:
            rows.skip(entry, facts)
        else:
            self._digest = rows.enter(entry, facts)
            self._compare(entry)
        if entry.commit > kept:
            self._entered[0] += 1
            self._entered[1] += rows.changes.entries[-1][6]

    def _compare(self, entry: Entry) -> None:
        """Compares the entry that was the last one with what is kept of it."""
        before = self._before
        if before is None or entry.commit != before.commit_number or self._rows is None:
            return
        if digest_of_position(before, self._digest) != before.digest:
            raise Refused(
                f"entry {entry.commit} is another one than that in {self.store.path}: this is "
                f"another ledger's history, or one that lost its end in a power loss. {AGAIN}"
            )
        self._rows.take()  # which the tables have
