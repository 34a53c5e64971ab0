"""The rows that an entry makes, from the facts that the model of telovamish gives.

The model has the balances, open pending transfers and sessions. Rows are collected here until they
are written.
"""

from __future__ import annotations

import hashlib
import json
from typing import Any, Dict, Iterable, List, Optional, Sequence, Set, Tuple

from telovamish.model import Event, Expired, Fact, Ledger
from telovamish.objects import record_shown
from telovamish.records import Account, Transfer
from telovamish.streams import Entry
from telovamish.words import ITEM_SIZES, RESULTS, SECOND

from .errors import AGAIN, Refused
from .numbers import HISTORY, INTEGER_END, PENDING, POST, VOID, Number, held

Row = List[Any]
Found = Optional[Sequence[Any]]  # a row that a database returns

TRANSFER_MADE = 14  # columns of a transfer that stay as they were made
Facts = Iterable[Fact]


class Position:
    """How far the tables are."""

    def __init__(
        self, head: str, profile: int, commit_number: int = 0, time: int = 0, digest: str = ""
    ) -> None:
        self.head = head
        self.profile = profile
        self.commit_number = commit_number
        self.time = time
        self.digest = digest

    @classmethod
    def of(cls, path: str, row: Found) -> Position:
        """A database's position. Refuses another one than a load writes."""
        found = cls(*row) if row else None
        if found is None or not found._is_whole():
            raise Refused(f"{path} has no position in a history. {AGAIN}")
        return found

    def _is_whole(self) -> bool:
        numbers = (self.profile, self.commit_number, self.time)
        try:
            is_numbers = all(type(it) is int and it >= 0 for it in numbers)
            return is_numbers and int(json.loads(self.head)["clients_max"]) > 0
        except (KeyError, OverflowError, RecursionError, TypeError, ValueError):
            return False


class OpenSession:
    """A session of the tables: its requests are counted here."""

    __slots__ = ("client", "session", "requests", "last_commit")

    def __init__(self, client: Number, session: int) -> None:
        self.client = client
        self.session = self.last_commit = session
        self.requests = 0


class Changes:
    """Rows that are not written yet, by table."""

    def __init__(self) -> None:
        self.entries: List[Row] = []
        self.accounts: List[Row] = []  # new ones
        self.changed: List[Row] = []  # the sums, flags and postings of accounts, and their ids
        self.transfers: List[Row] = []
        self.ended: List[Tuple[str, int, Optional[Number], Number]] = []
        self.postings: List[Tuple[Any, ...]] = []
        self.balances: List[Tuple[Any, ...]] = []
        self.refused: List[Tuple[Any, ...]] = []
        self.sessions: Dict[int, OpenSession] = {}
        self.evicted: List[Tuple[int, int]] = []  # by which commit, and which session
        self.events = 0


def digest_of_position(it: Position, digest: str) -> str:
    """A hash of a position, and of the last entry's digest."""
    row = [it.head, it.profile, it.commit_number, it.time, digest]
    return hashlib.blake2b(repr(row).encode(), digest_size=16).hexdigest()


def digest_of(
    entry: Sequence[Any],
    accounts: Iterable[Sequence[Any]],
    transfers: Iterable[Sequence[Any]],
    refused: Iterable[Sequence[Any]],
) -> str:
    """A hash of the rows that an entry made, in the columns that stay as they were made."""
    rows = [[tuple(it) for it in part] for part in ([entry], accounts, transfers, refused)]
    return hashlib.blake2b(repr(rows).encode(), digest_size=16).hexdigest()


def account_made(row: Sequence[Any]) -> Tuple[Any, ...]:
    """The columns of an account's row that stay as they were made."""
    return (*row[:2], *row[6:11], *row[13:15])


class Rows:
    """What the entries so far made, and the rows that are not written yet."""

    def __init__(self, ledger: Ledger) -> None:
        self.ledger = ledger
        self.changes = Changes()
        self._postings: Dict[int, int] = {}  # how many each account has
        self._accounts = self._transfers = self._refused = 0  # of all entries so far
        self._sessions: Dict[int, OpenSession] = {}  # by client
        self._new: Dict[int, Row] = {}  # rows of accounts that are not written yet
        self._open: Dict[int, Row] = {}  # rows of pending transfers that are not written yet
        self._changed: Set[int] = set()  # accounts

    def take(self) -> Changes:
        """What is to be written now."""
        changes, self.changes = self.changes, Changes()
        for id in self._changed:
            it, row = self.ledger.accounts[id], self._new.get(id)
            now = [*map(held, sums_of(it)), it.flags, self._postings.get(id, 0)]
            if row is not None:
                row[2:6], row[11:13] = now[:4], now[4:]
            else:
                changes.changed.append([*now, held(id)])
        self._changed.clear()
        self._new.clear()
        self._open.clear()
        return changes

    def skip(self, entry: Entry, facts: Facts) -> None:
        """Counts what an entry made whose rows are written."""
        for fact in facts:
            if not isinstance(fact, Event):
                continue
            it = fact.record
            if fact.result:
                self._refused += 1
            elif isinstance(it, Account):
                self._accounts += 1
            else:
                self._transfers += 1
                if not it.flags & (PENDING | VOID):
                    self._count(it.debit_account_id)
                    self._count(it.credit_account_id)
        self._enter_session(entry)
        self.changes.sessions.clear()

    def enter(self, entry: Entry, facts: Facts) -> str:
        """Makes the rows of an entry, as its facts are taken. Returns their digest."""
        changes, commit = self.changes, entry.commit
        accounts: List[Tuple[Any, ...]] = []
        transfers, refused, before = len(changes.transfers), len(changes.refused), self._refused
        for fact in facts:
            if isinstance(fact, Event):
                if fact.result:
                    self._refuse(entry, fact)
                elif isinstance(fact.record, Transfer):
                    self._create_transfer(commit, fact.record)
                else:
                    accounts.append(self._create_account(commit, fact.record))
            elif isinstance(fact, Expired):
                self._end(fact.transfer, "expired", fact.time, None)
            else:
                changes.evicted.append((commit, fact.session))
        self._enter_session(entry)
        row = self._entry_row(entry, self._refused - before)
        made = (it[:TRANSFER_MADE] for it in changes.transfers[transfers:])
        digest = digest_of(row, accounts, made, changes.refused[refused:])
        changes.entries.append([*row, digest])
        return digest

    def _entry_row(self, entry: Entry, refused: int) -> Row:
        request = entry.request
        events = len(request.body) // ITEM_SIZES[request.operation]
        self.changes.events += max(1, events)
        return [
            entry.commit,
            entry.time,
            held(request.client),
            request.session,
            request.request,
            request.operation,
            events,
            refused,
            self._accounts,
            self._transfers,
            self._refused,
        ]

    def _enter_session(self, entry: Entry) -> None:
        client = entry.request.client
        if entry.request.operation == "register":
            self._sessions[client] = OpenSession(held(client), entry.commit)
        else:
            self._sessions[client].requests += 1
            self._sessions[client].last_commit = entry.commit
        session = self._sessions[client]
        self.changes.sessions[session.session] = session

    def _refuse(self, entry: Entry, fact: Event) -> None:
        operation = entry.request.operation
        result = RESULTS[operation].get(fact.result, str(fact.result))
        shown = json.dumps(record_shown(fact.record), separators=(",", ":"))
        self._refused += 1
        self.changes.refused.append(
            (entry.commit, fact.place, operation, result, held(fact.record.id), shown)
        )

    def _create_account(self, commit: int, it: Account) -> Tuple[Any, ...]:
        row = [it.timestamp, held(it.id), 0, 0, 0, 0]
        row += [held(it.user_data_128), held(it.user_data_64), it.user_data_32, it.ledger, it.code]
        row += [it.flags, 0, commit, it.flags]
        self._new[it.id] = row
        self._accounts += 1
        self.changes.accounts.append(row)
        return account_made(row)

    def _create_transfer(self, commit: int, it: Transfer) -> None:
        flags, amount, timestamp = it.flags, held(it.amount), it.timestamp
        id, debit, credit = held(it.id), held(it.debit_account_id), held(it.credit_account_id)
        row: Row = [
            timestamp,
            id,
            debit,
            credit,
            amount,
            held(it.pending_id),
            held(it.user_data_128),
            held(it.user_data_64),
            it.user_data_32,
            it.timeout,
            it.ledger,
            it.code,
            flags,
            commit,
            None,
            None,
            None,
            None,
        ]
        self.changes.transfers.append(row)
        self._transfers += 1
        debited = self.ledger.accounts[it.debit_account_id]
        credited = self.ledger.accounts[it.credit_account_id]
        self._changed.add(debited.id)
        self._changed.add(credited.id)
        if flags & PENDING:
            row[14] = "pending"
            row[15] = timestamp + it.timeout * SECOND if it.timeout else None
            self._open[it.id] = row
        elif flags & VOID:
            self._end_by(it, "voided")
        else:
            if flags & POST:
                self._end_by(it, "posted")
            self._post(debited, debit, timestamp, (id, credit, amount, 0))
            self._post(credited, credit, timestamp, (id, debit, 0, amount))
        for account in (debited, credited):
            if account.flags & HISTORY:
                sums = map(held, sums_of(account))
                self.changes.balances.append((held(account.id), timestamp, *sums))

    def _post(self, of: Account, account: Number, timestamp: int, made: Tuple[Any, ...]) -> None:
        """Posts to an account what a transfer made: its id, the counterparty, debit and credit."""
        debits, credits = of.debits_posted, of.credits_posted
        sums: Tuple[Number, ...] = (debits, credits, debits - credits)
        if debits >= INTEGER_END or credits >= INTEGER_END:
            sums = tuple(map(held, (debits, credits, debits - credits)))
        count = self._count(of.id)
        self.changes.postings.append((account, timestamp, count, *made, *sums))

    def _count(self, account: int) -> int:
        count = self._postings.get(account, 0) + 1
        self._postings[account] = count
        return count

    def _end_by(self, it: Transfer, state: str) -> None:
        self._end_row(it.pending_id, state, it.timestamp, held(it.id))

    def _end(self, it: Transfer, state: str, time: int, by: Optional[Number]) -> None:
        """Ends a pending transfer, which changes its accounts."""
        self._changed.update((it.debit_account_id, it.credit_account_id))
        self._end_row(it.id, state, time, by)

    def _end_row(self, id: int, state: str, time: int, by: Optional[Number]) -> None:
        row = self._open.get(id)
        if row is not None:
            row[14], row[16], row[17] = state, time, by
        else:
            self.changes.ended.append((state, time, by, held(id)))


def sums_of(it: Account) -> Tuple[int, int, int, int]:
    return it.debits_pending, it.debits_posted, it.credits_pending, it.credits_posted
