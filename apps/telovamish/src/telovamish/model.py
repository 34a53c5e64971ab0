"""What a ledger holds after each entry, from the entries and the replies to them: a reply says
which events were refused, and this model says the rest. It judges no event. live.facts uses it.

docs/use/RULES.md has the rules. `telovamish audit --check` compares all of it with the proved
program.
"""
from __future__ import annotations

import heapq
from typing import Callable, Iterator, NamedTuple, TypeVar, Union

from tb_client import Reply

from .faults import Fault
from .records import RECORD, Account, Transfer
from .streams import Entry, results_of
from .words import ACCOUNT_FLAGS, AMOUNT_MAX, SECOND, TRANSFER_FLAGS

PENDING = TRANSFER_FLAGS["pending"]
POST, VOID = TRANSFER_FLAGS["post_pending_transfer"], TRANSFER_FLAGS["void_pending_transfer"]
RESOLVES = POST | VOID
BALANCES_DEBIT = TRANSFER_FLAGS["balancing_debit"]
BALANCES_CREDIT = TRANSFER_FLAGS["balancing_credit"]
CLOSES_DEBIT = TRANSFER_FLAGS["closing_debit"]
CLOSES_CREDIT = TRANSFER_FLAGS["closing_credit"]
CLOSED = ACCOUNT_FLAGS["closed"]
# what a post or a void takes from its pending transfer if it is 0
TAKEN_OVER = "debit_account_id credit_account_id user_data_128 user_data_64 user_data_32".split()
TAKEN_OVER += ["ledger", "code"]
Known = TypeVar("Known", Account, Transfer)


class Expired(NamedTuple):
    """A pending transfer whose timeout ran out before an entry, and when it did."""

    time: int
    transfer: Transfer


class Evicted(NamedTuple):
    """A client whose session ended because another client registered."""

    client: int
    session: int


class Event(NamedTuple):
    """What became of an event. If its result is 0 it was created, and this is the record that the
    ledger keeps; otherwise the record is as it was sent."""

    place: int
    result: int
    record: Union[Account, Transfer]


Fact = Union[Expired, Evicted, Event]


class Disagrees(Fault):
    """An entry cannot follow by this model, and the proved program entered it."""

    status = 1


class Session(NamedTuple):
    """A client's session, and the commit number of its last reply."""

    number: int
    last_commit: int


class Ledger:
    """Accounts, pending transfers that are open, and sessions, after the entries so far."""

    def __init__(self, clients_max: int) -> None:
        self.accounts: dict[int, Account] = {}
        self.pending: dict[int, Transfer] = {}
        self.sessions: dict[int, Session] = {}
        self.clients_max = clients_max
        self._due: list[tuple[int, int]] = []  # when pending transfers expire, and their ids

    def enter(self, entry: Entry, reply: Reply) -> Iterator[Fact]:
        """Enters the next entry, as its facts are taken: all of them have to be. Expiries come
        first, then an eviction, then what became of each event."""
        yield from self._expire(entry.time)
        yield from self._enter_session(entry)
        operation = entry.request.operation
        if operation == "create_accounts":
            yield from self._enter_events(entry, reply, Account, self._create_account)
        elif operation == "create_transfers":
            yield from self._enter_events(entry, reply, Transfer, self._create_transfer)

    def _enter_events(
        self, entry: Entry, reply: Reply, kind: type[Known], create: Callable[[Known], None]
    ) -> Iterator[Event]:
        body, results = entry.request.body, results_of(reply)
        begin = entry.time - len(body) // RECORD + 1  # the timestamp of the first event
        for place in range(len(body) // RECORD):
            record = kind.read(body[RECORD * place : RECORD * (place + 1)])
            result = results.get(place, 0)
            if not result:
                record.timestamp = begin + place
                try:
                    create(record)
                except KeyError as id:
                    raise Disagrees(f"entry {entry.commit}: there is no {id}") from None
            yield Event(place, result, record)

    def _expire(self, now: int) -> Iterator[Expired]:
        """Expires what is due at an entry's time, in the order of time and id."""
        while self._due and self._due[0][0] <= now:
            time, id = heapq.heappop(self._due)
            transfer = self.pending.get(id)
            if transfer is not None:
                self._release(transfer, is_posted=False)
                yield Expired(time, transfer)

    def _enter_session(self, entry: Entry) -> Iterator[Evicted]:
        """A full table loses the session whose last reply has the least commit number."""
        client, sessions = entry.request.client, self.sessions
        is_register = entry.request.operation == "register"
        if is_register == (client in sessions):
            known = "a session" if is_register else "no session"
            raise Disagrees(f"entry {entry.commit}: client {client} has {known}")
        if is_register and len(sessions) >= self.clients_max:
            evicted = min(sessions, key=lambda it: sessions[it].last_commit)
            yield Evicted(evicted, sessions.pop(evicted).number)
        number = entry.commit if is_register else sessions[client].number
        sessions[client] = Session(number, entry.commit)

    def _create_account(self, account: Account) -> None:
        self.accounts[account.id] = account

    def _create_transfer(self, it: Transfer) -> None:
        flags = it.flags
        if flags & RESOLVES:
            self._resolve(it)
        debit, credit = self.accounts[it.debit_account_id], self.accounts[it.credit_account_id]
        if flags & (BALANCES_DEBIT | BALANCES_CREDIT):
            it.amount = balanced_amount(it, debit, credit)
        if flags & PENDING:
            self._hold(it, debit, credit)
        elif not flags & VOID:
            debit.debits_posted += it.amount
            credit.credits_posted += it.amount

    def _resolve(self, it: Transfer) -> None:
        """Fills a post or a void in from its pending transfer, which is released."""
        pending = self.pending[it.pending_id]
        for name in TAKEN_OVER:
            if not getattr(it, name):
                setattr(it, name, getattr(pending, name))
        if it.flags & VOID or it.amount == AMOUNT_MAX:
            it.amount = pending.amount
        self._release(pending, is_posted=bool(it.flags & POST))

    def _hold(self, it: Transfer, debit: Account, credit: Account) -> None:
        """Adds a pending transfer to both pending sums; it may close accounts."""
        debit.debits_pending += it.amount
        credit.credits_pending += it.amount
        if it.flags & CLOSES_DEBIT:
            debit.flags |= CLOSED
        if it.flags & CLOSES_CREDIT:
            credit.flags |= CLOSED
        self.pending[it.id] = it
        if it.timeout:
            heapq.heappush(self._due, (it.timestamp + it.timeout * SECOND, it.id))
            if len(self._due) > 2 * len(self.pending) + 1000:  # most of them are resolved
                self._due = sorted(due for due in self._due if due[1] in self.pending)

    def _release(self, it: Transfer, is_posted: bool) -> None:
        """Takes a pending transfer off both pending sums; unless posted, what it closed opens."""
        del self.pending[it.id]
        debit, credit = self.accounts[it.debit_account_id], self.accounts[it.credit_account_id]
        debit.debits_pending -= it.amount
        credit.credits_pending -= it.amount
        if it.flags & CLOSES_DEBIT and not is_posted:
            debit.flags &= ~CLOSED
        if it.flags & CLOSES_CREDIT and not is_posted:
            credit.flags &= ~CLOSED


def balanced_amount(it: Transfer, debit: Account, credit: Account) -> int:
    """The amount of a balancing transfer: at most what its accounts have, and at least 0."""
    amount: int = it.amount
    if it.flags & BALANCES_DEBIT:
        amount = min(amount, debit.credits_posted - debit.debits_posted - debit.debits_pending)
    if it.flags & BALANCES_CREDIT:
        amount = min(amount, credit.debits_posted - credit.credits_posted - credit.credits_pending)
    return max(0, amount)
