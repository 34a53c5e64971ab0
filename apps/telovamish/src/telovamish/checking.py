"""Compares the model with the proved program: its records by lookups after a history, the state of
each pending transfer by a post of it, and who has a session by requests that are refused."""
from __future__ import annotations

import itertools
from typing import Iterable, Iterator, Mapping, Optional

from tb_client import Program, Reply

from .faults import Fault
from .live import Replay
from .model import PENDING, POST, RESOLVES, Event, Expired, Fact, Known, Ledger
from .objects import record_shown
from .reader import Pair
from .records import RECORD, Account, Transfer, ids_of, records
from .streams import Entry, Head, Item
from .words import ITEMS_MAX, TIME_MAX, U32, U128

NO_SESSION, NEWER_REQUEST = 1, 6
# the result of a post of a pending transfer that is resolved, by its state
ENDED = {33: "posted", 34: "voided", 35: "expired"}
PATIENCE = 600.0  # seconds for a reply


class Differs(Fault):
    """The model differs from the proved program."""

    status = 1


class Check:
    """What a history made, until it is compared. `tbs run` gets the same history. The requests that
    compare come after it, to the replay only, and the model enters them too."""

    def __init__(self, tbs: str, replay: Replay) -> None:
        self.transfers: dict[int, Transfer] = {}
        self.states: dict[int, str] = {}  # of each pending transfer
        self._ids: set[int] = set()  # of all transfers that were sent
        self._last: dict[int, Pair] = {}  # the last request of each client
        self._tbs, self._replay, self._ledger = tbs, replay, Ledger(1)
        self._run: Optional[Program] = None
        self._entry = Entry(0, 0, Pair(0, 0, 0, 0, "register", b""))  # the last one

    def note(self, item: Item, reply: Optional[Reply], ledger: Ledger, facts: list[Fact]) -> None:
        """Takes the next item of the history, and compares the records that it looks up."""
        self._ledger = ledger
        if isinstance(item, Head):
            self._run = Program(self._tbs, item.clients_max, timeout=PATIENCE)
        if isinstance(item, Entry) and reply and self._run:
            self._run.exchange(item.time, item.request.frame())
            self._last[item.request.client] = item.request
            self._note_entry(item, reply, facts)

    def _note_entry(self, entry: Entry, reply: Reply, facts: list[Fact]) -> None:
        self._entry = entry
        for fact in facts:
            self._note_fact(fact)
        if entry.request.operation == "lookup_accounts":
            compare_records(Account, self._ledger.accounts, entry.request.body, reply.body)
        elif entry.request.operation == "lookup_transfers":
            compare_records(Transfer, self.transfers, entry.request.body, reply.body)

    def _note_fact(self, fact: Fact) -> None:
        if isinstance(fact, Expired):
            self.states[fact.transfer.id] = "expired"
        elif isinstance(fact, Event) and isinstance(fact.record, Transfer):
            it = fact.record
            self._ids.add(it.id)
            if fact.result:
                return
            self.transfers[it.id] = it
            if it.flags & PENDING:
                self.states[it.id] = "pending"
            elif it.flags & RESOLVES:
                self.states[it.pending_id] = "posted" if it.flags & POST else "voided"

    def compare(self) -> str:
        """Compares all that the history left. Returns what was compared."""
        ledger = self._ledger
        counts = len(ledger.accounts), len(self.transfers), len(self.states), len(ledger.sessions)
        if self._run:
            with self._run:
                self._compare_sessions(self._run)
        client = next(it for it in itertools.count(1) if it not in ledger.sessions)
        free = (it for it in range(U128 - 1, 0, -1) if it not in self._ids)
        self._enter(Pair(0, client, 0, 0, "register", b""))
        session = self._entry.commit
        requests = [("lookup_accounts", ids_body(it)) for it in batches(ledger.accounts)]
        requests += [("lookup_transfers", ids_body(it)) for it in batches(self.transfers)]
        posts = (b"".join(map(post_of, it, free)) for it in batches(self.states))
        requests += [("create_transfers", it) for it in posts]
        for number, (operation, body) in enumerate(requests, 1):
            self._enter(Pair(0, client, session, number, operation, body))
        return "%d accounts, %d transfers, %d pending transfers, %d sessions" % counts

    def _compare_sessions(self, run: Program) -> None:
        """By requests far above the next one, which are refused whoever sends them."""
        for client, last in self._last.items():
            session = self._ledger.sessions.get(client)
            if session and last.request > U32 - 2:
                continue  # the request would be the next one, or the last one again
            number = session.number if session else 1
            pair = Pair(0, client, number, U32, "lookup_accounts", b"")
            status = Reply.from_bytes(run.exchange(0, pair.frame())).status
            if status != (NEWER_REQUEST if session else NO_SESSION):
                known = f"session {session.number}" if session else "no session"
                raise Differs(f"client {client} has {known} in the model, and status {status}")

    def _enter(self, pair: Pair) -> None:
        """Sends the next request after the history, which the model enters too."""
        entry = Entry(self._entry.commit + 1, self._entry.time + max(1, pair.length), pair)
        if entry.time > TIME_MAX:
            raise Fault("audit --check: no time is left for lookups after the last entry")
        reply = self._replay.reply_to(entry)
        assert reply
        facts = [*self._ledger.enter(entry, reply)]
        self._note_entry(entry, reply, [it for it in facts if isinstance(it, Expired)])
        for fact in facts:
            if isinstance(fact, Event) and isinstance(fact.record, Transfer):
                id, state = fact.record.pending_id, ENDED.get(fact.result, "pending")
                if state != self.states[id]:
                    raise Differs(f"transfer {id} is {self.states[id]}, and {state} in tbs")


def batches(of: Iterable[int]) -> Iterator[list[int]]:
    ids = [*of]
    return (ids[at : at + ITEMS_MAX] for at in range(0, len(ids), ITEMS_MAX))


def ids_body(ids: list[int]) -> bytes:
    return b"".join(it.to_bytes(16, "little") for it in ids)


def post_of(pending: int, id: int) -> bytes:
    """The bytes of a post of nothing of a pending transfer: one that is open takes it."""
    it = Transfer.read(bytes(RECORD))
    it.id, it.pending_id, it.flags = id, pending, POST
    return it.to_bytes()


def compare_records(
    kind: type[Known], known: Mapping[int, Known], ids: bytes, found: bytes
) -> None:
    """Compares the records of a lookup with what the model has of them."""
    wanted = (record_shown(known[it]) for it in ids_of(ids) if it in known)
    for mine, other in itertools.zip_longest(wanted, map(record_shown, records(kind, found))):
        if mine != other:
            raise Differs(f"{kind.__name__.lower()} {mine}, and {other} in tbs")
