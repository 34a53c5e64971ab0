"""Says which rules of docs/use/RULES.md an entry of a history reaches, as the facts of it show."""
from __future__ import annotations

from typing import Iterator, Mapping, Optional

from telovamish.model import CLOSED, Event, Evicted, Expired, Fact, Ledger
from telovamish.records import Account, Transfer
from telovamish.streams import Entry
from telovamish.words import AMOUNT_MAX, TRANSFER_FLAGS

LINKED, PENDING, POST, VOID, DEBIT, CREDIT, CLOSES_DEBIT, CLOSES_CREDIT = (
    TRANSFER_FLAGS[it]
    for it in (
        "linked pending post_pending_transfer void_pending_transfer balancing_debit"
        " balancing_credit closing_debit closing_credit"
    ).split()
)
CLOSES = CLOSES_DEBIT | CLOSES_CREDIT
RULES = """
an entry at its moment; an entry right after the one before it
a single transfer; a pending transfer
a post of the whole; a post of a part; a post of nothing; a post by amount_max
a post or void that takes over accounts; a post or void that names accounts
a void by 0; a void by the amount; a void opens an account
a balancing debit lowered; a balancing credit lowered; both balanced, and lowered
a balancing transfer not lowered; a balancing transfer of 0; a pending balancing transfer
a closed debit account; a closed credit account; both accounts closed; created closed
a void of a closed account
an expiry; an expiry opens an account; two expiries at a time; two expiries by an entry
a post refused in the entry that expired its transfer; an expiry by a lookup
a chain of two; a broken chain
an absent id looked up; an id looked up twice
an eviction; a register of an evicted client
a mark; an entry after the mark
no_session; session_too_low; newer_session; older; collision; newer_request; repeat
"""
NAMES = {it.strip() for line in RULES.strip().splitlines() for it in line.split(";")}


def of_entry(
    entry: Entry, before: Optional[Entry], found: list[Fact], ledger: Ledger
) -> Iterator[str]:
    """The rules of an entry and of its expiries."""
    events = [it for it in found if isinstance(it, Event)]
    least = (before.time if before else 0) + max(1, len(events))
    is_least = entry.time == least
    yield "an entry right after the one before it" if is_least else "an entry at its moment"
    expired = [it for it in found if isinstance(it, Expired)]
    if len(expired) > 1:
        yield "two expiries by an entry"
    if len({it.time for it in expired}) < len(expired):
        yield "two expiries at a time"
    if expired and entry.request.operation.startswith("lookup_"):
        yield "an expiry by a lookup"
    for it in expired:
        yield "an expiry"
        if it.transfer.flags & CLOSES:
            yield "an expiry opens an account"
    ids = {it.transfer.id for it in expired}
    for it in events:
        if it.result == 35 and it.record.pending_id in ids:
            yield "a post refused in the entry that expired its transfer"
    if any(isinstance(it, Evicted) for it in found):
        yield "an eviction"
    yield from of_chains(events)
    yield from of_lookup(entry, ledger)


def of_chains(events: list[Event]) -> Iterator[str]:
    for one, next in zip(events, events[1:]):
        if one.record.flags & LINKED and not one.result and not next.result:
            yield "a chain of two"
    if any(it.result == 1 for it in events):
        yield "a broken chain"


def of_lookup(entry: Entry, ledger: Ledger) -> Iterator[str]:
    if entry.request.operation == "lookup_accounts":
        body = entry.request.body
        ids = [int.from_bytes(body[at : at + 16], "little") for at in range(0, len(body), 16)]
        if len({*ids}) < len(ids):
            yield "an id looked up twice"
        if any(it not in ledger.accounts for it in ids):
            yield "an absent id looked up"


def of_event(
    event: Event, sent: bytes, transfers: Mapping[int, Transfer], ledger: Ledger
) -> Iterator[str]:
    """The rules of an event that was created, by the record that was sent and those before."""
    it = event.record
    if event.result:
        return
    if isinstance(it, Account):
        if it.flags & CLOSED:
            yield "created closed"
        return
    asked = Transfer.read(sent)
    if it.flags & (POST | VOID):
        yield from of_resolving(it, asked, transfers[it.pending_id], ledger)
    elif it.flags & (DEBIT | CREDIT):
        yield from of_balancing(it, asked.amount)
    else:
        yield "a pending transfer" if it.flags & PENDING else "a single transfer"
    if it.flags & CLOSES:
        both = {CLOSES_DEBIT: "a closed debit account", CLOSES_CREDIT: "a closed credit account"}
        yield both.get(it.flags & CLOSES, "both accounts closed")


def of_resolving(it: Transfer, asked: Transfer, pending: Transfer, ledger: Ledger) -> Iterator[str]:
    yield "a post or void that " + (
        "names" if asked.debit_account_id else "takes over"
    ) + " accounts"
    if it.flags & POST:
        whole = "the whole" if it.amount == pending.amount else "a part" if it.amount else "nothing"
        yield f"a post of {whole}"
        if asked.amount == AMOUNT_MAX:
            yield "a post by amount_max"
        return
    yield "a void by the amount" if asked.amount else "a void by 0"
    if pending.flags & CLOSES:
        yield "a void opens an account"
    elif any(
        ledger.accounts[id].flags & CLOSED for id in (it.debit_account_id, it.credit_account_id)
    ):
        yield "a void of a closed account"


def of_balancing(it: Transfer, asked: int) -> Iterator[str]:
    if it.amount == 0 < asked:
        yield "a balancing transfer of 0"
    if it.flags & PENDING:
        yield "a pending balancing transfer"
    if it.amount == asked:
        yield "a balancing transfer not lowered"
    elif it.flags & DEBIT and it.flags & CREDIT:
        yield "both balanced, and lowered"
    else:
        yield f"a balancing {'debit' if it.flags & DEBIT else 'credit'} lowered"
