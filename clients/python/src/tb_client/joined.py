"""Lists that go out as one request: what its reply says for each, and what a chain did that was
made before."""
from __future__ import annotations

import dataclasses
from typing import Any, Callable, Dict, Iterator, List, Sequence, Tuple

from .layout import FLAGS_AT, ID, RECORD
from .names import (
    AccountFlags,
    CreateAccountResult,
    CreateTransferResult,
    Operation,
    TransferFlags,
)
from .records import Account, EventResult, Transfer, u128_at

CREATES = (Operation.create_accounts, Operation.create_transfers)
LOOKUPS = {
    Operation.create_accounts: Operation.lookup_accounts,
    Operation.create_transfers: Operation.lookup_transfers,
}
RESOLVING = TransferFlags.post_pending_transfer | TransferFlags.void_pending_transfer
BALANCING = TransferFlags.balancing_debit | TransferFlags.balancing_credit
# what a record has that is not as it was asked for
SUMS = {"debits_pending", "debits_posted", "credits_pending", "credits_posted", "timestamp"}


def is_linked(body: bytes, at: int) -> bool:
    """Whether the account or transfer that begins at this place is linked with the next one."""
    return bool(body[at + FLAGS_AT] & TransferFlags.linked.value)


def answers(operation: Operation, bodies: Sequence[bytes], said: Any) -> List[Any]:
    """What a reply says for each of the lists that were joined, by their own indexes."""
    return _results(bodies, said) if operation in CREATES else _records(bodies, said)


def _results(bodies: Sequence[bytes], results: Sequence[EventResult]) -> List[List[EventResult]]:
    found, first, at = [], 0, 0
    for body in bodies:
        end, own = first + len(body) // RECORD, []
        while at < len(results) and results[at].index < end:
            own.append(EventResult(results[at].index - first, results[at].result))
            at += 1
        found.append(own)
        first = end
    return found


def _records(bodies: Sequence[bytes], records: Sequence[Any]) -> List[List[Any]]:
    """Records come in the order of the ids, and an id that is not there has no record."""
    found, at = [], 0
    for body in bodies:
        own = []
        for place in range(0, len(body), ID):
            if at < len(records) and records[at].id == u128_at(body, place):
                own.append(records[at])
                at += 1
        found.append(own)
    return found


# A request that may have been executed before, in a session that has ended


def chains(body: bytes) -> Iterator[Tuple[int, int]]:
    """The first event and the end of each chain of two events or more."""
    count, first = len(body) // RECORD, 0
    for at in range(count):
        if not is_linked(body, at * RECORD):
            if at > first:
                yield first, at + 1
            first = at + 1


def settled(
    operation: Operation,
    body: bytes,
    results: Sequence[EventResult],
    look_up: Callable[[Operation, bytes], Sequence[Any]],
) -> List[EventResult]:
    """The results of a create that may have been executed before. A chain that was is refused now,
    because its first event exists; if all its events are there as they were asked for, each of them
    exists."""
    names: Any = (
        CreateAccountResult if operation == Operation.create_accounts else CreateTransferResult
    )
    by_index: Dict[int, Any] = {it.index: it.result for it in results}
    doubtful = [
        (first, end)
        for first, end in chains(body)
        if by_index.get(first) == names.exists
        and all(by_index.get(at) == names.linked_event_failed for at in range(first + 1, end))
    ]
    if not doubtful:
        return list(results)
    events = [at for first, end in doubtful for at in range(first, end)]
    ids = b"".join(body[at * RECORD : at * RECORD + ID] for at in events)
    there = {it.id: it for it in look_up(LOOKUPS[operation], ids)}
    kind: Any = Account if operation == Operation.create_accounts else Transfer
    for first, end in doubtful:
        asked = [kind.from_bytes(body[at * RECORD : (at + 1) * RECORD]) for at in range(first, end)]
        if all(is_as_asked(it, there.get(it.id)) for it in asked):
            by_index.update((at, names.exists) for at in range(first, end))
    return [EventResult(at, by_index[at]) for at in sorted(by_index)]


def is_as_asked(asked: Any, found: Any) -> bool:
    """Whether this record is what became of the one that was asked for."""
    if found is None:
        return False
    passed_over, is_resolving = set(SUMS), False
    if isinstance(asked, Account):
        asked = dataclasses.replace(asked, flags=asked.flags & ~AccountFlags.closed)
        found = dataclasses.replace(found, flags=found.flags & ~AccountFlags.closed)
    else:
        is_resolving = bool(asked.flags & RESOLVING)
        if is_resolving or asked.flags & BALANCING:
            passed_over.add("amount")  # it is what was pending, or what the account had
    for field in dataclasses.fields(asked):
        wanted, got = getattr(asked, field.name), getattr(found, field.name)
        # a post or void takes from the pending transfer what it leaves out
        if field.name not in passed_over and wanted != got and (wanted or not is_resolving):
            return False
    return True
