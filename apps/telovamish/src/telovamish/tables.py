"""Replies as tables: results, accounts and transfers, with times as dates."""
from __future__ import annotations

from typing import Any, Container, Iterator, Sequence

from .dates import date_of
from .objects import reply_shown
from .reader import Pair
from .records import Transfer, ids_of, records
from .sending import Served
from .words import STATUSES, TRANSFER_FLAGS

ALWAYS = "id debits_posted credits_posted debit_account_id credit_account_id amount ledger code"
OF_LEDGER = "post_pending_transfer void_pending_transfer balancing_debit balancing_credit"
SET_BY_LEDGER = sum(TRANSFER_FLAGS[it] for it in OF_LEDGER.split())
MISSING_MAX = 10  # ids that are named
EMPTY: tuple[Any, ...] = ("0", 0, [])
# what to do after a refusal
ADVICE = {
    "no_session": "the client has no session: register",
    "session_too_low": "the client has a later session, or was evicted: register",
    "newer_session": "the client has no such session yet",
    "older": "this number was executed long ago, and its reply is not kept",
    "collision": "this number was used for another request",
    "newer_request": "send the requests before this one first",
}
REGISTERED = "the client has a session already: leave out register, or name another client"
Row = dict[str, Any]


def shown(field: str, value: Any) -> str:
    """A field of a record as a cell."""
    if field == "flags":
        return "|".join(map(str, value))
    return date_of(int(value)) if field == "timestamp" else str(value)


def columns_of(records: Sequence[Row]) -> list[str]:
    """The fields that say something of one of the records, in the order of the layout."""
    full = [{it for it, value in record.items() if value not in EMPTY} for record in records]
    return [it for it in records[0] if it in {*ALWAYS.split()}.union(*full)]


def aligned(head: Sequence[str], rows: Sequence[Sequence[str]]) -> list[str]:
    """A table with a line under its head; numbers and amounts are at the right."""
    widths = [max(map(len, column)) for column in zip(head, *rows)]
    right = [all(it.isdigit() or it.endswith(")") for it in column) for column in zip(*rows)]

    def line(cells: Sequence[str]) -> str:
        fitted = (
            it.rjust(width) if to_right else it.ljust(width)
            for it, width, to_right in zip(cells, widths, right)
        )
        return "  ".join(fitted).rstrip()

    return [line(head), "  ".join("-" * it for it in widths), *map(line, rows)]


def records_shown(records: Sequence[Row], width: int, named: Any = None) -> Iterator[str]:
    """A table if it fits, otherwise a block of lines for each record. Names may be added to
    them."""
    columns = columns_of(records)
    records = named(records) if named else records
    rows = [[shown(it, record[it]) for it in columns] for record in records]
    table = aligned(columns, rows)
    if max(map(len, table)) <= width:
        yield from table
        return
    longest = max(map(len, columns))
    for number, row in enumerate(rows):
        if number:
            yield ""
        yield from (
            f"{it.ljust(longest)}  {' '.join(cell.split())}" for it, cell in zip(columns, row)
        )


def results_shown(pair: Pair, results: Sequence[Row]) -> Iterator[str]:
    """The events of a batch that were not accepted, each with its id."""
    if results:
        places = [it["index"] for it in results]
        ids = [pair.id_at(it) for it in places]
        names = [it["result"] for it in results]
        cells = [*zip(map(str, places), map(str, ids), names)]
        yield from aligned(("index", "id", "result"), cells)


def refusal_text(status: int, operation: str) -> str:
    name = STATUSES[status]
    if (name, operation) == ("older", "register"):
        return f"refused: {name}: {REGISTERED}"
    return f"refused: {name}{': ' + ADVICE[name] if name in ADVICE else ''}"


def missing(pair: Pair, results: Sequence[Row]) -> str:
    """The ids that a lookup did not find, up to some."""
    found = {it["id"] for it in results}
    ids = [*dict.fromkeys(it for it in map(str, ids_of(pair.body)) if it not in found)]
    more = f" and {len(ids) - MISSING_MAX} more" if len(ids) > MISSING_MAX else ""
    return ", ".join(ids[:MISSING_MAX]) + more


def amounts_shown(pair: Pair, failed: Container[int], names: Any) -> str:
    """The sums of what was created, by ledger, as names write them. What the ledger itself sets the
    amount of is left out."""
    sums: dict[int, int] = {}
    for at, it in enumerate(records(Transfer, pair.body)):
        if at not in failed and not it.flags & SET_BY_LEDGER:
            sums[it.ledger] = sums.get(it.ledger, 0) + it.amount
    texts = {ledger: names.amount(amount, ledger) for ledger, amount in sums.items()}
    shown = [f"{text} ({sums[ledger]})" for ledger, text in texts.items() if text]
    return f": {', '.join(shown)}" if shown else ""


def reply_lines(
    served: Served, width: int, quiet: bool = False, names: Any = None
) -> Iterator[str]:
    """The lines that show the reply to a request; of a quiet one only failures."""
    pair, reply, is_repeat = served
    if reply.status:
        yield refusal_text(reply.status, pair.operation)
        return
    results, count = reply_shown(reply)["results"], pair.length
    is_create = pair.operation.startswith("create_")
    if is_create:
        yield from results_shown(pair, results)
    if quiet:
        return
    if pair.operation == "register":
        yield f"client {reply.client} has session {reply.session}"
    elif not is_create:
        named = names.for_table if names else None
        yield from records_shown(results, width, named) if results else ()
        if count > len(results):
            yield f"{count - len(results)} of {count} not found: {missing(pair, results)}"
    if is_repeat:
        yield f"first reply again (commit {reply.commit}): nothing was executed"
    elif is_create:
        name = pair.operation.removeprefix("create_").removesuffix("s")
        failed = {it["index"] for it in results}
        amounts = amounts_shown(pair, failed, names) if names and name == "transfer" else ""
        made = f"{count - len(results)} of {count} {name}{'' if count == 1 else 's'} created"
        yield made + amounts
