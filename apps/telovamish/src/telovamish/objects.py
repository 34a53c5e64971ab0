"""Requests, replies and dumps as JSON, an object a line."""
from __future__ import annotations

import json
from typing import Any

from tb_client import Reply

from .records import Account, Record, Transfer, ids_of, records
from .streams import Head, Item, Mark, results_of
from .words import ACCOUNT_FLAGS, KIND, NAMES, RESULTS, STATUSES, TRANSFER_FLAGS

# numbers of at most 32 bits are numbers, wider ones are strings
NARROW = {"user_data_32", "reserved", "timeout", "ledger", "code"}
TYPES: dict[str, type[Record]] = {"account": Account, "transfer": Transfer}


def line(shown: dict[str, Any], books: Any = None) -> str:
    """An object as a line, to which books add names."""
    shown = books.names.for_json(shown) if books else shown
    return json.dumps(shown, separators=(",", ":")) + "\n"


def flags_shown(names: dict[str, int], number: int) -> list[str]:
    """The names of flags; bits that are no flag follow as one number."""
    rest = number & ~sum(names.values())
    return [name for name, bit in names.items() if number & bit] + ([str(rest)] if rest else [])


def record_shown(it: Record) -> dict[str, Any]:
    shown: dict[str, Any] = {}
    for name in it.__slots__:
        number = getattr(it, name)
        shown[name] = number if name in NARROW else str(number)
    names = ACCOUNT_FLAGS if isinstance(it, Account) else TRANSFER_FLAGS
    shown["flags"] = flags_shown(names, it.flags)
    return shown


def records_shown(operation: str, body: bytes) -> list[dict[str, Any]]:
    """The accounts or transfers of a batch, or those that a lookup found."""
    return [record_shown(it) for it in records(TYPES[KIND[operation]], body)] if body else []


def reply_shown(it: Reply) -> dict[str, Any]:
    operation = NAMES[it.operation]
    if operation in RESULTS:
        results: list[dict[str, Any]] = [
            {"index": at, "result": RESULTS[operation].get(code, str(code))}
            for at, code in results_of(it).items()
        ]
    else:
        results = records_shown(operation, it.body)
    return {
        "client": str(it.client),
        "session": str(it.session),
        "request": it.number,
        "operation": operation,
        "status": STATUSES[it.status],
        "commit": str(it.commit),
        "results": results,
    }


def item_shown(it: Item) -> dict[str, Any]:
    """A head, an entry or a mark of a dump."""
    if isinstance(it, (Head, Mark)):
        return it._asdict()
    request, body = it.request, it.request.body
    is_lookup = request.operation.startswith("lookup_")
    ids = [{"id": str(id)} for id in ids_of(body)] if is_lookup else []
    return {
        "commit": str(it.commit),
        "time": str(it.time),
        "client": str(request.client),
        "session": str(request.session),
        "request": request.request,
        "operation": request.operation,
        "events": ids or records_shown(request.operation, body),
    }
