"""What an address asks for: times, numbers, ids, and the place of a page."""

from __future__ import annotations

from typing import Any, Dict, Iterable, Optional, Tuple

from flask import abort, request

from ..numbers import Number, id_of, time_of
from .queries import LAST, Range
from .texts import names

CARRIED = ("from", "to", "ledger", "code", "user_data", "sort")


def check_fields(what: str, fields: Iterable[str]) -> None:
    """Refuses a field that an address does not have, and one that is given twice: an answer to
    another question than the one that was asked is wrong."""
    known = [*fields, "commit"]
    for name, texts in request.args.lists():
        if name not in known:
            abort(400, f"{what} has no field {name[:60]}: {', '.join(known)}")
        if len(texts) > 1:
            abort(400, f"{name} is given {len(texts)} times: give it once")


def asked_time(name: str, is_last: bool) -> Optional[int]:
    """A moment, or the first or last one of a day; nothing if none is asked for."""
    text = request.args.get(name, "").strip()
    if not text:
        return None
    try:
        return time_of(text, is_last)
    except (ValueError, OverflowError) as error:
        return abort(400, f"{name}: {error}")


def asked_range() -> Range:
    """The range of times that the address asks for, its last moment or day included."""
    first, last = asked_time("from", False), asked_time("to", True)
    if first is not None and last is not None and first > last:
        abort(400, f"from {request.args['from'][:40]} is after to {request.args['to'][:40]}")
    first, last = first or 0, LAST if last is None else last
    return Range(max(0, min(first, LAST)), max(-1, min(last, LAST)))


def asked_moment() -> Optional[int]:
    """The moment after which balances are asked for; nothing if it is after the last entry."""
    at = asked_time("at", True)
    return None if at is None or at >= LAST else max(-1, at)


def asked_number(name: str) -> Optional[int]:
    text = request.args.get(name, "")
    if not text:
        return None
    if not text.isascii() or not text.isdigit() or len(text) > 19 or int(text) > LAST:
        return abort(400, f"{name} is no number of at most 2^63 - 1")
    return int(text)


def asked_name(kind: str, text: str) -> Number:
    """The number of a ledger, a code or an account by its name."""
    try:
        return names().number(kind, text)
    except ValueError as error:
        return abort(400, str(error))


def asked_named(name: str) -> Optional[int]:
    """The number of a ledger or a code, which may be given by its name."""
    text = request.args.get(name, "")
    return int(asked_name(name, text)) if names().has(name, text) else asked_number(name)


def asked_account(text: str) -> Number:
    """An account's id, which may be given by its name."""
    return asked_name("account", text) if names().has("account", text) else asked_id(text)


def asked_id(text: str) -> Number:
    try:
        return id_of(text)
    except ValueError as error:
        return abort(400, str(error))


def asked_page() -> Tuple[Optional[int], Optional[int]]:
    return asked_number("before"), asked_number("after")


def carried(**changes: Any) -> Dict[str, Any]:
    """The words of this address that a link to another page of the same rows keeps."""
    kept = {it: request.args[it] for it in CARRIED if request.args.get(it)}
    return {**(request.view_args or {}), **kept, **changes}
