"""What the pages write of a value: numbers, ids, times, flags and states."""

from __future__ import annotations

import functools
import time
from typing import Any, List, Optional, Tuple

from flask import g, url_for
from markupsafe import Markup

from ..names import Names
from ..numbers import CLOSED, CREDITS_LIMITED, DEBITS_LIMITED, HISTORY, Number, time_text
from . import charts
from .queries import LAST

FLAG_WORDS = {
    DEBITS_LIMITED: "debits at most credits",
    CREDITS_LIMITED: "credits at most debits",
    HISTORY: "keeps its history",
    CLOSED: "closed",
}


def names() -> Names:
    found: Names = g.names
    return found


def shown_number(value: Number, ledger: Optional[Number] = None) -> Markup:
    """An amount: with point and unit if the ledger has a name, and then the exact integer in
    parentheses; otherwise with commas."""
    number, exact = _number_and_exact(value, ledger)
    return number + exact


def _number_and_exact(value: Number, ledger: Optional[Number]) -> Tuple[Markup, Markup]:
    written = names().amount(int(value), ledger) if ledger is not None else None
    if written is None:
        return broken(charts.grouped(int(value))), Markup("")
    return broken(written), Markup(' <span class="exact">({})</span>').format(value)


def broken(text: str) -> Markup:
    """A number; a long one may be broken after each comma."""
    if len(text) <= 26:
        return Markup('<span class="number">{}</span>').format(text)
    parts = Markup(",<wbr>").join(text.split(","))
    return Markup('<span class="number long">{}</span>').format(parts)


def plain_amount(value: Number, ledger: Number) -> str:
    """Only an amount, in a sentence."""
    return names().amount(int(value), ledger) or charts.grouped(int(value))


def unit_of(ledger: Number) -> charts.Unit:
    """How a chart writes the amounts of a ledger."""
    written = functools.partial(plain_amount, ledger=ledger)
    return charts.Unit(names().places(ledger), written)


def shown_balance(value: Number, ledger: Optional[Number] = None) -> Markup:
    """A balance, and the side that it is on."""
    amount = int(value)
    side = "debit" if amount > 0 else "credit" if amount < 0 else ""
    number, exact = _number_and_exact(abs(amount), ledger)
    return number + Markup(f' <span class="side">{side}</span>' if side else "") + exact


def shown_id(value: Number, kind: str = "") -> Markup:
    """An id, with a link to what it names, and the name of an account."""
    text = str(value)
    long = " long" if len(text) > 20 else ""
    name = names().name("account", value) if kind == "account" else ""
    more = Markup(' <span class="named">{}</span>').format(name) if name else Markup("")
    if not kind or text == "0":
        return Markup('<span class="id{}">{}</span>').format(long, text)
    link = Markup('<a class="id{}" href="{}">{}</a>')
    return link.format(long, url_for(kind, id=text), text) + more


def shown_kind(value: int, kind: str) -> Markup:
    """A ledger or a code, and its name."""
    name = names().name(kind, value)
    more = Markup(' <span class="named">{}</span>').format(name) if name else Markup("")
    return Markup(f"{value}") + more


def shown_time(value: Optional[int]) -> Markup:
    """A time in UTC: the date and the time of day to the second; the nanoseconds as its title, and
    in a day's last second itself, since a batch may begin in one day and end in the next."""
    if value is None:
        return Markup('<span class="none">never</span>')
    text = time_text(value)
    is_last = text[11:19] == "23:59:59"
    shown = f"{text[:10]} {text[11:29] if is_last else text[11:19]}"
    return Markup(f'<time datetime="{text}" title="{text}">{shown}</time>')


def shown_name(text: str) -> str:
    """A text with a file's name, which may be of any bytes."""
    return text.encode(errors="backslashreplace").decode()


def ago(seconds: float) -> str:
    """A span of time in words."""
    for size, name in ((86400 * 365, "year"), (86400, "day"), (3600, "hour"), (60, "minute")):
        if seconds >= 2 * size:
            return f"{int(seconds // size):,} {name}s"
    return f"{int(seconds)} seconds"


def flag_words(bits: int) -> List[str]:
    """The flags of an account in words that say something to who reads the books."""
    return [word for bit, word in FLAG_WORDS.items() if bits & bit]


def available(row: Any) -> List[Tuple[str, int]]:
    """What may still be debited or credited under the limits of an account."""
    found = []
    if row["flags"] & DEBITS_LIMITED:
        used = int(row["debits_posted"]) + int(row["debits_pending"])
        found.append(("debit", int(row["credits_posted"]) - used))
    if row["flags"] & CREDITS_LIMITED:
        used = int(row["credits_posted"]) + int(row["credits_pending"])
        found.append(("credit", int(row["debits_posted"]) - used))
    return found


def state_of(row: Any) -> str:
    """A pending transfer's state. One whose timeout has run out is overdue until the ledger's next
    entry, which releases it."""
    is_late = row["state"] == "pending" and (row["expires_at"] or LAST) <= time.time_ns()
    return "overdue" if is_late else str(row["state"] or "")
