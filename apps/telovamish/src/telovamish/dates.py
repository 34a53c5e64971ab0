"""Moments that are written as dates in UTC, and how much of a wrong one is right."""
from __future__ import annotations

import datetime
import re
from typing import Optional

from .words import SECOND, TIME_MAX

DATE = re.compile(r"(\d{4})-(\d\d)-(\d\d)(?:T(\d\d):(\d\d)(?::(\d\d)(?:\.(\d{1,9}))?)?Z)?", re.A)
EARLIEST = "0000-01-01T00:00:00."
FRACTION = len(EARLIEST)
ENDS = (10, 16, 19)  # the ends of a day, a minute and a second
EPOCH = datetime.datetime(1970, 1, 1)
DAY = 86400  # seconds


def nanoseconds(date: re.Match[str], is_last: bool = False) -> int:
    """Nanoseconds since 1970 of a date with the groups of `DATE`. A day without a time is its first
    moment, or the day's last one if it is the last of a range. Raises ValueError if the date does
    not exist."""
    year, month, day, hour, minute, second = (int(it or 0) for it in date.groups()[:6])
    since = datetime.datetime(year, month, day, hour, minute, second) - EPOCH
    first = (since.days * DAY + since.seconds) * SECOND + int((date[7] or "").ljust(9, "0"))
    if not is_last or date[4]:
        return first
    return max(first, min(first + DAY * SECOND - 1, TIME_MAX))


def moment_of(date: str, is_last: bool = False) -> Optional[int]:
    """Nanoseconds since 1970 of a date that the ledger can have."""
    found = DATE.fullmatch(date)
    try:
        moment = nanoseconds(found, is_last) if found else -1
    except ValueError:
        return None
    return moment if 0 <= moment <= TIME_MAX else None


def date_of(nanoseconds: int) -> str:
    """A time of the ledger as a date in UTC, exactly."""
    seconds, rest = divmod(nanoseconds, SECOND)
    return f"{(EPOCH + datetime.timedelta(seconds=seconds)).isoformat()}.{rest:09}Z"


def spoken(nanoseconds: int) -> str:
    """A length of time in words, in its largest unit."""
    seconds = nanoseconds // SECOND
    for name, length in (("year", 365 * DAY), ("day", DAY), ("hour", 3600), ("minute", 60)):
        if seconds >= 2 * length:
            return f"{seconds // length} {name}s"
    return f"{seconds} seconds"


def may_go_on(begun: str) -> bool:
    """Some date begins so: one of the earliest that do, with each digit that may come next."""
    starts = [begun, *(begun + digit for digit in "0123456789")]
    for start in starts:
        for end in (*ENDS, max(FRACTION + 1, len(start))):
            rest = EARLIEST[len(start) : end].ljust(max(0, end - len(start)), "0")
            if moment_of(start + rest) is not None or moment_of(f"{start}{rest}Z") is not None:
                return True
    return False


def right_part(date: str) -> int:
    """How many bytes of a date are right, of which the year is read before."""
    return next((it for it in range(4, len(date)) if not may_go_on(date[: it + 1])), len(date))
