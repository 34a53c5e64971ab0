"""Numbers of up to 128 bits, flags and times, as the tables hold them.

A number below 2^63 is an INTEGER; a greater one is TEXT, its decimal digits. So each is exact, and
each number has one form.
"""

from __future__ import annotations

import datetime
import re
from typing import Dict, List, Union

from telovamish.dates import nanoseconds
from telovamish.words import ACCOUNT_FLAGS, SECOND, TRANSFER_FLAGS, U128

Number = Union[int, str]

INTEGER_END = 1 << 63
ID_MAX = U128
DEBITS_LIMITED = ACCOUNT_FLAGS["debits_must_not_exceed_credits"]
CREDITS_LIMITED = ACCOUNT_FLAGS["credits_must_not_exceed_debits"]
HISTORY, CLOSED = ACCOUNT_FLAGS["history"], ACCOUNT_FLAGS["closed"]
PENDING = TRANSFER_FLAGS["pending"]
POST, VOID = TRANSFER_FLAGS["post_pending_transfer"], TRANSFER_FLAGS["void_pending_transfer"]
CLOSING_DEBIT = TRANSFER_FLAGS["closing_debit"]
CLOSING_CREDIT = TRANSFER_FLAGS["closing_credit"]


def held(value: int) -> Number:
    """A number as a table holds it. A balance may be negative."""
    return value if -INTEGER_END < value < INTEGER_END else str(value)


def flag_names(bits: int, names: Dict[str, int]) -> List[str]:
    """The names of the bits that are set, and bits without a name as one number."""
    known = [name for name, bit in names.items() if bits & bit]
    rest = bits & ~sum(names.values())
    return [*known, str(rest)] if rest else known


def time_text(time: int) -> str:
    """A time in nanoseconds since 1970, in UTC to the nanosecond."""
    start = datetime.datetime(1970, 1, 1)
    whole = start + datetime.timedelta(seconds=time // SECOND)
    return f"{whole.isoformat()}.{time % SECOND:09d}Z"


TIME = re.compile(
    r"(\d{4})-(\d\d?)-(\d\d?)(?:[T ](\d\d):(\d\d)(?::(\d\d)(?:\.(\d{1,9}))?)?)?(?: ?Z)?", re.A
)


def time_of(text: str, is_last: bool = False) -> int:
    """The nanoseconds since 1970 of a date or a time in UTC. A date without a time is its first
    moment, or its last one if it is the last of a range."""
    found = TIME.fullmatch(text.strip())
    if not found:
        raise ValueError(f"{text!r} is no date, such as 2026-11-26 or 2026-11-26T10:00:00Z")
    return nanoseconds(found, is_last)


def id_of(text: str) -> Number:
    """An id that a person typed: decimal digits, as a spreadsheet has them after #, or hexadecimal
    ones after 0x."""
    plain = text.strip().removeprefix("#").replace("_", "").replace(",", "")
    if re.fullmatch(r"0[xX][0-9a-fA-F]{1,32}", plain):
        return held(int(plain, 16))
    if re.fullmatch(r"[0-9]{1,39}", plain) and int(plain) <= ID_MAX:
        return held(int(plain))
    raise ValueError(f"{text!r} is no id: decimal digits, or hexadecimal ones after 0x")


def is_id(text: str) -> bool:
    """Whether a person typed an id."""
    try:
        id_of(text)
    except ValueError:
        return False
    return True
