"""The questions that TigerBeetle's clients ask, with its filters, its order and its maximum:
get_account_transfers, get_account_balances, query_accounts and query_transfers."""

from __future__ import annotations

import re
from typing import Any, Callable, Dict, List, Mapping, NamedTuple, Tuple

from telovamish.objects import record_shown
from telovamish.records import Account, Transfer
from telovamish.words import ITEMS_MAX, TIME_MAX, U16, U32, U64, U128

from .names import Names
from .numbers import HISTORY, PENDING, VOID, held, id_of, time_of
from .reading import Reading, Row
from .schema import SUMS

USER_DATA = {"user_data_128": U128, "user_data_64": U64, "user_data_32": U32}
SHARED = {**USER_DATA, "code": U16, "timestamp_min": U64, "timestamp_max": U64, "limit": U32}
ACCOUNT_FILTER = {"account_id": U128, **SHARED, "flags": U32}
QUERY_FILTER = {"ledger": U32, **SHARED, "flags": U32}
ACCOUNT_FLAGS = {"debits": 1, "credits": 2, "reversed": 4}
QUERY_FLAGS = {"reversed": 1}
BY_NAME = {"account_id": "account", "ledger": "ledger", "code": "code"}  # fields, and their kinds
Shown = Dict[str, Any]
Values = List[Any]


class Operation(NamedTuple):
    """A question: the fields of its filter, their flags, and the function for it."""

    fields: Mapping[str, int]
    flags: Mapping[str, int]
    answer: Callable[[Reading, Mapping[str, int]], List[Shown]]


def has_right_times(wanted: Mapping[str, int]) -> bool:
    """Whether both timestamps are 0 or ones that a record may have, in their order."""
    first, last = wanted["timestamp_min"], wanted["timestamp_max"]
    return first <= TIME_MAX and last <= TIME_MAX and (last == 0 or first <= last)


def is_account_filter(wanted: Mapping[str, int]) -> bool:
    """Whether TigerBeetle returns anything for a filter."""
    sides = wanted["flags"] & 3
    is_known = wanted["flags"] <= sum(ACCOUNT_FLAGS.values())
    has_account = 0 < wanted["account_id"] < U128
    return bool(has_account and sides and is_known and wanted["limit"] and has_right_times(wanted))


def is_query_filter(wanted: Mapping[str, int]) -> bool:
    return wanted["flags"] <= 1 and wanted["limit"] > 0 and has_right_times(wanted)


def tests_of(wanted: Mapping[str, int], names: List[str]) -> Tuple[str, Values]:
    """What the rows of a filter meet. A field that is 0 is not compared. Rows with user data are
    found by indexes, which have no row with 0."""
    tests = ["t.timestamp >= ?", "t.timestamp <= ?"]
    values: Values = [wanted["timestamp_min"], wanted["timestamp_max"] or TIME_MAX]
    for name in names:
        if wanted[name]:
            tests.append(
                f"t.{name} = ? AND t.{name} <> 0" if name in USER_DATA else f"t.{name} = ?"
            )
            values.append(held(wanted[name]))
    return " AND ".join(tests), values


def order_of(wanted: Mapping[str, int], reversed: int) -> str:
    return "DESC" if wanted["flags"] & reversed else "ASC"


def limit_of(wanted: Mapping[str, int]) -> int:
    return min(wanted["limit"], ITEMS_MAX)


def rows_of_account(reading: Reading, wanted: Mapping[str, int]) -> List[Row]:
    """The transfers of an account: those that moved money by its postings, and pending ones and
    voids by indexes of their own. Each part has its limit, so that no part reads more."""
    where, values = tests_of(wanted, [*USER_DATA, "code"])
    order, limit, id = order_of(wanted, 4), limit_of(wanted), held(wanted["account_id"])
    sides = [it for it in ("debit", "credit") if wanted["flags"] & ACCOUNT_FLAGS[f"{it}s"]]
    end = f"ORDER BY timestamp {order} LIMIT ?"
    parts: List[str] = []
    asked: Values = []
    for side in sides:
        is_side = f"t.{side}_account_id = p.account_id"
        parts.append(
            "SELECT t.* FROM postings AS p JOIN transfers AS t ON t.timestamp = p.timestamp"
            f" WHERE p.account_id = ? AND p.timestamp >= ? AND p.timestamp <= ? AND {is_side}"
            f" AND {where} ORDER BY p.timestamp {order} LIMIT ?"
        )
        asked += [id, *values[:2], *values, limit]
        parts.append(
            f"SELECT t.* FROM transfers AS t WHERE t.{side}_account_id = ?"
            f" AND t.flags & {PENDING | VOID} <> 0 AND {where} ORDER BY t.timestamp {order} LIMIT ?"
        )
        asked += [id, *values, limit]
    union = " UNION ALL ".join(f"SELECT * FROM ({it}) AS part{at}" for at, it in enumerate(parts))
    return reading.all(f"SELECT * FROM ({union}) AS t {end}", *asked, limit)


def get_account_transfers(reading: Reading, wanted: Mapping[str, int]) -> List[Shown]:
    if not is_account_filter(wanted):
        return []
    return [transfer_shown(it) for it in rows_of_account(reading, wanted)]


def get_account_balances(reading: Reading, wanted: Mapping[str, int]) -> List[Shown]:
    """The sums of an account with history, after each of its transfers."""
    if not is_account_filter(wanted):
        return []
    id = held(wanted["account_id"])
    account = reading.one("SELECT flags FROM accounts WHERE id = ?", id)
    if account is None or not account["flags"] & HISTORY:
        return []
    times = [it["timestamp"] for it in rows_of_account(reading, wanted)]
    if not times:
        return []
    found = reading.all(
        "SELECT * FROM balances WHERE account_id = ? AND timestamp >= ? AND timestamp <= ?"
        " ORDER BY timestamp",
        id,
        min(times),
        max(times),
    )
    by_time = {it["timestamp"]: it for it in found}
    return [balance_shown(by_time[it]) for it in times]


def query(kind: str) -> Callable[[Reading, Mapping[str, int]], List[Shown]]:
    """What query_accounts or query_transfers returns."""
    shown = account_shown if kind == "accounts" else transfer_shown

    def answer(reading: Reading, wanted: Mapping[str, int]) -> List[Shown]:
        if not is_query_filter(wanted):
            return []
        where, values = tests_of(wanted, [*USER_DATA, "ledger", "code"])
        rows = reading.all(
            f"SELECT * FROM {kind} AS t WHERE {where}"
            f" ORDER BY t.timestamp {order_of(wanted, 1)} LIMIT ?",
            *values,
            limit_of(wanted),
        )
        return [shown(it) for it in rows]

    return answer


def note_on(reading: Reading, operation: str, wanted: Mapping[str, int], count: int) -> str:
    """Why an answer of so many rows is empty or may be cut, where TigerBeetle's own answer does not
    say it; otherwise an empty text."""
    if count == ITEMS_MAX:
        return f"these are {count:,} rows, the most that an answer has: there may be more"
    if count or not wanted["limit"]:
        return ""
    if not has_right_times(wanted):
        return "timestamp_min is after timestamp_max, or one of them is above 2^63 - 1"
    return _account_note(reading, operation, wanted) if "account_id" in wanted else ""


def _account_note(reading: Reading, operation: str, wanted: Mapping[str, int]) -> str:
    id = wanted["account_id"]
    if not id:
        return "account_id is not given"
    if not wanted["flags"] & 3:
        return "flags has neither debits nor credits"
    account = reading.one("SELECT flags FROM accounts WHERE id = ?", held(id))
    if account is None:
        return f"there is no account {id}"
    if operation == "get_account_balances" and not account["flags"] & HISTORY:
        return f"account {id} does not have the flag history: its balances are not kept"
    return ""


def transfer_shown(row: Row) -> Shown:
    """A transfer as `telovamish` shows it in JSON: numbers above 32 bits are texts."""
    it = Transfer()
    for name in it.__slots__:
        setattr(it, name, int(row[name]))
    return record_shown(it)


def account_shown(row: Row) -> Shown:
    it = Account()
    for name in it.__slots__:
        setattr(it, name, 0 if name == "reserved" else int(row[name]))
    return record_shown(it)


def balance_shown(row: Row) -> Shown:
    return {name: str(row[name]) for name in (*SUMS, "timestamp")}


OPERATIONS = {
    "get_account_transfers": Operation(ACCOUNT_FILTER, ACCOUNT_FLAGS, get_account_transfers),
    "get_account_balances": Operation(ACCOUNT_FILTER, ACCOUNT_FLAGS, get_account_balances),
    "query_accounts": Operation(QUERY_FILTER, QUERY_FLAGS, query("accounts")),
    "query_transfers": Operation(QUERY_FILTER, QUERY_FLAGS, query("transfers")),
}


def filter_of(operation: str, words: Mapping[str, str], known: Names) -> Dict[str, int]:
    """A filter from words by the names of its fields, in which accounts, ledgers and codes may have
    their names. Raises ValueError for what is no filter. What is not named is 0; but the limit is
    the greatest, and an account's sides are both."""
    fields, names, _ = OPERATIONS[operation]
    found = dict.fromkeys(fields, 0) | {"limit": ITEMS_MAX}
    if fields is ACCOUNT_FILTER:
        found["flags"] = ACCOUNT_FLAGS["debits"] | ACCOUNT_FLAGS["credits"]
    for name, text in words.items():
        if name not in fields:
            raise ValueError(f"{operation} has no field {name}: {', '.join(fields)}")
        if name == "flags":
            found[name] = flags_of(text, names)
        elif name in BY_NAME and known.has(BY_NAME[name], text):
            found[name] = int(known.number(BY_NAME[name], text))
        else:
            found[name] = number_of(name, text, fields)
    return found


def number_of(name: str, text: str, fields: Mapping[str, int]) -> int:
    """A number, in digits or in hexadecimal ones after 0x; a timestamp may be a date in UTC, of
    which the last one has the whole day."""
    is_time = name.startswith("timestamp") and "-" in text[1:]
    try:
        number = time_of(text, name == "timestamp_max") if is_time else int(id_of(text))
    except (ValueError, OverflowError):
        number = -1
    if not 0 <= number <= fields[name]:
        more = ", or a date in UTC" if "timestamp" in name else ""
        more = ", or a name that is known" if name in BY_NAME else more
        raise ValueError(
            f"{name} must be a number from 0 to {fields[name]}{more}, not {text[:60]!r}"
        )
    return number


def flags_of(text: str, names: Mapping[str, int]) -> int:
    """Flags by their names, with `,` or `|` between them."""
    bits = 0
    for name in filter(None, re.split("[,|]", text)):
        if name not in names:
            raise ValueError(f"no flag {name[:60]!r}: {', '.join(names)}")
        bits |= names[name]
    return bits
