"""Tables and views as CSV, a part at a time: exact for programs, or as a spreadsheet reads them."""

from __future__ import annotations

import csv
import io
import re
from typing import Any, Iterable, Iterator, List, Optional, Sequence, Tuple

from flask import Response, abort, request

from ..asking import names_of
from ..numbers import Number, held, time_text
from ..schema import SUMS, TABLES, VIEWS
from .asked import asked_account, asked_moment, asked_range, check_fields
from .queries import Tables
from .site import Site

CSV_ROWS = 2000  # that are written at a time
# Each view's rows in an order, if the view has no order.
ORDERS = {
    "accounts": "timestamp",
    "transfers": "timestamp",
    "named_transfers": "timestamp",
    "entries": "commit_number",
    "sessions": "session",
    "postings": "account_id, timestamp",
    "balances": "account_id, timestamp",
    "refused": "commit_number, place",
    "statement": "account_id, timestamp",
    "named_statement": "account_id, timestamp",
    "trial_balance": "ledger",
    "named_trial_balance": "ledger",
    "refusals": "operation, result",
    "retries": "commit_number, place",
    "session_list": "session",
    "evictions": "commit_number",
}
OF_ACCOUNT = ("statement", "postings", "named_statement", "balances", "account_transfers")
OF_TIME = {**dict.fromkeys((*OF_ACCOUNT, "transfers", "named_transfers"), "timestamp")}
OF_TIME["entries"] = "time"
OF_MOMENT = ("trial_balance", "named_trial_balance")
FOR_SPREADSHEETS = tuple(it for it in VIEWS if it.startswith("named_"))
# an amount as it is written, with a unit of letters: it is no formula
WRITTEN = re.compile(r"-?[0-9][0-9,]*(\.[0-9]+)?( \w+)*")
Rows = Tuple[List[str], Iterable[Iterable[Any]]]


def fields_of(name: str) -> List[str]:
    """The fields that the address of a table may have."""
    return [
        *(["account"] if name in OF_ACCOUNT else []),
        *(["from", "to"] if name in OF_TIME else []),
        *(["at"] if name in OF_MOMENT else []),
        *(["spreadsheet"] if name in FOR_SPREADSHEETS else []),
    ]


def table_csv(site: Site, name: str) -> Response:
    """The rows of a table or view: of an account, of a range of times, or at a moment, if that is
    asked for. With spreadsheet=1 it begins with a byte order mark, by which Excel sees that it is
    UTF-8."""
    if name not in TABLES and name not in VIEWS and name != "names":
        abort(404, f"There is no table {name}.")
    check_fields(f"{name}.csv", fields_of(name))
    is_sheet = request.args.get("spreadsheet", "")
    if is_sheet not in ("", "1"):
        abort(400, "spreadsheet is 1, or is not given")
    text, values = question(name)
    at = asked_moment() if name in OF_MOMENT else None
    tables = Tables(site.path)
    columns, rows = tables.each(text, *values) if at is None else trial_at(tables, name, at)
    shown: Rows = columns, (map(cell, it) for it in rows)
    if is_sheet:
        shown = spreadsheet(columns, rows)
    return Response(
        csv_lines(tables, *shown, "\ufeff" if is_sheet else ""),
        mimetype="text/csv",
        headers={"Content-Disposition": f'attachment; filename="{name}.csv"'},
    )


def question(name: str) -> Tuple[str, List[Number]]:
    """What is asked of the database for a table, with its values."""
    tests: List[str] = []
    values: List[Number] = []
    if name in OF_TIME:
        tests = [f"{OF_TIME[name]} >= ?", f"{OF_TIME[name]} <= ?"]
        values = list(asked_range())
    if name in OF_ACCOUNT and "account" in request.args:
        tests.append("account_id = ?")
        values.append(asked_account(request.args["account"]))
    where = " WHERE " + " AND ".join(tests) if tests else ""
    order = f" ORDER BY {ORDERS[name]}" if name in ORDERS else ""
    return f"SELECT * FROM {name}{where}{order}", values


def trial_at(tables: Tables, name: str, at: int) -> Tuple[List[str], Iterator[Sequence[Any]]]:
    """A trial balance after all that came up to a moment, with the columns of its view."""
    columns = tables.each(f"SELECT * FROM {name} LIMIT 0")[0]
    names = names_of(tables)
    rows = []
    for ledger, accounts, *sums in tables.trial_balance_at(at):
        found = {"ledger": ledger, "accounts": accounts, "name": names.name("ledger", ledger)}
        found["balances"] = int(sums[0] == sums[2] and sums[1] == sums[3])
        for column, value in zip(SUMS, sums):
            found[column] = held(value)
            found[f"{column}_written"] = names.amount(value, ledger)
        rows.append([found[it] for it in columns])
    return columns, iter(rows)


def cell(value: Any) -> Any:
    """A value that no program takes for a formula: a text that begins as one gets an apostrophe."""
    if isinstance(value, str) and value[:1] in ("=", "+", "-", "@", "\t", "\r"):
        return value if WRITTEN.fullmatch(value) else "'" + value
    return value


def spreadsheet(columns: List[str], rows: Iterable[Sequence[Any]]) -> Rows:
    """The same with a date and a time, with amounts as plain numbers, which can be summed, and
    their unit, and with ids as text after `#`: a spreadsheet rounds a number of more than 15
    digits."""
    places = {name: at for at, name in enumerate(columns)}
    kept = [it for it in columns if not it.endswith("_written")]
    head: List[str] = []
    for it in kept:
        head += ["date", "time", it] if it == "timestamp" else [it]
    return [*head, "unit"], (_sheet_row(kept, places, it) for it in rows)


def _sheet_row(kept: List[str], places: Any, row: Sequence[Any]) -> List[Any]:
    shown: List[Any] = []
    unit = ""
    for name in kept:
        value, at = row[places[name]], places.get(f"{name}_written")
        written: Optional[str] = row[at] if at is not None else None
        if name == "timestamp":
            time = time_text(value)
            shown += [time[:10], time[11:19], f"#{value}"]
        elif name == "id" or name.endswith("_id"):
            shown.append(f"#{value}")
        elif written is not None:
            number, _, unit = written.partition(" ")
            shown.append(number.replace(",", ""))
        else:
            shown.append(cell(value))
    return [*shown, cell(unit)]


def csv_lines(
    tables: Tables, columns: List[str], rows: Iterable[Iterable[Any]], mark: str
) -> Iterator[str]:
    """The lines of a table, many at a time."""
    text = io.StringIO()
    text.write(mark)
    writer = csv.writer(text, lineterminator="\n")
    writer.writerow(columns)
    try:
        for count, row in enumerate(rows, 1):
            writer.writerow(row)
            if count % CSV_ROWS == 0:
                yield text.getvalue()
                text.seek(0)
                text.truncate()
        tables.check_still()
        yield text.getvalue()
    finally:
        tables.close()
