"""Names and decimal places of ledgers, codes and accounts, from a TOML file:

    [ledger.700]
    name = "EUR"
    places = 2
    [code]
    10 = "customer deposit"
    [account]
    1 = "House"
"""

from __future__ import annotations

import re
import tomllib
from typing import Any, Dict, Iterable, Iterator, List, Optional, Sequence, Tuple

from telovamish.words import U16, U32, U128

from .errors import Failed, Refused
from .numbers import Number, held, is_id
from .schema import SUMS

GREATEST = {"ledger": U32, "code": U16, "account": U128}
PLACES_MAX = 38
LENGTH_MAX = 200
FILE_MAX = 16 << 20  # characters of a file
AMOUNTS = ("amount", *SUMS)
# the fields of records that have names, each with its kind and the field of its name in JSON
NAMED = {
    "ledger": ("ledger", "ledger_name"),
    "code": ("code", "code_name"),
    "debit_account_id": ("account", "debit_name"),
    "credit_account_id": ("account", "credit_name"),
}
NAMED_ACCOUNT = {**NAMED, "id": ("account", "name")}
Row = Tuple[str, Number, str, int]  # of the table of names
Shown = Dict[str, Any]  # an account, a transfer or the balances of one, as telovamish shows it


class Names:
    """What ledgers, codes and accounts are called, and how many digits of a ledger's amounts come
    after the point."""

    def __init__(self, rows: Iterable[Sequence[Any]] = ()) -> None:
        self.rows: List[Row] = []
        self._found: Dict[Tuple[str, str], Tuple[str, int]] = {}
        for kind, number, name, places in rows:
            self.rows.append((kind, number, name, places))
            self._found[kind, str(number)] = name, places

    def name(self, kind: str, number: Number) -> str:
        """The name of a ledger, a code or an account; without one an empty text."""
        return self._found.get((kind, str(number)), ("", 0))[0]

    def matching(self, text: str) -> List[Row]:
        """The rows whose name has this text within, in any case; those whose name it is first."""
        wanted = text.strip().casefold()
        found = [it for it in self.rows if wanted in it[2].casefold()]
        return sorted(found, key=lambda it: it[2].casefold() != wanted)

    def has(self, kind: str, name: str) -> bool:
        """Whether a ledger, a code or an account has this name, in any case. A number is none."""
        wanted = name.strip().casefold()
        is_name = any(it[0] == kind and it[2].casefold() == wanted for it in self.rows)
        return is_name and not is_id(name)

    def number(self, kind: str, name: str) -> Number:
        """The number of a ledger, a code or an account by its name, in any case. Raises ValueError
        if none has this name, or several have it."""
        wanted = name.strip().casefold()
        found = [it[1] for it in self.rows if it[0] == kind and it[2].casefold() == wanted]
        if len(found) == 1:
            return found[0]
        if not found:
            raise ValueError(f"no {kind} has the name {name[:60]!r}")
        numbers = ", ".join(map(str, found[:5])) + (", .." if len(found) > 5 else "")
        raise ValueError(f"{name[:60]!r} is the name of {len(found)} {kind}s: {numbers}")

    def places(self, ledger: Number) -> int:
        """How many digits of a ledger's amounts come after the point."""
        return self._found.get(("ledger", str(ledger)), ("", 0))[1]

    def amount(self, value: int, ledger: Number) -> Optional[str]:
        """An amount with its point and unit; nothing for a ledger without a name."""
        found = self._found.get(("ledger", str(ledger)))
        return f"{decimal(value, found[1])} {found[0]}" if found else None

    def _words(self, record: Shown, ledger: Optional[Number]) -> Iterator[Tuple[str, str, str]]:
        """Each field of a record that has a name, or an amount with a unit: the field, the field
        that is added to JSON, and the text."""
        of_ledger = record.get("ledger", ledger)
        fields = NAMED_ACCOUNT if "debits_posted" in record else NAMED
        for field, value in record.items():
            if field in fields and self.name(fields[field][0], value):
                yield field, fields[field][1], self.name(fields[field][0], value)
            elif field in AMOUNTS and of_ledger is not None:
                written = self.amount(int(value), of_ledger)
                if written is not None:
                    yield field, f"{field}_written", written

    def for_table(self, records: Sequence[Shown], ledger: Optional[Number] = None) -> List[Shown]:
        """Records with names, and with amounts as they are written before each exact integer. If
        records name no ledger, they are of this one."""
        widths = {it: max(len(row[it]) for row in records) for it in AMOUNTS if it in records[0]}
        found: List[Shown] = []
        for row in records:
            more = dict(row)
            for field, _, text in self._words(row, ledger):
                if field in widths:
                    more[field] = f"{text} {f'({row[field]})':>{widths[field] + 2}}"
                else:
                    more[field] = f"{row[field]} {text}"
            found.append(more)
        return found

    def for_json(self, shown: Any) -> Any:
        """An object in which each record has further fields: names, and amounts as written."""
        if isinstance(shown, list):
            return [self.for_json(it) for it in shown]
        if not isinstance(shown, dict):
            return shown
        if "ledger" in shown:
            return {**shown, **{more: text for _, more, text in self._words(shown, None)}}
        return {name: self.for_json(it) for name, it in shown.items()}


def decimal(value: int, places: int) -> str:
    """A number with commas, and a number of digits after the point."""
    digits = str(abs(value)).rjust(places + 1, "0")
    whole, part = (digits[:-places], "." + digits[-places:]) if places else (digits, "")
    return f"{'-' if value < 0 else ''}{int(whole):,}{part}"


def read_names(path: str) -> Names:
    """The names of a file. Refuses a wrong one with its line and key."""
    try:
        with open(path, encoding="utf-8") as file:
            text = file.read(FILE_MAX + 1)
    except OSError as error:
        raise Failed(f"{path}: {error.strerror}") from None
    except UnicodeDecodeError:
        raise Refused(f"{path} is no text in UTF-8") from None
    if len(text) > FILE_MAX:  # as that of a device that has no end
        raise Refused(f"{path} has more than {FILE_MAX:,} characters")
    try:
        found = tomllib.loads(text)
    except tomllib.TOMLDecodeError as error:
        raise Refused(f"{path}: {error}") from None
    except RecursionError:
        raise Refused(f"{path} is nested too deeply") from None
    rows: List[Row] = []
    for kind, table in found.items():
        try:
            rows += rows_of(kind, table)
        except Wrong as wrong:
            line = line_of(text, wrong.keys)
            key = ".".join(wrong.keys)
            raise Refused(f"{path}, line {line}, key {key}: {wrong}") from None
    return Names(rows)


class Wrong(Exception):
    """What is wrong with the value of some keys."""

    def __init__(self, says: str, *keys: str) -> None:
        super().__init__(says)
        self.keys = keys


def rows_of(kind: str, table: Any) -> List[Row]:
    """The rows of a table of the file."""
    if kind not in GREATEST:
        raise Wrong(f"one of {', '.join(GREATEST)} is meant", kind)
    if not isinstance(table, dict):
        raise Wrong("this is a table, as [ledger.700]", kind)
    found: Dict[Number, Row] = {}
    for number, value in table.items():
        row = row_of(kind, number, value)
        if row[1] in found:  # as 7 and 07
            raise Wrong(f"{kind} {row[1]} has a name already", kind, number)
        found[row[1]] = row
    return list(found.values())


def row_of(kind: str, number: str, value: Any) -> Row:
    if not re.fullmatch("[0-9]{1,39}", number) or int(number) > GREATEST[kind]:
        raise Wrong(f"a number of a {kind} is 0 to {GREATEST[kind]}", kind, number)
    fields = {"name": value} if isinstance(value, str) else value
    known = ("name", "places") if kind == "ledger" else ("name",)
    if not isinstance(fields, dict):
        raise Wrong("a name is meant", kind, number)
    for field in fields:
        if field not in known:
            raise Wrong(f"it has only {' and '.join(known)}", kind, number, field)
    name, places = fields.get("name"), fields.get("places", 0)
    where = [kind, number, *(["name"] if "name" in fields and fields is value else [])]
    if not isinstance(name, str) or not 0 < len(name) <= LENGTH_MAX or not name.isprintable():
        raise Wrong(f"a name is 1 to {LENGTH_MAX} printable characters", *where)
    if type(places) is not int or not 0 <= places <= PLACES_MAX:
        raise Wrong(f"places are 0 to {PLACES_MAX}", kind, number, "places")
    return kind, held(int(number)), name, places


def line_of(text: str, keys: Sequence[str]) -> int:
    """The line at which these keys are given, or the last one of them that is found."""
    table: List[str] = []
    found, depth = 1, 0
    for number, line in enumerate(text.splitlines(), 1):
        header = re.match(r"\s*\[([^\]]*)\]", line)
        if header:
            table = [it.strip().strip("\"'") for it in header[1].split(".")]
            given = table
        else:
            key = re.match(r"\s*([^=#]+?)\s*=", line)
            if not key:
                continue
            given = [*table, *(it.strip().strip("\"'") for it in key[1].split("."))]
            given += [
                it for it in keys[len(given) :] if re.search(rf"\b{re.escape(it)}\b\s*=", line)
            ]
        common = 0
        while common < min(len(given), len(keys)) and given[common] == keys[common]:
            common += 1
        if common > depth:
            found, depth = number, common
    return found
