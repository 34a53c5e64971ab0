"""A dump with what its replay gives, as JSON: the request of each entry, what became of each event,
expiries, and the balances of an account."""
from __future__ import annotations

import re
from typing import Any, Iterator, NamedTuple, Optional

import click

from .checking import Check
from .dates import date_of
from .faults import Fault, report
from .forms import ONCE, read, time_of, written
from .live import Replay, facts
from .model import RESOLVES, Event, Evicted, Expired, Fact, Ledger
from .objects import item_shown, line, record_shown
from .programs import books as books_of, program
from .records import Account, Transfer
from .streams import Entry, Item, read_dump
from .words import RESULTS, TIME_MAX, U128

OUTCOMES = {operation: {0: "created", **names} for operation, names in RESULTS.items()}
Shown = dict[str, Any]
IDS, COMMITS = click.IntRange(0, U128), click.IntRange(0, TIME_MAX)


class Wanted(NamedTuple):
    """Which lines are wanted, and how their times are shown."""

    account: Optional[int] = None
    after: int = 0
    first: int = 0
    last: int = TIME_MAX
    is_utc: bool = False


class Audit:
    """Makes the lines of one item after another."""

    def __init__(self, wanted: Wanted) -> None:
        self.wanted = wanted
        self._account = b""  # the account that is wanted, as it was before
        self._ids: set[int] = set()  # of its transfers

    def lines(self, item: Item, ledger: Ledger, found: list[Fact]) -> list[Shown]:
        account, after, first, last, _ = self.wanted
        if not isinstance(item, Entry):
            return [item_shown(item)] if account is None else []
        is_wanted = after < item.commit and first <= item.time <= last
        if account is None:
            return self._lines(item, found) if is_wanted else []
        of_account = self._of_account(account, found)
        now = ledger.accounts.get(account)
        before, self._account = self._account, now.to_bytes() if now else b""
        if not is_wanted:
            return []
        shown = self._lines(item, of_account)
        if now and before != self._account:
            shown.append({**self._begun(item), "account": record_shown(now)})
        return shown

    def _lines(self, entry: Entry, found: list[Fact]) -> list[Shown]:
        """Expiries, the entry itself unless one account is wanted, and what became of events."""
        shown: list[Shown] = []
        for it in found:
            if isinstance(it, Expired):
                shown.append({**self._timed(it.time), "expired": record_shown(it.transfer)})
        begun, outcomes = self._begun(entry), OUTCOMES.get(entry.request.operation, {})
        if self.wanted.account is None:
            shown.append({**begun, **request_shown(entry)})
        for it in found:
            if isinstance(it, Event):
                outcome, event = outcomes.get(it.result, str(it.result)), record_shown(it.record)
                shown.append({**begun, "place": it.place, "result": outcome, "event": event})
        return shown

    def _begun(self, entry: Entry) -> Shown:
        return {"commit": str(entry.commit), **self._timed(entry.time)}

    def _timed(self, time: int) -> Shown:
        if not self.wanted.is_utc:
            return {"time": str(time)}
        # zeros at the end of the second are omitted
        return {"time": str(time), "utc": re.sub(r"\.?0*Z", "Z", date_of(time))}

    def _of_account(self, id: int, found: list[Fact]) -> list[Fact]:
        """The facts that name an account, and the posts and voids whose pending transfer does."""
        created = [it.record for it in found if isinstance(it, Event) and not it.result]
        self._ids.update(it.id for it in created if isinstance(it, Transfer) and names(id, it))
        return [it for it in found if self._is_of(id, it)]

    def _is_of(self, id: int, fact: Fact) -> bool:
        if isinstance(fact, Evicted):
            return False
        it = fact.transfer if isinstance(fact, Expired) else fact.record
        if isinstance(it, Account):
            return it.id == id
        return names(id, it) or bool(it.flags & RESOLVES) and it.pending_id in self._ids


def names(account: int, it: Transfer) -> bool:
    return account in (it.debit_account_id, it.credit_account_id)


def request_shown(entry: Entry) -> Shown:
    """The request of an entry: of a batch the number of its events."""
    request = entry.request
    is_batch = request.operation in RESULTS
    shown = item_shown(entry._replace(request=request._replace(body=b"")) if is_batch else entry)
    if is_batch:
        del shown["events"]
        shown["count"] = request.length
    del shown["commit"], shown["time"]
    return shown


def last_time_of(word: str) -> int:
    return time_of(word, is_last=True)


def audited(wanted: Wanted, replay: Replay, check: Optional[Check], books: Any) -> Iterator[bytes]:
    """The lines of each item of standard input."""
    audit, ledger = Audit(wanted), Ledger(1)
    for item, reply, ledger, found in facts(read("dump", "Head", read_dump), replay):
        yield "".join(line(it, books) for it in audit.lines(item, ledger, found)).encode()
        if check:
            check.note(item, reply, ledger, found)
    if wanted.account is not None and wanted.account not in ledger.accounts:
        raise Fault(f"audit --account {wanted.account}: the dump has no account of this id")


@click.command(short_help="A dump in, what became of each event out.")
@click.option("--account", type=IDS, metavar="ID", help="Only its lines.", **ONCE)
@click.option("--after", type=COMMITS, metavar="COMMIT", help="Entries after this one.", **ONCE)
@click.option("--from", "first", type=time_of, metavar="TIME", help="Entries from then on.", **ONCE)
@click.option(
    "--to", "last", type=last_time_of, metavar="TIME", help="Until then, a day to its end.", **ONCE
)
@click.option("--utc", "is_utc", is_flag=True, help="Each time as a date too.")
@click.option("--follow", is_flag=True, help="Says that the input may stay open.")
@click.option("--check", "is_check", is_flag=True, help="Compares all with tbs at the end.")
@click.option("--names", metavar="TOML", help="Adds names, and amounts with decimals.", **ONCE)
@click.option("--tbs", metavar="FILE", help="The program tbs.", **ONCE)
def command(tbs: Optional[str], is_check: bool, follow: bool, **wanted: Any) -> None:
    """A dump in, what became of each event out: an object a line.

    Expiries come before the entry that found them, by time and id. A record is shown as the ledger
    keeps it, with its timestamp and its amount, and what was refused as it was sent."""
    first, last = wanted["first"], wanted["last"]
    if first is not None and last is not None and first > last:
        raise click.UsageError("--from is after --to: there are no entries between them")
    path, books = program("tbs", tbs, "--tbs"), books_of(wanted.pop("names"))
    with Replay(path) as replay:
        check = Check(path, replay) if is_check else None
        limits = {name: it for name, it in wanted.items() if it is not None}
        written(audited(Wanted(**limits), replay, check, books))
        if check:
            report(f"as in tbs: {check.compare()}")
