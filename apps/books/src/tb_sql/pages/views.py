"""What each address shows."""

from __future__ import annotations

import re
from typing import Any, Callable, NamedTuple, Tuple

from flask import Response, abort, jsonify, redirect, render_template, request, url_for
from telovamish.words import ACCOUNT_FLAGS, SECOND, TRANSFER_FLAGS

from ..filters import OPERATIONS, filter_of, note_on
from ..numbers import flag_names, id_of, time_of, time_text
from . import charts
from .asked import (
    asked_id,
    asked_moment,
    asked_named,
    asked_number,
    asked_page,
    asked_range,
    check_fields,
)
from .queries import LAST, ROWS, SORTS, Account, Range
from .site import Site
from .texts import available, names, unit_of

SPANS = {"all": 0, "30 days": 30 * 86400, "day": 86400, "hour": 3600}
MONTH_ROWS = 2000  # of a month that is printed


def overview(site: Site) -> str:
    tables = site.tables()
    span = request.args.get("span", "all")
    if span not in SPANS:
        abort(400, f"span must be one of {', '.join(SPANS)}")
    first, last = tables.times()
    range = Range(max(0, last - SPANS[span] * SECOND) if SPANS[span] else 0, LAST)
    counted = tables.activity(range)
    transfers = [(it.start, it.end, it.transfers) for it in counted]
    refused = [(it.start, it.end, it.refused) for it in counted]
    return render_template(
        "overview.html",
        counts=tables.counts(),
        freshness=site.freshness(),
        balance=tables.trial_balance(),
        spans=SPANS,
        span=span,
        counted=counted,
        transfers=charts.bars("transfers", "Transfers over time", transfers) if counted else None,
        refused=charts.bars("refused", "Refused events over time", refused) if counted else None,
        refusals=tables.refusals(8),
        pending=tables.pending(5),
    )


def accounts(site: Site) -> str:
    tables, sort = site.tables(), request.args.get("sort") or "newest"
    if sort not in SORTS:
        abort(400, f"sort must be one of {', '.join(SORTS)}")
    user_data = request.args.get("user_data", "").strip()
    wanted = Account(
        asked_named("ledger"), asked_named("code"), asked_id(user_data) if user_data else None
    )
    page, number, more = None, asked_number("page") or 0, False
    if sort == "newest":
        page = tables.accounts(wanted, *asked_page())
        rows = page.rows
    else:
        rows, more = tables.accounts_sorted(wanted, sort, min(number, LAST // ROWS))
    return render_template(
        "accounts.html",
        page=page,
        rows=rows,
        number=number,
        more=more,
        wanted=wanted,
        sort=sort,
        sorts=list(SORTS),
        ledgers=tables.ledgers(),
        totals=[it for it in tables.trial_balance() if wanted.ledger in (None, it["ledger"])],
    )


def account(site: Site, id: str) -> str:
    tables, found = site.tables(), asked_id(id)
    row = tables.account(found)
    if row is None:
        abort(404, f"There is no account {found}.")
    range = asked_range()
    points, is_whole = tables.balances(found, range)
    summary = tables.summary(found, range)
    is_credit = summary is not None and summary.closing < 0
    side, sign = ("credit", -1) if is_credit else ("debit", 1)
    drawn = [(at, sign * balance) for at, balance in points]
    title = f"{side.capitalize()} balance over time"
    unit = unit_of(row["ledger"])
    return render_template(
        "account.html",
        account=row,
        flags=flag_names(row["flags"], ACCOUNT_FLAGS),
        available=available(row),
        balance=int(row["debits_posted"]) - int(row["credits_posted"]),
        range=range,
        summary=summary,
        standing=summary.closing if summary else tables.balance_at(found, range.end),
        page=tables.statement(found, range, *asked_page()),
        chart=charts.steps("balance", title, drawn, is_whole, unit) if drawn else None,
        is_whole=is_whole,
        moments=len(drawn),
        latest_month=time_text(points[-1][0] if points else row["timestamp"])[:7],
        side=side,
        pending=tables.pending_of(found),
    )


def month(site: Site, id: str, month: str) -> str:
    """An account's month, for print: opening balance, lines, closing balance."""
    tables, found = site.tables(), asked_id(id)
    row = tables.account(found)
    if row is None:
        abort(404, f"There is no account {found}.")
    if not re.fullmatch("[0-9]{4}-[0-9]{2}", month, re.A):
        abort(400, "A month is written as 2026-11.")
    try:
        year, number = int(month[:4]), int(month[5:])
        start = time_of(f"{month}-01")
        end = time_of(f"{year + number // 12:04}-{number % 12 + 1:02}-01")
    except ValueError as error:
        abort(400, str(error))
    range = Range(max(0, start), min(end, LAST) - 1)
    lines = tables.month(found, range, MONTH_ROWS + 1)
    opening = tables.balance_at(found, range.start - 1)
    summary = tables.summary(found, range)
    shown = lines[:MONTH_ROWS]
    debits, credits = (sum(int(it[side]) for it in shown) for side in ("debit", "credit"))
    closing = summary.closing if summary else opening
    position = tables.position()
    return render_template(
        "month.html",
        account=row,
        month=month,
        first=f"{month}-01",
        last=time_text(range.end)[:10],
        earlier=time_text(range.start - 1)[:7] if range.start > row["timestamp"] else None,
        later=time_text(range.end + 1)[:7],
        lines=shown,
        is_whole=len(lines) <= MONTH_ROWS,
        opening=opening,
        closing=closing,
        debits=debits,
        credits=credits,
        adds_up=opening + debits - credits == closing,
        position=position,
        is_over=position["time"] > range.end,
    )


def trial_balance(site: Site) -> str:
    """Each ledger's sums at a time."""
    at = asked_moment()
    rows = site.tables().trial_balance_at(LAST if at is None else at)
    return render_template("trial_balance.html", rows=rows, at=at)


def transfers(site: Site) -> str:
    page = site.tables().transfers(asked_range(), *asked_page())
    return render_template("transfers.html", page=page)


def transfer(site: Site, id: str) -> str:
    tables, found = site.tables(), asked_id(id)
    row = tables.transfer(found)
    if row is None:
        abort(404, f"There is no transfer {found}.")
    return render_template(
        "transfer.html",
        transfer=row,
        flags=flag_names(row["flags"], TRANSFER_FLAGS),
        entry=tables.entry(row["commit_number"]),
        refused=tables.refused_by_id(found),
    )


def pending(site: Site) -> str:
    after = asked_number("after")
    rows = site.tables().pending(ROWS + 1, after)
    return render_template(
        "pending.html",
        rows=rows[:ROWS],
        next=rows[ROWS - 1]["timestamp"] if len(rows) > ROWS else None,
        after=after,
        count=site.tables().counts()["pending"],
    )


def refusals(site: Site) -> str:
    return render_template("refusals.html", rows=site.tables().refusals())


def refused(site: Site, operation: str, result: str) -> str:
    asked = asked_number("before"), asked_number("place")
    before = (asked[0], asked[1] or 0) if asked[0] is not None else None
    rows, older = site.tables().refused(operation, result, before)
    if not rows and before is None:
        abort(404, f"No event of {operation} was refused as {result}.")
    return render_template(
        "refused.html", rows=rows, older=older, operation=operation, result=result
    )


def sessions(site: Site) -> str:
    return render_template("sessions.html", page=site.tables().sessions(*asked_page()))


def search(site: Site) -> Any:
    text = request.args.get("id", "")
    if not text.strip():
        return render_template("search.html", text="", found=None, fault="")
    try:
        id = id_of(text)
    except ValueError as error:
        return search_by_name(site, text, str(error))
    tables = site.tables()
    found = {
        "account": tables.account(id),
        "transfer": tables.transfer(id),
        "refused": tables.refused_by_id(id),
        "sessions": tables.sessions_of(id),
    }
    named = [it for it in found if found[it]]
    if named == ["account"] or named == ["transfer"]:
        return redirect(url_for(named[0], id=str(id)))
    return render_template("search.html", text=text, id=id, found=found, fault=""), (
        200 if named else 404
    )


def search_by_name(site: Site, text: str, fault: str) -> Any:
    """The accounts, ledgers and codes whose name has a text within. The one account that has it
    is shown itself."""
    rows = names().matching(text)
    if len(rows) == 1 and rows[0][0] == "account" and site.tables().account(rows[0][1]):
        return redirect(url_for("account", id=str(rows[0][1])))
    shown = {"named": rows, "fault": "" if rows else f"No name has this, and {fault}"}
    return render_template("search.html", text=text, found=None, **shown), 200 if rows else 404


def answer(site: Site, operation: str) -> Response:
    """A question of TigerBeetle's clients, in JSON."""
    check_fields(operation, OPERATIONS[operation].fields)
    words = {it: text for it, text in request.args.items() if it != "commit"}
    try:
        wanted = filter_of(operation, words, names())
    except ValueError as error:
        return json_fault(400, str(error))
    tables = site.tables()
    position = tables.position()
    found = OPERATIONS[operation].answer(tables.reading, wanted)
    behind = site.freshness()["behind"]
    return jsonify(
        commit=str(position["commit_number"]),
        time=str(position["time"]),
        behind=None if behind is None else str(behind),
        note=note_on(tables.reading, operation, wanted, len(found)) or None,
        results=found,
    )


def json_fault(status: int, says: str) -> Response:
    reply = jsonify(fault=says)
    reply.status_code = status
    return reply


class Page(NamedTuple):
    """What shows a page, and the fields that its address may have."""

    show: Callable[..., Any]
    fields: Tuple[str, ...] = ()


RANGE, PLACE = ("from", "to"), ("before", "after")
PAGES = {
    "/": Page(overview, ("span",)),
    "/accounts": Page(accounts, ("ledger", "code", "user_data", "sort", "page", *PLACE)),
    "/account/<id>": Page(account, (*RANGE, *PLACE)),
    "/account/<id>/<month>": Page(month),
    "/trial-balance": Page(trial_balance, ("at",)),
    "/transfers": Page(transfers, (*RANGE, *PLACE)),
    "/transfer/<id>": Page(transfer),
    "/pending": Page(pending, ("after",)),
    "/refusals": Page(refusals),
    "/refusals/<operation>/<result>": Page(refused, ("before", "place")),
    "/sessions": Page(sessions, PLACE),
    "/search": Page(search, ("id",)),
}
