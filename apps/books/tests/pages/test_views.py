"""What each page shows: lists of accounts, statements and months that add up, faults."""

import html
import os
import re

import pytest

from helpers.cases import case
from helpers.histories import NAMES, SECOND, history, shop
from helpers.made import MAX, Made, account, transfer
from tb_sql.pages import views


@pytest.fixture
def books(pages):
    """The pages of a small shop."""
    pages.load(shop())
    return pages


@pytest.fixture
def busy(pages):
    """The pages of a history with some of everything."""
    pages.load(history())
    return pages


@pytest.mark.parametrize(
    "address",
    [
        "/",
        "/?span=hour",
        "/accounts",
        "/accounts?ledger=700",
        "/account/1",
        "/transfers",
        "/transfer/2000",
        "/transfer/4000",
        "/pending",
        "/refusals",
        "/refusals/create_transfers/exceeds_credits",
        "/sessions",
        "/search",
        "/search?id=29",
    ],
)
def test_all_pages(busy, address):
    said = busy.words(address)
    assert "None" not in said
    assert "Read-only" in said


@pytest.mark.parametrize(
    "address", ["/", "/accounts", "/transfers", "/pending", "/refusals", "/sessions"]
)
def test_an_empty_ledger(pages, address):
    pages.load(Made())
    assert re.search("There are no|No (client|event|transfer)", pages.words(address))


def test_an_account_without_postings(pages):
    pages.load(Made().register().accounts(account(1)))
    assert "There are no postings." in pages.words("/account/1")


def test_statement(pages):
    audit = Made().register().accounts(account(1), account(2))
    audit.transfers(transfer(11, 1, 2, 1500), transfer(12, 2, 1, 2000))
    audit.later(86400 * 10**9 * 3).transfers(transfer(13, 1, 2, 70))
    pages.load(audit)
    said = pages.words("/account/1")
    for part in ("Balance 430 credit", "Balance before 0", "Debits 1,570", "Credits 2,000"):
        assert part in said
    assert "Postings 1 to 3 of 3" in said
    said = pages.words("/account/1?from=2026-09-24")
    assert "Balance before 500 credit" in said
    assert "Postings 3 to 3 of 3" in said
    said = pages.words("/account/1?to=2026-09-21")
    assert "Balance after 500 credit" in said
    said = pages.words("/account/1?from=2026-09-22&to=2026-09-23")
    assert "between these dates: the balance was 500 credit" in said


def test_paging_keeps_the_dates(pages):
    audit = Made().register().accounts(account(1), account(2))
    audit.transfers(*(transfer(100 + it, 1, 2, 1) for it in range(120)))
    pages.load(audit)
    page = pages.get("/account/1?from=2026-09-01&to=2026-10-01")
    assert re.search(r'href="/account/1\?from=2026-09-01&amp;to=2026-10-01&amp;before=\d+"', page)


@pytest.mark.parametrize("count", [50, 51])
def test_lists_that_are_cut_say_so(pages, count):
    more = "These are 50, and there are more."
    audit = Made(clients_max=1).register().accounts(account(1), account(2))
    audit.transfers(*(transfer(100 + it, 1, 2, 1, ["pending"]) for it in range(count)))
    audit.transfers(transfer(9, 1, 2, 1))
    audit.transfers(*(transfer(9, 1, 2, 1, result="exists") for _ in range(count)))
    for _ in range(count):
        audit.register(20).register(21)
    pages.load(audit)
    for address in ("/account/1", "/transfer/9"):
        assert pages.words(address).count(more) == count - 50, address
    said = pages.words("/search?id=20")
    wanted = "client with 50 sessions: " if count == 50 else "with more than 50 sessions: "
    assert wanted in said
    assert said.count("0 requests, evicted") == 50


def test_bars_count_each_transfer_once(busy):
    transfers = busy.rows("SELECT count(*) FROM transfers")[0][0]
    refused = busy.rows("SELECT count(*) FROM refused")[0][0]
    page = busy.get("/")
    assert f"{transfers:,} in all, from" in page
    assert f"{refused:,} in all, from" in page


@pytest.mark.parametrize(
    "address, status",
    [
        ("/account/99", 404),
        ("/account/x", 400),
        (f"/account/{MAX + 1}", 400),
        ("/transfer/99", 404),
        ("/transfer/-1", 400),
        ("/refusals/create_transfers/none", 404),
        ("/search?id=1 OR 1=1", 404),
        ("/search?id=987654321", 404),
        ("/nothing", 404),
        ("/static/../server.py", 404),
    ],
    ids=case,
)
def test_wrong_addresses(busy, address, status):
    assert "Traceback" not in busy.get(address, status)


SEARCH_FIELD = '<input id="search-id" name="id"[^>]* value="([^"]*)"'


@pytest.mark.parametrize(
    "address, status, wanted",
    [
        ("/account/99", 404, ""),
        ("/account/x", 400, ""),
        ("/nothing", 404, ""),
        ("/search?id=987654321", 404, "987654321"),
        ("/search?id=-7", 404, "-7"),
    ],
)
def test_what_the_search_field_has(busy, address, status, wanted):
    """What was searched for, and nothing else."""
    assert re.findall(SEARCH_FIELD, busy.get(address, status)) == [wanted]


def test_the_search_field_without_tables(busy):
    os.unlink(busy.path)
    assert re.findall(SEARCH_FIELD, busy.get("/", 500)) == [""]


@pytest.mark.parametrize("address", ["/", "/account/1", "/search?id=29"])
def test_no_script(busy, address):
    page = busy.get(address)
    assert not re.search(r"<script|javascript:|\son\w+=|style=", page)


def ids(pages, address):
    """The accounts of a page, in its order."""
    link = r'<th scope="row" role="rowheader"><a class="id" href="/account/(\d+)"'
    return [int(it) for it in re.findall(link, pages.get(address))]


@pytest.mark.parametrize(
    "address, wanted",
    [
        ("/accounts", [5, 4, 3, 2, 1]),
        ("/accounts?sort=id", [1, 2, 3, 4, 5]),
        ("/accounts?sort=balance", [2, 4, 3, 5, 1]),
        ("/accounts?sort=code", [1, 3, 4, 5, 2]),
        ("/accounts?sort=postings", [1, 2, 4, 5, 3]),
        ("/accounts?ledger=701", [5, 4]),
        ("/accounts?code=20", [2]),
        ("/accounts?user_data=77", [1]),
        ("/accounts?ledger=701&sort=balance", [4, 5]),
    ],
    ids=case,
)
def test_sorts_and_filters(books, address, wanted):
    assert ids(books, address) == wanted


@pytest.mark.parametrize(
    "address, row, cells",
    [
        ("/accounts", "1", {"Debits posted": "145", "Credits posted": "500"}),
        ("/accounts", "1", {"Pending": "100 debit", "Balance": "355 credit"}),
        ("/accounts", "2", {"Debits posted": "500", "Credits posted": "145"}),
        ("/accounts", "2", {"Pending": "100 credit", "Balance": "355 debit"}),
        ("/account/1", "Posted", {"Debits": "145", "Credits": "500"}),
        ("/account/1", "Pending", {"Debits": "100", "Credits": "0"}),
        ("/account/1", "11", {"Debit": "", "Credit": "500", "Balance": "500 credit"}),
        ("/account/1", "12", {"Debit": "120", "Credit": "", "Balance": "380 credit"}),
        ("/account/1/2026-09", "11", {"Debit": "", "Credit": "500"}),
        ("/account/1/2026-09", "12", {"Debit": "120", "Credit": ""}),
        ("/account/1/2026-09", "Closing balance", {"Debits": "145", "Credits": "500"}),
        ("/transfers", "11", {"Debit account": "2", "Credit account": "1", "Amount": "500"}),
        ("/pending", "13", {"Debit account": "1", "Credit account": "2", "Amount": "100"}),
        ("/trial-balance", "700", {"Debits posted": "645", "Debits pending": "100"}),
        ("/trial-balance", "700", {"Credits posted": "645", "Credits pending": "100"}),
        ("/", "700", {"Debits posted": "645", "Credits pending": "100"}),
    ],
)
def test_sides(books, address, row, cells):
    """What is debited is not shown as credited, and what is pending not as posted."""
    found = books.cells(address)[row]
    assert {it: found[it] for it in cells} == cells


def test_the_sides_of_a_transfer(books):
    assert "Debit account 2 Credit account 1 Time" in books.words("/transfer/11")


def test_pages_of_sorted_accounts(pages):
    pages.load(shop().accounts(*(account(100 + it) for it in range(120))))
    met = []
    for page in range(3):
        met += ids(pages, f"/accounts?sort=id&page={page}")
    assert met == [1, 2, 3, 4, 5, *range(100, 220)]


def test_balances_and_limits(books):
    said = books.words("/accounts?ledger=700")
    assert "355 credit" in said
    assert "255 debit" in said  # available: 500 - 145 posted - 100 pending
    assert "debits at most credits" in said
    assert "credits at most debits, keeps its history" in said
    assert "closed" in said
    assert "645 645 0 balances to zero" in said
    said = books.words("/account/1")
    assert "Available to debit 255" in said
    assert "posts a part of 60, releases 35" in said
    assert "User data, 64 bits 77" in said
    assert "User data, 128 bits" not in said


@pytest.fixture
def months(pages):
    """The shop, with a transfer in October."""
    pages.load(shop().later(20 * 86400 * SECOND).transfers(transfer(21, 1, 2, 7)))
    return pages


@pytest.mark.parametrize(
    "address, parts",
    [
        (
            "/account/1/2026-09",
            (
                "Opening balance 0 Debits 145 Credits 500 Closing balance 355 credit",
                "2026-09-01 to 2026-09-30, UTC. Ledger 700, code 10. After commit 7 of 2026-10-11",
                "Postings 1 to 3, the oldest first",
                "Opening balance 0 2026-09-21 14:13:20 2 10 500 500 credit 11",
                "Closing balance 145 500 355 credit",
                "0 + 500 credits − 145 debits = 355, a credit balance: the lines add up.",
            ),
        ),
        (
            "/account/2/2026-09",
            ("0 + 500 debits − 145 credits = 355, a debit balance: the lines add",),
        ),
        (
            "/account/1/2026-10",
            (
                "2026-10-11 14:13:20: the month is not over.",
                "355 + 0 credits − 7 debits = 348, a credit balance",
                "Opening balance 355 credit Debits 7 Credits 0 Closing balance 348",
                "Closing balance 348 credit 2026-09 The account",
            ),
        ),
        ("/account/1/2026-11", ("no postings in this month", "Opening balance 348 credit")),
    ],
    ids=["September", "September, other side", "October", "November"],
)
def test_a_month(months, address, parts):
    said = months.words(address)
    for part in parts:
        assert part in said


def test_a_month_that_is_cut(months, monkeypatch):
    monkeypatch.setattr(views, "MONTH_ROWS", 2)
    assert "Only the first 2 postings" in months.words("/account/1/2026-09")


def test_a_month_that_does_not_add_up(months):
    months.change("UPDATE postings SET debit = 1 WHERE account_id = 1 AND debit = 120")
    assert "do not add up" in months.words("/account/1/2026-09")


@pytest.mark.parametrize(
    "address, status",
    [
        ("/account/1/2026-13", 400),
        ("/account/1/x", 400),
        ("/account/1/26-01", 400),
        ("/account/99/2026-09", 404),
    ],
)
def test_no_month(months, address, status):
    months.get(address, status)


@pytest.mark.parametrize(
    "at, parts",
    [
        ("2026-09-20", ("There were no accounts",)),
        ("2026-09-21", ("700 3 645 645 100 100 yes", "701 2 9 9 0 0 yes")),
        ("2026-09-21T14:13:20.000000007Z", ("700 3 500 500 0 0",)),
    ],
)
def test_a_trial_balance_at_a_time(books, at, parts):
    said = books.words(f"/trial-balance?at={at}")
    for part in parts:
        assert part in said


def test_balances_in_json(books):
    reply = books.reply("/get_account_balances?account_id=2&limit=2")
    assert reply.mimetype == "application/json"
    assert reply.json["commit"] == "6"
    sums = [(it["debits_posted"], it["credits_posted"]) for it in reply.json["results"]]
    assert sums == [("500", "0"), ("500", "120")]


def test_accounts_in_json(books):
    found = books.reply("/query_accounts?code=20").json["results"]
    assert [it["id"] for it in found] == ["2"]
    assert found[0]["flags"] == ["credits_must_not_exceed_debits", "history"]


@pytest.mark.parametrize(
    "address, says",
    [
        ("/query_accounts?limit=x", "limit must be a number"),
        ("/query_accounts?limit=-1", "limit must be a number"),
        ("/query_accounts?flags=debits", "no flag 'debits': reversed"),
        ("/query_accounts?account_id=1", "query_accounts has no field account_id"),
        (f"/query_accounts?code={1 << 16}", "code must be a number from 0 to 65535"),
    ],
)
def test_a_wrong_question(books, address, says):
    """Its fault is JSON too."""
    reply = books.reply(address)
    assert (reply.status_code, says in reply.json["fault"]) == (400, True)


@pytest.fixture
def named(books):
    """The shop, with names: two accounts have the same one."""
    more = (
        ("account", 2, "Anna Schmidt", 0),
        ("account", 3, "anna", 0),
        ("account", 5, "House", 0),
    )
    books.name(*NAMES, *more, ("account", 77, "Gone", 0))
    return books


@pytest.mark.parametrize(
    "text, parts",
    [
        ("ann", ("Names with “ann”", "Account 2 Anna Schmidt", "Account 3 anna")),
        ("ANNA", ("Account 3 anna Account 2 Anna Schmidt",)),
        ("eur", ("Ledger 700 EUR",)),
        ("deposit", ("Code 10 customer deposit",)),
        ("House", ("Account 1 House", "Account 5 House")),
        ("gone", ("Account 77 Gone",)),
    ],
)
def test_a_search_by_name(named, text, parts):
    """In any case; the accounts that have it whole come first."""
    said = named.words(f"/search?id={text}")
    for part in parts:
        assert part in said


def test_a_search_by_the_name_of_one_account(named):
    reply = named.reply("/search?id=schmidt")
    assert (reply.status_code, reply.location) == (302, "/account/2")


def test_a_search_by_a_name_that_nothing_has(named):
    said = named.words("/search?id=Otto", 404)
    assert "No name has this, and 'Otto' is no id: decimal digits, or hexadecimal" in said


@pytest.mark.parametrize(
    "address, wanted",
    [
        ("/accounts?ledger=eur", [3, 2, 1]),
        ("/accounts?code=customer deposit", [5, 4, 3, 1]),
        ("/accounts?ledger=700&code=20", [2]),
    ],
)
def test_accounts_by_the_name_of_a_ledger_or_code(named, address, wanted):
    assert ids(named, address) == wanted


def test_a_statement_by_an_account_s_name(named):
    rows = named.csv("/csv/statement.csv?account=anna schmidt")
    assert [it[0] for it in rows[1:]] == ["2", "2", "2"]


@pytest.mark.parametrize(
    "name, says",
    [("House", "'House' is the name of 2 accounts: 1, 5"), ("Otto", "'Otto' is no id")],
)
def test_no_statement_by_a_name(named, name, says):
    assert says in named.words(f"/csv/statement.csv?account={name}", 400)


def test_a_question_by_an_account_s_name(named):
    found = named.reply("/get_account_balances?account_id=Anna%20Schmidt&limit=1").json
    assert found["results"][0]["debits_posted"] == "500"
    fault = named.reply("/get_account_transfers?account_id=House").json["fault"]
    assert fault == "'House' is the name of 2 accounts: 1, 5"


def test_why_an_answer_in_json_is_empty(named):
    assert (
        named.reply("/get_account_transfers?account_id=99").json["note"] == "there is no account 99"
    )
    assert named.reply("/get_account_transfers?account_id=1").json["note"] is None


def test_pages_of_pending_transfers(pages):
    """By expiry, each once; those that never expire come last."""
    made = Made().register().accounts(account(1), account(2))
    made.transfers(*(transfer(1000 + it, 1, 2, 1, ["pending"]) for it in range(60)))
    made.transfers(
        *(transfer(100 + it, 1, 2, 1, ["pending"], timeout=1 + it % 7) for it in range(70))
    )
    pages.load(made)
    met, address = [], "/pending"
    while address:
        page = pages.get(address)
        met.append(re.findall(r'href="/transfer/(\d+)"', page))
        found = re.search(r'<a rel="next" href="([^"]*)">Next</a>', page)
        address = found[1] if found else None
    timed = sorted(range(70), key=lambda it: (made.time - 70 + 1 + it) + (1 + it % 7) * SECOND)
    assert sum(met, []) == [str(100 + it) for it in timed] + [str(1000 + it) for it in range(60)]
    assert list(map(len, met)) == [50, 50, 30]
    assert "130 are open; these 50 expire first" in pages.words("/pending")
    assert "no pending transfers on this page" in pages.words("/pending?after=5")


def test_a_number_and_the_exact_one(named):
    """They are not two numbers side by side: the exact one is smaller, and in parentheses."""
    assert "Balance 3.55 EUR credit (355)" in named.words("/account/1")
    page = named.get("/static/page.css")
    assert ".big .exact { font-size: 0.875rem; font-weight: 400; }" in page


def test_pages_of_refused_events(pages):
    """The latest first, each once."""
    made = Made().register().accounts(account(1), account(2))
    for _ in range(4):
        made.transfers(*(transfer(9, 1, 2, 1, result="exists") for _ in range(30)))
    pages.load(made)
    met, address = [], "/refusals/create_transfers/exists"
    while address:
        page = pages.get(address)
        met += re.findall("<summary>Event ([0-9.]+)</summary>", page)
        found = re.search(r'<a rel="next" href="([^"]*)">Older</a>', page)
        address = html.unescape(found[1]) if found else None
    assert met == [f"{commit}.{at}" for commit in (6, 5, 4, 3) for at in range(29, -1, -1)]
