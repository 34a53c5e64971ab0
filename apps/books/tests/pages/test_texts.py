"""What the pages write of a value: names, amounts, times, states."""

import re

import pytest

from helpers.histories import NAMES, SECOND, shop
from helpers.made import MAX, START, Made, account, transfer
from helpers.pages import HERE
from helpers.tables import stand_in
from tb_sql.names import Names
from tb_sql.pages import texts


@pytest.fixture
def named(pages):
    """Pages with names, of which one could be a formula."""
    made = Made().register().accounts(account(1), account(2))
    pages.load(made.transfers(transfer(11, 1, 2, 188125), transfer(12, 2, 1, 5)))
    pages.show(names=Names((*NAMES, ("account", 2, "=HYPERLINK(1)", 0))))
    return pages


AMOUNT = '<span class="number">1,881.25 EUR</span> <span class="exact">(188125)</span>'


@pytest.mark.parametrize(
    "address", ["/transfers", "/transfer/11", "/account/1", "/account/1/2026-09"]
)
def test_an_amount_with_its_places(named, address):
    assert AMOUNT in named.get(address)


@pytest.mark.parametrize("address", ["/account/1", "/accounts", "/transfers"])
def test_an_account_with_its_name(named, address):
    assert '<span class="named">House</span>' in named.get(address)


def test_sums_and_codes_with_names(named):
    assert "1,881.20 EUR" in named.get("/accounts")
    assert "1,881.30 EUR" in named.get("/")
    assert "customer deposit" in named.get("/account/1")


def test_an_amount_without_names(named):
    named.show()
    assert '<span class="number">188,125</span>' in named.get("/transfer/11")


def test_times(pages):
    pages.load(shop())
    page = pages.get("/transfer/11")
    assert 'title="2026-09-21T14:13:20.000000007Z">2026-09-21 14:13:20</time>' in page


@pytest.mark.parametrize(
    "seconds, state", [(3599, "pending"), (3601, "overdue")], ids=["before", "after"]
)
def test_overdue(pages, monkeypatch, seconds, state):
    """Everywhere, once the timeout has run out and no entry has come."""
    pages.load(shop())
    monkeypatch.setattr(texts.time, "time_ns", lambda: START + seconds * SECOND)
    for address in ("/transfer/13", "/transfers"):
        assert f">{state}</span>" in pages.get(address)
    for address in ("/pending", "/", "/account/1"):
        assert ("overdue</span>" in pages.get(address)) == (state == "overdue")


@pytest.mark.parametrize("expires_at, overdue", [(1, 1), (2**62, 0), (None, 0)])
def test_overdue_in_the_view(pages, expires_at, overdue):
    pages.load(shop())
    pages.change("UPDATE transfers SET expires_at = ? WHERE id = 13", expires_at)
    assert pages.rows("SELECT overdue FROM pending_transfers WHERE id = 13") == [(overdue,)]


def test_expired(pages):
    pages.load(shop().later(3601 * SECOND).lookup(1))
    said = pages.words("/transfer/13")
    assert "State expired" in said and "Expired 2026-09-21 15:13:20" in said


def test_great_values(pages):
    big = MAX - 1
    audit = Made().register()
    audit.accounts(account(big, user_data_128=MAX, user_data_64=2**64 - 1), account(1))
    pages.load(audit.transfers(transfer(big, big, 1, MAX)))
    grouped = f"{MAX:,}"
    assert f"Balance {grouped} debit" in pages.words(f"/account/{big}")
    assert f"Amount {grouped}" in pages.words(f"/transfer/{big}")
    assert grouped in pages.words("/")
    said = pages.words(f"/account/{big}")
    assert f"User data, 128 bits {MAX} User data, 64 bits {2**64 - 1} Sums" in said
    reply = pages.site.get(f"/search?id={hex(1)}", base_url=HERE)
    assert (reply.status_code, reply.location) == (302, "/account/1")
    assert "account of ledger" in pages.words(f"/search?id={hex(big)}")


def test_hostile_text(pages):
    """A name that only a wrong program could print is still shown as text."""
    pages.load(Made().register().accounts(account(1, result="exists")))
    pages.change("UPDATE refused SET result = ?", "<script>alert(1)</script>")
    page = pages.get("/refusals")
    assert "<script" not in page
    assert "&lt;script&gt;" in page


@pytest.mark.parametrize(
    "name, ledger, status",
    [("ledger.sqlite", "/nowhere/b\udcfccher.tbk", 200), ("b\udcfccher.sqlite", None, 500)],
    ids=["of a ledger", "of tables"],
)
def test_names_that_cannot_be_shown(pages, name, ledger, status):
    pages.load(Made())
    pages.show(str(pages.room / name), ledger=ledger, tbd=stand_in(pages.room, "tbd"))
    said = pages.words("/", status)
    assert re.search(r"here is no file /.*/b\\udcfccher", said)


def test_a_time_that_decides_a_day(pages):
    """A batch that is dated to the first moment of a month begins in the month before."""
    end = 1_790_812_800 * SECOND  # 2026-10-01
    made = Made(time=end - 5 - SECOND).register().accounts(account(1), account(2)).later(SECOND)
    pages.load(made.transfers(transfer(11, 1, 2, 1), transfer(12, 1, 2, 1)))
    assert made.time == end
    assert "2026-09-30 23:59:59.999999999" in pages.words("/transfer/11")
    assert "Time 2026-10-01 00:00:00 Ledger" in pages.words("/transfer/12")
    assert "11" in pages.words("/account/1/2026-09") and "Debits 1 " in pages.words(
        "/account/1/2026-09"
    )


@pytest.mark.parametrize(
    "seconds, wanted",
    [
        (0, "0 seconds"),
        (119.9, "119 seconds"),
        (120, "2 minutes"),
        (7199, "119 minutes"),
        (7200, "2 hours"),
        (2 * 86400, "2 days"),
        (729 * 86400, "729 days"),
        (730 * 86400, "2 years"),
        (2000 * 365 * 86400, "2,000 years"),
    ],
)
def test_a_span_of_time(seconds, wanted):
    assert texts.ago(seconds) == wanted
