"""Charts: what their axes say."""

import pytest

from helpers.made import Made, account, transfer
from tb_sql.pages import charts


@pytest.mark.parametrize(
    "value, places, wanted",
    [
        (0, 0, "0"),
        (40_000_000, 0, "40,000,000"),
        (40_000_000, 2, "400,000"),
        (-50, 2, "-0.50"),
        (150, 2, "1.50"),
        (0, 2, "0"),
        (999_999_999, 0, "999,999,999"),
        (1_234_567_890, 0, "1.23e9"),
        (1_234_567_890, 2, "12,345,678.90"),
        (-(10**20), 2, "-1.00e18"),
        (10**38, 38, "1"),
    ],
)
def test_an_amount_on_an_axis(value, places, wanted):
    assert charts.short(value, places) == wanted


@pytest.mark.parametrize("least, greatest", [(0, 1), (-7, 0), (0, 10**38), (-355, 145), (3, 3)])
def test_an_axis(least, greatest):
    """Round numbers, at least two and at most seven, that are around all values."""
    ticks = charts.axis(least, greatest)
    assert ticks[0] <= least and ticks[-1] >= greatest and 2 <= len(ticks) <= 7
    step = ticks[1] - ticks[0]
    assert str(step).rstrip("0") in ("1", "2", "5", "")
    assert all(it % step == 0 for it in ticks)


def test_the_chart_of_an_account_has_the_ledger_s_places(pages):
    """The amounts above it are in EUR, and so is its axis: it was in cents."""
    made = Made().register().accounts(account(1), account(2)).transfers(transfer(11, 1, 2, 10**7))
    pages.load(made.transfers(transfer(12, 1, 2, 37541082 - 10**7)))
    plain = pages.get("/account/1")
    assert ">40,000,000</text>" in plain and "highest 37,541,082," in plain
    pages.name(("ledger", 700, "EUR", 2))
    page = pages.get("/account/1")
    assert ">400,000</text>" in page and ">40,000,000</text>" not in page
    assert "lowest 100,000.00 EUR, highest 375,410.82 EUR, at the end 375,410.82 EUR." in page
    assert "Debit balance over time, in EUR; below zero" in page
