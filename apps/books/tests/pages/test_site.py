"""The database behind the pages: how far it is behind its ledger, and a commit that is awaited."""

import threading

import pytest

from helpers.histories import history
from helpers.made import Made, account
from helpers.tables import stand_in
from tb_sql.pages import site


def test_how_far_behind_the_ledger(pages):
    """By its entries, counted again when its file changed."""
    made, ledger = history(), pages.room / "ledger.tbk"
    pages.load(made, count=-4)
    tbd = stand_in(pages.room, "tbd")
    pages.show(ledger=str(ledger), tbd=tbd)
    assert "There is no file" in pages.words("/")
    ledger.write_bytes(made.bytes)
    said = pages.words("/")
    assert f"has {made.commit:,} entries: these tables are 4 behind it" in said
    reply = pages.reply("/query_accounts?limit=1").json
    assert (reply["commit"], reply["behind"]) == (str(made.commit - 4), "4")
    pages.load(made)
    assert "has no entry that is not here" in pages.words("/")


def test_a_commit_that_comes(pages):
    """It is waited for."""
    made = history()
    pages.load(made, count=-4)
    late = threading.Timer(0.2, pages.load, (made,))
    late.start()
    try:
        reply = pages.reply(f"/query_accounts?commit={made.commit}").json
    finally:
        late.join()
    assert reply["commit"] == str(made.commit)


def test_a_commit_that_does_not_come(pages, monkeypatch):
    pages.load(Made().register().accounts(account(1)))
    monkeypatch.setattr(site, "WAIT_MAX", 0.1)
    assert "The tables end at commit 2: 3 did not come" in pages.words("/accounts?commit=3", 504)


@pytest.mark.parametrize(
    "does, says",
    [
        ("echo tbd: Damaged: at byte 9 >&2; exit 6", "tbd: Damaged: at byte 9"),
        ("exit 0", "ended with status 0: no number of entries"),
    ],
)
def test_a_ledger_that_is_not_read(pages, does, says):
    """What the program says is on the page."""
    pages.load(Made())
    ledger, tbd = pages.room / "ledger.tbk", pages.room / "tbd"
    ledger.touch()
    tbd.write_text(f"#!/bin/sh\n{does}\n")
    tbd.chmod(0o700)
    pages.show(ledger=str(ledger), tbd=str(tbd))
    assert says in pages.words("/", 500)
