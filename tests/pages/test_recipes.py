"""The recipes of docs/use/RECIPES.md: each script of examples/recipes runs, what it says is refused
is refused, and its accounts have the sums that its comments give, worked out by hand."""

import functools
import json
import re
import sqlite3
from typing import NamedTuple

import pytest

from ..conftest import ROOT, ran

FOLDER = ROOT / "examples/recipes"
PAGE = ROOT / "docs/use/RECIPES.md"
SUMS = ("debits_pending", "debits_posted", "credits_pending", "credits_posted")


class Recipe(NamedTuple):
    """What is refused, in its order, and each account's sums at the end (SUMS)."""

    refused: list[str]
    sums: dict[int, tuple[int, int, int, int]]


RECIPES = {
    "currency_exchange": Recipe(
        ["exceeds_credits", "linked_event_failed"],
        {
            1: (0, 100_00, 0, 150_00),
            2: (0, 0, 0, 108_00),
            3: (0, 0, 0, 100_00),
            4: (0, 108_00, 0, 0),
            5: (0, 150_00, 0, 0),
        },
    ),
    "card_payment": Recipe(
        ["exceeds_credits", "pending_transfer_already_posted", "pending_transfer_expired"],
        {1: (0, 45_00, 0, 100_00), 2: (0, 0, 0, 45_00), 3: (0, 100_00, 0, 0)},
    ),
    "split_payment": Recipe(
        ["linked_event_failed", "credit_account_not_found", "linked_event_failed"],
        {
            1: (0, 100_00, 0, 250_00),
            2: (0, 0, 0, 75_00),
            3: (0, 0, 0, 6_00),
            4: (0, 0, 0, 19_00),
            5: (0, 250_00, 0, 0),
        },
    ),
    "fees": Recipe(
        ["linked_event_failed", "exceeds_credits"],
        {
            1: (0, 81_20, 0, 100_00),
            2: (0, 0, 0, 80_00),
            3: (0, 0, 0, 1_20),
            4: (0, 100_00, 0, 0),
        },
    ),
    "limits": Recipe(
        ["flags_are_mutually_exclusive", "exceeds_credits", "exceeds_debits"],
        {
            1: (70_00, 30_00, 0, 100_00),
            2: (0, 500_00, 0, 500_00),
            3: (0, 600_00, 70_00, 530_00),
        },
    ),
    "sweep": Recipe([], {1: (9_50, 50_00, 0, 59_50), 2: (0, 0, 0, 50_00), 3: (0, 59_50, 9_50, 0)}),
    "close_account": Recipe(
        ["credit_account_already_closed", "debit_account_already_closed"],
        {1: (0, 33_00, 0, 38_00), 2: (0, 0, 0, 33_00), 3: (0, 38_00, 0, 0)},
    ),
    "correction": Recipe(
        ["exists_with_different_amount"], {1: (0, 110_00, 0, 100_00), 2: (0, 100_00, 0, 110_00)}
    ),
    "tenants": Recipe(
        ["accounts_must_have_the_same_ledger", "transfer_must_have_the_same_ledger_as_accounts"],
        {
            100100000001: (0, 700, 0, 0),
            100100000002: (0, 0, 0, 700),
            100200000001: (0, 900, 0, 0),
            100200000002: (0, 0, 0, 900),
        },
    ),
    "rate_limit": Recipe(["exceeds_credits"], {1: (3, 0, 0, 3), 2: (0, 3, 3, 0)}),
    "retries": Recipe(
        ["collision", "exists", "exists_with_different_amount"],
        {1: (0, 25_00, 0, 0), 2: (0, 0, 0, 25_00)},
    ),
    "month_end": Recipe([], {1: (0, 75_50, 0, 250_00), 2: (0, 0, 0, 75_50), 3: (0, 250_00, 0, 0)}),
}


@functools.cache
def replies(name: str) -> list[dict]:
    """What `telovamish run` replies to a recipe, statement by statement."""
    words = [ROOT / "apps/telovamish/telovamish", "run", "--json", FOLDER / f"{name}.text"]
    status, printed, said = ran(words)
    assert status == 0, said
    return [json.loads(it) for it in printed.splitlines()]


def refused(reply: dict) -> list[str]:
    """A refused statement's status, or the results of its events that are not ok."""
    if reply["status"] != "reply":
        return [reply["status"]]
    return [it["result"] for it in reply["results"] if "result" in it]


def test_each_script_is_a_recipe_and_stands_on_the_page():
    assert {it.stem for it in FOLDER.glob("*.text")} == set(RECIPES)
    linked = re.findall(r"\(\.\./\.\./examples/recipes/(\w+)\.text\)", PAGE.read_text())
    assert set(linked) == set(RECIPES)


@pytest.mark.parametrize("name", RECIPES)
def test_recipe(tbs, name):
    found = replies(name)
    assert sum(map(refused, found), []) == RECIPES[name].refused
    last = found[-1]
    assert last["operation"] == "lookup_accounts"
    sums = {int(it["id"]): tuple(int(it[of]) for of in SUMS) for it in last["results"]}
    assert sums == RECIPES[name].sums


@pytest.mark.parametrize("name", RECIPES)
def test_debits_are_credits_in_each_ledger_of_a_recipe(tbs, name):
    accounts = replies(name)[-1]["results"]
    for ledger in {it["ledger"] for it in accounts}:
        of = [it for it in accounts if it["ledger"] == ledger]
        for kind in ("pending", "posted"):
            debits, credits = (
                sum(int(it[f"{side}_{kind}"]) for it in of) for side in ("debits", "credits")
            )
            assert debits == credits, (ledger, kind)


def test_the_statements_of_the_month_end(tbs, tbd, tmp_path):
    text = (FOLDER / "month_end.text").read_bytes()
    status, script, said = ran([ROOT / "apps/telovamish/telovamish", "script"], text)
    assert status == 0, said
    status, _, said = ran([tbd, "run", tmp_path / "ledger.tbk", "2"], script)
    assert status == 0, said
    tables = tmp_path / "ledger.sqlite"
    words = [ROOT / "apps/books/tb-sql", "load", tables, "--ledger", tmp_path / "ledger.tbk"]
    status, _, said = ran([*words, "--tbd", tbd, "--tbs", tbs])
    assert status == 0, said
    (query,) = re.findall(r"^```sql\n(.*?)^```$", PAGE.read_text(), re.M | re.S)
    with sqlite3.connect(tables) as books:
        found = [books.execute(it).fetchall() for it in query.strip().rstrip(";").split(";\n")]
    # October: 200.00 in, 45.50 out. November: 10.00 and 20.00 out in one request, 50.00 in.
    assert found == [[(-154_50,)], [(10_00, 0), (20_00, 0), (0, 50_00)], [(-174_50,)]]
