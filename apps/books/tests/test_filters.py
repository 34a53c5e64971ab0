"""TigerBeetle's questions over drawn histories by the proved program: answers that are those of a
plain reading, books that balance, tables that pass the check."""

import contextlib
import random

import pytest
from telovamish.objects import record_shown

from helpers.drawn import Plain, drawn
from helpers.tables import entered
from tb_sql.checking import Tables as Checked
from tb_sql.commands import words
from tb_sql.filters import OPERATIONS
from tb_sql.pages.queries import Tables
from tb_sql.sqlite_store import SqliteStore, connect_read_only

FILTERS = 12  # of each operation, for each history
SEEDS = pytest.mark.parametrize(
    "seed",
    [
        *range(20),
        *(
            pytest.param(it, marks=pytest.mark.slow(reason="hundreds of histories", seconds=0.3))
            for it in range(20, 400)
        ),
    ],
)


@contextlib.contextmanager
def tables_of(folder, steps):
    """The tables of a history, in a file that is deleted."""
    path = folder / "ledger.sqlite"
    entered(SqliteStore(str(path), is_kept=False), steps)
    tables = Tables(str(path))
    try:
        yield tables
    finally:
        tables.close()
        path.unlink()


def filters(rng, operation, plain):
    """Filters around what the history has, and some that are wrong."""
    fields = OPERATIONS[operation].fields
    some = rng.choice(plain.transfers or plain.accounts)
    of_account = operation in ("get_account_transfers", "get_account_balances")
    found = dict.fromkeys(fields, 0)
    found["limit"] = rng.choice([0, 1, 2, 5, 8190, 9000, 2**32 - 1])
    found["flags"] = (
        rng.choice([0, 1, 2, 3, 3, 5, 6, 7, 7, 8]) if of_account else rng.choice([0, 1, 2])
    )
    times = [0, 1, some.timestamp, some.timestamp + 1, 2**63 - 1, 2**63]
    found["timestamp_min"], found["timestamp_max"] = rng.choice(times), rng.choice([0, 0, *times])
    if of_account:
        found["account_id"] = rng.choice([0, 2**128 - 1, *(it.id for it in plain.accounts)])
    for name in fields:
        if name.startswith("user_data") or name in ("code", "ledger"):
            found[name] = getattr(some, name) if rng.random() < 0.2 else 0
    return found


def is_wrong(operation, wanted):
    """What TigerBeetle returns nothing for."""
    first, last = wanted["timestamp_min"], wanted["timestamp_max"]
    wrong = [wanted["limit"] == 0, first > 2**63 - 1, last > 2**63 - 1, 0 < last < first]
    if "account_id" in wanted:
        wrong += [wanted["account_id"] in (0, 2**128 - 1), not wanted["flags"] & 3]
        return any([*wrong, wanted["flags"] > 7])
    return any([*wrong, wanted["flags"] > 1])


def expected(operation, wanted, plain):
    """The answer by the lists of the history."""
    if is_wrong(operation, wanted):
        return []
    if operation == "query_accounts":
        return [record_shown(it) for it in plain.chosen(plain.accounts, wanted)]
    if operation == "query_transfers":
        return [record_shown(it) for it in plain.chosen(plain.transfers, wanted)]
    id, flags = wanted["account_id"], wanted["flags"]

    def sides(it):
        return flags & 1 and it.debit_account_id == id or flags & 2 and it.credit_account_id == id

    found = plain.chosen(plain.transfers, wanted, sides)
    if operation == "get_account_transfers":
        return [record_shown(it) for it in found]
    if id not in plain.history:
        return []
    names = ("debits_pending", "debits_posted", "credits_pending", "credits_posted")
    sums = {it[1]: dict(zip(names, map(str, it[2:]))) for it in plain.balances if it[0] == id}
    return [{**sums[it.timestamp], "timestamp": str(it.timestamp)} for it in found]


def assert_balanced(tables, plain):
    """By the view, and after each entry, with the sums of a plain reading."""
    assert all(it["balances"] for it in tables.trial_balance())
    now = {it[0]: it[1:] for it in tables.trial_balance_at(2**63 - 1)}
    names = ("accounts", "debits_pending", "debits_posted", "credits_pending", "credits_posted")
    assert now == {it["ledger"]: [int(it[name]) for name in names] for it in tables.trial_balance()}
    for time, sums in plain.trials.items():
        assert tables.trial_balance_at(time) == sums, time
        assert all(it[2:4] == it[4:6] for it in sums), time


@SEEDS
def test_answers(tmp_path, tbs, seed):
    steps, rng = drawn(tbs, seed), random.Random(seed)
    plain = Plain(steps)
    with tables_of(tmp_path, steps) as tables:
        assert_balanced(tables, plain)
        for operation in OPERATIONS:
            for _ in range(FILTERS):
                wanted = filters(rng, operation, plain)
                found = OPERATIONS[operation].answer(tables.reading, wanted)
                assert found == expected(operation, wanted, plain), (operation, wanted)


@pytest.mark.parametrize("seed", range(10))
def test_check(tmp_path, tbs, seed):
    path = str(tmp_path / "ledger.sqlite")
    entered(SqliteStore(path), drawn(tbs, seed))
    with contextlib.closing(connect_read_only(path)) as connection:
        said = Checked(connection).check(words().parse_args(["check", path]))
    assert "their own events" in said
