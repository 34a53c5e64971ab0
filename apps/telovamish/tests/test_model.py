"""The model is what the proved program has, over random histories that reach every rule and every
result code. SEED in the environment draws others."""
from __future__ import annotations

import collections
import io
import os
import random
import subprocess

import pytest
import rules
from by_hand import account, entered, entry_of, transfer
from drawn_histories import Drawer

from tb_client import Reply

from telovamish.checking import Check
from telovamish.live import Replay, facts
from telovamish.model import BALANCES_CREDIT, BALANCES_DEBIT, PENDING, Disagrees, Event, Evicted
from telovamish.model import POST, Expired, Ledger, Session, balanced_amount
from telovamish.reader import Pair
from telovamish.streams import Entry, Mark, read_dump, read_replies
from telovamish.words import RESULTS, SECOND, STATUSES

EVENTS = int(os.environ.get("EVENTS", 10_000))
Counts = collections.Counter[object]


def ran(*words: str, given: bytes) -> bytes:
    return subprocess.run(words, input=given, capture_output=True, check=True).stdout


def compare_history(seed: random.Random, tbs: str, counts: Counts) -> None:
    """Draws a history, and compares all that the model has of it with the program."""
    clients_max = seed.choice([1, 2, 3, 4])
    pairs = Drawer(seed, clients_max).script()
    script = b"".join(it.to_bytes() for it in pairs)
    form = [str(clients_max), *seed.choice([[], [], [str(seed.randrange(30))]])]
    count_statuses(pairs, ran(tbs, "run", str(clients_max), given=script), counts)
    dump = ran(tbs, "dump", *form, given=script)
    with Replay(tbs) as replay:
        check, before, is_marked, evicted = Check(tbs, replay), None, False, set()
        for item, reply, ledger, found in facts(read_dump(io.BytesIO(dump)), replay):
            check.note(item, reply, ledger, found)
            if isinstance(item, Entry):
                counts.update(rules.of_entry(item, before, found, ledger))
                counts["an entry after the mark"] += is_marked
                is_register = item.request.operation == "register"
                counts["a register of an evicted client"] += (
                    is_register and item.request.client in evicted
                )
                evicted |= {it.client for it in found if isinstance(it, Evicted)}
                count_events(
                    item, [it for it in found if isinstance(it, Event)], check, ledger, counts
                )
                before = item
            elif isinstance(item, Mark):
                is_marked = True
                counts["a mark"] += 1
        check.compare()


def count_events(
    entry: Entry, events: list[Event], check: Check, ledger: Ledger, counts: Counts
) -> None:
    counts["events"] += len(events)
    for it in events:
        counts[entry.request.operation, it.result] += 1
        sent = entry.request.body[128 * it.place : 128 * it.place + 128]
        counts.update(rules.of_event(it, sent, check.transfers, ledger))


def count_statuses(pairs: list[Pair], replies: bytes, counts: Counts) -> None:
    """Counts the refusals of requests, and repeats: those executed once before."""
    seen = 0
    for reply in read_replies(io.BytesIO(replies)):
        is_repeat = not reply.status and reply.commit <= seen
        counts["repeat" if is_repeat else STATUSES[reply.status]] += 1
        seen = max(seen, reply.commit)


@pytest.mark.slow(reason="10,000 events of random histories, each compared with tbs", seconds=50)
def test_the_model_is_the_proved_program(tbs: str) -> None:
    number = int(os.environ.get("SEED", 1))
    seed, counts = random.Random(number), Counts()
    while counts["events"] < EVENTS:
        compare_history(seed, tbs, counts)
    print(f"SEED={number}: {counts}")
    missing = sorted(it for it in rules.NAMES if not counts[it])
    codes = [(operation, code) for operation, names in RESULTS.items() for code in (0, *names)]
    missing += [f"{it[0]}: {it[1]}" for it in codes if not counts[it]]
    assert not missing, f"SEED={number}: not reached: {missing}"


def test_another_seed(tbs: str) -> None:
    """The same in each run: one that is drawn anew would fail by chance, and not again."""
    seed, counts = random.Random(2), Counts()
    while counts["events"] < EVENTS / 5:
        compare_history(seed, tbs, counts)


def test_the_session_with_the_least_last_commit_is_evicted_by_hand() -> None:
    ledger = Ledger(2)
    for commit, client in ((1, 7), (2, 8)):
        assert entered(ledger, entry_of(commit, commit, client, "register")) == []
    entered(ledger, entry_of(3, 3, 7, "lookup_accounts"))
    assert entered(ledger, entry_of(4, 4, 9, "register")) == [Evicted(8, 2)]
    assert ledger.sessions == {7: Session(1, 3), 9: Session(4, 4)}


@pytest.mark.parametrize("early, ids", [(1, []), (0, [11, 12])])
def test_what_is_due_expires_by_hand(early: int, ids: list[int]) -> None:
    """At its moment and not before, in the order of ids if two are due at one time."""
    ledger, due = Ledger(2), 5 + 2 * SECOND
    first = transfer(12, 1, 2, 5, flags=PENDING, timeout=2)
    second = transfer(11, 1, 2, 5, flags=PENDING, timeout=1)
    entered(ledger, entry_of(1, 1, 7, "register"))
    entered(ledger, entry_of(2, 3, 7, "create_accounts", account(1), account(2)))
    entered(ledger, entry_of(3, 5, 7, "create_transfers", first))
    entered(ledger, entry_of(4, 5 + SECOND, 7, "create_transfers", second))
    found = entered(ledger, entry_of(5, due - early, 7, "lookup_accounts"))
    assert [(it.time, it.transfer.id) for it in found if isinstance(it, Expired)] == [
        (due, id) for id in ids
    ]
    assert ledger.accounts[1].debits_pending == (10 if early else 0)


TAKEN_OVER = "debit_account_id credit_account_id user_data_128 user_data_64 user_data_32".split()
TAKEN_OVER += ["ledger", "code"]


@pytest.mark.parametrize("name", TAKEN_OVER)
@pytest.mark.parametrize("sent", [0, 9], ids=["not given", "given"])
def test_what_a_post_takes_over_by_hand(name: str, sent: int) -> None:
    """A field of the pending transfer that the post leaves at 0."""
    kept = {it: 3 for it in TAKEN_OVER} | {"debit_account_id": 1, "credit_account_id": 2}
    pending = {it: number for it, number in kept.items() if not it.endswith("account_id")}
    ledger = Ledger(2)
    entered(ledger, entry_of(1, 1, 7, "register"))
    entered(ledger, entry_of(2, 3, 7, "create_accounts", account(1), account(2)))
    held = transfer(11, 1, 2, 5, flags=PENDING, **pending)
    entered(ledger, entry_of(3, 5, 7, "create_transfers", held))
    post = transfer(12, 0, 0, 5, flags=POST, pending_id=11)
    if not name.endswith("account_id"):
        setattr(post, name, sent)
    (found,) = entered(ledger, entry_of(4, 6, 7, "create_transfers", post))
    assert isinstance(found, Event)
    assert getattr(found.record, name) == (getattr(post, name) or kept[name])


@pytest.mark.parametrize(
    "amount, flags, debits, credits, wanted",
    [
        (100, BALANCES_DEBIT, (50, 20, 7), (0, 0, 0), 23),
        (20, BALANCES_DEBIT, (50, 20, 7), (0, 0, 0), 20),
        (100, BALANCES_CREDIT, (0, 0, 0), (50, 20, 7), 23),
        (100, BALANCES_DEBIT | BALANCES_CREDIT, (50, 20, 7), (30, 20, 7), 3),
        (100, BALANCES_CREDIT, (0, 0, 0), (20, 20, 7), 0),
    ],
)
def test_the_amount_of_a_balancing_transfer_by_hand(
    amount: int, flags: int, debits: tuple[int, ...], credits: tuple[int, ...], wanted: int
) -> None:
    """At most what the other side has posted above this side's posted and pending sums."""
    sides = "credits_posted debits_posted debits_pending".split()
    debit = account(1, **dict(zip(sides, debits)))
    sides = "debits_posted credits_posted credits_pending".split()
    credit = account(2, **dict(zip(sides, credits)))
    assert balanced_amount(transfer(9, 1, 2, amount, flags=flags), debit, credit) == wanted


def test_what_cannot_follow_is_reported() -> None:
    ledger = Ledger(2)
    reply = Reply(7, 1, 1, 131, 0, 1, b"")
    with pytest.raises(Disagrees, match="entry 1: client 7 has no session"):
        list(ledger.enter(Entry(1, 1, Pair(1, 7, 1, 1, "lookup_accounts", b"")), reply))
