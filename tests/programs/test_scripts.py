"""Scripts that `tbs run` serves beyond the worked examples of crates/tb_test_machine: each request
with the answer that docs/use/RULES.md gives it, byte for byte.

    python3 -m pytest tests/programs

A case begins with BEGIN: client 7 registers at moment 10 and creates accounts 1 and 2, which takes
the times 11 and 12. Each event after that takes the next time, each entry the next commit number.
"""

import subprocess

import frames
import pytest

FLAGS = {
    kind: {row["name"]: row["bit"] for row in frames.TABLE[f"{kind}_flags"]}
    for kind in ("account", "transfer")
}
CODES = {
    kind: {row["name"]: row["code"] for row in frames.TABLE[f"{kind}_results"]}
    for kind in ("account", "transfer")
}
SECONDS = 60
LINKED = FLAGS["transfer"]["linked"]
CLOSING = FLAGS["transfer"]["pending"] | FLAGS["transfer"]["closing_debit"]
VOID = FLAGS["transfer"]["void_pending_transfer"]
CLOSED = FLAGS["account"]["closed"]

account, transfer = frames.account, frames.transfer


def create(kind, *events):
    """A request that creates accounts or transfers, and its reply: a result for each event that is
    not ok."""
    codes = [CODES[kind][name] for _, name in events]
    results = [frames.result(at, code) for at, code in enumerate(codes) if code]
    return f"create_{kind}s", b"".join(body for body, _ in events), b"".join(results)


def look_up(kind, ids, *records):
    """A lookup, and the records that it finds."""
    return f"lookup_{kind}s", frames.ids(*ids), b"".join(records)


def first(debits_pending, debits_posted):
    """A lookup of account 1, which has these sums and no credits."""
    sums = {"debits_pending": debits_pending, "debits_posted": debits_posted}
    return look_up("account", [1], account(1, timestamp=11, **sums))


BEGIN = [
    ("register", b"", b""),
    create("account", (account(1), "ok"), (account(2), "ok")),
]

# What a chain did stays once it is whole, however the next one breaks.
WHOLE_AND_BROKEN = [
    create(
        "transfer",
        (transfer(1, 1, 2, 1, flags=LINKED), "ok"),
        (transfer(2, 1, 2, 1), "ok"),
        (transfer(3, 1, 2, 1, flags=LINKED), "linked_event_failed"),
        (transfer(4, 99, 2, 1), "debit_account_not_found"),
    ),
    first(0, 2),
    look_up("transfer", [3, 2], transfer(2, 1, 2, 1, timestamp=14)),
]

# An account that is asked for again exists with the flags that it now has: a pending transfer
# closes account 1, and its void opens it.
ASKED_AGAIN = [
    create("transfer", (transfer(40, 1, 2, 0, flags=CLOSING), "ok")),
    create(
        "account",
        (account(1), "exists_with_different_flags"),
        (account(1, flags=CLOSED), "exists"),
    ),
    create("transfer", (transfer(45, 0, 0, 0, pending_id=40, flags=VOID), "ok")),
    create(
        "account",
        (account(1), "exists"),
        (account(1, flags=CLOSED), "exists_with_different_flags"),
    ),
]

# Failed ids are found again in whatever order they failed, and an id between them is free.
IN_ANY_ORDER = [
    *(create("transfer", (transfer(id, 99, 2, 1), "debit_account_not_found")) for id in (5, 9, 7)),
    *(create("transfer", (transfer(id, 1, 2, 1), "id_already_failed")) for id in (5, 7, 9)),
    create("transfer", (transfer(6, 1, 2, 1), "ok")),
]

CASES = [
    ("a whole chain before a broken one", 1, WHOLE_AND_BROKEN),
    ("a whole chain before a broken one", 2, WHOLE_AND_BROKEN),
    ("asked again while closed", 1, ASKED_AGAIN),
    ("asked again while closed", 2, ASKED_AGAIN),
    ("failed ids in any order", 2, IN_ANY_ORDER),
]


def script_of(steps):
    """The bytes of a script at moment 10, and those of its replies."""
    script, replies = [], []
    for number, (name, body, answer) in enumerate(steps):
        operation, session = frames.OPERATIONS[name], min(number, 1)
        script.append(frames.pair(10, 7, session, number, operation, body))
        replies.append(frames.reply(7, 1, number, operation, 0, number + 1, answer))
    return b"".join(script), b"".join(replies)


@pytest.mark.parametrize(
    "profile, steps", [pytest.param(at, it, id=f"{name}, {at}") for name, at, it in CASES]
)
def test_replies(program, profile, steps):
    script, replies = script_of([*BEGIN, *steps])
    words = [program("tbs"), "run", "2", str(profile)]
    ran = subprocess.run(words, input=script, capture_output=True, timeout=SECONDS)
    assert (ran.returncode, ran.stderr) == (0, b"")
    assert ran.stdout == replies
