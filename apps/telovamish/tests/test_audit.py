"""Which lines an audit has, and how a time is shown."""
from __future__ import annotations

import json
import pathlib
import subprocess
import sys

import click
import pytest
from by_hand import account, entered, entry_of, transfer
from conftest import APP, ran

from telovamish.audit import Audit, Wanted, last_time_of, time_of
from telovamish.checking import Differs, compare_records
from telovamish.model import Ledger
from telovamish.reader import Pair
from telovamish.records import Account
from telovamish.streams import Entry, Head, item_bytes
from telovamish.words import TRANSFER_FLAGS

ENTRY = Entry(2, 12 * 10**9, Pair(12 * 10**9, 7, 1, 1, "lookup_accounts", b""))


@pytest.mark.parametrize(
    "wanted, is_shown",
    [
        (Wanted(after=1), True),
        (Wanted(after=2), False),
        (Wanted(first=ENTRY.time), True),
        (Wanted(first=ENTRY.time + 1), False),
        (Wanted(last=ENTRY.time), True),
        (Wanted(last=ENTRY.time - 1), False),
    ],
)
def test_bounds_of_an_audit(wanted: Wanted, is_shown: bool) -> None:
    assert bool(Audit(wanted).lines(ENTRY, Ledger(1), [])) == is_shown


DAY = 86400 * 10**9
# a program that replies to registers
REPLAY = """
from tb_client import Reply
from telovamish.streams import Entry, read_dump

for it in read_dump(sys.stdin.buffer):
    if isinstance(it, Entry):
        reply = Reply(it.request.client, it.commit, 0, 2, 0, it.commit, b"")
        sys.stdout.buffer.write(reply.to_bytes())
        sys.stdout.buffer.flush()
"""


@pytest.mark.parametrize(
    "word, first, last",
    [
        ("1970-01-02", DAY, 2 * DAY - 1),
        ("1970-01-02T00:00Z", DAY, DAY),
        ("1970-01-02T00:00:00.5Z", DAY + 5 * 10**8, DAY + 5 * 10**8),
        ("1970", 1970, 1970),
        ("2262-04-11", 106751 * DAY, 2**63 - 1),
    ],
)
def test_a_day_is_whole(word: str, first: int, last: int) -> None:
    """As `--from` its first moment counts, as `--to` its last one."""
    assert (time_of(word), last_time_of(word)) == (first, last)


@pytest.mark.parametrize("word", ["", "1970-02-30", "2262-04-12", "1970-1-2", "-1", "9" * 20, "٣"])
def test_no_time(word: str) -> None:
    for read in (time_of, last_time_of):
        with pytest.raises(click.BadParameter):
            read(word)


def test_the_entries_of_a_day(tmp_path: pathlib.Path) -> None:
    program = tmp_path / "tbs"
    program.write_text(f"#!{sys.executable}\nimport sys\nsys.path[:] = {sys.path}\n{REPLAY}")
    program.chmod(0o755)
    entries = [entry_of(it, it * DAY // 2, it, "register") for it in range(1, 6)]
    dump = b"".join(map(item_bytes, [Head(1, 1), *entries]))
    for words, wanted in (
        (["--to", "1970-01-02"], [1, 2, 3]),
        (["--from", "1970-01-02", "--to", "1970-01-02"], [2, 3]),
        (["--to", "1970-01-02T00:00Z"], [1, 2]),
    ):
        status, out, errors = ran("audit", "--tbs", str(program), *words, given=dump)
        assert (status, errors) == (0, "")
        found = [json.loads(it) for it in out.splitlines()]
        assert [int(it["commit"]) for it in found if "commit" in it] == wanted


@pytest.mark.parametrize(
    "time, utc",
    [
        (12 * 10**9, "1970-01-01T00:00:12Z"),
        (20 * 10**9 + 500_000_000, "1970-01-01T00:00:20.5Z"),
        (10**9 + 10, "1970-01-01T00:00:01.00000001Z"),
        (2**63 - 1, "2262-04-11T23:47:16.854775807Z"),
    ],
)
def test_zeros_at_the_end_of_a_second_are_left_out(time: int, utc: str) -> None:
    (line,) = Audit(Wanted(is_utc=True)).lines(ENTRY._replace(time=time), Ledger(1), [])
    assert line["utc"] == utc


def test_lines_of_an_account() -> None:
    """Its transfers on either side, and its balances if they changed."""
    audit, ledger = Audit(Wanted(account=1)), Ledger(2)
    history = [
        (entry_of(1, 1, 7, "register"), []),
        (entry_of(2, 4, 7, "create_accounts", *map(account, (1, 2, 3))), ["event", "account"]),
        (entry_of(3, 5, 7, "create_transfers", transfer(11, 2, 1, 5)), ["event", "account"]),
        (entry_of(4, 6, 7, "create_transfers", transfer(12, 1, 3, 5)), ["event", "account"]),
        (entry_of(5, 7, 7, "create_transfers", transfer(13, 2, 3, 5)), []),
        (entry_of(6, 8, 7, "create_transfers", transfer(14, 1, 3, 0)), ["event"]),
    ]
    for entry, wanted in history:
        found = entered(ledger, entry)
        assert [[*it][-1] for it in audit.lines(entry, ledger, found)] == wanted, entry


def test_a_check_of_an_audit(tbs: str) -> None:
    script = (APP.parent.parent / "examples" / "first.script").read_bytes()
    dump = subprocess.run([tbs, "dump", "2"], input=script, capture_output=True).stdout
    status, out, errors = ran("audit", "--check", "--tbs", tbs, given=dump)
    assert (status, len(out.splitlines())) == (0, 6)
    counts = "2 accounts, 0 transfers, 0 pending transfers, 1 sessions"
    assert errors == f"telovamish: as in tbs: {counts}\n"


LEDGERS = (1, 700, 2**32 - 1)


@pytest.fixture
def dump_of_ledgers(tbs: str) -> bytes:
    """A history of several ledgers: in each two accounts, a transfer, and a pending one that
    expires."""
    pairs = [Pair(0, 7, 0, 0, "register", b"")]
    for number, ledger in enumerate(LEDGERS):
        accounts = [account(10 * number + it, ledger=ledger, code=1) for it in (1, 2)]
        first = transfer(
            10 * number + 1, 10 * number + 1, 10 * number + 2, 5, ledger=ledger, code=1
        )
        held = transfer(10 * number + 2, 10 * number + 1, 10 * number + 2, 5, ledger=ledger, code=1)
        held.flags, held.timeout = TRANSFER_FLAGS["pending"], 1
        for name, records in (("create_accounts", accounts), ("create_transfers", [first, held])):
            body = b"".join(it.to_bytes() for it in records)
            pairs.append(Pair(0, 7, 1, len(pairs), name, body))
    pairs.append(Pair(5 * 10**9, 7, 1, len(pairs), "lookup_accounts", bytes([1, *bytes(15)])))
    script = b"".join(it.to_bytes() for it in pairs)
    return subprocess.run([tbs, "dump", "2"], input=script, stdout=subprocess.PIPE).stdout


def test_an_audit_has_each_ledger(tbs: str, dump_of_ledgers: bytes) -> None:
    status, out, errors = ran("audit", "--check", "--tbs", tbs, given=dump_of_ledgers)
    lines = [json.loads(it) for it in out.splitlines()]
    events = [it["event"]["ledger"] for it in lines if it.get("result") == "created"]
    expired = [it["expired"]["ledger"] for it in lines if "expired" in it]
    assert events == [it for it in LEDGERS for _ in range(4)]
    assert expired == [*LEDGERS]
    assert [it["count"] for it in lines if "count" in it] == [2] * 6
    counts = "6 accounts, 6 transfers, 3 pending transfers, 1 sessions"
    assert (status, errors) == (0, f"telovamish: as in tbs: {counts}\n")


@pytest.mark.parametrize("number, ledger", enumerate(LEDGERS), ids=map(str, LEDGERS))
def test_an_audit_of_an_account_of_each_ledger(
    tbs: str, dump_of_ledgers: bytes, number: int, ledger: int
) -> None:
    words = ["audit", "--account", str(10 * number + 1), "--tbs", tbs]
    status, out, _ = ran(*words, given=dump_of_ledgers)
    lines = [json.loads(it) for it in out.splitlines()]
    kinds = [next(it for it in line if it in ("event", "account", "expired")) for line in lines]
    assert kinds == ["event", "account", "event", "event", "account", "expired", "account"]
    assert {line[kind]["ledger"] for line, kind in zip(lines, kinds)} == {ledger} and not status


@pytest.mark.parametrize("found", [b"", bytes(128), 2 * bytes([7, *bytes(127)])])
def test_a_record_that_differs(found: bytes) -> None:
    known = {7: Account.read(bytes([7, *bytes(127)]))}
    compare_records(Account, known, bytes([7, *bytes(15)]), known[7].to_bytes())
    with pytest.raises(Differs, match="^account "):
        compare_records(Account, known, bytes([7, *bytes(15)]), found)


def test_a_range_that_ends_before_it_begins():
    status, out, errors = ran("audit", "--from", "2026-11-02", "--to", "2026-11-01")
    said = "telovamish: --from is after --to: there are no entries between them\n"
    assert (status, out, errors) == (2, b"", said)
