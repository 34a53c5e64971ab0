"""Files whose records are no ledger's, or not in their order: `tbd` names the first one refused,
and a salvage takes what is before it. Each checksum is right unless a row says otherwise.

    python3 -m pytest tests/files/test_records.py
"""

import pytest
from frames import dump_entry, ids, pair

from . import kinds
from .kinds import CLOSED, HEAD_END, LEDGER, LOOK_UP, MAGIC, REGISTER, block, changed, ran

HEAD = b"TBK1\1\2"
FRAME = pair(10, *REGISTER)[8:]
FIRST = dump_entry(1, 10, FRAME)  # the entry of a register of client 7
EARLY = dump_entry(2, 10, FRAME)
AGAIN = dump_entry(2, 11, FRAME)
SHORT = FIRST[:15]
SALVAGE = "; tbd salvage makes a new file of the entries before it"
NO_HEAD = "NotAJournal: ledger has a first record that is no ledger's head; restore a backup"


def damaged(why):
    return f"Damaged: ledger: {why}{SALVAGE}"


def none_at(at, entry):
    return damaged(f"the block at byte {at} (entry {entry}) is not what was written")


NO_BLOCK_OF_HEAD = (
    "Damaged: ledger: the block at byte 8 (the head) is not what was written; restore a backup: tbd"
    " salvage needs the head"
)


# The records of a file, the byte that is changed in it or None, the status, and what is said. If an
# entry may not come next and a block is damaged, the one that comes first is named.
ROWS = [
    ([FIRST], None, 5, NO_HEAD),
    ([b"TBK2\1\2"], None, 5, NO_HEAD),
    ([HEAD], 20, 6, NO_BLOCK_OF_HEAD),
    ([HEAD, SHORT], None, 6, damaged("entry 1 is none: Short")),
    ([HEAD, FIRST, SHORT], None, 6, damaged("entry 2 is none: Short")),
    ([HEAD, EARLY], None, 6, damaged("entry 1 may not come next: Commit")),
    ([HEAD, FIRST, EARLY], None, 6, damaged("entry 2 may not come next: Time")),
    ([HEAD, FIRST, AGAIN], None, 6, damaged("entry 2 may not come next: NotNew")),
    ([HEAD, EARLY, FIRST], 111, 6, damaged("entry 1 may not come next: Commit")),
    ([HEAD, FIRST, EARLY], 36, 6, none_at(HEAD_END, 1)),
    ([HEAD, FIRST, FIRST], 111, 6, none_at(100, 2)),
]


@pytest.fixture(name="tbd")
def fixture_tbd(program):
    return str(program("tbd").resolve())


def journal(records):
    return MAGIC + b"".join(map(block, records)) + CLOSED


@pytest.mark.parametrize("records, at, status, said", ROWS)
def test_records_that_are_refused(tbd, tmp_path, records, at, status, said):
    data = journal(records)
    if at is not None:
        data = changed(data, at)
    path = tmp_path / "ledger"
    path.write_bytes(data)
    for words in (["check", "ledger"], ["dump", "ledger"], ["run", "ledger", "2"]):
        assert ran(tbd, tmp_path, words) == (status, b"", f"tbd: {said}\n"), words
    assert path.read_bytes() == data


@pytest.mark.parametrize("second", [FIRST, b"\1\2", EARLY, AGAIN])
def test_the_entries_before_are_salvaged(tbd, tmp_path, second):
    (tmp_path / "ledger").write_bytes(journal([HEAD, FIRST, second]))
    status, printed, said = ran(tbd, tmp_path, ["salvage", "ledger", "new"])
    assert status == 6 and said.startswith("tbd: Damaged: ledger: ") and "not copied" in said
    lines = printed.decode().splitlines()
    assert lines[0] == "entries 1" and lines[3].startswith("bytes lost ")
    assert (tmp_path / "new").read_bytes() == journal([HEAD, FIRST])


# A head's block is refused if any part of it is changed: its length, its checksum, its record.
@pytest.mark.parametrize("at", [12, 15, 19, 24])
def test_nothing_is_made_without_rules(tbd, tmp_path, at):
    (tmp_path / "ledger").write_bytes(changed(LEDGER, at))
    for form in ("salvage", "backup"):
        status, printed, said = ran(tbd, tmp_path, [form, "ledger", "new"])
        assert (status, printed, said) == (6, b"", f"tbd: {NO_BLOCK_OF_HEAD}\n")
        assert not (tmp_path / "new").exists()


# Bytes after the closed latch of a file without entries: no bytes, parts of a block, the most that
# a batch has, and more.
BATCH = kinds.TOO_LONG - 1
TAILS = [b"", b"\xff", b"\1" * 7, bytes(40), b"\xff" * BATCH]
TOO_LONG = [b"\xff" * (BATCH + 1), bytes(5_000_000)]


@pytest.mark.parametrize("tail", TAILS, ids=len)
def test_a_torn_batch_is_cut_off(tbd, tmp_path, tail):
    whole = journal([HEAD])
    (tmp_path / "ledger").write_bytes(whole + tail)
    line = f"tbd: cut {len(tail)} bytes of a batch that was not committed, after byte 25\n"
    told = ran(tbd, tmp_path, ["run", "ledger", "2", "--drop-torn"])
    assert told == (0, b"", line if tail else "")
    assert (tmp_path / "ledger").read_bytes() == whole


@pytest.mark.parametrize("tail", TOO_LONG, ids=len)
def test_more_than_a_batch_is_not_cut_off(tbd, tmp_path, tail):
    data = journal([HEAD]) + tail
    (tmp_path / "ledger").write_bytes(data)
    why = f"{len(tail)} bytes are after byte 25, more than one batch can have"
    told = ran(tbd, tmp_path, ["run", "ledger", "2", "--drop-torn"])
    assert told == (6, b"", f"tbd: {damaged(why)}\n")
    assert (tmp_path / "ledger").read_bytes() == data


# A file is created in one that has no bytes of a journal, or its first ones.
@pytest.mark.parametrize("begun", [b"", MAGIC[:5] + bytes(2), MAGIC + CLOSED + b"behind"])
def test_a_creation_is_made_again(tbd, tmp_path, begun):
    (tmp_path / "ledger").write_bytes(begun)
    status, out, _ = ran(tbd, tmp_path, ["run", "ledger", "2", "--drop-torn"])
    assert (status, out) == (0, b"")
    assert (tmp_path / "ledger").read_bytes() == journal([HEAD])


def test_a_file_of_several_pieces(tbd, tmp_path):
    """It is read in pieces of 64 KiB: a record is in two of them, one is longer than a piece."""
    counts = 2500, 2500, 2500, 2500, 6000
    pairs = [
        pair(10, *LOOK_UP[:2], number, LOOK_UP[3], ids(*[0] * count))
        for number, count in enumerate(counts, 1)
    ]
    given = pair(10, *REGISTER) + b"".join(pairs)
    assert ran(tbd, tmp_path, ["run", "ledger", "2"], given)[0] == 0
    path = tmp_path / "ledger"
    data = path.read_bytes()
    records = [HEAD, FIRST]
    for number, it in enumerate(pairs, 2):
        records.append(dump_entry(number, 9 + number, it[8:]))
    assert data == journal(records)
    path.write_bytes(changed(data, len(data) - 5))
    last = len(data) - len(CLOSED) - len(block(records[-1]))
    assert ran(tbd, tmp_path, ["check", "ledger"])[2] == f"tbd: {none_at(last, 6)}\n"
