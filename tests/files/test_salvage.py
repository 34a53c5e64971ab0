"""What `tbd salvage` gets of a ledger's file of twenty batches that is damaged at one place: the
entries before it, and those after it that still are the next ones.

    python3 -m pytest tests/files/test_salvage.py
"""

import subprocess
from dataclasses import dataclass
from pathlib import Path

import pytest
from .batches import CHECKSUM, LATCH, LENGTH, MAGIC, serve

CLOSED = bytes([90, 195, 150, 105])  # a closed latch
FIXED = LATCH + LENGTH + CHECKSUM
DAMAGED = 6  # the exit status if bytes are lost
REFUSED = (5, DAMAGED)  # exit statuses: NotAJournal, Damaged


@dataclass
class Whole:
    """A whole file, its dump, and the offset of each block; after the head's those of entries."""

    tbd: str
    data: bytes
    dump: bytes
    blocks: list

    def salvaged(self, folder, data):
        """The exit status of a salvage, what it printed, and the dump of the new file."""
        old, new = folder / "old", folder / "new"
        old.write_bytes(data)
        done = subprocess.run([self.tbd, "salvage", old, new], capture_output=True, check=False)
        dump = subprocess.run([self.tbd, "dump", new], capture_output=True, check=False)
        assert old.read_bytes() == data
        return done.returncode, done.stdout.decode(), dump.stdout


def blocks_of(data):
    at = len(MAGIC)
    while at + LATCH < len(data):
        yield at
        at += FIXED + int.from_bytes(data[at + LATCH : at + LATCH + LENGTH], "little")


@pytest.fixture(scope="module", name="whole")
def fixture_whole(program, tmp_path_factory):
    tbd, path = str(program("tbd").resolve()), tmp_path_factory.mktemp("whole") / "ledger"
    serve(tbd, str(path))
    data = Path(path).read_bytes()
    dump = subprocess.run([tbd, "dump", path], capture_output=True, check=True).stdout
    return Whole(tbd, data, dump, list(blocks_of(data)))


def put(data, at, values):
    return data[:at] + values + data[at + len(values) :]


def lines_of(printed):
    return dict(line.rsplit(" ", 1) for line in printed.splitlines()[:3])


# The block of entry 10, and of the last one.
BLOCKS = (10, -1)


@pytest.mark.parametrize("block", BLOCKS)
@pytest.mark.parametrize(
    "at, values",
    [
        (0, CLOSED),
        (4, b"\xee"),
        (6, b"\xff"),
        (0, bytes(4)),
        (0, bytes(7)),
        (0, bytes(range(7))),
    ],
    ids=["latch", "length", "long", "open", "zeros", "both"],
)
def test_no_entry_is_lost_with_a_latch_or_a_length(whole, tmp_path, block, at, values):
    place = whole.blocks[block]
    status, printed, dump = whole.salvaged(tmp_path, put(whole.data, place + at, values))
    assert status == 0
    assert dump == whole.dump
    lost = "bytes lost 0" in printed or "bytes after the records 0" in printed
    assert lost, printed
    count = len(whole.blocks) - 1
    assert lines_of(printed)["entries"] == str(count)
    more = count - block + 1 if block > 0 else 1
    read_on = f"read on {more} of the entries from byte {place}\n"
    # four zeros are an open latch, as what stood there
    assert printed.endswith(read_on) == (values != bytes(4)), printed


@pytest.mark.parametrize("change", ["in", "out"])
def test_no_entry_is_lost_with_bytes_between_blocks(whole, tmp_path, change):
    place = whole.blocks[10]
    there = {"in": b"between" * 100 + whole.data[place:], "out": whole.data[place + 4 :]}
    status, printed, dump = whole.salvaged(tmp_path, whole.data[:place] + there[change])
    assert (status, dump) == ({"in": DAMAGED, "out": 0}[change], whole.dump), printed


def test_nothing_is_lost_with_the_last_latch(whole, tmp_path):
    data = put(whole.data, len(whole.data) - LATCH, b"\0")
    status, printed, dump = whole.salvaged(tmp_path, data)
    assert (status, dump) == (0, whole.dump), printed


@pytest.mark.parametrize("at", [LATCH + LENGTH, FIXED, FIXED + 8, FIXED + 70])
@pytest.mark.parametrize("count", [1, 4, 16, 512])
def test_an_entry_that_is_lost_takes_the_later_ones(whole, tmp_path, at, count):
    place = whole.blocks[10]
    old = whole.data[place + at : place + at + count]
    data = put(whole.data, place + at, bytes(it ^ 255 for it in old))
    status, printed, dump = whole.salvaged(tmp_path, data)
    assert status == DAMAGED
    assert whole.dump.startswith(dump)
    assert lines_of(printed)["entries"] == "9", printed
    assert f"bytes lost {len(data) - place - LATCH} after byte {place}: Damaged: " in printed


@pytest.mark.parametrize("at, values", [(it, b"\0") for it in range(8)] + [(0, bytes(8))])
def test_nothing_is_lost_with_the_magic(whole, tmp_path, at, values):
    data = put(whole.data, at, values)
    status, printed, dump = whole.salvaged(tmp_path, data)
    assert (status, dump) == (0, whole.dump)
    assert printed.endswith("\ndamaged magic: the first 8 bytes are not a journal's\n"), printed


def test_a_loss_and_a_magic_are_said(whole, tmp_path):
    place = whole.blocks[10]
    data = put(put(whole.data, 0, b"\0"), place + FIXED, bytes(4))
    status, printed, dump = whole.salvaged(tmp_path, data)
    assert status == DAMAGED and whole.dump.startswith(dump)
    assert printed.endswith("\ndamaged magic: the first 8 bytes are not a journal's\n"), printed


def test_a_magic_and_a_latch_lose_nothing(whole, tmp_path):
    data = put(put(whole.data, 0, b"\0"), whole.blocks[10], CLOSED)
    status, printed, dump = whole.salvaged(tmp_path, data)
    assert (status, dump) == (0, whole.dump)
    more = len(whole.blocks) - 10
    assert f"read on {more} of the entries from byte {whole.blocks[10]}\ndamaged magic" in printed


def test_a_file_of_another_magic_is_not_backed_up(whole, tmp_path):
    (tmp_path / "old").write_bytes(put(whole.data, 0, b"\0"))
    done = subprocess.run([whole.tbd, "backup", "old", "new"], cwd=tmp_path, check=False)
    assert done.returncode == 5 and not (tmp_path / "new").exists()


@pytest.mark.parametrize("at", [len(MAGIC) + LATCH, len(MAGIC) + FIXED])
@pytest.mark.parametrize("first", [MAGIC[:1], b"\0"])
def test_no_rules_no_new_file(whole, tmp_path, at, first):
    data = put(put(whole.data, at, b"\0"), 0, first)
    status, printed, dump = whole.salvaged(tmp_path, data)
    assert status in REFUSED
    assert not printed and not dump and not (tmp_path / "new").exists()
