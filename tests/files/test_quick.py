"""`tbd check FILE --quick`: checksums, commit numbers and times, without the ledger.

    python3 -m pytest tests/files/test_quick.py

Files are written here, block by block, as docs/use/TBD.md says. What `check` accepts the quick one
accepts, with the same lines and one more. What it refuses has the same exit status and line in
both; only the whole check finds a request that is not new.
"""

import struct

import pytest
from tb_client import Account, Operation, request_frame
from checksums import crc32c

from ..conftest import ran

MAGIC, OPEN, CLOSED = b"TBJRNL02", bytes([255] * 4), bytes([90, 195, 150, 105])
HEAD = b"TBK1\1\2"  # of profile 1, for 2 clients
ALL = b"whole: every entry was replayed\n"
NOTE = b"not replayed: only checksums, commit numbers and times were checked\n"
TORN_MAX = 1 << 22


def block(record):
    length = len(record).to_bytes(3, "little")
    return OPEN + length + struct.pack("<I", crc32c(length + record)) + record


def journal(*records, behind=b""):
    return MAGIC + b"".join(map(block, records)) + CLOSED + behind


def registered(commit, time, client):
    return struct.pack("<QQ", commit, time) + request_frame(client, 0, 0, Operation.register)


def created(commit, time, count):
    """An entry of client 7 that creates accounts: its time is above the last by at least as
    many."""
    accounts = (Account(id=it, ledger=700, code=10).to_bytes() for it in range(1, count + 1))
    frame = request_frame(7, 1, 1, Operation.create_accounts, b"".join(accounts))
    return struct.pack("<QQ", commit, time) + frame


@pytest.fixture(name="checks")
def fixture_checks(tbd, tmp_path):
    """Writes a file, and checks it in both ways: each one's exit status, output and lines."""

    def both(data):
        path = tmp_path / "ledger.tbk"
        path.write_bytes(data)
        whole, quick = (ran([tbd, "check", path, *more]) for more in ((), ("--quick",)))
        assert path.read_bytes() == data
        return whole, quick

    return both


FIRST = registered(1, 10, 7)
WHOLE = {
    "the head alone": journal(HEAD),
    "two entries": journal(HEAD, FIRST, registered(2, 11, 8)),
    "a batch at its least time": journal(HEAD, FIRST, created(2, 13, 3)),
    "the last moment": journal(HEAD, FIRST, registered(2, (1 << 63) - 1, 8)),
    "torn bytes": journal(HEAD, FIRST, behind=bytes(TORN_MAX)),
}


@pytest.mark.parametrize("name", WHOLE)
def test_what_a_check_accepts(checks, name):
    (status, out, said), quick = checks(WHOLE[name])
    assert (status, said) == (0, b""), said
    assert out.endswith(ALL) and quick == (0, out.removesuffix(ALL) + NOTE, b"")


SECOND = registered(2, 11, 8)
REFUSED = {
    "nothing": (b"", 5, b"is empty"),
    "another file": (b"a text\n", 5, b"is a text"),
    "no head": (journal(FIRST), 5, b"that is no ledger's head"),
    "no record": (journal(), 5, b"has no record yet"),
    "no such clients": (journal(b"TBK1\1\0", FIRST), 5, b"that is no ledger's head"),
    "a commit again": (journal(HEAD, FIRST, registered(1, 11, 8)), 6, b"entry 2 may not come"),
    "a commit left out": (journal(HEAD, FIRST, registered(3, 11, 8)), 6, b"next: Commit"),
    "a time again": (journal(HEAD, FIRST, registered(2, 10, 8)), 6, b"next: Time"),
    "a batch too early": (journal(HEAD, FIRST, created(2, 12, 3)), 6, b"next: Time"),
    "no such moment": (journal(HEAD, FIRST, registered(2, 1 << 63, 8)), 6, b"next: Time"),
    "a short record": (journal(HEAD, FIRST, SECOND[:15]), 6, b"entry 2 is none: Short"),
    "no frame": (journal(HEAD, FIRST, SECOND + b"\0"), 6, b"entry 2 is none: BadLength"),
    "no latch": (journal(HEAD, FIRST)[:-4], 6, b"the block at byte 100 (entry 2) is not what"),
    "a rotten head": (
        journal(HEAD, FIRST).replace(b"TBK1", b"TBK2"),
        6,
        b"at byte 8 (the head) is",
    ),
    "a rotten entry": (journal(HEAD, FIRST).replace(FIRST, SECOND), 6, b"at byte 25 (entry 1) is"),
    "many torn bytes": (journal(HEAD, FIRST, behind=bytes(TORN_MAX + 1)), 6, b"than one batch"),
}


@pytest.mark.parametrize("name", REFUSED)
def test_what_both_refuse(checks, name):
    data, status, line = REFUSED[name]
    whole, quick = checks(data)
    assert quick == whole
    assert (quick[0], quick[1]) == (status, b"")
    assert line in quick[2], quick[2]


def test_a_request_that_is_not_new(checks):
    """Whether a request is new depends on the sessions, which a quick check does not make."""
    whole, quick = checks(journal(HEAD, FIRST, registered(2, 11, 7)))
    assert whole[0] == 6 and b"entry 2 may not come next: NotNew" in whole[2], whole[2]
    assert quick[0] == 0 and quick[1].startswith(b"records 3\nentries 2\n"), quick


@pytest.mark.parametrize(
    "words, said",
    [
        (["--fast"], "unknown option; that of check is --quick"),
        (["--quick", "--quick"], "an option is given once"),
        (["2"], "too many words"),
    ],
)
def test_other_arguments(tbd, tmp_path, words, said):
    path = tmp_path / "ledger.tbk"
    path.write_bytes(journal(HEAD))
    line = f"tbd: Usage: check {path} {' '.join(words)}: {said}\n"
    assert ran([tbd, "check", path, *words]) == (2, b"", line.encode())
