"""A start over torn bytes copies them to a file of their own before it cuts them off.

    python3 -m pytest tests/files/test_asides.py

The same bytes have one copy, a torn copy is made again, and at most 16 are made. If no copy can be
made, the start ends as NotCopied, and the file is as it was; --drop-torn goes on without a copy.
"""

import os
import resource
import signal
import struct
import shutil
import subprocess
from pathlib import Path

import pytest
from tb_client import Operation, request_frame
from checksums import crc32c

from .calls import Call, calls_of, environment

NOT_COPIED, COPIES = 11, 16
NOBODY = 65534
TORN = b"\0\0\0\0 a torn batch"


class Kept:
    """A file with an entry, and a program that starts over it."""

    def __init__(self, tbd, path):
        self.tbd, self.path = tbd, path
        self.words = [tbd, "run", path.name, "8"]
        frame = struct.pack("<Q", 10) + request_frame(7, 0, 0, Operation.register, b"")
        assert self.starts(input=frame)[0] == 0
        self.data = path.read_bytes()

    def starts(self, *options, **how):
        """The status of a start without requests, and its lines."""
        done = subprocess.run(
            [*self.words, *options], cwd=self.path.parent, capture_output=True, check=False, **how
        )
        return done.returncode, done.stderr.decode()

    def is_torn(self, torn=TORN):
        self.path.write_bytes(self.data + torn)

    def copy(self, torn=TORN):
        return self.path.with_name(f"{self.path.name}.cut-{len(self.data)}-{crc32c(torn):08x}")

    def copies(self):
        return sorted(self.path.parent.glob(f"{self.path.name}.cut-*"))

    def news(self, torn=TORN, wholes="0 whole entries"):
        copied = f"tbd: copied {len(torn)} bytes, from byte {len(self.data)} on, {wholes}, to "
        where = len(self.data) - 4
        return (
            f"{copied}{self.copy(torn).name}\n"
            f"tbd: cut {len(torn)} bytes of a batch that was not committed, after byte {where}\n"
        )

    def is_whole(self, torn=TORN):
        """The bytes have a copy, and the file no longer has them."""
        return self.copy(torn).read_bytes() == torn and self.path.read_bytes() == self.data

    def refuses(self, said, *options, **how):
        """A start copies nothing, and the file is as it was."""
        before, copies = self.path.read_bytes(), self.copies()
        assert self.starts(*options, **how) == (NOT_COPIED, f"tbd: NotCopied: ledger{said}\n")
        assert self.path.read_bytes() == before and self.copies() == copies


@pytest.fixture(name="kept")
def fixture_kept(program, tmp_path):
    return Kept(program("tbd").resolve(), tmp_path / "ledger")


def test_torn_bytes_are_copied(kept):
    kept.is_torn()
    assert kept.starts() == (0, kept.news())
    assert kept.is_whole()
    assert kept.copy().stat().st_mode & 0o777 == 0o600
    assert kept.starts() == (0, "") and kept.copies() == [kept.copy()]


def cut_after_its_copy(kept, shim, mutant=""):
    """Whether a start syncs the copy of torn bytes, and its folder, before it cuts them off."""
    kept.is_torn()
    log = kept.path.with_name("calls")
    assert kept.starts(env=environment(shim, kept.path, log=log, mutant=mutant))[0] == 0
    assert kept.is_whole()
    calls = list(calls_of(log))
    cut = calls.index(Call("T", len(kept.data)))
    copy = Call("C", kept.copy().stat().st_ino)
    folder = Call("F", kept.path.parent.stat().st_ino)
    return copy in calls[:cut] and folder in calls[calls.index(copy) : cut]


def test_a_copy_is_durable_before_the_cut(kept, shim):
    assert cut_after_its_copy(kept, shim)


def test_the_mutant_without_a_sync_of_the_copy_is_caught(kept, shim):
    assert not cut_after_its_copy(kept, shim, "no-sync-of-a-copy")


def block(record):
    """A block after its latch."""
    length = len(record).to_bytes(3, "little")
    return length + struct.pack("<I", crc32c(length + record)) + record


def entry(commit):
    frame = request_frame(7 + commit, 0, 0, Operation.register, b"")
    return struct.pack("<QQ", commit, 9 + commit) + frame


OPEN, CLOSED = bytes([255] * 4), bytes([90, 195, 150, 105])
SECOND, THIRD, FOURTH = (block(entry(commit)) for commit in (2, 3, 4))
WHOLES = {
    "a batch": (OPEN.join((SECOND, THIRD, FOURTH)) + CLOSED, "3 whole entries (2 to 4)"),
    "the first of two": (SECOND + OPEN + THIRD[:-1], "1 whole entry (2)"),
    "no latch behind it": (SECOND, "1 whole entry (2)"),
    "another latch": (SECOND + b"\1\2\3\4" + THIRD, "2 whole entries (2 to 3)"),
    "behind the end": (SECOND + CLOSED + THIRD + CLOSED, "1 whole entry (2)"),
    "one left out": (SECOND + OPEN + FOURTH + CLOSED, "1 whole entry (2)"),
    "not the next one": (THIRD + OPEN + FOURTH + CLOSED, "0 whole entries"),
    "one again": (block(entry(1)) + OPEN + SECOND + CLOSED, "0 whole entries"),
    "a rotten one": (SECOND[:-1] + b"\1" + OPEN + THIRD + CLOSED, "0 whole entries"),
    "a short record": (block(b"TBK1\1\2") + CLOSED, "0 whole entries"),
    "part of a length": (SECOND[:2], "0 whole entries"),
}


@pytest.mark.parametrize("name", WHOLES)
def test_whole_entries_are_counted(kept, name):
    torn, wholes = WHOLES[name]
    kept.is_torn(torn)
    assert kept.starts() == (0, kept.news(torn, wholes))
    assert kept.is_whole(torn)


def test_the_same_bytes_have_one_copy(kept):
    for _ in range(COPIES + 1):
        kept.is_torn()
        assert kept.starts("--existing") == (0, kept.news())
    assert kept.is_whole() and kept.copies() == [kept.copy()]


@pytest.mark.parametrize("length", [0, 3, len(TORN)])
def test_a_torn_copy_is_made_again(kept, length):
    kept.is_torn()
    kept.copy().write_bytes(TORN[:length][:-1] + b"\0" * (length > 0))
    assert kept.starts() == (0, kept.news())
    assert kept.is_whole()


def test_another_file_of_that_name_stays(kept):
    for other in (b"x" * 1000, None):
        kept.is_torn()
        if other is None:
            kept.copy().unlink()
            kept.copy().symlink_to("elsewhere")
        else:
            kept.copy().write_bytes(other)
        kept.refuses(
            ": another file has the name of the copy of its torn bytes; move it elsewhere,"
            " or start with --drop-torn"
        )
    assert not (kept.path.parent / "elsewhere").exists()


def test_no_more_copies_than_sixteen(kept):
    for number in range(COPIES):
        torn = TORN + bytes([number])
        kept.is_torn(torn)
        assert kept.starts() == (0, kept.news(torn))
    kept.is_torn()
    kept.refuses(
        " has 16 copies of torn bytes next to it; move them elsewhere, or start with --drop-torn"
    )
    kept.is_torn(torn)
    assert kept.starts() == (0, kept.news(torn)), "it has a copy"


def test_an_option_copies_nothing(kept):
    kept.is_torn()
    status, said = kept.starts("--drop-torn")
    assert (status, said) == (0, kept.news()[kept.news().index("tbd: cut") :])
    assert kept.path.read_bytes() == kept.data and not kept.copies()


def limited():
    """No file may be longer than the ledger's."""
    signal.signal(signal.SIGXFSZ, signal.SIG_IGN)
    resource.setrlimit(resource.RLIMIT_FSIZE, (1, 1))


def test_without_space(kept):
    kept.is_torn()
    kept.refuses(
        ": the disk is full; free space for a copy of its torn bytes, or start with --drop-torn",
        preexec_fn=limited,
    )


def test_without_permission(tbd, folder):
    """Root, who may write everywhere, starts it as another user."""
    user = {"user": NOBODY} if os.geteuid() == 0 else {}
    path = Path(folder) / "ledger"
    kept = Kept(shutil.copy(tbd, f"{folder}/tbd"), path)
    kept.is_torn()
    if user:
        os.chown(path, NOBODY, NOBODY)
    path.parent.chmod(0o555)
    try:
        kept.refuses(
            ": no permission to copy its torn bytes next to it; allow that,"
            " or start with --drop-torn",
            **user,
        )
    finally:
        path.parent.chmod(0o755)
