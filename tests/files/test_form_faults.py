"""Each read, write and sync of a form of `tbd` fails in turn: the exit status and the line name it,
and the ledger or log loses nothing. If a call takes a part or is interrupted, nothing is reported.
Calls fail by shim.c, which needs gcc.

    python3 -m pytest tests/files/test_form_faults.py
"""

import errno
import itertools
import re

import pytest

from . import kinds
from .calls import environment
from .kinds import AGAIN, REPLIES, SCRIPT

FAILED = 1, "tbd: Device: {}: a read or write failed; look at the disk, and start again\n"
FULL = (
    8,
    "tbd: Full: {}: the disk is full, or the file has its greatest length; free space, and start"
    " again\n",
)
SYNC = (
    9,
    "tbd: SyncFailed: {}: restart the machine or copy the file before the next start\n",
)
# The same of a new file, of which the part is there then. The next try begins it again.
NEW = {
    FAILED: (
        1,
        "tbd: Device: {}.part: a read or write failed; look at the disk, and start again\n",
    ),
    FULL: (
        8,
        "tbd: Full: {}.part: the disk is full, or the file has its greatest length; remove it, free"
        " space, and start again\n",
    ),
    SYNC: (9, "tbd: SyncFailed: {}.part: it may be lost; look at the disk, and start again\n"),
}
# The last sync is that of the folder, after which the new file has its name.
NAMED = 9, "tbd: SyncFailed: {}: its name may be lost; look at the disk, and copy the file again\n"
# The call that fails and with what, and how that is told.
FAULTS = [
    ("read", errno.EIO, FAILED),
    ("write", errno.EIO, FAILED),
    ("write", errno.ENOSPC, FULL),
    ("sync", errno.EIO, SYNC),
    ("write", errno.EDQUOT, FULL),
    ("write", errno.EFBIG, FULL),
]
MADE = "tbd: made ledger\n"
NEWS = "", MADE
# What goes out over a file of this kind if no call fails.
WHOLE = {"nothing": REPLIES, "torn": AGAIN}
CUT = "tbd: cut {} bytes of a batch that was not committed, after byte {}\n"


@pytest.fixture(name="tbd")
def fixture_tbd(program):
    return str(program("tbd").resolve())


class Failing:
    """A form in a folder, of which one call on one file fails."""

    def __init__(self, tbd, shim, folder, words, file="ledger", given=SCRIPT):
        self.tbd, self.folder, self.words, self.given = tbd, folder, words.split(), given
        self.shim, self.file = shim, file

    def ran(self, call, number, why):
        """The form with this call failing; without a failure if the number is 0."""
        env = environment(self.shim, self.file, fault=f"{call} {number} {why}" if number else "")
        return kinds.ran(self.tbd, self.folder, self.words, self.given, env=env)

    def fresh(self, kind):
        """Nothing is in the folder but a new file of this kind."""
        for it in self.folder.iterdir():
            it.unlink()
        kinds.made(self.folder, kind)

    def turns(self, kind, call, why):
        """What is reported if the first such call fails, then the second, up to the last; each time
        over a new file of this kind."""
        for number in itertools.count(1):
            self.fresh(kind)
            told = self.ran(call, number, why)
            if told[0] == 0:
                return
            yield number, told


def is_told(told, fault, file, news=("",)):
    """The exit status and the line are those of a fault, after what a start reports."""
    status, line = fault
    return told[0] == status and told[2] in [it + line.format(file) for it in news]


@pytest.mark.parametrize("call, why, fault", FAULTS)
@pytest.mark.parametrize("words", ["check ledger", "dump ledger", "dump ledger --after 1"])
def test_a_form_that_reads(tbd, shim, tmp_path, words, call, why, fault):
    """It syncs and writes nothing."""
    failing = Failing(tbd, shim, tmp_path, words)
    told = list(failing.turns("a ledger", call, why))
    assert bool(told) == (call == "read")
    whole = {"check ledger": b"", "dump ledger": kinds.DUMP}.get(words, kinds.ENTRIES[1])
    for number, it in told:
        assert is_told(it, fault, "ledger") and whole.startswith(it[1]), (number, it)
    assert (tmp_path / "ledger").read_bytes() == kinds.LEDGER


@pytest.mark.parametrize("call, why, fault", FAULTS)
@pytest.mark.parametrize("kind", ["nothing", "no byte", "no record", "a ledger", "torn"])
def test_a_start_and_a_commit(tbd, shim, tmp_path, kind, call, why, fault):
    """What went out begins the replies, and is in the file. The next start cuts off what was not
    committed."""
    failing = Failing(tbd, shim, tmp_path, "run ledger 2 --drop-torn")
    count = 0
    for number, told in failing.turns(kind, call, why):
        assert is_told(told, fault, "ledger", (*NEWS, CUT.format(5, 191))), (number, told)
        assert REPLIES.startswith(told[1]) or AGAIN.startswith(told[1])
        status, out, said = failing.ran(call, 0, 0)
        assert status == 0 and out in ((AGAIN,) if told[1] else (REPLIES, AGAIN)), (number, out)
        # With nothing before the bytes that are cut off, a ledger is made.
        cut = CUT.format("[0-9]+", "(25|191)"), NEWS[1] + CUT.format("[0-9]+", "8")
        assert said in NEWS or any(re.fullmatch(it, said) for it in cut), (number, said)
        assert (tmp_path / "ledger").read_bytes() == kinds.LEDGER
        count = number
    # Over the ledger itself nothing is written: what is sent was answered before.
    assert count or (kind, call) == ("a ledger", "write")


@pytest.mark.parametrize("call", ["read", "write", "sync"])
@pytest.mark.parametrize("kind", ["nothing", "torn"])
def test_a_call_that_is_interrupted(tbd, shim, tmp_path, kind, call):
    """Whichever it is, it is made again."""
    failing = Failing(tbd, shim, tmp_path, "run ledger 2 --drop-torn")
    for number in range(1, 10):
        failing.fresh(kind)
        assert failing.ran(call, number, errno.EINTR)[:2] == (0, WHOLE[kind]), number
        assert (tmp_path / "ledger").read_bytes() == kinds.LEDGER


@pytest.mark.parametrize("part", [1, 7, 20])
@pytest.mark.parametrize("kind", WHOLE)
def test_calls_that_take_a_part(tbd, shim, tmp_path, kind, part):
    """A write takes so many bytes first, or each read gives so many at most."""
    failing = Failing(tbd, shim, tmp_path, "run ledger 2 --drop-torn")
    faults = [("short", number, part) for number in range(1, 9)]
    for fault in [("few", part, 0), *faults]:
        failing.fresh(kind)
        assert failing.ran(*fault)[:2] == (0, WHOLE[kind]), fault
        assert (tmp_path / "ledger").read_bytes() == kinds.LEDGER


def test_a_disk_that_is_full_after_each_number_of_bytes(tbd, shim, tmp_path):
    failing = Failing(tbd, shim, tmp_path, "run ledger 2 --drop-torn")
    for room in range(1, len(kinds.LEDGER)):
        failing.fresh("nothing")
        told = failing.ran("full", room, 0)
        assert is_told(told, FULL, "ledger", NEWS) and REPLIES.startswith(told[1]), (room, told)
        status, out, _ = failing.ran("full", 0, 0)
        assert status == 0 and out in ((AGAIN,) if told[1] else (REPLIES, AGAIN)), (room, out)
        assert (tmp_path / "ledger").read_bytes() == kinds.LEDGER


@pytest.mark.parametrize("call, why, fault", [FAULTS[0], FAULTS[3]])
@pytest.mark.parametrize("form", ["salvage", "backup"])
def test_a_copy_whose_file_fails(tbd, shim, tmp_path, form, call, why, fault):
    failing = Failing(tbd, shim, tmp_path, f"{form} ledger new")
    count = 0
    for number, told in failing.turns("a ledger", call, why):
        made = is_told(told, NAMED, "new")
        assert made or is_told(told, fault, "ledger") or is_told(told, NEW[fault], "new"), told
        assert told[1] == b"" and (tmp_path / "ledger").read_bytes() == kinds.LEDGER
        assert (tmp_path / "new").exists() == made, number
        count = number
    assert count and made == (call == "sync")


# What a new file has if a call on it fails: nothing, a journal's first bytes, a ledger without
# entries, or with all of them; after each what is not committed yet.
STAGES = [b"", kinds.MAGIC + kinds.CLOSED, kinds.up_to(kinds.HEAD_END), kinds.LEDGER]


def is_stage(data):
    """Up to its closed latch the bytes are those of a stage."""
    return any(data[: len(it)] == it for it in STAGES[1:]) or len(data) < len(STAGES[1])


@pytest.mark.parametrize("call, why, fault", FAULTS[1:3])
@pytest.mark.parametrize("form", ["salvage", "backup"])
def test_a_copy_whose_new_file_fails(tbd, shim, tmp_path, form, call, why, fault):
    failing = Failing(tbd, shim, tmp_path, f"{form} ledger new", "new.part")
    seen = []
    for number, told in failing.turns("a ledger", call, why):
        assert is_told(told, NEW[fault], "new") and told[1] == b"", (number, told)
        data = (tmp_path / "new.part").read_bytes()
        assert is_stage(data) and not (tmp_path / "new").exists(), (number, data)
        seen.append(next(n for n, it in reversed(list(enumerate(STAGES))) if data.startswith(it)))
    assert seen == sorted(seen) and {0, 1, 2} <= set(seen)
    assert (tmp_path / "new").read_bytes() == kinds.LEDGER
    assert not (tmp_path / "new.part").exists()
