"""Lines of faults, each of which names the file, the cause and what to do next: over files that a
crash or a cut leaves, files of another kind, disks and limits of the system.

    python3 -m pytest tests/files/test_fault_lines.py
"""

import resource
import shutil
import subprocess

import pytest

from . import kinds
from .calls import environment
from .kinds import CLOSED, FILES, LEDGER, MAGIC, SCRIPT, block, changed, none, ran

BEGUN = none(
    "ends before its first record; restore a backup if it had one, or start without --existing"
)
NO_RECORD = none("has no record yet; tbd run makes a ledger in it")
CLOSED_FIRST = none(
    "has a closed first latch at byte 8 and bytes after it; restore a backup if it had a record:"
    " tbd salvage finds none, and tbd run may cut these bytes off and begin a new ledger"
)
NO_HEAD = none("has a first record that is no ledger's head; restore a backup")
EMPTY = none("is empty; without --existing tbd run makes a ledger in it")
RUN = "run ledger 2 --existing"
READS = "check ledger", "dump ledger", "salvage ledger new", "backup ledger new"
OTHERS_RECORD = FILES["another's record"]
ROTTEN_LEDGER = changed(LEDGER, 23)
# A whole file, except that the first latch reads closed.
CLOSED_LEDGER = MAGIC + CLOSED + LEDGER[12:]
HEAD_AT = (
    6,
    "tbd: Damaged: ledger: the block at byte 8 (the head) is not what was written; restore a"
    " backup: tbd salvage needs the head\n",
)
# A file, what is asked for over it, and what is reported.
ROWS = [
    *((MAGIC[:5], words, BEGUN) for words in (RUN, *READS)),
    *((MAGIC, words, BEGUN) for words in (RUN, *READS)),
    *((MAGIC + CLOSED[:2], words, BEGUN) for words in (RUN, *READS)),
    *((MAGIC + CLOSED, words, NO_RECORD) for words in READS),
    *((MAGIC + CLOSED + b"\0", words, CLOSED_FIRST) for words in READS),
    *((CLOSED_LEDGER, words, CLOSED_FIRST) for words in READS),
    *((MAGIC + block(b"\1\2\3") + CLOSED, words, NO_HEAD) for words in (RUN, *READS)),
    *((OTHERS_RECORD, words, NO_HEAD) for words in (RUN, *READS)),
    *((changed(OTHERS_RECORD, 60), words, HEAD_AT) for words in (RUN, *READS)),
    *((ROTTEN_LEDGER, words, HEAD_AT) for words in (RUN, *READS)),
    (b"", RUN, EMPTY),
]


@pytest.fixture(name="tbd")
def fixture_tbd(program):
    return str(program("tbd").resolve())


@pytest.mark.parametrize("data, words, told", ROWS)
def test_files_without_a_record_or_of_another_kind(tbd, tmp_path, data, words, told):
    """The line says what the file is, and nothing is changed."""
    (tmp_path / "ledger").write_bytes(data)
    status, line = told
    assert ran(tbd, tmp_path, words.split()) == (status, b"", line)
    assert (tmp_path / "ledger").read_bytes() == data and not (tmp_path / "new").exists()


FEW = [
    ("check ledger", 4, "ledger"),
    ("run ledger 2", 4, "ledger"),
    ("run other 2", 4, "other"),
    ("run other 2", 5, "other"),
    ("backup ledger new", 5, "new"),
]


@pytest.mark.parametrize("words, limit, file", FEW)
def test_too_many_open_files(tbd, tmp_path, words, limit, file):
    """Each file takes one descriptor more for a moment, and one that is made its folder's. No empty
    file is left."""
    kinds.made(tmp_path, "a ledger")

    def few():
        resource.setrlimit(resource.RLIMIT_NOFILE, (limit, limit))

    told = ran(tbd, tmp_path, words.split(), preexec_fn=few)
    line = "too many files are open; raise their number by ulimit -n"
    assert told == (1, b"", f"tbd: Device: cannot open {file}: {line}\n")
    assert (tmp_path / "ledger").read_bytes() == LEDGER
    assert [it.name for it in tmp_path.iterdir()] == ["ledger"]


READ_ONLY = 'mount --bind "$1" "$1" && mount -o remount,bind,ro "$1" && shift && exec "$@"'


@pytest.mark.parametrize(
    "words, file",
    [
        ("run shelf/ledger 2", "shelf/ledger"),
        ("run shelf/other 2", "shelf/other"),
        ("backup shelf/ledger shelf/new", "shelf/new"),
    ],
)
def test_a_disk_that_is_read_only(tbd, tmp_path, words, file):
    """In a namespace of its own, if one can be made."""
    shelf = tmp_path / "shelf"
    shelf.mkdir()
    kinds.made(shelf, "a ledger")
    mounted = ["unshare", "-rm", "sh", "-c", READ_ONLY, "sh", str(shelf)]
    probe = [*mounted, "sh", "-c", '! touch "$0"', str(shelf / "ledger")]
    if (
        not shutil.which("unshare")
        or subprocess.run(probe, capture_output=True, check=False).returncode
    ):
        pytest.skip("needs root, or a namespace of its own, to mount a disk read-only")
    told = ran(mounted[0], tmp_path, [*mounted[1:], tbd, *words.split()])
    line = "is on a disk that is read-only; mount it for writing, or name a file on another disk"
    assert told == (1, b"", f"tbd: Device: {file} {line}\n")


@pytest.mark.parametrize(
    "given, name", [(SCRIPT[:-1], "Short"), (SCRIPT + b"\0", "Short"), (bytes(200), "ClientZero")]
)
def test_a_request_that_is_refused(tbd, tmp_path, given, name):
    """What comes before it was answered, and the line says where it came from."""
    status, out, said = ran(tbd, tmp_path, ["run", "ledger", "2"], given)
    assert (status, said.splitlines()[1:]) == (
        2,
        [
            f"tbd: {name}: the next request on standard input is refused; those before it were"
            " answered"
        ],
    )
    assert kinds.REPLIES.startswith(out)


@pytest.mark.parametrize("form", ["salvage", "backup"])
def test_a_new_file_that_is_not_whole(tbd, shim, tmp_path, form):
    """The line says what the next try needs, and after that it is made of the same part."""
    kinds.made(tmp_path, "a ledger")
    env = environment(shim, "new.part", fault="full 90")
    told = ran(tbd, tmp_path, [form, "ledger", "new"], env=env)
    line = (
        "tbd: Full: new.part: the disk is full, or the file has its greatest length; remove it,"
        " free space, and start again\n"
    )
    assert told == (8, b"", line)
    assert not (tmp_path / "new").exists() and (tmp_path / "new.part").exists()
    assert ran(tbd, tmp_path, [form, "ledger", "new"])[0] == 0
    assert (tmp_path / "new").read_bytes() == LEDGER
