"""The new file of `tbd salvage` and `tbd backup`: it is NEW.part until all of it is on the disk,
and only then NEW. A copy that is killed or fails at any call leaves no NEW, and the next one begins
NEW.part again. Calls fail, and the program is killed, by shim.c, which needs gcc.

    python3 -m pytest tests/files/test_parts.py
"""

import errno
import fcntl
import itertools
import os
import signal

import pytest

from . import kinds
from .calls import environment

FORMS = pytest.mark.parametrize("form", ["salvage", "backup"])
LINE = "tbd: {}: new.part has all that was copied{}\n"
TAKEN = 2, LINE.format("Usage", ", and its name was taken meanwhile; give it another")
UNNAMED = 1, LINE.format("Device", ", but did not get its name; rename it")
NO_SPACE = 8, LINE.format("Full", ", and there is no space for its name; free space, and rename it")
EXISTS = 2, b"", "tbd: Usage: new exists; give the name of one that is not there\n"


class Copying:
    """A form in a folder with a small ledger."""

    def __init__(self, tbd, shim, folder, form):
        self.tbd, self.shim, self.folder, self.form = tbd, shim, folder, form
        kinds.made(folder, "a ledger")

    def ran(self, fault=""):
        env = environment(self.shim, "new.part", fault=fault)
        return kinds.ran(self.tbd, self.folder, [self.form, "ledger", "new"], env=env)

    def names(self):
        return sorted(it.name for it in self.folder.iterdir())

    def data(self, name):
        return (self.folder / name).read_bytes()

    def is_made(self):
        """The next copy is made, and no part is left."""
        status, printed, said = self.ran()
        assert (status, said) == (0, "") and printed.startswith(b"entries 2\nlast commit 2\n")
        assert self.data("new") == kinds.LEDGER and self.names() == ["ledger", "new"]
        (self.folder / "new").unlink()


@pytest.fixture(name="copying")
def fixture_copying(program, shim, tmp_path, form):
    return Copying(str(program("tbd").resolve()), shim, tmp_path, form)


@FORMS
@pytest.mark.parametrize("part", [0, 3, 1000])
def test_a_copy_that_is_killed_at_a_write(copying, part):
    """Amid each write, or after it."""
    for number in itertools.count(1):
        status, printed, _ = copying.ran(f"die {number} {part}")
        if status == 0:
            break
        assert (status, printed) == (-signal.SIGKILL, b"")
        assert copying.names() == ["ledger", "new.part"], number
        copying.is_made()
    assert number > 3


@FORMS
def test_a_copy_that_is_killed_before_it_gets_its_name(copying):
    assert copying.ran("name 1 0")[:2] == (-signal.SIGKILL, b"")
    assert copying.names() == ["ledger", "new.part"] and copying.data("new.part") == kinds.LEDGER
    copying.is_made()


@FORMS
def test_a_copy_that_is_killed_with_both_names(copying, tmp_path):
    """NEW is whole. Once it is elsewhere, the next copy takes the other name, and changes nothing
    of it."""
    assert copying.ran("name 2 0")[:2] == (-signal.SIGKILL, b"")
    assert copying.data("new") == copying.data("new.part") == kinds.LEDGER
    assert copying.ran() == EXISTS
    (tmp_path / "new").rename(tmp_path / "kept")
    status, printed, said = copying.ran()
    assert (status, said) == (0, "") and printed
    assert copying.names() == ["kept", "ledger", "new"]
    assert copying.data("kept") == copying.data("new") == kinds.LEDGER
    assert not (tmp_path / "kept").samefile(tmp_path / "new")


@FORMS
@pytest.mark.parametrize(
    "fault, told",
    [
        (errno.EPERM, UNNAMED),
        (errno.EIO, UNNAMED),
        (errno.EEXIST, TAKEN),
        (errno.ENOSPC, NO_SPACE),
        (errno.EDQUOT, NO_SPACE),
    ],
    ids=["no hard links", "EIO", "a file that came", "a full disk", "a quota"],
)
def test_a_name_that_is_not_given(copying, fault, told):
    """All is in NEW.part then, and nothing is printed as if it was done."""
    assert copying.ran(f"name 1 {fault}") == (told[0], b"", told[1])
    assert copying.names() == ["ledger", "new.part"] and copying.data("new.part") == kinds.LEDGER
    copying.is_made()


@FORMS
def test_a_name_that_stays(copying):
    """NEW has its name, and is whole."""
    assert copying.ran(f"name 2 {errno.EIO}")[::2] == (0, "")
    assert copying.data("new") == copying.data("new.part") == kinds.LEDGER


@FORMS
@pytest.mark.parametrize("data", [b"", b"what an earlier copy left" * 99], ids=["empty", "long"])
def test_a_part_that_is_left(copying, tmp_path, data):
    """It is made again, with access for its owner only."""
    (tmp_path / "new.part").write_bytes(data)
    assert copying.ran()[::2] == (0, "")
    assert copying.data("new") == kinds.LEDGER and copying.names() == ["ledger", "new"]
    assert os.stat(tmp_path / "new").st_mode & 0o777 == 0o600


@FORMS
def test_a_part_that_another_copy_writes(copying, tmp_path):
    with open(tmp_path / "new.part", "wb") as part:
        part.write(b"half")
        part.flush()
        fcntl.flock(part, fcntl.LOCK_EX)
        line = "tbd: Locked: new.part is open in another program; end that one first\n"
        assert copying.ran() == (4, b"", line)
        assert copying.names() == ["ledger", "new.part"] and copying.data("new.part") == b"half"
    copying.is_made()


@FORMS
@pytest.mark.parametrize("kind", ["folder", "link", "link to nothing"])
def test_a_part_that_is_no_file(copying, tmp_path, kind):
    """What a link leads to stays as it is."""
    part = tmp_path / "new.part"
    if kind == "folder":
        part.mkdir()
    else:
        part.symlink_to("ledger" if kind == "link" else "nowhere")
    line = "tbd: Device: new.part is no regular file; move it elsewhere, or give another name\n"
    assert copying.ran() == (1, b"", line)
    assert copying.names() == ["ledger", "new.part"] and copying.data("ledger") == kinds.LEDGER


@FORMS
def test_a_new_file_that_is_there_first(copying, tmp_path):
    (tmp_path / "new").write_bytes(b"")
    (tmp_path / "new.part").write_bytes(b"half")
    assert copying.ran() == EXISTS
    assert copying.data("new") == b"" and copying.data("new.part") == b"half"
