"""A ledger's file: the programs that read it, once and as it grows, their faults and ends."""

import contextlib
import errno
import os
import pathlib
import signal
import sqlite3
import subprocess
import time

import pytest
from telovamish.streams import item_bytes

from helpers.cases import case
from helpers.made import Made, account, transfer
from helpers.tables import COMMAND, Tables, stand_in
from tb_sql.errors import Gone
from tb_sql.sources import Name

SECONDS = 60  # on a busy machine


@pytest.fixture(autouse=True, scope="module")
def interrupts():
    """In the background of a shell SIGINT is ignored, and programs would inherit that."""
    signal.signal(signal.SIGINT, signal.default_int_handler)


def history():
    made = Made().register().accounts(account(1), account(2))
    for number in range(1, 6):
        made.transfers(transfer(number, 1, 2, 10))
    return made


class Kept(Tables):
    """Tables that are loaded from a ledger's file by stand-ins for `tbd` and `tbs`."""

    def __init__(self, room):
        super().__init__(room)
        self.file = room / "ledger.tbk"
        self.given = ["load", self.path, "--ledger", str(self.file)]
        self.variables = {**os.environ, "WORDS": str(room / "words")}
        self.started = []
        for name in ("tbd", "tbs"):
            self.given += [f"--{name}", stand_in(room, name)]

    def write(self, made, count=None):
        """The file with the first items of a history."""
        self.variables["REPLIES"] = str(self.room / "replies")
        (self.room / "replies").write_bytes(made.replies)
        self.file.write_bytes(b"".join(item_bytes(it) for it, _ in made.steps[:count]))

    def loaded(self, *more, fault=""):
        """A load to its end: the status and what it said on standard error."""
        ran = subprocess.run(
            [*COMMAND, *self.given, *more],
            env={**self.variables, "FAULT": fault},
            capture_output=True,
            text=True,
            timeout=SECONDS,
        )
        return ran.returncode, ran.stderr

    def words(self):
        """The words of the programs that were started after the last call."""
        path = pathlib.Path(self.variables["WORDS"])
        found = path.read_text().splitlines() if path.exists() else []
        path.unlink(missing_ok=True)
        return sorted(it.replace(str(self.file), "FILE") for it in found)

    def follow(self):
        words = [*COMMAND, *self.given, "--follow", "--quiet"]
        it = subprocess.Popen(words, env=self.variables, stderr=subprocess.PIPE)
        self.started.append(it)
        return it

    def close(self):
        for it in self.started:
            it.kill()
            it.communicate()

    def reaches(self, commit):
        """Waits until the tables have an entry."""
        until = time.monotonic() + SECONDS
        while time.monotonic() < until:
            with contextlib.suppress(sqlite3.Error):
                if self.rows("SELECT commit_number FROM position") == [(commit,)]:
                    return
            time.sleep(0.02)
        raise AssertionError(f"the tables have no entry {commit}")

    def end(self, process, number, wanted):
        """Ends a load, and what it started."""
        below = children(process.pid)
        assert len(below) == 2
        process.send_signal(number)
        assert process.wait(SECONDS) == wanted
        until = time.monotonic() + SECONDS
        while not all(map(is_gone, below)):
            assert time.monotonic() < until, "a program goes on"
            time.sleep(0.02)

    def gone(self, process):
        """The exit status of a load whose file went away, and the line by which it ends."""
        said = process.communicate(timeout=SECONDS)[1].decode()
        return process.returncode, said.partition(" is not")[0]


def children(process):
    with open(f"/proc/{process}/task/{process}/children") as file:
        return [int(it) for it in file.read().split()]


def is_gone(process):
    """Whether a process has ended, though nobody may have asked for its status."""
    try:
        with open(f"/proc/{process}/stat") as file:
            return file.read().rpartition(")")[2].split()[0] == "Z"
    except OSError:
        return True


@pytest.fixture
def kept(tmp_path):
    it = Kept(tmp_path)
    yield it
    it.close()


def test_words(kept):
    kept.write(history())
    assert kept.loaded() == (0, "")
    assert kept.words() == ["tbd dump FILE", "tbs replay"]
    before = kept.contents()
    assert kept.loaded() == (0, "")
    assert kept.words() == ["tbd dump FILE", "tbs replay"]
    assert kept.contents() == before


@pytest.mark.parametrize("name", ["ledger.tbk", "link"])
def test_tables_in_the_ledger_s_own_file(kept, name):
    """They are refused. An empty one, such as that of a server that has only started, was made
    a file of SQLite."""
    (kept.room / "link").symlink_to(kept.file)
    kept.file.touch()
    kept.given[1] = str(kept.room / name)
    status, said = kept.loaded()
    assert (status, said.count("\n")) == (2, 1), said
    assert kept.file.read_bytes() == b""


def test_what_is_followed(kept):
    """A load that is ended amid an entry goes on where it was."""
    made = history()
    kept.write(made, 1)
    head, *entries = [item_bytes(it) for it, _ in made.steps]
    for number, end in ((2, signal.SIGTERM), (4, signal.SIGKILL), (7, signal.SIGINT)):
        process = kept.follow()
        rest = b"".join(entries[: number + 1])[:-9]
        kept.file.write_bytes(head + (rest if number < 7 else b"".join(entries)))
        kept.reaches(number)
        kept.end(process, end, -end if end == signal.SIGKILL else 0)
    followed = kept.contents()
    os.unlink(kept.path)
    assert kept.loaded() == (0, "")
    assert kept.contents() == followed


@pytest.mark.parametrize("does", ["replaced", "moved away"])
def test_a_file_that_is_replaced(kept, does):
    """As by the backup that is put in its place: the tables have what came before."""
    made = history()
    kept.write(made, 5)
    process = kept.follow()
    kept.reaches(4)
    os.rename(kept.file, kept.room / "old.tbk")
    if does == "replaced":
        kept.write(made, 6)
    assert kept.gone(process) == (1, f"tb-sql: Gone: {kept.file}")
    assert kept.rows("SELECT commit_number FROM position") == [(4,)]


def test_a_file_that_is_replaced_amid_entries(kept, monkeypatch):
    """One that always has more to read is looked at too, and what was read is written."""
    kept.file.write_bytes(b"one")
    name = Name(str(kept.file))
    monkeypatch.setattr("tb_sql.sources.LOOK", 0)
    steps = name.watch(iter(["first", "second", "third"]))
    assert [next(steps), next(steps)] == ["first", "second"]
    os.rename(kept.file, kept.room / "old.tbk")
    assert next(steps) is None
    with pytest.raises(Gone):
        next(steps)


def test_a_name_that_cannot_be_looked_at(kept, monkeypatch):
    """It is a fault of the device: the file need not be another one."""
    kept.file.write_bytes(b"one")
    name = Name(str(kept.file))

    def failing(_):
        raise OSError(errno.EIO, os.strerror(errno.EIO))

    monkeypatch.setattr("tb_sql.sources.os.stat", failing)
    with pytest.raises(OSError, match="Input/output error"):
        name.check()
    monkeypatch.undo()


def test_a_follow_of_another_ledger(kept):
    """It is refused, and the tables stay as they are."""
    kept.write(history())
    assert kept.loaded() == (0, "")
    before = kept.contents()
    made = Made().register().accounts(account(3), account(4))
    for number in range(1, 6):
        made.transfers(transfer(number, 3, 4, 10))
    kept.write(made)
    status, said = kept.loaded("--follow")
    assert status == 2, said
    assert "entry 7 is another one" in said
    assert kept.contents() == before


def test_a_dump_that_is_killed(kept):
    """Whole entries that came before are no whole history."""
    kept.write(history())
    tbd = kept.room / "tbd"
    made = history()
    cut = sum(len(item_bytes(it)) for it, _ in made.steps[:4])
    tbd.write_text(f"#!/bin/sh\nhead -c {cut} $2\nkill -9 $$\n")
    status, said = kept.loaded()
    assert (status, said.count("\n")) == (1, 1), said
    assert "was killed by signal 9" in said
    assert kept.rows("SELECT commit_number FROM position") == [(3,)]


@pytest.mark.parametrize("does", ["exit 0", "echo this is another program"])
def test_a_program_that_writes_no_dump(kept, does):
    """Its fault was told as one of the input."""
    kept.write(history())
    tbd = kept.room / "tbd"
    tbd.write_text(f"#!/bin/sh\n{does}\n")
    said = f"tb-sql: {tbd} wrote no dump of {kept.file}: Head\n"
    assert kept.loaded() == (1, said)


def test_words_of_a_follow(kept):
    kept.write(history())
    assert kept.loaded()[0] == 0
    kept.words()
    process = kept.follow()
    until = time.monotonic() + SECONDS
    wanted, found = ["tbd check FILE", "tbd dump FILE --follow", "tbs replay"], []
    while sorted(found) != wanted:
        assert time.monotonic() < until, found
        time.sleep(0.1)
        found += kept.words()
    kept.end(process, signal.SIGTERM, 0)


@pytest.mark.parametrize("more", [[], ["--follow"]], ids=case)
def test_histories_that_are_shorter(kept, more):
    """An older copy is refused, and is not waited for."""
    kept.write(history())
    assert kept.loaded()[0] == 0
    kept.write(history(), 6)
    status, said = kept.loaded(*more)
    assert status == 2, said
    assert "ends before entry 7" in said
    assert said.count("\n") == 1, said


@pytest.mark.parametrize(
    "fault, wanted",
    [
        ("tbd:6:tbd: Damaged: FILE at byte 9", "tbd: Damaged: FILE at byte 9"),
        ("tbd:1:tbd: Device: FILE", "tbd: Device: FILE"),
    ],
)
def test_faults(kept, fault, wanted):
    """What a program said last is printed."""
    kept.write(history())
    assert kept.loaded(fault=fault) == (1, f"tb-sql: {wanted}\n")


@pytest.mark.parametrize(
    "name, text, wanted",
    [
        ("tbs", "exit 7", "tbs replay ended with status 7"),
        ("tbs", "echo tbs: NoMemory >&2; exit 1", "tbs replay ended with status 1: NoMemory"),
        ("tbs", "kill -9 $$", "tbs replay was killed by signal 9"),
        ("tbs", f"echo {'no reply ' * 9}", "tbs replay wrote what is no reply"),
        ("tbd", "kill -9 $$", "was killed by signal 9"),
    ],
)
def test_a_program_that_fails(kept, name, text, wanted):
    """It is not the input that is wrong: the status is 1, and the message names the program."""
    kept.write(history())
    (kept.room / name).write_text(f"#!/bin/sh\n{text}\n")
    status, said = kept.loaded()
    assert (status, said.count("\n")) == (1, 1), said
    assert wanted in said


@pytest.mark.parametrize("name", ["tbd", "tbs"])
def test_a_program_that_does_not_start(kept, name):
    kept.write(history())
    (kept.room / name).write_text("no program")
    status, said = kept.loaded()
    assert (status, said.count("\n")) == (1, 1), said
    assert "does not start: Exec format error" in said


def test_a_history_that_is_refused(kept):
    """What the proved program says of it."""
    kept.write(history())
    tbs = kept.room / "tbs"
    tbs.write_text("#!/bin/sh\nhead -c 16 > /dev/null\necho tbs: TimeNotAfter >&2\nexit 2\n")
    wanted = (2, "tb-sql: the history is refused: TimeNotAfter\n")
    assert kept.loaded() == wanted


def test_a_cut_entry(kept):
    kept.write(history())
    kept.file.write_bytes(kept.file.read_bytes()[:-9])
    wanted = (2, "tb-sql: the input ends within an entry\n")
    assert kept.loaded() == wanted
    assert kept.rows("SELECT commit_number FROM position") == [(6,)]
