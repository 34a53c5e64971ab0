"""The command: its arguments, its lines and statuses, and streams that nobody can read."""

import contextlib
import errno
import io
import os
import re
import subprocess
import unittest.mock

import pytest

from helpers.cases import case
from helpers.histories import history
from helpers.made import START, Made, account
from helpers.tables import COMMAND
from tb_sql.commands import Progress, main
from tb_sql.errors import AGAIN


class Shown:
    """A load as a progress sees it."""

    commit_number, events = 12345, 67890


def of(tables, words):
    """Words of the command, in which FILE is the file of tables, and ROOM its folder."""
    names = {"FILE": tables.path, "ROOM": str(tables.room)}
    return [re.sub("FILE|ROOM", lambda it: names[it[0]], word) for word in words]


@pytest.fixture
def small(tables):
    """Tables of one account."""
    tables.load(Made().register().accounts(account(1)))
    return tables


ASK = ["ask", "FILE", "query_accounts"]
CHECK = ["check", "FILE", "--server"]


def ends(words, **streams):
    """The status of the command, and what it printed on standard error. Its output waits in
    memory until it is flushed, as it does for people."""
    env = {**os.environ, "PYTHONUNBUFFERED": ""}
    pipe = {"stderr": subprocess.PIPE, **streams}
    ran = subprocess.run([*COMMAND, *words], timeout=60, env=env, **pipe)
    return ran.returncode, (ran.stderr or b"").decode()


@pytest.mark.parametrize(
    "words, wanted",
    [
        (["load", ""], "argument FILE: it is empty"),
        (["load", "FILE", "--tbs", ""], "argument --tbs: it is empty"),
        (["check", "FILE", "--ledger", ""], "argument --ledger: it is empty"),
        (["check", "FILE", "--server", ""], "argument --server: it is empty"),
        (["load", "FILE", "--ledger", "", "--follow"], "argument --ledger: it is empty"),
        ([*ASK, "--names", "a", "--names", "b"], "argument --names: give it once"),
        ([*ASK, "--commit", "0", "--commit", "0"], "argument --commit: give it once"),
        ([*ASK, "--wait", "inf"], "'inf' is no number of seconds"),
        ([*ASK, "--wait", "1_0"], "'1_0' is no number of seconds"),
        ([*ASK, "--commit", "x"], "'x' is no number of at most 19 digits"),
        (["load", "FILE", "--fol"], "unrecognized arguments: --fol"),
        ([], "the following arguments are required: COMMAND"),
        (["load"], "the following arguments are required: FILE"),
        (["serve", "x", "--port", "99999"], "'99999' is no number from 0 to 65535"),
        (["sing"], "argument COMMAND: invalid choice: 'sing'"),
        (["check", "x", "--wait", "nan"], "'nan' is no number of seconds"),
        (["check", "x", "--wait", "-1"], "argument --wait: '-1' is no number of seconds"),
    ],
    ids=case,
)
def test_values(tables, words, wanted):
    """Each is refused before a file is looked at, with status 2."""
    err = io.StringIO()
    with contextlib.redirect_stderr(err), pytest.raises(SystemExit) as ended:
        main(of(tables, words))
    assert ended.value.code == 2
    assert wanted in err.getvalue()


PRINTED = pytest.mark.parametrize(
    "words", [["--help"], ["--version"], ASK], ids=["help", "version", "answer"]
)


@PRINTED
def test_lost_output(small, words):
    """A page of usage or an answer that cannot be written is a fault of a device."""
    with open("/dev/full", "wb") as full:
        ended = ends(of(small, words), stdout=full)
    assert ended == (1, "tb-sql: standard output: No space left on device\n")


@pytest.mark.parametrize("words", [["none"], [*ASK, "limit=-1"]], ids=case)
def test_lost_messages(small, words):
    """A message that cannot be written does not change the status."""
    with open("/dev/full", "wb") as full:
        assert ends(of(small, words), stderr=full) == (2, "")


@PRINTED
def test_closed_output(small, words):
    words = ["sh", "-c", '"$@" >&-', "sh", *COMMAND, *of(small, words)]
    closed = subprocess.run(words, stderr=subprocess.PIPE, timeout=60)
    ended = (closed.returncode, closed.stderr)
    assert ended == (1, b"tb-sql: standard output is closed\n")


@pytest.mark.parametrize("words", [["--help"], ASK, ["check", "FILE"]], ids=case)
def test_nobody_reads_the_output(small, words):
    """It ends without a word."""
    reads, writes = os.pipe()
    os.close(reads)
    with open(writes, "wb") as output:
        assert ends(of(small, words), stdout=output) == (1, "")


def test_a_fault_of_the_system_without_a_file(tables):
    """It was named a fault of standard output."""
    fault = OSError(errno.ENETDOWN, os.strerror(errno.ENETDOWN))
    err = io.StringIO()
    with unittest.mock.patch("tb_sql.commands.check", side_effect=fault):
        with contextlib.redirect_stderr(err):
            assert main(["check", tables.path]) == 1
    assert err.getvalue() == "tb-sql: Network is down\n"


@pytest.mark.parametrize("words", [["load"], ["ask"]], ids=case)
def test_a_url_that_is_no_text(words):
    """It was a traceback."""
    more = ["query_accounts"] if words == ["ask"] else []
    status, said = ends([*words, os.fsdecode(b"postgresql://u:secret@\xff/x"), *more])
    assert (status, said) == (2, "tb-sql: '\\udcff/x' is no URL of PostgreSQL\n")


def test_a_check_of_postgresql():
    """It said that there was no such file."""
    said = "tb-sql: check reads only a file of SQLite: load the history into one\n"
    assert ends(["check", "postgresql://localhost/x"]) == (2, said)


def test_names_without_an_end(small):
    ended = small.said(*of(small, [*ASK, "--names", "/dev/zero"]))
    assert ended == (2, "", "tb-sql: /dev/zero has more than 16,777,216 characters\n")


def test_a_pipe_in_place_of_tables(tables):
    """It is not waited for."""
    os.mkfifo(tables.path)
    assert tables.said("check", tables.path)[0] == 1


def test_a_damaged_file(small):
    """It is no wrong input."""
    with open(small.path, "r+b") as file:
        file.seek(4096)
        file.write(b"\xff" * (os.path.getsize(small.path) - 4096))
    status, _, said = small.said("check", small.path)
    assert status == 1
    assert "malformed" in said


def test_a_folder_in_place_of_a_ledger(tables):
    status, _, said = tables.said("load", tables.path, "--ledger", str(tables.room))
    assert status == 1
    assert "is no file: a ledger's file is meant" in said


@pytest.mark.parametrize("is_shown, wanted", [(True, 2), (False, 0)])
def test_the_line_of_a_progress(is_shown, wanted):
    err = io.StringIO()
    with contextlib.redirect_stderr(err):
        progress = Progress(Shown(), is_shown)
        progress.tell()
        progress.last -= 1
        progress.tell()
        progress.tell()
        progress.end()
    assert err.getvalue().count("\r") == wanted
    assert ("commit 12,345: 67,890 events" in err.getvalue()) == is_shown


@pytest.mark.parametrize(
    "words, wanted",
    [
        ([*CHECK, "host:\u00b2"], 2),
        ([*CHECK, "host:" + 5000 * "9"], 2),
        ([*CHECK, "host:99999"], 2),
        (["check", "ROOM/none.sqlite", "--server", "host:0"], 2),
        ([*CHECK, "ROOM/no.sock"], 1),
        (["check", "ROOM/none.sqlite"], 1),
        (["load", "ROOM/no/folder.sqlite"], 1),
        (["load", "FILE", "--follow"], 2),
        (["load", "FILE", "--ledger", "ROOM/none"], 1),
        (["load", "FILE", "--ledger", "FILE", "--tbd", "none"], 1),
    ],
    ids=case,
)
def test_faults_are_one_line(small, words, wanted):
    status, _, said = small.said(*of(small, words))
    assert (status, said.count("\n")) == (wanted, 1), said
    assert said.startswith("tb-sql: "), said


@pytest.mark.parametrize(
    "name, wanted", [("", 2), (":memory:", 0), ("file:x.sqlite?mode=memory", 0)]
)
def test_names_that_sqlite_takes_for_others(tables, name, wanted):
    """What is said to be in a file is there."""
    made = Made().register()
    ran = subprocess.run(
        [*COMMAND, "load", name],
        input=made.bytes,
        capture_output=True,
        timeout=120,
        cwd=tables.room,
        env=tables.environment(made),
    )
    assert ran.returncode == wanted, ran.stderr
    assert (tables.room / name).is_file() == (not wanted)


def test_names_that_cannot_be_shown(tables):
    path, made = os.fsencode(tables.room) + b"/b\xfccher.sqlite", Made().register()
    ran = subprocess.run(
        [*COMMAND, "load", path],
        input=made.bytes,
        capture_output=True,
        timeout=120,
        env={**tables.environment(made), "PYTHONIOENCODING": "utf-8:strict"},
    )
    assert (ran.returncode, ran.stderr) == (0, b"")
    assert rb"b\udcfccher.sqlite; its last entry is 1" in ran.stdout


@pytest.mark.parametrize("end, wanted", [("<&-", 1), (">/dev/full", 1), (">&-", 0), ("2>&-", 0)])
def test_streams_that_are_closed_or_full(tables, end, wanted):
    made = Made().register()
    words = " ".join([*COMMAND, "load", tables.path])
    ran = subprocess.run(
        ["sh", "-c", f"{words} {end}"],
        input=made.bytes,
        capture_output=True,
        timeout=120,
        env=tables.environment(made),
    )
    said = ran.stderr.decode()
    assert (ran.returncode, said.count("\n")) == (wanted, wanted), said


def test_damaged_tables(tables):
    tables.load(history())
    data = bytearray((tables.room / "ledger.sqlite").read_bytes())
    data[4096 * 3 :] = bytes(len(data) - 4096 * 3)
    (tables.room / "ledger.sqlite").write_bytes(data)
    status, _, said = tables.command("check", tables.path)
    assert (status, said.count("\n")) == (1, 1), said


@pytest.mark.parametrize(
    "column, wrong",
    [
        ("head", "{"),
        ("head", "[]"),
        ("head", "{}"),
        ("head", b"\xff"),
        ("head", '{"clients_max": null}'),
        ("head", "[" * 200_000),
        ("commit_number", "x"),
        ("commit_number", -1),
        ("time", 1.5),
        ("profile", b"1"),
    ],
    ids=case,
)
def test_an_edited_position(tables, column, wrong):
    made = Made().register()
    tables.load(made)
    tables.change(f"UPDATE position SET {column} = ?", wrong)
    assert_no_position(tables, made)


def test_no_position(tables):
    made = Made().register()
    tables.load(made)
    tables.change("DELETE FROM position")
    assert_no_position(tables, made)


def assert_no_position(tables, made):
    """A load and a check report it by the same line."""
    wanted = f"tb-sql: {tables.path} has no position in a history. {AGAIN}\n"
    for ended in (
        tables.command("load", tables.path, made=made),
        tables.said("check", tables.path),
    ):
        assert ended == (2, "", wanted)


def test_summary(tables):
    made = Made(time=START).register()
    status, said, _ = tables.command("load", tables.path, made=made)
    assert status == 0
    assert "entries 1, events 0" in said
    assert "2026-09-21T14:13:20.000000001Z" in said
