"""Loading: runs that end anywhere and go on, and histories that are refused."""

import os
import pathlib
import subprocess
import time

import pytest
from telovamish.streams import item_bytes

from helpers.histories import history
from helpers.made import Made, account
from helpers.tables import COMMAND
from tb_sql.errors import Failed, Refused
from tb_sql.loading import Loading
from tb_sql.sqlite_store import SqliteStore


@pytest.mark.parametrize("count", range(1, 96, 7))
def test_each_prefix(tables, count):
    """A load that ended after so many items goes on where it was."""
    made = history()
    tables.load(made)
    path = str(tables.room / "other.sqlite")
    tables.load(made, path, count)
    tables.load(made, path)
    assert tables.contents(path) == tables.contents()


def test_nothing_new(tables):
    made = history()
    tables.load(made)
    whole = tables.contents()
    assert tables.load(made).entries == 0
    assert tables.contents() == whole


def test_cut_entry(tables):
    """An entry of which only some bytes came is not in the tables."""
    made = history()
    cut = made.bytes[: len(made.bytes) // 2 + 5]
    status, _, said = tables.command("load", tables.path, "--quiet", made=made, input=cut)
    assert (status, said) == (2, "tb-sql: the input ends within an entry\n")
    count = tables.row("SELECT commit_number FROM position")[0]
    assert count > 20
    other = str(tables.room / "other.sqlite")
    tables.load(made, other, count + 1)
    assert tables.contents() == tables.contents(other)


def test_what_is_printed_is_written(tables):
    """If a signal ends a load that follows, what is not written yet is not counted."""
    steps = history().steps

    def interrupted():
        yield from steps[:20]
        yield None  # so far all is written
        yield from steps[20:30]
        raise KeyboardInterrupt

    store = SqliteStore(tables.path)
    loading = Loading(store)
    with pytest.raises(KeyboardInterrupt):
        loading.read(interrupted())
    store.close()
    count, events, last, at = tables.row(
        "SELECT count(*), sum(events), max(commit_number), max(time) FROM entries"
    )
    printed = loading.entries, loading.events, loading.commit_number, loading.time
    assert printed == (count, events, last, at)


def test_what_waits_is_written(tables):
    """Entries that come slowly are in the tables while more are awaited."""
    made = history()
    items = [item_bytes(item) for item, _ in made.steps]
    words = [*COMMAND, "load", tables.path, "--quiet"]
    process = subprocess.Popen(words, stdin=subprocess.PIPE, env=tables.environment(made))
    try:
        for count in (3, 10):
            process.stdin.write(b"".join(items[:count]) + items[count][:9])
            process.stdin.flush()
            items = [items[count][9:], *items[count + 1 :]]
            wanted = len(made.steps) - len(items) - 1
            deadline = time.monotonic() + 60
            while reached(tables) != wanted and time.monotonic() < deadline:
                time.sleep(0.05)
            assert reached(tables) == wanted
        process.stdin.write(b"".join(items))
    finally:
        process.stdin.close()
        status = process.wait(60)
    assert status == 0
    other = str(tables.room / "other.sqlite")
    tables.load(made, other)
    assert tables.contents() == tables.contents(other)


def reached(tables):
    try:
        return tables.rows("SELECT commit_number FROM position")[0][0]
    except Exception:
        return None


def refused(tables, made, words, count=None):
    before = tables.contents()
    with pytest.raises(Refused) as raised:
        tables.load(made, count=count)
    assert words in str(raised.value)
    assert tables.contents() == before


def test_another_head(tables):
    tables.load(Made(clients_max=2).register())
    refused(tables, Made(clients_max=3).register().register(9), "another ledger's history")


def test_another_last_entry(tables):
    tables.load(Made().register().accounts(account(1)))
    refused(tables, Made().register().accounts(account(2)).register(9), "entry 2 is another one")


def test_another_result_of_the_last_entry(tables):
    tables.load(Made().register().accounts(account(1, result="exists")))
    other = Made().register().accounts(account(1, result="code_must_not_be_zero"))
    refused(tables, other, "entry 2 is another one")


def test_an_older_copy(tables):
    made = history()
    tables.load(made)
    refused(tables, made, "ends before entry", count=len(made.steps) - 1)


def test_another_version(tables):
    tables.load(Made().register())
    tables.change("UPDATE position SET schema = 99")
    status, _, said = tables.said("check", tables.path)
    assert status == 2
    assert "another version" in said


def test_another_database(tables):
    tables.change("CREATE TABLE mine (id)")
    before = pathlib.Path(tables.path).read_bytes()
    status, _, said = tables.command("load", tables.path, made=Made().register())
    assert (status, "no database of tb-sql" in said) == (2, True), said
    assert pathlib.Path(tables.path).read_bytes() == before


def test_no_database(tables):
    text = tables.room / "notes.txt"
    text.write_text("no database at all, but a text of some length" * 30)
    status, _, said = tables.command("load", str(text), made=Made().register())
    assert status == 1
    assert said.count("\n") == 1, said


def test_two_first_loads_at_once(tables):
    made = Made().register().accounts(account(1))
    store = SqliteStore(tables.path)
    loading = Loading(store)
    tables.load(made)
    before = tables.contents()
    with pytest.raises(Failed) as raised:
        loading.read(iter(made.steps))
    store.close()
    assert "another load writes to it" in str(raised.value)
    assert tables.contents() == before


def test_load_that_is_late(tables):
    """One that began before another one wrote is refused before it writes a row."""
    first, second = Made().register(), Made().register().accounts(account(1))
    tables.load(first)
    store = SqliteStore(tables.path)
    loading = Loading(store)
    tables.load(second)
    before = tables.contents()
    with pytest.raises(Failed) as raised:
        loading.read(iter(second.steps))
    store.close()
    assert "another load writes to it" in str(raised.value)
    assert tables.contents() == before


@pytest.mark.parametrize("is_replaced", [False, True])
def test_file_that_is_deleted_meanwhile(tables, is_replaced):
    """A load that goes on does not write if nobody reads."""
    steps = history().steps
    store = SqliteStore(tables.path)
    loading = Loading(store)
    loading.read(iter(steps[:40]))
    os.unlink(tables.path)
    if is_replaced:
        pathlib.Path(tables.path).touch()
    with pytest.raises(Failed) as raised:
        loading.read(iter(steps[40:]))
    store.close()
    assert "deleted or replaced" in str(raised.value)
