"""A file of SQLite that does not take rows."""

import contextlib
import sqlite3

import pytest

from helpers.histories import history
from tb_sql.errors import Failed, Refused


def test_a_row_that_is_there(tables):
    """It was written by another program: the entry is named, and nothing is written."""
    made = history()
    tables.load(made, count=20)
    (last,) = tables.row("SELECT commit_number FROM position")
    tables.change(
        "INSERT INTO entries SELECT commit_number + 2, time + 1, client, session, request,"
        " operation, events, refused, accounts_so_far, transfers_so_far, refused_so_far, digest"
        " FROM entries WHERE commit_number = ?",
        last,
    )
    before = tables.contents()
    with pytest.raises(Refused, match="UNIQUE constraint failed: entries"):
        tables.load(made)
    assert tables.contents() == before


def test_a_file_that_another_program_has_locked(tables, monkeypatch):
    made = history()
    tables.load(made, count=20)
    before = tables.contents()
    monkeypatch.setattr("tb_sql.sqlite_store.PATIENCE", 0.1)
    with contextlib.closing(sqlite3.connect(tables.path, isolation_level=None)) as other:
        other.execute("BEGIN IMMEDIATE")
        with pytest.raises(Failed, match="database is locked"):
            tables.load(made)
    assert tables.contents() == before
