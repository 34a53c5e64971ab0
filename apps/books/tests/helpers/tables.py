"""Loading a history, reading its tables, and the command: in this process, and as a process."""

import contextlib
import io
import os
import pathlib
import sqlite3
import subprocess
import sys

from tb_sql.commands import main
from tb_sql.loading import Loading
from tb_sql.sqlite_store import SqliteStore, contents

HELPERS = pathlib.Path(__file__).resolve().parent
PACKAGE = HELPERS.parent.parent
TOP = PACKAGE.parent.parent
COMMAND = [sys.executable, "-B", str(PACKAGE / "tb-sql")]


def entered(store, steps, **more):
    """Loads items and replies into a store, which is closed."""
    try:
        loading = Loading(store, **more)
        loading.read(iter(steps))
        loading.ended()
    finally:
        store.close()
    return loading


def stand_in(folder, name):
    """A stand-in for a program, in a folder."""
    program = folder / name
    words = f"{sys.executable} -SE {HELPERS}/stand_ins.py {name}"
    program.write_text(f'#!/bin/sh\nexec {words} "$@"\n')
    program.chmod(0o700)
    return str(program)


class Tables:
    """A folder with a file of tables."""

    def __init__(self, room):
        self.room = room
        self.path = str(room / "ledger.sqlite")

    def load(self, made, path=None, count=None):
        """Loads a history, or its first steps, in this process."""
        return entered(SqliteStore(path or self.path), made.steps[:count])

    def rows(self, text, *values, path=None):
        with contextlib.closing(sqlite3.connect(path or self.path)) as connection:
            return connection.execute(text, values).fetchall()

    def row(self, text, *values):
        (found,) = self.rows(text, *values)
        return found

    def contents(self, path=None):
        with contextlib.closing(sqlite3.connect(path or self.path)) as connection:
            return contents(connection)

    def change(self, text, *values):
        with contextlib.closing(sqlite3.connect(self.path)) as connection:
            connection.execute(text, values)
            connection.commit()

    def name(self, *names):
        """Keeps names in the tables: rows of kind, number, name and places."""
        store = SqliteStore(self.path)
        store.write_names(names)
        store.close()

    def environment(self, made):
        """What programs get that load a history by stand-ins."""
        replies = self.room / "replies"
        replies.write_bytes(made.replies)
        return {**os.environ, "REPLIES": str(replies), "TBS": stand_in(self.room, "tbs")}

    def command(self, *words, made=None, input=None):
        """Runs the command as a process: its status, and what it wrote. A history is its input."""
        ran = subprocess.run(
            [*COMMAND, *words],
            input=made.bytes if made and input is None else input or b"",
            capture_output=True,
            timeout=120,
            env=self.environment(made) if made else None,
        )
        return ran.returncode, ran.stdout.decode(), ran.stderr.decode()

    def said(self, *words):
        """Runs the command in this process: its status, and what it wrote."""
        out, err = io.StringIO(), io.StringIO()
        with contextlib.redirect_stdout(out), contextlib.redirect_stderr(err):
            status = main(list(words))
        return status, out.getvalue(), err.getvalue()
