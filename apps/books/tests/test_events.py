"""The events of tables again."""

import contextlib
import sqlite3

from helpers.histories import history
from helpers.made import Made
from tb_sql.events import steps_of


def test_events_again(tables):
    """Tables that are made again from their own events are the same."""
    tables.load(history())
    again = str(tables.room / "again.sqlite")
    with contextlib.closing(sqlite3.connect(tables.path)) as connection:
        made = Made()
        made.steps = list(steps_of(connection))
    tables.load(made, again)
    assert tables.contents(again) == tables.contents()
