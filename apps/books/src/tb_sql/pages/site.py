"""The database of tables that the pages show, and how far behind its ledger it is."""

from __future__ import annotations

import os
import time
from typing import Any, Dict, Optional, Tuple

from flask import abort, g
from telovamish.programs import program
from telovamish.words import SECOND

from ..names import Names
from ..sources import entries_of
from .queries import Late, Tables, tables_at
from .texts import ago, shown_name

WAIT_MAX = 10.0  # seconds that a request waits for a commit


class Site:
    """The pages of one database of tables."""

    def __init__(
        self,
        path: str,
        names: Optional[Names] = None,
        ledger: Optional[str] = None,
        tbd: Optional[str] = None,
    ) -> None:
        self.path = path
        self.ledger = ledger
        self._names = names
        self._tbd = program("tbd", tbd, "--tbd") if ledger else ""
        self._seen: Tuple[Tuple[int, int], int] = ((-1, -1), 0)  # a file's state, and its entries

    def tables(self) -> Tables:
        if "tables" not in g:
            g.tables = Tables(self.path)
        tables: Tables = g.tables
        return tables

    def names(self) -> Names:
        if self._names is not None:
            return self._names
        return Names(tuple(it) for it in self.tables().all("SELECT * FROM names"))

    def wait_for(self, commit: int) -> None:
        """Waits until the tables have an entry."""
        try:
            g.tables = tables_at(self.path, commit, WAIT_MAX)
        except Late as late:
            abort(504, str(late))

    def entries(self) -> Optional[int]:
        """How many entries the ledger's file has, counted again if it changed."""
        if not self.ledger:
            return None
        try:
            state = os.stat(self.ledger)
        except OSError:
            return None
        now = state.st_size, state.st_mtime_ns
        if self._seen[0] != now:
            self._seen = now, entries_of(self.ledger, self._tbd)
        return self._seen[1]

    def freshness(self) -> Dict[str, Any]:
        """How far behind the ledger the tables are."""
        position = self.tables().position()
        last, entries = position["commit_number"], self.entries()
        return {
            "position": position,
            "age": ago(max(0.0, time.time() - position["time"] / SECOND)),
            "ledger": self.ledger and shown_name(self.ledger),
            "entries": entries,
            "behind": None if entries is None else max(0, entries - last),
        }
