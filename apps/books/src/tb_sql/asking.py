"""TigerBeetle's questions on a terminal: tables with names and decimal places, or JSON."""

from __future__ import annotations

import argparse
import functools
import json
import shutil
from typing import Dict, List, Mapping, NamedTuple, Optional, Sequence

from telovamish.tables import records_shown

from .errors import Refused
from .filters import OPERATIONS, Shown, filter_of, note_on
from .names import Names, read_names
from .numbers import held
from .output import report, say
from .pages.queries import Tables, tables_at


class Answer(NamedTuple):
    """The rows that answer a question, and the last commit of the tables."""

    commit: int
    results: List[Shown]
    names: Names  # those that are given, otherwise those of the tables
    note: str  # why it is empty or cut, if that is known
    ledger: Optional[int]  # of the account that was asked for: its balances do not name it

    def lines(self, width: int) -> List[str]:
        """A table, with names."""
        found = self.results
        named = functools.partial(self.names.for_table, ledger=self.ledger)
        shown = list(records_shown(found, width, named)) if found else []
        count = f"{len(found):,} row{'' if len(found) == 1 else 's'}"
        return [*shown, f"{count}, at commit {self.commit:,}"]

    @property
    def shown(self) -> Shown:
        return {"commit": str(self.commit), "results": self.results}


def answer_of(
    path: str,
    question: str,
    words: Mapping[str, str],
    at: Sequence[float],
    names: Optional[Names] = None,
) -> Answer:
    """Gives a question's answer, once the tables have a commit; `at` has it, and for how many
    seconds it is waited for. Names are those that are given, otherwise those of the tables."""
    names = kept_names(path) if names is None else names
    try:
        wanted = filter_of(question, words, names)
    except ValueError as error:
        raise Refused(str(error)) from None
    tables = tables_at(path, int(at[0]), at[1])
    try:
        commit = tables.position()["commit_number"]
        found = OPERATIONS[question].answer(tables.reading, wanted)
        note = note_on(tables.reading, question, wanted, len(found))
        answer = Answer(commit, found, names, note, ledger_of(tables, wanted))
        tables.check_still()
        return answer
    finally:
        tables.close()


def names_of(tables: Tables) -> Names:
    return Names(tuple(it) for it in tables.all("SELECT * FROM names"))


def kept_names(path: str) -> Names:
    """The names that tables have."""
    tables = Tables(path)
    try:
        return names_of(tables)
    finally:
        tables.close()


def ledger_of(tables: Tables, wanted: Mapping[str, int]) -> Optional[int]:
    """The ledger of the account that is asked for."""
    if "account_id" not in wanted:
        return None
    row = tables.one("SELECT ledger FROM accounts WHERE id = ?", held(wanted["account_id"]))
    return None if row is None else int(row["ledger"])


def ask(given: argparse.Namespace) -> int:
    """Prints the answer to a question."""
    words = words_of(given.fields)
    names = read_names(given.names) if given.names else None
    answer = answer_of(given.file, given.question, words, (given.commit, given.wait), names)
    if given.json:
        say(json.dumps((names or Names()).for_json(answer.shown), indent=2))
    else:
        say("\n".join(answer.lines(shutil.get_terminal_size().columns)))
    if answer.note:
        report(f"tb-sql: {answer.note}")
    return 0


def words_of(fields: Sequence[str]) -> Dict[str, str]:
    """The fields that are given as NAME=VALUE."""
    found: Dict[str, str] = {}
    for it in fields:
        name, sign, text = it.partition("=")
        if not sign or name in found:
            raise Refused(f"{it[:60]!r} is no field of its own, as limit=10")
        found[name] = text
    return found
