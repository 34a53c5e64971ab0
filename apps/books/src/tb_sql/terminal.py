"""What tables add to the command telovamish: names and decimal places in its replies, and answers
to TigerBeetle's questions among its statements."""

from __future__ import annotations

import itertools
import shutil
import sqlite3
from typing import Any, Iterator, List, Optional

from tb_client import Direct
from telovamish.faults import report
from telovamish.filling import Known
from telovamish.ledgers import Ledger
from telovamish.objects import line
from telovamish.repeats import History
from telovamish.running import Printer
from telovamish.sending import Desk

from .asking import Answer, answer_of, kept_names
from .errors import Failed, Refused
from .names import Names, read_names
from .questions import Question, Split

PATIENCE = 10.0  # seconds for which a commit is waited for
NO_LEDGER = "--books has tables and no ledger: name one by --file LEDGER or --connect ADDRESS"


class Books:
    """Names, those of a file or of tables, and the tables, if some are given."""

    def __init__(self, names: Optional[str], tables: Optional[str]) -> None:
        self.tables = tables
        self.names = read_names(names) if names else kept_names(tables) if tables else Names()

    def ledger(self) -> Ledger:
        """What takes the place of a ledger, and refuses each statement."""
        return Ledger(Direct(refused), History())

    def completer(self, known: Known) -> Any:
        """Completes questions too."""
        from .completing import Completer

        return Completer(known)

    def answered(self, parts: Iterator[bytes], printer: Printer, desk: Desk) -> Iterator[bytes]:
        """The parts of a text without its questions. Each is served after what comes before it: the
        next part is asked for then. Without tables all parts are statements."""
        return parts if self.tables is None else self._answered(parts, printer, desk)

    def _answered(self, parts: Iterator[bytes], printer: Printer, desk: Desk) -> Iterator[bytes]:
        split, row = Split(), 1
        for piece in itertools.chain(parts, [None]):
            for part in split.feed(piece or b"", piece is None):
                if isinstance(part, Question):
                    printer.write(self._lines(part, row, printer.as_json, desk))
                    part = part.blank
                yield part
                row += part.count(b"\n")

    def _lines(self, question: Question, row: int, as_json: bool, desk: Desk) -> List[str]:
        answer = self._answer(question, row, desk.ledger.history.seen)
        if answer.note:
            report(f"line {row}: {answer.note}")
        if as_json:
            return [line(self.names.for_json(answer.shown)).rstrip("\n")]
        return answer.lines(shutil.get_terminal_size((100, 24)).columns)

    def _answer(self, question: Question, row: int, commit: int) -> Answer:
        """Gives answers by tables that have the last commit that was seen of the ledger."""
        assert self.tables is not None
        try:
            at = (commit, PATIENCE)
            return answer_of(self.tables, question.name, question.words, at, self.names)
        except Refused as why:
            raise Refused(f"line {row}: {why}") from None
        except sqlite3.Error as why:
            raise Failed(f"{self.tables}: {why}") from None


def refused(moment: int, frame: bytes) -> bytes:
    raise Refused(NO_LEDGER)
