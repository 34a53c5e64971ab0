"""Texts of statements as they come, with the place of what is wrong."""
from __future__ import annotations

import os
import re
from typing import Iterator, Optional

from .faults import Fault, devices
from .filling import Known
from .kinds import BINARY, FIRST_BYTES, WORDS, kind_of
from .messages import fault_text
from .reader import Goes, Pair, Scan, Statement


LINE_MAX = 4095  # bytes, where a terminal cuts a line that nobody edits
BLANK = re.compile(r"(?:[ \t\r\n]+|#[^\n]*\n)*")


class Wrong(Fault):
    """A text goes wrong. Its text has four lines."""


class Text:
    """A text of statements, of which pieces come, and the place up to which it is read."""

    def __init__(self, known: Known, name: str = "") -> None:
        self.known, self.name = known, name
        self.scan = Scan(known.fill, known.written)
        self.text, self.start, self.at = "", 0, 0
        self.row = self.column = 1  # of the statement's first byte
        self.last_place = ""  # of the statement that was read last

    def feed(self, piece: bytes) -> None:
        self.text = self.text[self.start :] + piece.decode("latin-1")
        self.start, self.at = 0, self.at - self.start

    def next(self, is_last: bool = False) -> Optional[Statement]:
        """The next statement, if it is whole. Raises Wrong."""
        try:
            self.at = self.scan.read(self.text, self.at, is_last)
        except Goes as why:
            raise self.wrong(why.place) from None
        statement = self.scan.statement
        if statement:
            self._advance()
        return statement

    def _advance(self) -> None:
        row, column = self._place_of(BLANK.match(self.text, self.start).end())  # type: ignore
        self.last_place = f"{f'{self.name}: ' if self.name else ''}line {row}, column {column}"
        self.row, self.column = self._place_of(self.at)
        self.start = self.at

    def wrong(self, place: int) -> Wrong:
        first = self.row, self.column
        text = self.text[self.start :]
        return Wrong(fault_text(text, place - self.start, self.scan, first, self.known, self.name))

    def has_more(self, is_wrong: bool) -> bool:
        """Something follows the statement that was read last, or the wrong one."""
        rest = self.text[self.start :]
        return bool((rest.partition(";")[2] if is_wrong else rest).strip())

    def end(self) -> None:
        """The text ends here. Raises Wrong if it ends within a statement."""
        self.next(is_last=True)
        if not self.scan.is_at_rest:
            raise self.wrong(len(self.text))

    def _place_of(self, place: int) -> tuple[int, int]:
        """The line and the column of a place after the statement's first byte."""
        lines = self.text.count("\n", self.start, place)
        if not lines:
            return self.row, self.column + place - self.start
        return self.row + lines, place - self.text.rfind("\n", self.start, place)


def pieces(number: int, size: int = 65536, what: str = "standard input") -> Iterator[bytes]:
    """What comes over a file descriptor, as it comes."""
    is_terminal, is_first = os.isatty(number), True
    with devices(what):
        while piece := os.read(number, size):
            if is_terminal and len(piece) >= LINE_MAX:
                raise Fault(f"LineTooLong: a terminal cuts a line at {LINE_MAX} bytes")
            if is_first and (kind := kind_of(piece[:FIRST_BYTES])) in BINARY:
                raise Fault(f"{what} holds no statements: it is {WORDS[kind]}")
            is_first = False
            yield piece


def typed(text: str, known: Known) -> Text:
    """What was typed, read as far as it goes. Raises Wrong."""
    read = Text(known)
    read.feed(text.encode("utf-8", "surrogateescape") + b"\n")
    while read.next():
        pass
    return read


def statements(parts: Iterator[bytes], text: Text) -> Iterator[Statement]:
    """The statements of pieces, each as soon as it is whole."""
    for part in parts:
        text.feed(part)
        while statement := text.next():
            yield statement
    text.end()


def pairs(parts: Iterator[bytes], known: Known) -> Iterator[Pair]:
    """The requests of a whole text."""
    for statement in statements(parts, Text(known)):
        known.note(statement.pair)
        yield statement.pair
