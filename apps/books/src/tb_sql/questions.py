"""A text of statements and questions, in parts: what a ledger is asked, and what its tables are."""

from __future__ import annotations

import re
from typing import Dict, Iterator, NamedTuple, Optional, Union

from .asking import words_of
from .filters import OPERATIONS

BLANK = re.compile(rb"(?:[ \t\r\n]+|#[^\n]*\n)*")
STATEMENT = re.compile(rb"(?:[^;#]+|#[^\n]*\n)*")  # up to its `;`, or a comment without an end
WORD = re.compile(rb"[a-zA-Z0-9_]*")
COMMENT = re.compile("#[^\n]*")
FIELD = re.compile(r'(?:[^\s"]|"[^"]*")+|"')  # a name may have spaces, between quotes
NAMES = [it.encode() for it in OPERATIONS]


class Question(NamedTuple):
    """A question as it was written."""

    text: bytes

    @property
    def written(self) -> str:
        return COMMENT.sub("", self.text.decode(errors="replace")).rstrip("; \t\r\n")

    @property
    def name(self) -> str:
        return self.written.split()[0]

    @property
    def words(self) -> Dict[str, str]:
        """The fields of its filter. Raises `Refused`."""
        return words_of([it.replace('"', "") for it in FIELD.findall(self.written)[1:]])

    @property
    def blank(self) -> bytes:
        """Spaces that take its place, so that all that follows stays where it was."""
        return re.sub(rb"[^\n]", b" ", self.text)


Part = Union[bytes, Question]


class Split:
    """Splits a text as it comes. What is no question is passed on at once."""

    def __init__(self) -> None:
        self._data = b""
        self._is_within = False  # a statement

    def feed(self, piece: bytes, is_last: bool = False) -> Iterator[Part]:
        self._data += piece
        while part := self._next(is_last):
            yield part

    def _take(self, size: int) -> bytes:
        part, self._data = self._data[:size], self._data[size:]
        return part

    def _next(self, is_last: bool) -> Optional[Part]:
        """The next part, if it is known what it is."""
        if not self._is_within:
            blank = self._take(_end(BLANK, self._data))
            if blank or not self._data:
                return blank
            if self._data[: _end(WORD, self._data)] in NAMES:
                return self._question(is_last)
            may_be_one = self._data[:1] == b"#" or any(it.startswith(self._data) for it in NAMES)
            if may_be_one and not is_last:
                return None
        return self._statement(is_last)

    def _question(self, is_last: bool) -> Optional[Question]:
        """A question up to its `;`, or to the text's end."""
        end = self._data.find(b";")
        if end < 0 and not is_last:
            return None
        return Question(self._take(end + 1 if end >= 0 else len(self._data)))

    def _statement(self, is_last: bool) -> bytes:
        """A statement, or a part of it."""
        size = _end(STATEMENT, self._data)
        self._is_within = self._data[size : size + 1] != b";"
        if not self._is_within:
            size += 1
        elif is_last:
            size = len(self._data)
        return self._take(size)


def _end(pattern: "re.Pattern[bytes]", data: bytes) -> int:
    """The end of what matches at the beginning of some bytes."""
    found = pattern.match(data)
    return found.end() if found else 0
