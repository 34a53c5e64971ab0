"""Reads statements: one reader of six states. It gives requests, or the place where a text goes
wrong and what may be there. A text is bytes decoded as latin-1, so that a place counts bytes."""
from __future__ import annotations

import re
import struct
from os.path import commonprefix
from typing import Callable, NamedTuple, Optional

from .dates import moment_of, right_part
from .words import (
    AMOUNT_MAX,
    FIELDS,
    FLAGS,
    HEADER,
    ID_SIZE,
    ITEM_SIZES,
    ITEMS_MAX,
    MAXIMA,
    OPERATIONS,
    POSITIVE,
    RECORD_SIZE,
)
from .written import Written, kind_of_field, unquoted

TOKEN = re.compile(
    r"(?:[ \t\r\n]+|\#[^\n]*(?:\n|\Z))*"
    r"(?:([a-z_][a-z0-9_]*)|([0-9]{4}-[a-zA-Z0-9_:.-]*|[0-9][a-zA-Z0-9_]*)|([=|,;])|(.)|\Z)",
    re.DOTALL,
)
# where names and decimal places are known
NAMED_TOKEN = re.compile(
    r"(?:[ \t\r\n]+|\#[^\n]*(?:\n|\Z))*"
    r'(?:("[^"\n]*(?:"|\Z)|[a-zA-Z_][a-zA-Z0-9_]*)'
    r"|([0-9]{4}-[a-zA-Z0-9_:.-]*|[0-9]+\.[0-9]*|[0-9][a-zA-Z0-9_]*)|([=|,;])|(.)|\Z)",
    re.DOTALL,
)
WORD, NUMBER, MARK, OTHER = 1, 2, 3, 4
DIGITS_MAX = 40  # more are read slowly
# what is next: a field or an operation, `=`, a value, what follows a value, an event, another event
HEAD, NAMED, WANTED, GIVEN, OPENED, PARTED = range(6)
FIELD_STARTS = (HEAD, GIVEN, OPENED, PARTED)
REQUEST = struct.Struct("<QIB3xI12x")  # what follows the client in the header of a request

Numbers = dict[str, int]
Match = Callable[[], re.Match[str]]


class Pair(NamedTuple):
    """A request with its moment."""

    at: int
    client: int
    session: int
    request: int
    operation: str
    body: bytes

    def to_bytes(self) -> bytes:
        return self.at.to_bytes(8, "little") + self.frame()

    def frame(self) -> bytes:
        numbers = self.session, self.request, OPERATIONS[self.operation], len(self.body)
        return self.client.to_bytes(ID_SIZE, "little") + REQUEST.pack(*numbers) + self.body

    def id_at(self, place: int) -> int:
        """The id of an event, or of what is looked up."""
        at = ITEM_SIZES[self.operation] * place
        return int.from_bytes(self.body[at : at + ID_SIZE], "little")

    @property
    def length(self) -> int:
        """Its events or ids."""
        return len(self.body) // ITEM_SIZES[self.operation]


class Statement(NamedTuple):
    """A statement that was read: its request, and which fields before its operation were written
    and filled in."""

    pair: Pair
    written: Numbers
    filled: Numbers


class Goes(Exception):
    """A text goes wrong at a place."""

    def __init__(self, place: int) -> None:
        super().__init__(place)
        self.place = place


# what fills in the fields that are omitted before an operation, by those that are given
Fill = Callable[[Numbers, str], Numbers]


def suits(operation: str, header: Numbers) -> bool:
    """An operation may follow these fields."""
    client, request = header.get("client", 0), header.get("request", 0)
    if operation == "register":
        return client != 0 and request == 0 and header.get("session", 0) == 0
    return client != 0 and request != 0


class Scan:
    """How far a text of statements is read."""

    def __init__(self, fill: Fill, written: Optional[Written] = None) -> None:
        self.fill, self.names = fill, written
        self.token = NAMED_TOKEN if written else TOKEN
        self.statement: Optional[Statement] = None  # the one that was read last
        self._takes = {WORD: self._take_word, NUMBER: self._take_number, MARK: self._take_mark}
        self.clear()

    def clear(self) -> None:
        """Begins a statement."""
        self.part, self.field, self.operation = HEAD, "", ""
        self.maxima: Numbers = HEADER
        self.written: Numbers = {}
        self.filled: Numbers = {}
        self.given: Numbers = {}
        self.events: list[bytes] = []
        self.decimal = ""  # an amount with a point, of which the ledger may follow
        self.is_within = False  # a word or a number is begun

    @property
    def is_at_rest(self) -> bool:
        return self.part == HEAD and not self.given and not self.is_within

    def read(self, text: str, start: int = 0, is_last: bool = False) -> int:
        """Reads on from a place to the end of a statement, which is then `statement`, or as far as
        tokens are whole. Gives the place to go on from. Raises Goes with the place of the first
        byte that no text of statements has there; in a word or number that more text may follow
        only if it is the last."""
        match: Match = self.token.scanner(text, start).match  # type: ignore[attr-defined]
        end = len(text)
        part, field, given, maxima = self.part, self.field, self.given, self.maxima
        self.statement, self.is_within = None, False
        while True:
            token = match()
            kind = token.lastindex
            if kind == WORD:
                word = token[1]
                is_field = word in maxima and part in FIELD_STARTS and word not in given
                if is_field and token.end() < end:
                    part, field = NAMED, word
                    continue
            elif kind == NUMBER:
                digits = token[2]
                if part == WANTED and digits.isdigit() and len(digits) < DIGITS_MAX:
                    number = int(digits)
                    is_right = number <= maxima[field] and (number or field not in POSITIVE)
                    if is_right and token.end() < end:
                        given[field] = given.get(field, 0) | number
                        part = GIVEN
                        continue
            elif kind == MARK and part == NAMED and token[3] == "=":
                part = WANTED
                continue
            self.part, self.field = part, field
            if kind is None or not self._take(token, end, is_last):
                return token.start()
            if self.statement:
                return token.end()
            part, given, maxima = self.part, self.given, self.maxima

    def _take(self, token: re.Match[str], end: int, is_last: bool) -> bool:
        """Takes a token. False if it is the last of the text, and may go on. Raises Goes if it
        is not allowed there."""
        kind = token.lastindex or OTHER
        self.is_within = kind in (WORD, NUMBER) and token.end() == end
        if self.is_within:
            is_taken = False
        else:
            is_taken = kind != OTHER and self._takes[kind](token[kind])
        if is_taken or self.is_within and not is_last:
            return is_taken
        place = self._right_end(token)
        if place < end:
            raise Goes(place)
        return False

    def _take_mark(self, mark: str) -> bool:
        part = self.part
        if mark == "|" and part == GIVEN and self.field == "flags":
            self.part = WANTED
        elif mark == "," and part == GIVEN and self.operation and len(self.events) < ITEMS_MAX - 1:
            if not self._push():
                return False
            self.part = PARTED
        elif mark == ";" and part in (GIVEN, OPENED) and self.operation:
            if part == GIVEN and not self._push():
                return False
            self._finish()
        else:
            return False
        return True

    def _take_word(self, word: str) -> bool:
        """Takes a word that begins no field: an operation, a flag, or the largest amount."""
        number: Optional[int] = None
        if self.part in (HEAD, GIVEN) and not self.operation and word in OPERATIONS:
            return self._open(word)
        if self.part == WANTED and self.field == "flags":
            number = FLAGS[self.operation].get(word)
        elif self.part == WANTED and self.field == "amount" and word == "amount_max":
            number = AMOUNT_MAX
        elif self.part == WANTED and self.names:
            number = self.names.number(kind_of_field(self.operation, self.field), unquoted(word))
        return self._give(number)

    def _take_number(self, digits: str) -> bool:
        """Takes a date, or a number that is long, hexadecimal or wrong."""
        if self.part != WANTED:
            return False
        if self.field == "at" and "-" in digits:
            return self._give(moment_of(digits))
        if self.field == "amount" and re.fullmatch(r"[0-9]+\.[0-9]+", digits):
            self.decimal = digits
            return self._give(0)
        number = _number(digits, self.maxima[self.field])
        return self._give(None if number == 0 and self.field in POSITIVE else number)

    def _give(self, number: Optional[int]) -> bool:
        if number is None:
            return False
        self.given[self.field] = self.given.get(self.field, 0) | number
        self.part = GIVEN
        return True

    def _open(self, operation: str) -> bool:
        """Takes an operation: what is omitted before it is filled in."""
        filled = self.fill(self.given, operation)
        if not suits(operation, {**self.given, **filled}):
            return False
        self.operation, self.written, self.filled, self.given = operation, self.given, filled, {}
        self.maxima, self.part = MAXIMA[operation], OPENED
        return True

    def _push(self) -> bool:
        """Packs an event. False if its amount is none of its ledger."""
        fields, given = FIELDS[self.operation], self.given
        if self.decimal and self.names:
            amount = self.names.amount(self.decimal, given.get("ledger", 0))
            if amount is None or amount > AMOUNT_MAX:
                return False
            given["amount"], self.decimal = amount, ""
        if len(fields) == 1:
            self.events.append(given["id"].to_bytes(ID_SIZE, "little"))
        else:
            record = bytearray(RECORD_SIZE)
            for name, number in given.items():
                at, size = fields[name]
                record[at : at + size] = number.to_bytes(size, "little")
            self.events.append(bytes(record))
        self.given = {}
        return True

    def _finish(self) -> None:
        header = {**self.written, **self.filled}
        at, client, session, request = (header.get(it, 0) for it in HEADER)
        pair = Pair(at, client, session, request, self.operation, b"".join(self.events))
        self.statement = Statement(pair, self.written, self.filled)
        self.clear()

    def words(self) -> list[str]:
        """The words that may be here."""
        part, operation = self.part, self.operation
        found: list[str] = []
        if part in FIELD_STARTS:
            found += [it for it in self.maxima if it not in self.given]
        if part in (HEAD, GIVEN) and not operation:
            given, fill = self.given, self.fill
            found += [it for it in OPERATIONS if suits(it, {**given, **fill(given, it)})]
        if part == WANTED and self.field == "flags":
            found += FLAGS[operation]
        if part == WANTED and self.field == "amount":
            found.append("amount_max")
        return found

    def _right_end(self, token: re.Match[str]) -> int:
        """The end of what is right of a token that is not allowed here, or may go on."""
        kind = token.lastindex or OTHER
        text, start = token[kind], token.start(kind)
        if kind == WORD:
            return start + max((len(commonprefix((text, it))) for it in self.words()), default=0)
        if kind == NUMBER and self.part == WANTED:
            if self.field == "at" and "-" in text:
                return start + right_part(text)
            return start + _digits_right(text, self.maxima[self.field])
        return start


def _number(digits: str, maximum: int) -> Optional[int]:
    """The number of these digits, if it is one up to the maximum."""
    if _digits_right(digits, maximum) < len(digits) or digits == "0x":
        return None
    if digits.startswith("0x"):
        return int(digits[2:], 16)
    return int(digits.lstrip("0") or "0")


def _digits_right(digits: str, maximum: int) -> int:
    """How many bytes of a number are right."""
    number, base, first = 0, 10, 0
    if digits.startswith("0x"):
        base, first = 16, 2
    for place in range(first, len(digits)):
        digit = "0123456789abcdef".find(digits[place].lower())
        if not 0 <= digit < base:
            return place
        number = number * base + digit
        if number > maximum:
            return place
    return len(digits)


class Awaited(NamedTuple):
    """What may come next: words, the field of which a number, and marks."""

    words: list[str]
    number: str
    marks: str


def awaited(scan: Scan) -> Awaited:
    part, is_event = scan.part, bool(scan.operation) and scan.part == GIVEN
    marks = "=" * (part == NAMED) + "|" * (part == GIVEN and scan.field == "flags")
    marks += "," * (is_event and len(scan.events) < ITEMS_MAX - 1)
    marks += ";" * (is_event or part == OPENED)
    return Awaited(scan.words(), scan.field if part == WANTED else "", marks)


def scanned(before: str, fill: Fill, written: Optional[Written] = None) -> Optional[Scan]:
    """The reader after these bytes of a statement and a line end; None if no statement begins
    so."""
    scan = Scan(fill, written)
    try:
        scan.read(before + "\n")
    except Goes:
        return None
    return scan
