"""What is wrong with a text, in four lines: the place, the word there, its line, and what may be
there."""
from __future__ import annotations

import difflib
import re
import sys
from typing import Optional

from .faults import width_of
from .filling import Known
from .reader import GIVEN, PARTED, Awaited, Scan, awaited, scanned
from .words import FLAGS, HEADER, ITEMS_MAX, KINDS, MAXIMA
from .words import OPERATIONS, POSITIVE, U16, U32, U64, U128
from .written import kind_of_field, unquoted

SHOWN_MAX, SHOWN_BEFORE, WORD_MAX = 100, 60, 60
AROUND = 8  # columns of an indent and of two marks that something is cut
BYTE_ORDER_MARK = "\xef\xbb\xbf"
LEADING = re.compile(r"[^\x00-\x20,;=|#\x7f]*")
NAME = re.compile(r"[a-zA-Z0-9_]*")
IS_NAME = re.compile(r'"[^"]*"?|[a-zA-Z_][a-zA-Z0-9_]*')
IS_DECIMAL = re.compile(r"[0-9]+\.[0-9]*")
SMALLEST_UNIT = ": an amount counts the ledger's smallest unit, and --names gives decimal places"
QUOTED = re.compile(r'"[^"\n]*"?')
IS_NUMBER = re.compile(r"0x[0-9a-fA-F]+|[0-9]+")
MARKS = {"=": "'='", "|": "'|'", ",": "','", ";": "';'"}
LARGEST = {U16: "65535", U32: "4294967295", U64: "18446744073709551615", U128: "2^128 - 1"}
BYTES = {" ": "a space", "\t": "a tab", "\n": "the end of the line", "\r": "the end of the line"}
# operations of other ledgers of this kind, and what has their results here
BOOKS = "the books answer it: telovamish --books TABLES, tb-sql ask (docs/use/READING.md)"
ELSEWHERE = {it: BOOKS for it in ("get_account_transfers", "get_account_balances")}
ELSEWHERE |= {"query_accounts": BOOKS, "query_transfers": BOOKS}
ELSEWHERE["get_change_events"] = "tbd dump FILE | telovamish audit has them (docs/use/READING.md)"


def ending(pattern: re.Pattern[str], text: str) -> str:
    """What a text ends with. A search for an end would begin again at each byte before it."""
    found = pattern.match(text[::-1])
    return found[0][::-1] if found else ""


def nearest(written: str, names: list[str]) -> str:
    """The name that may be meant by a misspelled or cut one, or nothing."""
    begun = [it for it in names if len(written) > 3 and it.startswith(written)]
    return (begun or difflib.get_close_matches(written, names, 1) or [""])[0]


def expected(it: Awaited) -> str:
    """The list of what may be at a place."""
    names = [*it.words]
    if it.number:
        largest = max(fields.get(it.number, 0) for fields in (HEADER, *MAXIMA.values()))
        first = "from 1 to" if it.number in POSITIVE else "up to"
        names.append(f"a number {first} {LARGEST[largest]}")
        if it.number == "at":
            names.append("a date")
    names += [MARKS[mark] for mark in it.marks]
    return ", ".join(names[:-1]) + (" or " if len(names) > 1 else "") + names[-1] if names else ""


def wrong_byte(rest: str, scan: Optional[Scan]) -> str:
    if not rest:
        return "the text ends within a statement"
    byte = rest[0]
    if byte in ",;" and scan and scan.names and scan.decimal:
        return scan.names.amount_fault(scan.decimal, scan.given.get("ledger", 0))
    if byte == "," and scan and scan.part == GIVEN and len(scan.events) == ITEMS_MAX - 1:
        kind = "ids" if scan.operation.startswith("lookup_") else "events"
        return f"a statement has at most {ITEMS_MAX} {kind}"
    shown = f"'{byte}'" if "!" <= byte <= "~" else f"the byte {ord(byte)}"
    return f"found {BYTES.get(byte, shown)}"


def wrong_word(word: str, scan: Scan) -> str:
    """What is wrong with a word at the place up to which the reader came."""
    may = awaited(scan)
    if word in ELSEWHERE:
        return f"{word} is no operation here: {ELSEWHERE[word]}"
    if word in KINDS:
        return misplaced(word, scan, may)
    if word.startswith(BYTE_ORDER_MARK):
        return "found a byte order mark (U+FEFF): save the text as UTF-8 without it"
    kind = kind_of_field(scan.operation, may.number)
    if scan.names and kind and IS_NAME.fullmatch(word):
        return scan.names.fault(kind, unquoted(word))
    shown = word if len(word) <= WORD_MAX else f"{word[:WORD_MAX]}..."
    if word[0].isascii() and word[0].isalpha() and may.words:
        near = nearest(word.lower(), [*may.words, *KINDS])
        meant = f"; did you mean {near}?" if near else ""
        return f"unknown {KINDS[near] if near else 'word'} '{shown}'{meant}"
    if not may.number:
        return f"found '{shown}'"
    if may.number == "at" and "-" in word:
        return f"'{shown}' is no date from 1970-01-01 to 2262-04-11"
    if may.number == "amount" and IS_DECIMAL.fullmatch(word):
        return f"'{shown}' is no whole number{'' if scan.names else SMALLEST_UNIT}"
    if not IS_NUMBER.fullmatch(word):
        return f"'{shown}' is no whole number"
    if not word.strip("0x"):
        return f"{may.number} cannot be 0"
    return f"'{shown}' is too large for {may.number}"


def misplaced(word: str, scan: Scan, may: Awaited) -> str:
    """What is wrong with a word that is right elsewhere."""
    ends = ";" in may.marks
    if word in scan.given and not may.number:
        within = "event; ',' comes between events" if scan.operation else "statement"
        return f"{word} was given before in this {within}"
    if scan.part == PARTED and scan.field == "flags" and word in FLAGS.get(scan.operation, ()):
        return f"flags are joined by '|': flags=..|{word}"
    if may.number == "flags" and KINDS[word] == "flag":
        others = next(it for it, flags in FLAGS.items() if word in flags)
        return f"{word} is a flag of {others.removeprefix('create_')} only"
    if word in OPERATIONS and not may.number and not ends:
        return early(word, may, scan)
    if word in HEADER and ends and not scan.given:
        return f"'{word}' comes before {scan.operation}, or ';' is missing before it"
    if (word in OPERATIONS or word in HEADER) and ends:
        return f"';' is missing before '{word}'"
    return f"'{word}' is not allowed here"


def early(word: str, may: Awaited, scan: Scan) -> str:
    """What is missing before an operation, or must not be there."""
    if word == "register" and (scan.given.get("session") or scan.given.get("request")):
        return "a register has no session and no request"
    if "client" in may.words and (word != "register" or "request" in may.words):
        return f"a client comes first: write client=N before {word}"
    if word == "register":
        return "a register has no session and no request"
    if "request" in may.words:
        return f"a request's number comes first: write request=N before {word}"
    return f"'{word}' is not allowed here"


def shown_line(before: str, rest: str) -> str:
    """A line, cut around a place to what a terminal shows in one, and a mark under the place."""
    before, rest = plain(before), plain(rest)
    most = min(SHOWN_MAX, width_of(sys.stderr, SHOWN_MAX + AROUND) - AROUND)
    first = SHOWN_BEFORE * most // SHOWN_MAX
    start = max(0, len(before) - first) if len(before + rest) > most else 0
    shown = f"{'...' if start else ''}{before[start:]}"
    end = max(0, most - len(before) + start)
    indent = "".join("\t" if it == "\t" else " " for it in shown)
    return f"\n  {shown}{rest[:end]}{'...' if end < len(rest) else ''}\n  {indent}^"


def plain(text: str) -> str:
    """Bytes as UTF-8, with no control character except tabs and line ends. What cannot be seen is
    shown by its number."""
    shown = text.encode("latin-1", "replace").decode("utf-8", "replace")
    shown = re.sub("[\x00-\x08\x0b-\x1f\x7f-\x9f]", "?", shown)
    return "".join(it if it.isprintable() or it in "\t\n" else f"<U+{ord(it):04X}>" for it in shown)


def described(text: str, place: int, scan: Scan) -> tuple[str, str, int]:
    """What is wrong at a place where a reader stopped, the lines after that, and the place that is
    shown: a misspelt word is shown at its first letter, a number where it goes wrong."""
    before, rest = text[:place], text[place:]
    quoted = QUOTED.match(rest) if scan.names else None
    head = "" if quoted else ending(LEADING, before)
    tail = (quoted or LEADING.match(rest))[0]  # type: ignore[index]
    at_word, word = None if tail else scanned(before, scan.fill, scan.names), ""
    if at_word is None:
        start = before[: len(before) - len(head)]
        at_word, word = scanned(start, scan.fill, scan.names), head + tail
    if at_word is None:
        return wrong_byte(rest, None), "", place
    what = wrong_word(word, at_word) if word else wrong_byte(rest, at_word)
    shown = place - len(head) if word and IS_NAME.fullmatch(word) else place
    rest = re.split("[\r\n]", text[shown:], 1)[0]
    line = shown_line(text[text.rfind("\n", 0, shown) + 1 : shown], rest)
    return what, f"{line}\n  expected {expected(awaited(at_word))}", shown


def fault_text(
    text: str, place: int, scan: Scan, first: tuple[int, int], known: Known, name: str = ""
) -> str:
    """The lines of a fault in a statement whose first byte is at a line and a column of a file."""
    what, lines, shown = described(text, place, scan)
    row = text.count("\n", 0, shown)
    column = shown - text.rfind("\n", 0, shown) if row else shown + first[1]
    word = ending(NAME, text[:place]) + NAME.match(text, place)[0]  # type: ignore[index]
    client = None if scan.operation else known.has_no_session(scan.given, word)
    if client is not None:
        what = f"client {client} has no session here: write session=N before {word}"
    file = f"{name}: " if name else ""
    return f"telovamish: {file}line {first[0] + row}, column {column}: {plain(what)}{lines}\n"
