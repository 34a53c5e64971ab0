"""The reader of statements: what a text means, where it goes wrong, what may come there."""
from __future__ import annotations

import os
import re

import pytest
from hypothesis import given, settings, strategies as st

import grammar
from drawn import damaged, pairs, statements
from telovamish.filling import Live, Known
from telovamish.messages import nearest
from telovamish.printing import statement_text
from telovamish.reader import Goes, Scan, awaited, scanned
from telovamish.texts import Text, Wrong
from telovamish.words import KINDS

# EXAMPLES=10 draws ten times as many texts
TIMES = int(os.environ.get("EXAMPLES", "1"))
SOME = settings(deadline=None, max_examples=50 * TIMES, print_blob=True)
MANY = settings(SOME, max_examples=100 * TIMES)


class Nothing(Known):
    """Nothing is filled in."""

    def fill(self, given, word):
        return {}


def place_of(text: str, errors: Known):
    """The place where a text goes wrong, if it does, and the requests before it."""
    scan, at, found = Scan(errors.fill), 0, []
    try:
        while True:
            at = scan.read(text, at, is_last=True)
            if not scan.statement:
                return (None if scan.is_at_rest else len(text)), found
            found.append(scan.statement.pair)
    except Goes as why:
        return why.place, found


def read(text: str):
    return place_of(text, Known())


@SOME
@given(st.lists(pairs(), max_size=3))
def test_what_is_printed_is_read_again(drawn):
    text = "".join(map(statement_text, drawn))
    assert read(text) == (None, drawn)


@SOME
@given(st.lists(statements(is_whole=True), max_size=3).map("".join))
def test_what_is_read_and_printed_stays(text):
    place, found = read(text)
    if place is None:
        printed = "".join(map(statement_text, found))
        assert "".join(map(statement_text, read(printed)[1])) == printed


@MANY
@given(damaged(st.lists(statements(is_whole=True), min_size=1, max_size=2).map("".join)))
def test_the_grammar_and_the_reader_agree(text):
    place, found = place_of(text, Nothing())
    meant = grammar.meant(text)
    assert (meant is None) == (place is not None), (text, place)
    if meant is not None:
        assert meant == [it.to_bytes() for it in found]


@SOME
@given(
    damaged(st.lists(statements(is_whole=True), min_size=1, max_size=3).map("".join)),
    st.lists(st.integers(0, 400), max_size=6),
)
def test_a_text_may_be_cut_anywhere(text, cuts):
    """Pieces give the same statements and the same fault as the whole, each before more is read."""
    place, found = read(text)
    data = text.encode("latin-1")
    ends = sorted({0, len(data), *(it for it in cuts if it < len(data))})
    reading, got, fault = Text(Known()), [], None
    try:
        for start, end in zip(ends, ends[1:]):
            reading.feed(data[start:end])
            while statement := reading.next():
                got.append(statement.pair)
        reading.end()
    except Wrong as why:
        fault = str(why).split(": ")[1]  # the line and the column
    whole = Text(Known())
    whole.feed(data)
    try:
        while whole.next():
            pass
        whole.end()
        assert fault is None and place is None
    except Wrong as why:
        assert fault == str(why).split(": ")[1]
    assert got == found


@MANY
@given(damaged(st.lists(statements(), min_size=1, max_size=2).map("".join)), st.booleans())
def test_a_place_is_the_first_wrong_byte(text, is_live):
    """What is before it goes on, nothing with the byte there, and each listed word does."""
    errors = Live(1) if is_live else Known(7)
    place, _ = place_of(text, errors)
    if place is None:
        return
    before, _ = place_of(text[:place], errors)
    assert before in (None, place)
    if place < len(text):
        assert place_of(text[: place + 1], errors)[0] == place
    start = re.search(r"[^\s,;=|#]*\Z", text[:place]).start()
    scan = Scan(errors.fill)
    try:
        at = 0
        while at < start and (at := scan.read(text[:start] + "\n", at)) and scan.statement:
            pass
    except Goes:
        return
    for word in awaited(scan).words:
        again = text[:start] + "\n" + word
        assert place_of(again, errors)[0] == len(again), (word, text)


def test_a_listed_word_is_found_by_hand():
    scan = scanned("client=7 request=1 create_transfers id=1 flags=", Known().fill)
    assert scan is not None
    assert awaited(scan).words[:3] == ["linked", "pending", "post_pending_transfer"]
    assert awaited(scan).number == "flags"


@pytest.mark.parametrize(
    "date, moment",
    [
        ("1970-01-01", 0),
        ("1970-01-02T00:00Z", 86_400 * 10**9),
        ("2026-11-26T10:00:00.5Z", 1_795_687_200_500_000_000),
        ("2262-04-11T23:47:16.854775807Z", 2**63 - 1),
    ],
)
def test_a_date_is_a_moment(date, moment):
    assert read(f"at={date} client=1 register;")[1][0].at == moment


@pytest.mark.parametrize(
    "date, right",
    [
        ("1969-12-31", 4),
        ("2026-13-01", 6),
        ("2026-02-30", 8),
        ("2262-04-12", 9),
        ("2262-05-01", 6),
        ("2026-11-26T24:00Z", 12),
        ("2026-11-26T10:60Z", 14),
        ("2026-11-26T10:00:00.1234567890Z", 29),
        ("2262-04-11T23:47:16.854775808Z", 28),
        ("2026-11-26x", 10),
        ("2026-11-26T10:00", 16),
    ],
)
def test_a_wrong_date_goes_wrong_at_its_first_wrong_byte(date, right):
    assert read(f"at={date} client=1 register;")[0] == 3 + right


def test_a_number_may_have_many_zeros():
    zeros = "0" * 5000
    assert read(f"client={zeros}7 register;")[1][0].client == 7
    assert read(f"client={zeros} register;")[0] == 7 + 5000
    assert read("client=1_0 register;")[0] == 8


def test_a_statement_has_at_most_8190_events():
    events = ",".join(f"id={it}" for it in range(1, 8191))
    head = "client=1 request=1 lookup_accounts "
    assert read(f"{head}{events};")[1][0].length == 8190
    assert read(f"{head}{events},id=1;")[0] == len(head + events)


def test_the_bytes_of_a_statement_by_hand():
    """docs/use/FORMATS.md: a moment, a header of 48 bytes, an id of 16."""
    text = "at=12 client=7 session=1 request=3 lookup_accounts id=0x0102;"
    wanted = bytes([12, *bytes(7), 7, *bytes(15), 1, *bytes(7), 3, 0, 0, 0])
    wanted += bytes([131, 0, 0, 0, 16, 0, 0, 0, *bytes(12), 2, 1, *bytes(14)])
    assert read(text)[1][0].to_bytes() == wanted


@pytest.mark.parametrize(
    "written, meant",
    [
        ("regsiter", "register"),
        ("lookup_acounts", "lookup_accounts"),
        ("create_acc", "create_accounts"),
        ("credits_m", "credits_must_not_exceed_debits"),
        ("ledgre", "ledger"),
        ("cod", "code"),
        ("pendin", "pending"),
        ("zzzz", ""),
    ],
)
def test_the_word_that_may_be_meant(written, meant):
    assert nearest(written, [*KINDS]) == meant
