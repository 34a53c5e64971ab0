"""Numbers of 128 bits, ids and times."""

import contextlib
import sqlite3

import pytest
from hypothesis import given
from hypothesis import strategies as st

from helpers.cases import case
from helpers.made import MAX, START
from tb_sql.numbers import held, id_of, time_of, time_text
from tb_sql.schema import _sqlite_time

SECOND = 10**9
LAST = (1 << 63) - 1
TIMES = [
    (0, "1970-01-01T00:00:00.000000000Z"),
    (START + 123456789, "2026-09-21T14:13:20.123456789Z"),
    (LAST, "2262-04-11T23:47:16.854775807Z"),
]


@pytest.mark.parametrize("time, text", TIMES, ids=[it[1] for it in TIMES])
def test_a_time(time, text):
    """In Python, and in a view of SQLite."""
    assert time_text(time) == text
    assert time_of(text) == time
    with contextlib.closing(sqlite3.connect(":memory:")) as connection:
        shown = connection.execute(f"SELECT {_sqlite_time('?1')}", (time,)).fetchone()
    assert shown[0] == text


@given(st.integers(0, LAST))
def test_each_time_is_read_as_it_was_written(time):
    assert time_of(time_text(time)) == time
    assert time_text(time)[:10] <= time_text(min(time + 86400 * SECOND, LAST))[:10]


@pytest.mark.parametrize(
    "text, is_last, wanted",
    [
        ("2026-09-21", True, time_of("2026-09-22") - 1),
        ("2026-09-21 14:13", True, START - 20 * SECOND),
        ("2026-09-21 14:13", False, START - 20 * SECOND),
        ("2262-04-11", True, LAST),
    ],
)
def test_a_day_or_a_minute(text, is_last, wanted):
    assert time_of(text, is_last) == wanted


@given(st.dates())
def test_each_day_is_whole(day):
    """From its first moment to its last one there are 24 hours."""
    first, last = time_of(f"{day:%d}".join([f"{day.year:04}-{day:%m}-", ""])), None
    if 0 <= first <= LAST - 86400 * SECOND:
        last = time_of(day.isoformat(), is_last=True)
        assert last - first == 86400 * SECOND - 1
        assert time_text(first)[:10] == time_text(last)[:10] == day.isoformat()


@pytest.mark.parametrize(
    "text",
    ["", "yesterday", "2026-13-01", "2026-02-30", "2026-01-01T25:00:00", "9" * 50],
    ids=case,
)
def test_no_time(text):
    with pytest.raises(ValueError):
        time_of(text)


@pytest.mark.parametrize("value", [0, 1, (1 << 63) - 1, 1 - (1 << 63)])
def test_a_number_that_is_an_integer(value):
    assert held(value) == value


@pytest.mark.parametrize("value", [1 << 63, -(1 << 63), MAX, -MAX])
def test_a_number_that_is_text(value):
    assert held(value) == str(value)


@pytest.mark.parametrize(
    "text, wanted",
    [
        (" 1,000 ", 1000),
        ("1_000", 1000),
        ("0xff", 255),
        ("#1000", 1000),
        (f"#{MAX}", str(MAX)),
        (str(MAX), str(MAX)),
        ("0x" + "f" * 32, str(MAX)),
    ],
)
def test_an_id(text, wanted):
    assert id_of(text) == wanted


@given(st.integers(0, MAX))
def test_each_id_is_read_in_each_form(id):
    for text in (str(id), hex(id), f"{id:,}", f"{id:_}", f"#{id}", f"0X{id:032X}"):
        assert id_of(text) == held(id)


@given(st.text(max_size=50))
def test_any_text_is_an_id_or_refused(text):
    """An id is one of 128 bits."""
    try:
        assert 0 <= int(id_of(text)) <= MAX
    except ValueError as error:
        assert "is no id: decimal digits" in str(error)


@pytest.mark.parametrize(
    "text",
    ["", "-1", str(MAX + 1), "0x", "0x" + "f" * 33, "٣", "1 OR 1=1", "1e3", "##1"],
    ids=case,
)
def test_no_id(text):
    with pytest.raises(ValueError):
        id_of(text)
