"""Moments as dates in UTC, and lengths of time in words."""
from __future__ import annotations

import datetime

import pytest
from hypothesis import given, strategies as st

from telovamish.dates import date_of, moment_of, right_part, spoken
from telovamish.words import SECOND, TIME_MAX

DAYS = st.dates(datetime.date(1970, 1, 1), datetime.date(2262, 4, 11))


@given(st.integers(0, TIME_MAX))
def test_a_moment_as_it_is_shown_is_read(moment: int) -> None:
    assert moment_of(date_of(moment)) == moment


@given(DAYS)
def test_a_day_is_its_first_moment_or_its_last(day: datetime.date) -> None:
    """By the calendar of Python: days since 1970."""
    first = (day - datetime.date(1970, 1, 1)).days * 86400 * SECOND
    assert moment_of(day.isoformat()) == first
    assert moment_of(day.isoformat(), is_last=True) == min(first + 86400 * SECOND - 1, TIME_MAX)


@given(st.datetimes(datetime.datetime(1970, 1, 1), datetime.datetime(2262, 4, 11)))
def test_a_time_of_a_day(time: datetime.datetime) -> None:
    since = time - datetime.datetime(1970, 1, 1)
    seconds = since.days * 86400 + since.seconds
    text = f"{time:%Y-%m-%dT%H:%M:%S}.{time.microsecond:06}Z"
    assert moment_of(text) == seconds * SECOND + time.microsecond * 1000


@given(st.text("0123456789-T:.Z", max_size=31))
def test_a_wrong_date_is_right_up_to_a_place(tail: str) -> None:
    """A date of which all is right is one, or goes on."""
    text = "2026" + tail
    assert 4 <= right_part(text) <= len(text)
    if moment_of(text) is not None:
        assert right_part(text) == len(text)


@pytest.mark.parametrize(
    "seconds, words",
    [
        (0, "0 seconds"), (119, "119 seconds"), (120, "2 minutes"), (7199, "119 minutes"),
        (7200, "2 hours"), (2 * 86400, "2 days"), (729 * 86400, "729 days"),
        (730 * 86400, "2 years"), (128902940, "4 years"),
    ],
)  # fmt: skip
def test_a_length_of_time_in_words(seconds: int, words: str) -> None:
    assert spoken(seconds * SECOND) == words
