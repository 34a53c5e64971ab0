"""`tbd follow`: a log served with the ledger in memory. The log has an entry, a question, an entry,
an entry, a question.

    python3 -m pytest -m quick tests/files/test_follow.py
"""

import os

import pytest

from ..conftest import ROOT
from . import kinds
from .kinds import item, ran

LOG, ANSWERS = ((ROOT / "examples" / it).read_bytes() for it in ("first.log", "first.answers"))
# The end of each item of the log, and how many bytes answer all up to there.
ENDS = {0: 0, 385: 122, 386: 195, 587: 256, 860: 506, 861: 579}
FOLLOW = ["follow", "2"]
ONE = LOG[17:385]  # what the first entry holds


@pytest.fixture(name="tbd")
def fixture_tbd(program):
    return str(program("tbd").resolve())


def test_a_log_is_answered(tbd, tmp_path):
    """No file is made."""
    assert ran(tbd, tmp_path, FOLLOW, LOG) == (0, ANSWERS, "")
    assert ran(tbd, tmp_path, [*FOLLOW, "1"], LOG) == (0, ANSWERS, "")
    assert os.listdir(tmp_path) == []


def test_another_profile_has_other_rules(tbd, tmp_path):
    """Only in profile 2 is the id of a transfer refused for a passing reason refused again."""
    status, out, said = ran(tbd, tmp_path, [*FOLLOW, "2"], LOG)
    assert (status, said, len(out)) == (0, "", len(ANSWERS))


def put(data, at, value):
    return data[:at] + bytes([value]) + data[at + 1 :]


SHORT = "Short: standard input ends within an item; those before it were answered"
NO_ITEM = "standard input goes on with no item; those before it were answered"
# Items that are refused, after the first entry or before any.
LATER = [
    (LOG[:385], "Repeat at 1"),
    (LOG[587:860], "Gap at 3"),
    (LOG[386:586], SHORT),
    (b"\7", f"UnknownKind 7: {NO_ITEM}"),
]
FIRST = [
    (LOG[386:587], "Gap at 2"),
    (b"\3", f"UnknownKind 3: {NO_ITEM}"),
    (put(LOG, 1, 0), "Repeat at 0"),
    (put(LOG, 12, 1), "TooLong at 1"),
    (put(LOG, 13, 0), "Damaged at 1"),
    (put(LOG, 25, 8), "Damaged at 1"),
    (item(1, put(ONE, 64, 0)), "BadEntry at 1: ClientZero"),
    (item(1, ONE[:100]), "BadEntry at 1: Short"),
]


@pytest.mark.parametrize("item, said", FIRST)
def test_items_before_any_that_are_refused(tbd, tmp_path, item, said):
    assert ran(tbd, tmp_path, FOLLOW, item) == (2, b"", f"tbd: {said}\n")


@pytest.mark.parametrize("item, said", LATER)
def test_the_items_before_a_fault_are_answered(tbd, tmp_path, item, said):
    wanted = 2, ANSWERS[: ENDS[385]], f"tbd: {said}\n"
    assert ran(tbd, tmp_path, FOLLOW, LOG[:385] + item) == wanted


def test_a_question_before_any_entry(tbd, tmp_path):
    assert ran(tbd, tmp_path, FOLLOW, b"\2") == (0, b"\2" + bytes(72), "")


def test_a_log_cut_at_each_length(tbd, tmp_path):
    """Each whole item gets its reply, and the rest is Short."""
    for end in [*range(0, len(LOG), 13), *ENDS]:
        answered = max(said for begin, said in ENDS.items() if begin <= end)
        status, said = (0, "") if end in ENDS else (2, f"tbd: {SHORT}\n")
        assert ran(tbd, tmp_path, FOLLOW, LOG[:end]) == (status, ANSWERS[:answered], said), end


def test_an_output_that_fails(tbd, shim, tmp_path):
    env = {**os.environ, "LD_PRELOAD": shim, "KEEP_FILE": "ledger", "KEEP_FAULT": "out 10"}
    told = ran(tbd, tmp_path, FOLLOW, LOG[:385], env=env)
    assert told == (1, ANSWERS[:10], "tbd: Device: standard output\n")


@pytest.mark.parametrize("kind", ["nothing", "a ledger", "another's record"])
def test_no_log_is_followed_over_a_file(tbd, tmp_path, kind):
    """Standard input is not read, and the file stays."""
    path = kinds.made(tmp_path, kind)
    said = "tbd: Usage: follow ledger: CLIENTS_MAX is 1 to 64\n"
    assert ran(tbd, tmp_path, ["follow", "ledger", "2"], LOG) == (2, b"", said)
    assert (path.read_bytes() if path.exists() else None) == kinds.FILES[kind]
