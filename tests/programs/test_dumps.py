"""`tbs dump` and `tbs replay`: dumps of the example and of scripts made of it, marks, and dumps
that are cut or wrong. Formats and faults are those of docs/use/FORMATS.md.

    /usr/bin/python3 -m pytest tests/programs/test_dumps.py [-k part_of_a_case]
"""

import pytest
from frames import dump_head, mark, pair, reply, result, transfer

from .runs import DUMP, DUMPED, ENTRIES, FIRST, FIRST_REPLY, HEAD, MAX_TIME, REPLAY, REPLIES
from .runs import REPLY_ENDS, SCRIPT, done, entry, many_items, refused

MARK = mark()


@pytest.mark.parametrize(
    "script, dump",
    [(SCRIPT, DUMP), (FIRST + SCRIPT, DUMP), (b"", HEAD)],
    ids=["new requests", "a repeat among them", "no request"],
)
def test_a_dump(server, script, dump):
    assert server.ended(script, DUMPED) == done(dump)
    assert server.with_file(script, DUMPED)[0] == done(dump)


@pytest.mark.parametrize(
    "dump, replies",
    [(DUMP, REPLIES), (HEAD, b""), (DUMP + MARK, REPLIES)],
    ids=["entries", "no entry", "a mark at the end"],
)
def test_a_replay(server, dump, replies):
    assert server.ended(dump, REPLAY) == done(replies)
    assert server.with_file(dump, REPLAY)[0] == done(replies)


def test_a_long_script_is_dumped_and_replayed(server):
    script, replies = many_items()
    dump = server.ended(script, DUMPED)[1]
    assert server.ended(dump, REPLAY) == done(replies)


# Transfer 77 of no account, and then of account 1: profile 2 has its id failed where the first is
# after the mark.
FAILING = pair(10, 7, 1, 2, 130, transfer(77, 99, 2, 1))
AGAIN = pair(10, 7, 1, 3, 130, transfer(77, 1, 2, 1))
FAILED = REPLIES[:96] + reply(7, 1, 2, 130, 0, 3, result(0, 21))
RIGHT = reply(7, 1, 3, 130, 0, 4)
REFUSED = reply(7, 1, 3, 130, 0, 4, result(0, 68))


@pytest.mark.parametrize(
    "above, place, last",
    [
        ([], None, RIGHT),
        (["4"], None, RIGHT),
        (["9223372036854775807"], None, RIGHT),
        (["3"], 3, RIGHT),
        (["2"], 2, REFUSED),
    ],
    ids=["none", "4", "2^63 - 1", "3", "2"],
)
def test_a_mark_above_a_commit(server, above, place, last):
    entries = [*ENTRIES[:2], entry(3, 13, FAILING), entry(4, 14, AGAIN)]
    marked = entries if place is None else [*entries[:place], MARK, *entries[place:]]
    dump = HEAD + b"".join(marked)
    assert server.ended(SCRIPT[:368] + FAILING + AGAIN, ["dump", "2", *above]) == done(dump)
    assert server.ended(dump, REPLAY) == done(FAILED + last)


ENDS = [16, 80, 400, 512]  # of the head and of each entry


@pytest.mark.parametrize("end", range(len(DUMP) + 1))
def test_a_dump_that_is_cut(server, end):
    whole = [at for at in range(4) if ENDS[at] <= end]
    replies = REPLIES[: REPLY_ENDS[whole[-1]]] if whole else b""
    fault = "Short" if whole else "Head"
    wanted = done(replies) if end in ENDS else refused(fault, replies)
    assert server.ended(DUMP[:end], REPLAY) == wanted


HEADS = {
    "another signature": b"TBSDUMP2" + HEAD[8:],
    "profile 0": dump_head(0, 2),
    "profile 3": dump_head(3, 2),
    "no clients": dump_head(1, 0),
    "65 clients": dump_head(1, 65),
}


@pytest.mark.parametrize("name", HEADS)
def test_a_wrong_head(server, name):
    assert server.ended(HEADS[name] + DUMP[16:], REPLAY) == refused("Head")


BY_TWO = dump_head(2, 2)
MARKS = {
    "a commit 0 with the number 3": (DUMP + mark(3), REPLIES),
    "a mark under profile 2": (BY_TWO + ENTRIES[0] + MARK, FIRST_REPLY),
    "a second mark": (HEAD + MARK + ENTRIES[0] + MARK, FIRST_REPLY),
}


@pytest.mark.parametrize("name", MARKS)
def test_a_wrong_mark(server, name):
    dump, replies = MARKS[name]
    assert server.ended(dump, REPLAY) == refused("Mark", replies)


ILLEGAL = {
    "a first entry with commit 2": (HEAD + entry(2, 10, FIRST), b""),
    "an entry again": (DUMP + ENTRIES[2], REPLIES),
    "a gap": (HEAD + ENTRIES[0] + entry(3, 12, SCRIPT[56:368]), FIRST_REPLY),
    "a time too early": (HEAD + ENTRIES[0] + entry(2, 11, SCRIPT[56:368]), FIRST_REPLY),
    "a time too late": (HEAD + entry(1, 2**63, FIRST), b""),
    "a repeat with the next numbers": (HEAD + ENTRIES[0] + entry(2, 11, FIRST), FIRST_REPLY),
}


@pytest.mark.parametrize("name", ILLEGAL)
def test_a_history_that_is_not_legal(server, name):
    dump, replies = ILLEGAL[name]
    assert server.ended(dump, REPLAY) == refused("NotLegal", replies)


def test_a_wrong_frame_before_a_wrong_commit(server):
    dump = HEAD + entry(7, 10, pair(0, 0, 0, 0, 2))
    assert server.ended(dump, REPLAY) == refused("ClientZero")


def test_a_dump_of_a_script_that_is_cut(server):
    dump = HEAD + b"".join(ENTRIES[:2])
    assert server.ended(SCRIPT[:-1], DUMPED) == refused("Short", dump)


def test_a_mark_without_its_entry(server):
    script = pair(MAX_TIME, 7, 0, 0, 2) + pair(0, 8, 0, 0, 2)
    dump = HEAD + entry(1, MAX_TIME, FIRST)
    assert server.ended(script, ["dump", "2", "1"]) == refused("TimeExhausted", dump)
