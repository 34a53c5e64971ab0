"""Inputs of `tbs` that come in pieces: what answers all that came is out before more is waited for.

    python3 -m pytest tests/programs/test_pieces.py

A conversation that waits for an answer which is held back would not go on: it fails after a minute.
"""

import os
import select
import subprocess
import time

import pytest
from frames import dump_entry, dump_head, mark, pair, reply

from ..conftest import ROOT

SECONDS = 60
REGISTER, LOOK_UP, SHORT = 2, 131, b"tbs: Short\n"
FIRST = [(ROOT / "examples" / name).read_bytes() for name in ("first.script", "first.replies")]


def steps(whole, ends):
    """Bytes in the parts that end there."""
    return [whole[begin:end] for begin, end in zip([0, *ends], ends)]


# Pairs of a script, and the reply to each; the time of each entry, whose commit numbers rise by 1.
THREE = steps(FIRST[0], [56, 368, 472]), steps(FIRST[1], [48, 96, 400]), [10, 12, 13]
MANY = (
    [pair(10, 7, 0, 0, REGISTER), *(pair(10, 7, 1, it, LOOK_UP) for it in range(1, 130))],
    [reply(7, 1, 0, REGISTER, 0, 1)]
    + [reply(7, 1, it, LOOK_UP, 0, it + 1) for it in range(1, 130)],
    range(10, 140),
)


def run(pairs, replies, _times):
    """What comes in, part by part, and what goes out once each is whole."""
    return [(b"", b""), *zip(pairs, replies)]


def entries(pairs, times):
    """The entries of a dump, with a mark in front of the second one."""
    all_of = [dump_entry(at, time, it[8:]) for at, (it, time) in enumerate(zip(pairs, times), 1)]
    return [all_of[0], mark() + all_of[1], *all_of[2:]]


def dump(pairs, _replies, times):
    return [(b"", dump_head(1, 2)), *zip(pairs, entries(pairs, times))]


def replay(pairs, replies, times):
    return [(b"", b""), (dump_head(1, 2), b""), *zip(entries(pairs, times), replies)]


FORMS = {"run 2": run, "dump 2 1": dump, "replay": replay}


def taken(process, count):
    """The next bytes of a program's output, or fewer if it ends or is late."""
    got, until = b"", time.monotonic() + SECONDS
    while len(got) < count and time.monotonic() < until:
        if select.select([process.stdout], [], [], 1)[0]:
            more = os.read(process.stdout.fileno(), count - len(got))
            if not more:
                break
            got += more
    return got


def conversed(tbs, words, turns, piece, cut):
    """The end of a conversation over an input without its last bytes: the exit status, the output
    and the line. Each answer is there before the next piece is sent."""
    source = b"".join(given for given, _ in turns)
    source = source[: len(source) - cut]
    process = subprocess.Popen(
        [tbs, *words.split()],
        stdin=subprocess.PIPE,
        stdout=subprocess.PIPE,
        stderr=subprocess.PIPE,
        bufsize=0,
    )
    out, came, whole, waiting = b"", 0, 0, list(turns)
    try:
        while True:
            while waiting and whole + len(waiting[0][0]) <= came:
                given, answer = waiting.pop(0)
                whole += len(given)
                found = taken(process, len(answer))
                assert found == answer, (came, whole)
                out += found
            if came >= len(source):
                break
            process.stdin.write(source[came : came + piece])
            came = min(came + piece, len(source))
        rest, said = process.communicate(timeout=SECONDS)
    finally:
        process.kill()
        process.wait()
    return process.returncode, out + rest, said


@pytest.mark.parametrize("words", FORMS)
@pytest.mark.parametrize("piece", [1, 7, 16, 55, 56, 57, 100, 368, 471, 1000])
def test_answers_leave_before_it_waits(tbs, words, piece):
    turns = FORMS[words](*THREE)
    wanted = b"".join(answer for _, answer in turns)
    assert conversed(tbs, words, turns, piece, 0) == (0, wanted, b"")


@pytest.mark.parametrize("words", FORMS)
@pytest.mark.parametrize("piece", [1, 55, 56, 57, 300, 1000])
@pytest.mark.parametrize("cut", [0, 1, 2000])
def test_many_answers_leave_before_it_waits(tbs, words, piece, cut):
    """Over 130 requests, whole and cut: at the end of a cut input all is out that was whole."""
    turns = FORMS[words](*MANY)
    wanted = b"".join(answer for _, answer in turns)
    status, out, said = conversed(tbs, words, turns, piece, cut)
    if cut == 0:
        assert (status, out, said) == (0, wanted, b"")
    else:
        assert (status, said) == (2, SHORT) and wanted.startswith(out)


def test_a_dump_of_a_cut_request_has_no_mark(tbs):
    """No mark goes out before an entry that cannot be read."""
    assert conversed(tbs, "dump 2 0", [(b"", dump_head(1, 2)), (bytes(8), b"")], 8, 0) == (
        2,
        dump_head(1, 2),
        SHORT,
    )
