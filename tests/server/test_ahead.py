"""A ledger whose last time is ahead of the clock, and the moments of requests."""

import os
import struct
import subprocess
import time

import pytest
import tb_client as tb

from .running import SECONDS, TBD
from .wire import account, in_threads, register

SECOND = 10**9


@pytest.fixture
def kept(folder):
    """Makes a file with an entry at this many seconds from now."""

    def made(seconds):
        moment = struct.pack("<Q", time.time_ns() + int(seconds * SECOND))
        words = [TBD, "run", folder / "ledger.tbk", "64"]
        ran = subprocess.run(
            words, input=moment + register(9), capture_output=True, timeout=SECONDS
        )
        assert (ran.returncode, len(ran.stdout)) == (0, 48)

    return made


def time_of_a_new_account(session, id=1):
    tb.require_ok(session.create_accounts([account(id)]))
    return session.lookup_accounts([id])[0].timestamp


@pytest.mark.parametrize("options", [(), ("--ahead", "0"), ("--ahead", "50")], ids=" ".join)
def test_it_is_refused(start, kept, options):
    kept(100)
    listener = start(*options)
    assert listener.ended() == 1
    begin, _, end = listener.lines[0].partition(" s ahead")
    assert 50 < float(begin.removeprefix("tb_listen: the ledger's last time is ")) < 100
    why = "set the clock right, or allow it by --ahead SECONDS"
    assert end == f" of this computer's clock: {why}\n"
    assert len(begin.rpartition(".")[2]) == 3
    assert not os.path.exists(listener.path)


def test_it_is_allowed(start, kept):
    """The ledger's time goes on from there, and does not jump."""
    kept(100)
    listener = start("--ahead", "100")
    with listener.session() as session:
        ahead = time_of_a_new_account(session) - time.time_ns()
        assert 80 * SECOND < ahead < 100 * SECOND + 10**6
        assert listener.end() == 0


def test_one_that_is_behind(start, kept):
    kept(-1000)
    listener = start()
    with listener.session() as session:
        assert abs(time_of_a_new_account(session) - time.time_ns()) < 10 * SECOND
        assert listener.end() == 0


def test_moments_are_the_clock(start):
    """Requests of many connections get moments between the times at which they were sent and
    answered, also after the server was killed."""
    listener, times = start(), []

    def work(first):
        with listener.session(timeout=SECONDS) as session:
            for at in range(10):
                before = time.time_ns()
                found = time_of_a_new_account(session, first + at)
                times.append((before, found, time.time_ns()))

    in_threads(4, lambda number: work(100 + 10 * number))
    listener.kill_server()
    in_threads(4, lambda number: work(200 + 10 * number))
    assert len(times) == 80
    slack = SECOND // 100  # the two clocks of the listener may differ by a thousandth
    assert all(before - slack < found < after + slack for before, found, after in times)
