"""The listener and its server are killed amid writes, at drawn moments: what was acknowledged is
there, and each transfer was made once.

    /usr/bin/python3 -m pytest tests/server/test_kills.py [--kills N] [--seed N]
"""

import contextlib
import random
import subprocess
import threading
import time

import pytest
import tb_client as tb
from tb_client import Operation, Session, Socket

from .running import TBD, until
from .wire import account, in_threads, transfer

WRITERS = 8
SPAN = 0.05  # seconds of work before a kill, at most
CALL = 60.0  # seconds that a call may take, with starts meanwhile
QUICK, MOST = 12, 1000
LOST = (tb.ReplyLost, tb.CannotConnect, tb.Busy)


class Killed:
    """A listener at one place, which is started again after each kill."""

    def __init__(self, launch, drawn, made):
        self.launch, self.drawn, self.made = launch, drawn, made
        self.counts = {"listener": 0, "server": 0}
        self.begin()

    def begin(self):
        """Starts it. The server of the one before may hold the file for a moment: then again."""

        def started():
            self.listener = self.launch("--ahead", "60").begun()
            if "listens on" in self.listener.lines[0]:
                return True
            assert "Locked" in self.listener.lines[0], self.listener.lines
            self.listener.ended()
            return False

        until(started, CALL)

    def kill(self, count):
        """Kills one of the two after some work: more than this many transfers were made. Copies of
        torn bytes are removed, because a start refuses to make more than sixteen."""
        for it in self.listener.folder.glob("ledger.tbk.cut-*"):
            it.unlink()
        until(lambda: sum(map(len, self.made)) > count, CALL)
        time.sleep(self.drawn.random() * SPAN)
        if self.drawn.random() < 0.5:
            with contextlib.suppress(ProcessLookupError):
                self.listener.kill_server()
            self.counts["server"] += 1
            return
        self.listener.process.kill()
        self.listener.ended()
        self.counts["listener"] += 1
        self.begin()


def again(call):
    """Calls until it is answered."""
    end = time.monotonic() + CALL
    while True:
        try:
            return call()
        except LOST:
            assert time.monotonic() < end, "a request is not answered"


def write(path, done, made):
    """Makes transfers, each by prepare and retry, so that one in doubt is sent again as it was."""
    with Socket(path, timeout=CALL) as transport:
        session = again(lambda: Session.register(transport))
        while not done.is_set():
            sale = transfer(tb.id(), 1, 2, 1 + len(made) % 7)
            session.prepare(Operation.create_transfers, [sale])
            tb.require_ok(again(session.retry))
            made.append(sale)


def killed_amid_writes(launch, kills, seed):
    made = [[] for _ in range(WRITERS)]
    killed = Killed(launch, random.Random(seed), made)
    path = killed.listener.path
    with killed.listener.session() as session:
        tb.require_ok(session.create_accounts([account(1), account(2)]))
    done = threading.Event()

    def work(number):
        if number < WRITERS:
            write(path, done, made[number])
            return
        try:
            for _ in range(kills):
                killed.kill(sum(map(len, made)))
        finally:
            done.set()

    in_threads(WRITERS + 1, work)
    assert sum(killed.counts.values()) == kills and min(killed.counts.values()) > 0
    assert sum(map(len, made)) >= kills
    with Session.register(Socket(path, timeout=CALL), attempts=100) as session:
        compare(session, sum(made, []))
    assert killed.listener.end() == 0
    words = [TBD, "check", killed.listener.file]
    assert subprocess.run(words, capture_output=True).returncode == 0


def compare(session, made):
    """Each transfer is there with its amount, and the accounts have the sum of all, once."""
    for at in range(0, len(made), 8190):
        part = made[at : at + 8190]
        found = session.lookup_transfers([it.id for it in part])
        assert [(it.id, it.amount) for it in found] == [(it.id, it.amount) for it in part]
    debit, credit = session.lookup_accounts([1, 2])
    total = sum(it.amount for it in made)
    assert debit.debits_posted == credit.credits_posted == total


def test_some_kills_amid_writes(launch, pytestconfig):
    killed_amid_writes(launch, QUICK, pytestconfig.getoption("seed"))


@pytest.mark.slow(reason="kills the listener or its server a thousand times", seconds=600)
def test_kills_amid_writes(launch, pytestconfig):
    kills = pytestconfig.getoption("kills") or MOST
    killed_amid_writes(launch, kills, pytestconfig.getoption("seed"))
