"""Greedy tenants of one listener: three honest ones keep their sessions, and most of the rate that
they have without others, next to one greedy tenant of each kind. Each tenant has an address of its
own, and its share of what the server does."""

import contextlib
import os
import subprocess
import time

import pytest

import tb_client as tb

from .processes import HERE, PYTHON
from .rates import listener
from .tenants import KINDS

pytestmark = pytest.mark.slow(reason="loads a listener for seconds by greedy tenants", seconds=20)
HONEST = [f"honest:127.0.0.{it}" for it in (2, 3, 4)]
GREEDY = [f"{kind}:127.0.1.{at}" for at, kind in enumerate(KINDS, 1)]
SECONDS = 4
KEPT = 0.6  # of the rate without others
PLACES = 64


def run(port, seconds, tenants):
    words = [PYTHON, "-B", f"{HERE}/tenants.py", str(port), str(seconds), *tenants]
    return subprocess.Popen(words, stdout=subprocess.PIPE, text=True)


def rows(process):
    """What each tenant did: its kind, replies, connections and lost sessions."""
    said, _ = process.communicate(timeout=120)
    found = [it.split() for it in said.splitlines()]
    assert process.returncode == 0 and found
    return [(kind, int(replies), int(calls), int(lost)) for kind, _, replies, calls, lost in found]


@contextlib.contextmanager
def accounts(server, *options):
    """A listener whose ledger has the two accounts."""
    with listener(server, options=options) as port:
        with tb.Session.register(tb.Socket(("127.0.0.1", port), 30)) as session:
            opened = [tb.Account(it, ledger=700, code=10) for it in (1, 2)]
            tb.require_ok(session.create_accounts(opened))
        yield port


def rate(port, greedy=()):
    """Replies in a second to all honest tenants, the sessions that they lost, and what greedy ones
    did meanwhile."""
    others = run(port, SECONDS + 3, greedy) if greedy else None
    time.sleep(2 if greedy else 0)
    mine = rows(run(port, SECONDS, HONEST))
    return (
        sum(it[1] for it in mine) / SECONDS,
        sum(it[3] for it in mine),
        rows(others) if others else [],
    )


def shares(capacity, count):
    """The options by which this many tenants share a listener."""
    return [
        *("--requests-per-second", str(max(int(capacity / count), 16))),
        *("--sessions-per-range", str(PLACES // count)),
        *("--connections-per-peer", "16"),
    ]


ALONE = [("tb_script", [it]) for it in GREEDY]
ALL = [("tb_script", GREEDY), ("tbd", GREEDY)]


@pytest.mark.parametrize("server, kinds", ALONE + ALL, ids=[*KINDS, "all", "all over a file"])
def test_honest_tenants_keep_their_rate(program, show, server, kinds):
    server = program(server)
    with accounts(server) as port:
        capacity, _, _ = rate(port)
    options = shares(capacity, len(HONEST) + len(GREEDY))
    with accounts(server, *options) as port:
        alone, lost, _ = rate(port)
    assert not lost, f"{lost} sessions are lost without greedy tenants"
    with accounts(server, *options) as port:
        kept, lost, greedy = rate(port, kinds)
    show(
        f"{len(kinds)} greedy: {kept:.0f} replies/s, alone {alone:.0f}, ratio {kept / alone:.2f}; "
        f"without shares {capacity:.0f}; load {os.getloadavg()[0]:.1f}"
    )
    for kind, replies, calls, _ in greedy:
        show(f"  {kind}: {replies} replies, {calls} connections")
    assert not lost, f"{lost} sessions of honest tenants are lost"
    assert kept >= KEPT * alone


def test_sessions_are_lost_without_shares(program):
    """The same greed evicts honest tenants if no share is set: so the test above can fail."""
    with accounts(program("tb_script")) as port:
        for _ in range(10):  # on a busy machine fewer register in the time
            _, lost, _ = rate(port, ["registers:127.0.1.1"] * 4)
            if lost:
                return
    raise AssertionError("no session is lost")
