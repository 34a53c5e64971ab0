"""What one peer may take of a listener: connections, sessions, and requests in a second."""

import collections
import contextlib
import re
import time

import pytest
import tb_client as tb

from .running import until
from .wire import answer, received, register

TCP = ("--tcp", "127.0.0.1:0")


def test_connections(start):
    """They are a peer's, which is named. Another one's are not touched."""
    listener = start(*TCP, "--connections-per-peer", "2")
    with contextlib.ExitStack() as held:
        for host in ("127.0.0.2", "127.0.0.2", "127.0.0.3"):
            held.enter_context(listener.connect(host)).sendall(register(1))
        assert received(listener.connect("127.0.0.2")) == b"tb_listen: TooManyConnections\n"
        line = r"tb_listen: 127\.0\.0\.2:\d+: a connection is closed: TooMany"
        assert re.match(line, listener.line())

    def is_served():
        with listener.connect("127.0.0.2") as it:
            it.sendall(register(2))
            return len(answer(it)) == 48

    until(is_served)  # the ends of the others are seen one after another


def test_a_peer_that_comes_again_and_again(start):
    """It has its connections, and is refused a thousand times. Another one is served."""
    listener = start(*TCP, "--connections-per-peer", "1")
    with contextlib.ExitStack() as held:
        held.enter_context(listener.connect("127.0.0.2")).sendall(register(1))
        other, lines = held.enter_context(listener.session()), collections.Counter()
        for _ in range(1000):
            with listener.connect("127.0.0.2") as it, contextlib.suppress(OSError):
                lines[answer(it)] += 1
        assert lines == {b"tb_listen: TooManyConnections\n": 1000}
        other.lookup_accounts([1])
        assert listener.end() == 0
    assert "1002 connections" in listener.notes[-1]


def test_sessions(start):
    """A peer that registers a client again has one session. Another peer has its own."""
    listener = start(*TCP, "--sessions-per-range", "2")
    for host, client, is_refused in (
        ("127.0.0.2", 1, False),
        ("127.0.0.2", 2, False),
        ("127.0.0.2", 1, False),
        ("127.0.0.2", 3, True),
        ("127.0.0.3", 4, False),
    ):
        with listener.connect(host) as it:
            it.sendall(register(client))
            found = answer(it)
        assert (found == b"tb_listen: TooManySessions\n") == is_refused, (host, client)
        assert is_refused or len(found) == 48


def test_sessions_that_are_no_longer_used(start):
    """They do not count after --idle seconds."""
    listener = start(*TCP, "--sessions-per-range", "1", "--idle", "3")
    listener.session(client=1).close()
    with pytest.raises(tb.Busy):
        listener.session(client=2, attempts=1)

    def is_taken():
        with contextlib.suppress(tb.Busy):
            listener.session(client=2, attempts=1).close()
            return True

    until(is_taken)


def test_requests_wait_for_their_turn(start):
    """A second's requests go at once, and then a number of them in each second."""
    listener = start(*TCP, "--requests-per-second", "10")
    with listener.session() as session:
        began = time.monotonic()
        for _ in range(24):
            session.lookup_accounts([1])
        assert time.monotonic() - began > 1.3, "25, of which 11 go at once"


def test_requests_that_would_wait_too_long(start):
    listener = start(*TCP, "--requests-per-second", "10")
    with contextlib.ExitStack() as held:
        many = [held.enter_context(listener.connect()) for _ in range(150)]
        for number, it in enumerate(many):
            it.sendall(register(100 + number))
        found = {it for it in map(answer, many) if len(it) < 48}
    assert found == {b"tb_listen: TooManyRequests\n"}
    assert ": a connection is closed: TooManyRequests" in listener.line()


def test_long_requests_count_more(start):
    """Once more for each 4 KiB: a batch of 1 MiB is 257, so that others wait a second or more."""
    listener = start(*TCP, "--requests-per-second", "250")
    with listener.session() as session:
        began = time.monotonic()
        session.lookup_transfers([1] * 8190)
        session.lookup_transfers([1] * 8190)
        for _ in range(250):
            session.lookup_accounts([1])
        assert time.monotonic() - began > 0.2


def test_a_session_pauses(start):
    """After TooManySessions, as after Busy."""
    listener = start(*TCP, "--sessions-per-range", "1")
    listener.session().close()
    with pytest.raises(tb.Busy) as found:
        listener.session(attempts=2)
    assert str(found.value).endswith("TooManySessions")


def test_lines_of_one_kind(start):
    """Ten in a minute, whatever they say. The last line has the number of the others."""
    listener = start()
    for _ in range(50):
        it = listener.connect()
        it.sendall(bytes(48))
        assert received(it) == b"tb_listen: ClientZero\n"
    assert listener.end() == 0
    assert len([it for it in listener.lines if "ClientZero" in it]) == 10
    assert re.search(r"\b40\b", listener.notes[-1]), listener.notes
