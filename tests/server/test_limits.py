"""Limits on connections and on the time that a client may take, and what a client gets there."""

import contextlib
import os
import select
import signal
import socket
import struct
import threading
import time

import pytest
import tb_client as tb
from tb_client import Operation, Session, Socket, request_frame

from .running import LISTENER, SECONDS, ended_with, until
from .wire import (
    CLOSED,
    RESET,
    account,
    answer,
    header,
    in_threads,
    received,
    register,
    reply,
    transfer,
)

BUSY = b"tb_listen: Busy\n"


def test_the_limit_on_connections(start):
    """Those that are there go on, and a place that one leaves is another's."""
    listener = start("--connections", "2")
    with listener.connect() as first, listener.connect() as second:
        for number, it in ((1, first), (2, second)):
            it.sendall(register(number))
            assert len(answer(it)) == 48
        for _ in range(3):
            assert received(listener.connect()) == BUSY
        first.sendall(request_frame(1, 1, 1, Operation.lookup_accounts))
        assert len(answer(first)) == 48
    with listener.session() as session:
        assert session.session == 4


def waiting(listener):
    """A connection whose register waits for the server, or None if it gets Busy."""
    it = listener.connect()
    it.sendall(register(7))
    if not select.select([it], [], [], 1)[0]:
        return it
    it.close()
    return None


def test_places_of_requests_for_which_no_client_waits(start):
    """They are free when their connections end, while the server does nothing. It executes what
    it got: more than there are places."""
    listener = start("--connections", "2", "--tcp", "127.0.0.1:0")
    server = listener.server()
    os.kill(server, signal.SIGSTOP)
    for number in range(1, 7):
        with listener.connect() as it:
            it.setsockopt(socket.SOL_SOCKET, socket.SO_LINGER, RESET)
            it.sendall(register(number))
            time.sleep(0.2)
    with until(lambda: waiting(listener)) as it:
        os.kill(server, signal.SIGCONT)
        assert struct.unpack_from("<Q", answer(it), 16)[0] > 2


def test_a_client_that_gets_busy_comes_later(start):
    """A session pauses if it gets Busy, so that one of its attempts finds a place that is free by
    then."""
    listener = start("--connections", "1")
    first = listener.connect()
    time.sleep(0.2)
    with Socket(listener.path) as transport:
        with pytest.raises(tb.Busy) as raised:
            Session.register(transport, attempts=1)
        assert str(raised.value) == "the server closed the connection: Busy"
        began, session = time.monotonic(), Session(transport, 5, attempts=3, pause=0.2)
        session.prepare(Operation.register)
        with pytest.raises(tb.Busy):
            session.retry()
        assert 0.55 < time.monotonic() - began < SECONDS, "0.2 and 0.4 seconds"
        leaving = threading.Timer(0.3, first.close)
        leaving.start()
        session.attempts, session.pause = 50, 0.05
        assert session.retry() is None
        leaving.join()
        assert (session.session, session.lookup_accounts([1])) == (1, [])


def test_more_clients_than_connections(start):
    listener = start("--connections", "2")
    with listener.session(attempts=100) as session:
        tb.require_ok(session.create_accounts([account(1), account(2)]))

    def work(number):
        with Socket(listener.path) as transport:
            session = Session.register(transport, number + 1, attempts=100)
            for at in range(5):
                sale = transfer(100 * number + at + 1, 1, 2, 1)
                tb.require_ok(session.create_transfers([sale]))
                transport._hang_up()

    in_threads(8, work)
    with listener.session(attempts=100) as session:
        assert session.lookup_accounts([2])[0].credits_posted == 40


def test_many_more_than_the_limit(start):
    listener = start("--connections", "4")
    with contextlib.ExitStack() as held:
        served = [held.enter_context(listener.connect()) for _ in range(4)]
        time.sleep(0.1)
        more = [listener.connect() for _ in range(100)]
        assert {received(it) for it in more} == {BUSY}
        for number, it in enumerate(served, 1):
            it.sendall(register(number))
            assert reply(it).session == number


@pytest.mark.parametrize("begun", [b"", register(1)[:1], register(1)[:47]], ids=len)
def test_the_limit_on_idle_time(start, begun):
    listener = start("--idle", "0.5")
    it = listener.connect()
    it.sendall(begun)
    began = time.monotonic()
    assert received(it) == b"tb_listen: Idle\n"
    assert 0.3 < time.monotonic() - began < SECONDS


def test_idle_time_begins_again_with_each_request(start):
    """A Socket connects again if its connection was closed meanwhile."""
    with start("--idle", "0.5").session(attempts=1) as session:
        for _ in range(3):
            time.sleep(0.3)
            session.lookup_accounts([1])
        time.sleep(1.0)
        assert session.lookup_accounts([1]) == []


def test_the_limit_on_a_slow_request(start):
    listener = start("--slow", "2")
    some = [listener.connect() for _ in range(3)]
    some[0].sendall(header(length=128))
    some[1].sendall(header(length=128) + bytes(127))
    some[2].sendall(header(length=8190 * 128) + bytes(1 << 19))
    for it in some:
        assert received(it) == b"tb_listen: Slow\n"
    with listener.session() as session:
        assert session.session == 1
    listener.end()
    assert listener.lines[1:] == [f"{CLOSED}Slow\n"] * 3


def test_a_client_that_does_not_read_is_cut_off(start):
    ids = b"".join(struct.pack("<QQ", it, 0) for it in range(1, 8191))
    listener = start("--slow", "2")
    with listener.session() as session:
        tb.require_ok(session.create_accounts([account(it) for it in range(1, 8191)]))
        with listener.connect() as it:
            it.setsockopt(socket.SOL_SOCKET, socket.SO_RCVBUF, 4096)
            it.sendall(register(9))
            mine = reply(it).session
            with pytest.raises(OSError):
                for number in range(1, 200):
                    it.sendall(request_frame(9, mine, number, Operation.lookup_accounts, ids))
        assert len(session.lookup_accounts([1])) == 1
        listener.end()
    assert listener.lines[1:] == [f"{CLOSED}Slow\n"]


TLS = ("--tcp", "127.0.0.1:0", "--certificate", "none", "--key", "none")


@pytest.mark.parametrize("options, count", [((), 264), (TLS, 364)], ids=["plain", "tls"])
def test_more_connections_than_files_may_be_open(options, count):
    """Over TLS as many again may agree on it, besides those that are served or refused."""
    limited = ["sh", "-c", 'ulimit -n 100; exec "$@"', "sh", LISTENER, "--connections", "100"]
    why = f"--connections 100 takes {count} open files, and 100 are allowed (ulimit -n)"
    assert ended_with([*limited, *options, "--", "true"]) == (1, f"tb_listen: {why}")
