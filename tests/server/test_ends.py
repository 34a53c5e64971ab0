"""Ends of the listener: by signals, by faults that its server named, and by a kill."""

import os
import signal
import time

import pytest
import tb_client as tb
from tb_client import Operation, Session, Socket, request_frame

from .running import SECONDS, STAND_IN, until
from .wire import account, answer, header, is_read, received, register, reply, transfer


def test_an_end_answers_what_was_taken(start):
    listener = start()
    with listener.connect() as it:
        it.sendall(register(3))
        assert reply(it).session == 1
        it.sendall(request_frame(3, 1, 1, Operation.lookup_accounts, b"\1" * 16 * 8190))
        until(lambda: is_read(it))
        listener.process.send_signal(signal.SIGTERM)
        data = received(it)
    assert tb.Reply.from_bytes(data[:48]).number == 1
    assert data[48:] == b"tb_listen: Stopping\n"
    assert listener.ended() == 0
    assert not os.path.exists(listener.path)


def test_lines_that_are_not_read(start):
    """Lines that standard error does not take at once are omitted, and no client waits."""
    listener = start()
    with listener.session() as session:
        for _ in range(1500):
            it = listener.connect()
            it.sendall(header(client=0))
            assert received(it) == b"tb_listen: ClientZero\n"
        assert session.lookup_accounts([1]) == []
        listener.process.send_signal(signal.SIGTERM)
        assert listener.process.wait(SECONDS) == 0


@pytest.mark.parametrize(
    "status, name", [(1, "Device"), (1, "NoMemory"), (2, "TimeExhausted"), (8, "Full")]
)
def test_a_fault_that_the_server_named(start, status, name):
    """All clients get its name, also one that waits for nothing. It is not started again."""
    listener = start(command=STAND_IN, fail=f"{name}:{status}:2")
    with listener.connect() as it, listener.connect() as other:
        it.sendall(register(1))
        assert len(answer(it)) == 48
        it.sendall(request_frame(1, 1, 1, Operation.lookup_accounts))
        assert received(it) == received(other) == f"tb_listen: {name}\n".encode()
    assert listener.ended() == status
    assert listener.lines[-1] == f"tb_listen: tbd: {name}\n"
    assert not os.path.exists(listener.path)


@pytest.mark.parametrize("status, line", [(1, "tbs: NoMemory"), (2, "tbs: TimeExhausted")])
def test_a_fault_of_a_server_that_keeps_nothing(start, status, line):
    script = f"head -c 56 > /dev/null; echo {line} >&2; exit {status}"
    listener = start(command=["sh", "-c", script, "run"])
    with listener.connect() as it:
        it.sendall(header())
        assert received(it) == f"tb_listen: {line[5:]}\n".encode()
    assert listener.ended() == status
    assert listener.lines[-1] == f"tb_listen: {line}\n"


def test_a_server_that_does_not_end_with_its_input(start):
    listener = start("--slow", "0.5", command=["sh", "-c", "sleep 600", "run"])
    assert listener.end() == 1
    assert listener.lines[-1] == "tb_listen: sh did not end, and was killed\n"


def once_more(start):
    """A listener. The server of one that was killed a moment ago may still have the file."""
    for _ in range(1000):
        listener = start()
        if "Locked" not in listener.lines[0] and "in use" not in listener.lines[0]:
            return listener
        listener.ended()
        time.sleep(0.02)
    raise AssertionError(listener.lines)


def test_a_listener_that_is_killed(start):
    """Its server ends with its input, the socket is left, and the next listener goes on where
    they were."""
    kept, moved = None, 0
    for turn in range(3):
        listener = once_more(start)
        with Socket(listener.path) as transport:
            if kept is None:
                session = Session.register(transport)
                tb.require_ok(session.create_accounts([account(1), account(2)]))
            else:
                session = Session.resumed(transport, kept)
                tb.require_ok(session.retry())
            assert session.lookup_accounts([2])[0].credits_posted == moved
            session.prepare(Operation.create_transfers, [transfer(tb.id(), 1, 2, 10)])
            kept, moved = session.saved, moved + 10
            if turn:
                tb.require_ok(session.retry())  # its reply comes, and is lost in the crash
        listener.process.kill()
        listener.ended()
        assert os.path.exists(listener.path)


def test_the_line_of_its_stop(start):
    listener = start("--tcp", "127.0.0.1:0")
    with listener.session() as session:
        session.lookup_accounts([1])
    assert listener.end() == 0
    line = "tb_listen: has stopped: Stopping; 2 requests were answered on 1 connections\n"
    assert listener.notes[-1] == line
