"""Servers that end by a signal, at each place: the listener starts them again, and what was
acknowledged is there."""

import os
import signal
import threading

import pytest
import tb_client as tb
from tb_client import Operation, Session, Socket

from .running import SECONDS, STAND_IN, TBD, children, until
from .wire import account, connected, in_threads, received, register, transfer

AGAIN = f"tb_listen: {TBD} ended by"


def sell(listener, count, begin=lambda _: None):
    """Moves 10 a number of times, by the way that survives crashes of either side. Returns what
    was moved."""
    kept = os.path.join(listener.folder, "session.json")
    with listener.session(client=1) as session:
        tb.require_ok(session.create_accounts([account(1), account(2)]))
        for number in range(1, count + 1):
            session.prepare(Operation.create_transfers, [transfer(number, 1, 2, 10)])
            session.save(kept)
            begin(number)
            session = Session.load(session.transport, kept)  # as after a crash
            tb.require_ok(session.retry())
            session.save(kept)
        return session.lookup_accounts([2])[0].credits_posted


@pytest.mark.parametrize(
    "number", [signal.SIGKILL, signal.SIGABRT, signal.SIGTERM], ids=lambda it: it.name
)
def test_between_requests(start, number):
    listener = start()
    moved = sell(listener, 4, lambda at: at % 2 or os.kill(listener.server(), number))
    assert (moved, listener.end()) == (40, 0)
    ended = f"{AGAIN} {number.name}, and is started again in"
    assert listener.lines[1:] == [f"{ended} 0.1 s\n", f"{ended} 0.5 s\n"]


@pytest.mark.parametrize("place", ["read", "half", "kept", "part", "told"])
def test_during_a_request(start, place):
    listener = start(command=STAND_IN, fail=f"SIGKILL:{place}:4")
    assert (sell(listener, 4), listener.end()) == (40, 0)
    # a reply that was written may have reached the client
    assert len(listener.lines) in ((2, 3) if place == "told" else (3,))


def test_with_many_requests_in_flight(start):
    listener = start()
    with listener.session() as session:
        tb.require_ok(session.create_accounts([account(1), account(2)]))
    done, moved = threading.Event(), [0] * 9

    def work(number):
        if number == 0:
            try:
                for _ in range(3):
                    least = sum(moved) + 20
                    until(lambda: sum(moved) > least)
                    listener.kill_server()
            finally:
                done.set()
            return
        with listener.session(attempts=100) as session:
            while not done.is_set():
                tb.require_ok(session.create_transfers([transfer(tb.id(), 1, 2, 1)]))
                moved[number] += 1

    in_threads(9, work)
    with listener.session(attempts=100) as session:
        assert session.lookup_accounts([2])[0].credits_posted == sum(moved) > 0
    assert (listener.end(), len(listener.lines)) == (0, 4)


def test_a_start_for_which_there_are_not_enough_files(start):
    """The listener goes on, calls wait meanwhile, and what was acknowledged is there when there
    are files again. Nothing is left of what did not start."""
    listener = start()
    with listener.session(timeout=SECONDS) as session:
        tb.require_ok(session.create_accounts([account(1), account(2)]))
        tb.require_ok(session.create_transfers([transfer(1, 1, 2, 10)]))
        files = listener.files()
        with listener.no_more_files():
            listener.kill_server()
            assert listener.line() == f"{AGAIN} SIGKILL, and is started again in 0.1 s\n"
            for pause in ("0.5", "2"):
                why = (
                    f"{TBD} does not start: Too many open files, and is started again in {pause} s"
                )
                assert listener.line() == f"tb_listen: {why}\n"
            assert children(listener.process.pid) == []
            assert listener.files() <= files
            sale = [transfer(2, 1, 2, 10)]
            waiting = threading.Thread(target=lambda: tb.require_ok(session.create_transfers(sale)))
            waiting.start()
        waiting.join()
        assert [it.credits_posted for it in session.lookup_accounts([2])] == [20]
    assert (listener.end(), len(listener.lines)) == (0, 4)


def test_an_end_while_there_are_not_enough_files(start):
    listener = start()
    with listener.session(), listener.no_more_files():
        listener.kill_server()
        for _ in range(3):
            listener.line()
        why = f"{TBD} does not start: Too many open files, and is not started again"
        assert (listener.end(), listener.lines[-1]) == (1, f"tb_listen: {why}\n")


def test_a_client_that_waits_is_answered(start):
    listener = start(command=STAND_IN, fail="SIGKILL:read:1")
    with listener.connect() as it:
        it.sendall(register(1))
        assert received(it) == b"tb_listen: ProgramEnded\n"


def test_a_server_that_is_slow_to_start_again(start, folder):
    """A client that asks meanwhile hears that nothing was done, and comes again until it is
    served."""
    place = str(folder / "status")
    script = f'cd {folder}; while test -e slow; do sleep 0.05; done; exec "$@"'
    listener = start("--status", place, command=["sh", "-c", script, "sh", TBD])
    it = listener.session(timeout=SECONDS)
    (folder / "slow").touch()
    listener.kill_server()
    assert "ended by SIGKILL, and is started again" in listener.line()
    # the second if its time is over while the reason comes
    with pytest.raises((tb.CannotConnect, tb.ReplyLost)):
        Session.register(Socket(listener.path, timeout=0.5), attempts=1)
    assert b'"state": "starting"' in received(connected(place))
    (folder / "slow").unlink()
    with it:
        assert it.lookup_accounts([1]) == []
    assert listener.end() == 0
    assert len(listener.lines) == 2, listener.lines
    made, stop = listener.notes
    assert made == f"tb_listen: tbd: made {listener.file}\n"
    assert "has stopped: Stopping; " in stop


def test_its_last_line_before_a_signal_is_shown(start):
    script = "echo memory allocation of 64 bytes failed >&2; kill -ABRT $$"
    listener = start(command=["sh", "-c", script])
    why = "SIGABRT (memory allocation of 64 bytes failed), and is started again in 0.1 s"
    assert listener.lines[0] == f"tb_listen: sh ended by {why}\n"


def test_a_signal_that_a_shell_reports(start, folder):
    """A program that starts tbd, and waits for it, ends with 128 and the signal's number."""
    path = folder / "starts"
    path.write_text('#!/bin/sh\n"$@"\nexit $?\n')
    path.chmod(0o700)
    listener = start(command=[path, TBD])

    def kill(at):
        for it in children(listener.server()) if at == 2 else []:
            os.kill(it, signal.SIGKILL)

    assert (sell(listener, 3, kill), listener.end()) == (30, 0)
    assert len(listener.lines) == 2
    assert f"{path} ended by SIGKILL" in listener.lines[1]


def test_pauses_between_starts(start):
    """0.1, 0.5, 2 and 5 seconds. An end does not wait for the pause."""
    listener = start(command=["sh", "-c", "kill -KILL $$"])
    ended = "tb_listen: sh ended by SIGKILL, and is started again in"
    assert listener.lines == [f"{ended} 0.1 s\n"]
    for pause in ("0.5", "2", "5"):
        assert listener.line() == f"{ended} {pause} s\n"
    assert (listener.end(), len(listener.lines)) == (1, 5), "it was not started again"
    assert listener.lines[-1] == "tb_listen: sh ended by SIGKILL, and is not started again\n"


def test_a_server_that_keeps_nothing(start, tbs):
    """It is not started again: its ledger is gone."""
    listener = start(command=[tbs, "run", "64", "1"])
    with listener.session(timeout=5, attempts=1) as session:
        listener.kill_server()
        with pytest.raises((tb.ReplyLost, tb.CannotConnect)):
            session.lookup_accounts([1])
        assert listener.ended() == 1
    assert listener.lines[-1] == f"tb_listen: {tbs} ended by SIGKILL\n"
