"""The status socket: the state of the listener and its counts, as a line of JSON."""

import concurrent.futures
import contextlib
import fcntl
import json
import os
import signal
import termios
import time

import pytest
import tb_client as tb
from tb_client import Session, Socket

from .running import TBD, ended, state_of, until
from .wire import connected, received, register

SYNCS = 2  # of one commit


@pytest.fixture
def place(folder):
    return str(folder / "status")


def counts(place):
    data = received(connected(place))
    assert data.endswith(b"\n") and data.count(b"\n") == 1
    return json.loads(data)


FIELDS = {
    "state",
    "seconds",
    "connections",
    "connections_taken",
    "connections_closed_by_fault",
    "requests",
    "evictions",
    "commits",
    "syncs",
    "file_bytes",
    "clock_lag_seconds",
}


def test_counts(start, place):
    listener = start("--status", place)
    assert os.stat(place).st_mode & 0o777 == 0o600
    with listener.session() as session:
        session.lookup_accounts([1])
        it = counts(place)
    assert FIELDS <= set(it)
    assert (it["state"], it["connections"]) == ("ready", 1)
    assert it["requests"] == {"register": {"Reply": 1}, "lookup_accounts": {"Reply": 1}}
    assert it["file_bytes"] == listener.file.stat().st_size
    assert (it["connections_taken"], it["connections_closed_by_fault"]) == (1, {})
    assert (it["evictions"], it["clock_lag_seconds"]) == (0, 0.0)
    with listener.connect() as bad:
        bad.sendall(register(1)[:28] + bytes(20))
        received(bad)
    assert counts(place)["connections_closed_by_fault"] == {"UnknownOperation": 1}
    listener.end()
    assert not os.path.exists(place)


def test_a_status_socket_that_another_listener_took(start, folder, place):
    """The other one keeps it."""
    first = start("--status", place)
    os.unlink(place)
    (folder / "other").mkdir()
    second = start("--status", place, folder=folder / "other")
    assert first.end() == 0
    assert counts(place)["state"] == "ready"
    assert second.end() == 0
    assert not os.path.exists(place)


def test_a_path_that_is_too_long(folder):
    path = "x" * 108
    found = ended("--unix", folder / "it", "--status", path)
    assert found == (1, f"tb_listen: {path}: AF_UNIX path too long")


# Commits


def commits(place):
    it = counts(place)
    return it["commits"], it["syncs"]


def after_commits(place, wanted):
    """The system counts what a process writes a moment after it is there. So the last commit may
    be reported a moment later, and no commit is ever reported that was not made."""
    until(lambda: commits(place)[0] >= wanted)
    time.sleep(0.05)
    assert commits(place) == (wanted, SYNCS * wanted)


def test_commits(start, place):
    """Each request in turn is a commit; those that wait at once are one; no commit is lost or
    counted twice if the server is killed."""
    listener = start("--status", place)
    after_commits(place, 0)
    with contextlib.ExitStack() as held:
        some = [held.enter_context(listener.session()) for _ in range(6)]
        after_commits(place, 6)
        for _ in range(20):
            some[0].lookup_accounts([1])
        after_commits(place, 26)
        with pytest.raises(tb.NoSession), Socket(listener.path) as other:
            Session(other, 99, 1).lookup_accounts([1])
        after_commits(place, 26)  # a refusal is no commit
        assert at_once(listener, some) == [[]] * 6
        after_commits(place, 27)
        listener.kill_server()
        some[0].lookup_accounts([1])
        after_commits(place, 28)


def at_once(listener, some):
    """What each session looks up, if the server gets all requests together."""
    server = listener.server()
    os.kill(server, signal.SIGSTOP)
    until(lambda: state_of(server) == "T")  # until then it may still take a first request
    with concurrent.futures.ThreadPoolExecutor(len(some)) as pool:
        found = [pool.submit(it.lookup_accounts, [1]) for it in some]
        with open(f"/proc/{server}/fd/0", "rb", buffering=0) as pipe:
            until(lambda: waiting(pipe) >= len(some) * (8 + 48 + 16))
        os.kill(server, signal.SIGCONT)
        return [it.result(20) for it in found]


def waiting(pipe):
    """The bytes that wait in a pipe."""
    count = bytearray(4)
    fcntl.ioctl(pipe, termios.FIONREAD, count)
    return int.from_bytes(count, "little")


def test_commits_behind_a_shell(start, place, folder):
    """Another process writes: they are not known."""
    command = ["sh", "-c", '"$@"; exit', "sh", TBD, "run", folder / "ledger", "64"]
    with start("--status", place, command=command).session():
        assert commits(place) == (None, None)


def test_commits_of_a_server_that_keeps_nothing(start, place, tbs):
    with start("--status", place, command=[tbs, "run", "64"]).session():
        assert commits(place) == (None, None)


def test_evictions(start, place, folder):
    listener = start("--status", place, command=[TBD, "run", folder / "it", "2"])
    for client in (11, 12, 13):
        listener.session(client=client).close()
    assert counts(place)["evictions"] == 1
    listener.end()
    assert "client 11 was evicted by client 13" in "".join(listener.lines)
