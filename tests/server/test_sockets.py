"""Places at which the listener takes connections, and clients of the library over them."""

import contextlib
import errno
import fcntl
import os
import signal
import socket
import stat
import threading
import time
import unittest.mock

import pytest
import tb_client as tb
from tb_client import Socket

from .running import Listener, ended
from .wire import (
    RESET,
    account,
    connected,
    has_ipv6,
    in_threads,
    received,
    register,
    reply,
    transfer,
)


def test_money_moves_once_for_many_clients(start):
    listener = start()
    with listener.session() as session:
        tb.require_ok(session.create_accounts([account(1), account(2)]))

    def work(_):
        with listener.session() as session:
            for _ in range(20):
                tb.require_ok(session.create_transfers([transfer(tb.id(), 1, 2, 1)]))

    in_threads(16, work)
    with listener.session() as session:
        assert session.lookup_accounts([2])[0].credits_posted == 16 * 20
    assert listener.end() == 0
    assert listener.lines == [f"tb_listen: listens on {listener.path}\n"]


def test_a_forked_child_closes_its_copy(start):
    """A child that closes its copy of a connection leaves that of its parent, also if another
    thread of the parent has the connection's lock."""
    with start().session() as session:
        held, done = threading.Event(), threading.Event()

        def hold():
            with session.transport._lock:
                held.set()
                done.wait()

        holder = threading.Thread(target=hold)
        holder.start()
        held.wait()
        child = os.fork()
        if not child:
            signal.alarm(20)
            try:
                session.transport.close()
                os._exit(0)
            finally:
                os._exit(4)
        status = os.waitpid(child, 0)[1]
        done.set()
        holder.join()
        assert status == 0
        assert session.lookup_accounts([1]) == []


class FailsOnce:
    """A connection of which one call, from 1, fails: before it is done, or after it."""

    def __init__(self, at, is_done, error):
        self.left, self.is_done, self.error = at, is_done, error

    def wrapped(self, call):
        def called(*arguments):
            self.it = call(*arguments)
            return self

        return called

    def __getattr__(self, name):
        call = getattr(self.it, name)
        if name not in ("recv", "sendall", "settimeout"):
            return call
        return lambda *arguments: self._failing(call, *arguments)

    def _failing(self, call, *arguments):
        self.left -= 1
        if self.left:
            return call(*arguments)
        if self.is_done:
            call(*arguments)
        raise self.error


@pytest.fixture(scope="module")
def money(tmp_path_factory):
    """A listener with the accounts 1 and 2."""
    it = Listener(tmp_path_factory.mktemp("money")).begun()
    with it.session() as session:
        tb.require_ok(session.create_accounts([account(1), account(2)]))
    yield it
    assert it.end() == 0
    it.close()


@pytest.mark.parametrize(
    "code", [errno.EIO, errno.ECONNRESET, errno.EPIPE], ids=errno.errorcode.get
)
@pytest.mark.parametrize("is_done", [False, True], ids=["before", "after"])
@pytest.mark.parametrize("at", range(1, 12))
def test_a_device_that_fails_once(money, at, is_done, code):
    """A call of the client's connection fails, before or after it was done. The money moves
    once."""
    failing = FailsOnce(at, is_done, OSError(code, os.strerror(code)))
    with money.session() as session:
        before = session.lookup_accounts([2])[0].credits_posted
        with unittest.mock.patch("tb_client.sockets._call", failing.wrapped(tb.sockets._call)):
            session.transport._hang_up()
            assert session.create_transfers([transfer(tb.id(), 1, 2, 1)]) == []
        session.transport._hang_up()
        assert session.lookup_accounts([2])[0].credits_posted == before + 1


HOSTS = [("127.0.0.1:0", "127.0.0.1"), ("localhost:0", None)]
HOSTS += [("[::1]:0", "::1")] if has_ipv6() else []


@pytest.mark.parametrize("given, wanted", HOSTS)
def test_tcp(start, given, wanted):
    """Port 0 is one that is free. After the end nobody listens there."""
    listener = start("--tcp", given)
    host, port = listener.address
    assert host in ((wanted,) if wanted else ("127.0.0.1", "::1"))
    assert port > 0
    with listener.session() as session:
        assert session.session == 1
    assert listener.end(signal.SIGINT) == 0
    with pytest.raises(tb.CannotConnect) as fault:
        Socket(listener.address, timeout=0.3).exchange(0, register(1))
    if wanted:
        place = f"[{wanted}]" if ":" in wanted else wanted
        assert str(fault.value) == f"{place}:{port}: Connection refused"


def test_unix_and_tcp_at_once(start, folder):
    path = folder / "it"
    listener = start("--unix", path, "--tcp", "127.0.0.1:0")
    port = int(listener.line().rpartition(":")[2])
    with tb.Session.register(Socket(str(path)), 1) as one:
        with tb.Session.register(Socket(("127.0.0.1", port)), 2) as two:
            assert one.lookup_accounts([1]) == two.lookup_accounts([1])
    assert listener.end() == 0


def test_a_connection_that_was_gone_before_it_was_taken(start):
    """No line is printed."""
    listener = start("--tcp", "127.0.0.1:0")
    listener.process.send_signal(signal.SIGSTOP)
    with listener.connect() as it:
        it.setsockopt(socket.SOL_SOCKET, socket.SO_LINGER, RESET)
    listener.process.send_signal(signal.SIGCONT)
    listener.session().close()
    count = len(listener.lines)
    assert listener.end() == 0
    assert listener.lines[count:] == []


def test_a_socket_that_was_left_is_taken_over(start, folder):
    """It is its owner's only."""
    with socket.socket(socket.AF_UNIX) as left:
        left.bind(str(folder / "ledger.sock"))
    listener = start()
    assert stat.S_IMODE(os.stat(listener.path).st_mode) == 0o600
    with listener.session() as session:
        assert session.session == 1


def test_a_folder_that_another_program_has_locked(start, folder):
    """It is waited for, but not without end: anyone who may read a folder may lock it."""
    held = os.open(folder, os.O_RDONLY)
    fcntl.flock(held, fcntl.LOCK_EX)
    try:
        listener = start()
        assert listener.end() == 0
        assert not os.path.exists(listener.path)
    finally:
        os.close(held)


def refused(place, why):
    assert ended("--unix", place) == (1, f"tb_listen: {place}{why}")


def test_no_folder_for_the_socket(folder):
    refused(folder / "no" / "ledger.sock", ": No such file or directory")


def test_a_file_in_the_place_of_the_socket(folder):
    path = folder / "notes.txt"
    path.write_text("mine")
    refused(path, " is there already, and is no socket")
    assert path.read_text() == "mine"


def test_a_folder_in_the_place_of_the_socket(folder):
    refused(folder, " is there already, and is no socket")


def test_a_link_in_the_place_of_the_socket(folder):
    (folder / "link").symlink_to("nothing")
    refused(folder / "link", " is there already, and is no socket")


@pytest.mark.parametrize("length", [108, 120])
def test_a_path_that_is_too_long_for_a_socket(folder, length):
    path = str(folder / "x").ljust(length, "x")
    refused(path, ": AF_UNIX path too long")


def test_a_socket_that_is_in_use(folder):
    path = folder / "used.sock"
    with socket.socket(socket.AF_UNIX) as other:
        other.bind(str(path))
        other.listen()
        refused(path, " is in use")
        assert path.exists()


def test_a_socket_of_another_kind(folder):
    path = folder / "letters.sock"
    with socket.socket(socket.AF_UNIX, socket.SOCK_DGRAM) as other:
        other.bind(str(path))
        refused(path, ": Protocol wrong type for socket")
        assert path.exists()


@pytest.mark.parametrize("place", ["no.such.host.invalid:3001", "a b:1"])
def test_a_host_without_an_address(place):
    status, line = ended("--tcp", place)
    assert (status, line.startswith(f"tb_listen: {place}: ")) == (1, True), line


def test_a_name_that_is_too_long():
    place = "x" * 300 + ":1"
    assert ended("--tcp", place) == (1, f"tb_listen: {place}: is no name of a place")


def test_a_port_that_is_in_use():
    with socket.socket() as other:
        other.bind(("127.0.0.1", 0))
        other.listen()
        place = f"127.0.0.1:{other.getsockname()[1]}"
        assert ended("--tcp", place) == (1, f"tb_listen: {place}: Address already in use")


def test_connections_for_which_there_are_not_enough_files(start):
    """Those that are there go on, and the others are taken when there are files again. One line
    says it."""
    listener = start()
    with listener.session() as session, contextlib.ExitStack() as held:
        with listener.no_more_files():
            others = [held.enter_context(listener.connect()) for _ in range(20)]
            why = "no more connections are taken for now: Too many open files"
            assert listener.line() == f"tb_listen: {why}\n"
            time.sleep(1.5)
            assert session.lookup_accounts([1]) == []
        for number, it in enumerate(others, 10):
            it.sendall(register(number))
            assert reply(it).client == number
    assert (listener.end(), len(listener.lines)) == (0, 2)


@pytest.mark.parametrize(
    "command, why",
    [
        ("/no/such/program", "No such file or directory"),
        ("no-such-program", "PATH has no such program"),
    ],
)
def test_a_command_that_does_not_start(launch, folder, command, why):
    """One line says so, and none that it listens."""
    listener = launch(command=[command, "run", "64"])
    assert listener.ended() == 1
    assert listener.lines == [f"tb_listen: {command} does not start: {why}\n"]
    assert listener.notes == []
    assert not os.path.exists(listener.path)


def test_nothing_is_open(launch, folder):
    """Standard input, output and error may be closed: what is opened takes their numbers, and
    gets nothing that was meant for them."""
    listener = launch(before=["sh", "-c", 'exec "$@" <&- >&- 2>&-', "sh"])
    with tb.Session.register(Socket(listener.path, timeout=20)) as session:
        with connected(listener.path) as it:
            it.sendall(bytes(48))
            assert received(it) == b"tb_listen: ClientZero\n"
        assert session.lookup_accounts([1]) == []
    listener.process.terminate()
    assert listener.process.wait(20) == 0
    assert os.listdir(folder) == ["ledger.tbk"]
