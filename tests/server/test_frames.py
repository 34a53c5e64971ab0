"""Which requests the listener passes on: those at which the server would not end. Others get the
name of their fault, and only their own connection is closed."""

import socket
import time

import pytest
import tb_client as tb
from tb_client import Operation, request_frame

from .running import Listener
from .wire import CLOSED, answer, header, received, register, reply

FIRST_BODY = {129: 128, 130: 128, 131: 16, 132: 16}  # bytes of an event or an id, by operation
HTTP = b"GET / HTTP/1.1\r\nHost: localhost:3001\r\nAccept: */*\r\n\r\n"


@pytest.fixture(scope="module")
def listener(tmp_path_factory):
    it = Listener(tmp_path_factory.mktemp("frames")).begun()
    yield it
    assert it.end() == 0
    it.close()


def fault_of(listener, frame):
    """The fault with which a frame's connection is closed, or None if a reply comes."""
    with listener.connect() as it:
        it.sendall(frame)
        got = answer(it)
    if len(got) == 48:
        tb.Reply.from_bytes(got)
        return None
    assert got.startswith(b"tb_listen: ") and got.endswith(b"\n"), got
    return got[11:-1].decode()


def named(operation):
    if operation == 2:
        return "RegisterNumbers"
    return None if 129 <= operation <= 132 else "UnknownOperation"


@pytest.mark.parametrize("operation", range(256))
def test_operation(listener, operation):
    assert fault_of(listener, header(operation=operation)) == named(operation)


def test_register(listener):
    assert fault_of(listener, header(client=99, session=0, number=0, operation=2)) is None


@pytest.mark.parametrize("at", [29, 30, 31, *range(36, 48)])
@pytest.mark.parametrize("session, number, operation", [(1, 1, 130), (0, 0, 2)])
def test_reserved_byte(listener, at, session, number, operation):
    frame = header(session=session, number=number, operation=operation)
    assert fault_of(listener, frame[:at] + b"\1" + frame[at + 1 :]) == "Reserved"


@pytest.mark.parametrize("at", range(16))
def test_byte_of_a_client(listener, at):
    assert fault_of(listener, header(client=1 << 8 * at)) is None


@pytest.mark.parametrize("at", range(8))
def test_byte_of_a_session(listener, at):
    session = 1 << 8 * at
    assert fault_of(listener, header(session=session)) is None
    frame = header(session=session, number=0, operation=2)
    assert fault_of(listener, frame) == "RegisterNumbers"


@pytest.mark.parametrize("at", range(4))
def test_byte_of_a_number(listener, at):
    number = 1 << 8 * at
    assert fault_of(listener, header(number=number)) is None
    frame = header(session=0, number=number, operation=2)
    assert fault_of(listener, frame) == "RegisterNumbers"


def test_session_zero_is_refused_by_the_server(listener):
    assert fault_of(listener, header(session=0)) is None


@pytest.mark.parametrize("operation", range(129, 133))
def test_request_zero(listener, operation):
    assert fault_of(listener, header(number=0, operation=operation)) == "RequestZero"


@pytest.mark.parametrize("operation, size", FIRST_BODY.items())
@pytest.mark.parametrize(
    "length, wanted",
    [
        (lambda _: 0, None),
        (lambda _: 1, "BadLength"),
        (lambda size: size - 1, "BadLength"),
        (lambda size: size, None),
        (lambda size: size + 1, "BadLength"),
        (lambda size: 8190 * size - 1, "BadLength"),
        (lambda size: 8190 * size, None),
        (lambda size: 8190 * size + 1, "BadLength"),
        (lambda size: 8191 * size, "TooMany"),
        (lambda size: 2**32 - size, "TooMany"),
        (lambda _: 2**32 - 1, "BadLength"),
    ],
    ids=["none", "1", "-1", "one", "+1", "all-1", "all", "all+1", "more", "most", "u32"],
)
def test_length(listener, operation, size, length, wanted):
    count = length(size)
    body = b"" if wanted else bytes(count)
    assert fault_of(listener, header(operation=operation, length=count) + body) == wanted


@pytest.mark.parametrize("length", [1, 16, 128, 2**32 - 1])
def test_length_of_a_register(listener, length):
    frame = header(session=0, number=0, operation=2, length=length)
    assert fault_of(listener, frame) == "BadLength"


@pytest.mark.parametrize(
    "frame, wanted",
    [
        (bytes(48), "ClientZero"),
        (HTTP[:48], "UnknownOperation"),
        (header(operation=0, zeros=b"abc"), "UnknownOperation"),
        (header(operation=2, zeros=b"abc", length=1), "Reserved"),
        (header(operation=2, length=1), "RegisterNumbers"),
        (header(number=0, length=1), "RequestZero"),
    ],
    ids=["zeros", "http", "operation", "reserved", "numbers", "request"],
)
def test_first_of_several_faults(listener, frame, wanted):
    assert fault_of(listener, frame) == wanted


FAULTS = [
    ("ClientZero", header(client=0)),
    ("UnknownOperation", header(operation=133)),
    ("Reserved", header(zeros=b"\0\0\1")),
    ("RegisterNumbers", header(operation=2)),
    ("RequestZero", header(number=0)),
    ("BadLength", header(length=127)),
    ("TooMany", header(length=8191 * 128)),
    ("UnknownOperation", HTTP),
    ("ClientZero", bytes(1 << 20)),
    ("Reserved", header(rest=b"\0" * 11 + b"\1")),
]


def test_a_fault_closes_its_own_connection(start):
    listener = start()
    with listener.session() as session:
        for name, frame in FAULTS:
            it = listener.connect()
            it.sendall(frame)
            assert received(it) == f"tb_listen: {name}\n".encode()
            assert session.lookup_accounts([1]) == []
        with listener.connect() as it:
            it.sendall(header(length=128))  # and is gone before its body
        assert session.lookup_accounts([1]) == []
    listener.end()
    assert listener.lines[1:] == [f"{CLOSED}{name}\n" for name, _ in FAULTS]


def test_batches_of_all_sizes_in_any_pieces(listener):
    with listener.connect() as it:
        it.sendall(register(7))
        session = reply(it).session
        for number, count in enumerate((0, 1, 8190), 1):
            ids = b"\1" + bytes(16 * count - 1) if count else b""
            frame = request_frame(7, session, number, Operation.lookup_accounts, ids)
            for at in range(0, len(frame), 50_001):
                it.sendall(frame[at : at + 50_001])
                time.sleep(0.001)
            assert reply(it).number == number


PLACES = pytest.mark.parametrize("options", [(), ("--tcp", "127.0.0.1:0")], ids=["unix", "tcp"])


@PLACES
def test_the_reason_reaches_a_client_that_still_sends(start, options):
    """It gets the reason, and not a broken connection."""
    listener = start("--connections", "2", *options)
    for name, frame in (
        ("TooMany", header(length=8191 * 128) + bytes(8191 * 128)),
        ("BadLength", header(length=127) + bytes(4 << 20)),
    ):
        it = listener.connect()
        it.sendall(frame)
        assert received(it) == f"tb_listen: {name}\n".encode()
    assert listener.end() == 0
    assert [it.rpartition(": ")[2] for it in listener.lines[1:]] == ["TooMany\n", "BadLength\n"]


@PLACES
@pytest.mark.parametrize(
    "part, wanted",
    [
        (register(1)[:1], b"tb_listen: Short\n"),
        (register(1)[:47], b"tb_listen: Short\n"),
        (header(length=128), b"tb_listen: Short\n"),
        (header(length=128) + bytes(127), b"tb_listen: Short\n"),
        (b"", b""),
    ],
    ids=["1", "47", "header", "body", "nothing"],
)
def test_a_request_that_is_cut_short(start, options, part, wanted):
    """It gets Short, of which no line is printed."""
    listener = start(*options)
    it = listener.connect()
    it.sendall(part)
    it.shutdown(socket.SHUT_WR)
    assert received(it) == wanted
    assert listener.end() == 0
    assert listener.lines[1:] == []


@PLACES
@pytest.mark.parametrize("count", [0, 1, 8190])
def test_busy_reaches_a_client_that_still_sends(start, options, count):
    listener = start("--connections", "2", *options)
    with listener.connect(), listener.connect():
        time.sleep(0.2)
        with tb.Socket(listener.address) as it, pytest.raises(tb.ReplyLost) as lost:
            tb.Session(it, 5, session=1, attempts=1).lookup_accounts([1] * count)
        assert str(lost.value) == "the server closed the connection: Busy"
