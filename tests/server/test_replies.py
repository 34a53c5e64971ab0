"""Servers that write what is no reply, part of one, or nothing: no client gets a wrong byte."""

import dataclasses
import time

import pytest
from tb_client import Operation, Reply

from .running import is_gone
from .wire import answer, header, octal, received, register

NO_REPLY = "tb_listen: sh wrote what is no reply to a request that it was given\n"
KILLED = "tb_listen: sh ended by SIGKILL\n"
REGISTERED = Reply(1, 1, 0, Operation.register, 0, 1, b"")
FOUND = Reply(1, 1, 1, 131, 0, 2, bytes(128)).to_bytes()
HEAD = REGISTERED.to_bytes()


def shell(script):
    return ["sh", "-c", script, "run"]


@pytest.mark.parametrize(
    "request_, reply, cut",
    [
        (register(1), HEAD, 1),
        (register(1), HEAD, 47),
        (header(operation=131), FOUND, 48),
        (header(operation=131), FOUND, 175),
    ],
    ids=["1", "47", "header", "body"],
)
def test_a_server_that_ends_amid_a_reply(start, request_, reply, cut):
    """No byte of the reply reaches the client."""
    part = f"printf '{octal(reply[:cut])}'; echo tbs: Device >&2; exit 1"
    listener = start(command=shell(f"head -c 56 > /dev/null; {part}"))
    with listener.connect() as it:
        it.sendall(request_)
        assert received(it) == b"tb_listen: Device\n"
    assert listener.ended() == 1
    assert listener.lines[-1] == "tb_listen: tbs: Device\n"


def wrong(**fields):
    return dataclasses.replace(REGISTERED, **fields).to_bytes()


def answered_wrongly(start, request, reply):
    """The request gets ProgramEnded, and the listener ends."""
    script = f"head -c 56 > /dev/null; printf '{octal(reply)}'; sleep 10"
    listener = start(command=shell(script))
    with listener.connect() as it:
        it.sendall(request)
        assert received(it) == b"tb_listen: ProgramEnded\n"
    assert listener.ended() == 1
    assert listener.lines[1:] == [NO_REPLY]


@pytest.mark.parametrize(
    "reply",
    [
        wrong(client=2),
        wrong(number=1, operation=131, commit=2),
        wrong(session=0),
        wrong(session=0, status=8, commit=0),
        HEAD[:32] + b"\xff" * 4 + bytes(12),
        b"x" * 48,
        bytes(48),
    ],
    ids=["client", "number", "session", "status", "length", "letters", "zeros"],
)
def test_what_is_no_reply(start, reply):
    answered_wrongly(start, register(1), reply)


@pytest.mark.parametrize(
    "reply",
    [
        Reply(1, 2, 1, 131, 0, 3, b""),
        Reply(1, 2, 1, 131, 4, 0, b""),
        Reply(1, 0, 1, 131, 1, 0, b""),
    ],
    ids=["executed", "older", "no-session"],
)
def test_a_reply_of_another_session(start, reply):
    answered_wrongly(start, header(operation=131), reply.to_bytes())


TRANSFER = header(client=7, session=5, number=3, length=128) + bytes(128)
EXECUTED = Reply(7, 5, 3, 130, 0, 9, b"").to_bytes()


@pytest.mark.slow(reason="starts a listener for each of 48 bytes", seconds=30)
@pytest.mark.parametrize("at", range(48))
def test_a_reply_with_another_byte(start, at):
    """The client gets the reply if it is one to its request, and otherwise ProgramEnded."""
    reply = EXECUTED[:at] + bytes([EXECUTED[at] ^ 1]) + EXECUTED[at + 1 :]
    script = f"head -c {56 + 128} > /dev/null; printf '{octal(reply)}'; sleep 10"
    listener = start(command=shell(script))
    with listener.connect() as it:
        it.sendall(TRANSFER)
        is_commit = 36 <= at < 44  # any other commit number that is above the session's
        if is_commit and int.from_bytes(reply[36:44], "little") > 5:
            assert answer(it) == reply
        else:
            assert received(it) == b"tb_listen: ProgramEnded\n"


SCRIPTS = ["head -c 48 /dev/zero; sleep 10", "exec cat /dev/zero", "yes; sleep 10"]


@pytest.mark.parametrize("script", SCRIPTS)
def test_replies_without_a_request(start, script):
    listener = start(command=shell(script))
    began = time.monotonic()
    assert listener.ended() == 1
    assert time.monotonic() - began < 5
    assert listener.lines[-1] == NO_REPLY


@pytest.mark.parametrize("closed", [">&-", ">&- 2>&-"])
def test_a_server_that_writes_no_more_and_does_not_end(start, closed):
    """It is killed, also if it has closed its standard error too."""
    listener = start("--slow", "0.5", command=shell(f"exec {closed}; sleep 60"))
    assert (listener.ended(), listener.lines[-1]) == (1, KILLED)


def test_a_server_that_reads_no_more_and_does_not_end(start):
    """It is killed, and a client that waits gets ProgramEnded."""
    script = f"head -c 56 > /dev/null; exec <&-; printf '{octal(HEAD)}'; sleep 60"
    listener = start("--slow", "0.5", command=shell(script))
    with listener.connect() as it:
        it.sendall(register(1))
        assert answer(it) == HEAD
        it.sendall(header())
        assert received(it) == b"tb_listen: ProgramEnded\n"
    assert (listener.ended(), listener.lines[-1]) == (1, KILLED)


def test_a_process_of_the_server_that_holds_its_pipes(start, folder):
    script = 'sleep 20 & echo $! > "$0"; exec >&-; kill -KILL $$'
    listener = start(command=["sh", "-c", script, folder / "it", "run"])
    assert (listener.ended(), listener.lines[-1]) == (1, KILLED)
    assert is_gone(int((folder / "it").read_text()))
