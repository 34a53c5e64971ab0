"""Connections that send anything, next to honest clients: each batch of these is executed once and
answered in time, and nothing stays open. --seed repeats a run."""

import contextlib
import random
import socket
import threading
import time

import pytest
import tb_client as tb
from tb_client import Operation, request_frame

from .running import until
from .wire import RESET, account, header, in_threads, transfer

CALLERS, CALLS, CLIENTS, BATCHES = 4, 40, 4, 40
IN_TIME = 10.0  # seconds for a reply: the machine may do a lot more
LOOKUP = (1).to_bytes(16, "little") * 8190  # the ids of a long reply


def frame(drawn, body=bytes(128)):
    """A request without a fault, of a client that has no session."""
    client = 1 << 100 | drawn.getrandbits(90)
    return request_frame(client, 1, 1, Operation.create_transfers, body)


def count_of(it, most):
    """How many of these bytes come."""
    count = 0
    while count < most and (more := it.recv(most - count)):
        count += len(more)
    return count


def noise(it, drawn):
    it.sendall(drawn.randbytes(drawn.choice((1, 47, 48, 49, 70_000))))


def cut(it, drawn):
    whole = frame(drawn)
    it.sendall(whole[: drawn.randrange(len(whole))])
    if drawn.random() < 0.5:
        it.shutdown(socket.SHUT_WR)


def wrong_field(it, drawn):
    data = bytearray(header())
    for _ in range(drawn.randrange(1, 4)):
        data[drawn.randrange(48)] = drawn.randrange(256)
    it.sendall(data)


def half_closed(it, drawn):
    """It gets its reply nevertheless."""
    it.sendall(frame(drawn))
    it.shutdown(socket.SHUT_WR)
    assert count_of(it, 48) == 48, "no reply to a half-closed connection"


def unread(it, drawn):
    """Asks more and more, and reads nothing."""
    it.settimeout(0.2)
    it.sendall(b"".join(header(1 << 99, 1, 1, 131, length=len(LOOKUP)) + LOOKUP for _ in range(9)))


def ahead(it, drawn):
    """Many requests at once, each of which gets a reply."""
    count = drawn.randrange(2, 300)
    it.sendall(frame(drawn, b"") * count)
    read = count_of(it, 48 * count)
    assert read == 48 * count, f"{read} bytes of {count} replies"


def reset(it, drawn):
    it.sendall(frame(drawn)[: drawn.randrange(177)])
    it.setsockopt(socket.SOL_SOCKET, socket.SO_LINGER, RESET)


KINDS = (noise, cut, wrong_field, half_closed, unread, ahead, reset)


def attack(listener, seed, faults):
    """Connects again and again, and does anything."""
    drawn = random.Random(seed)
    for _ in range(CALLS):
        kind = drawn.choice(KINDS)
        try:
            with contextlib.suppress(OSError), listener.connect() as it:
                kind(it, drawn)
        except AssertionError as fault:
            faults.append(f"{kind.__name__}: {fault}")


def move(listener, waits):
    """Moves money, and notes how long each reply took."""
    with listener.session(timeout=IN_TIME) as session:
        for _ in range(BATCHES):
            began = time.monotonic()
            tb.require_ok(session.create_transfers([transfer(tb.id(), 1, 2, 1)]))
            waits.append(time.monotonic() - began)


@pytest.mark.parametrize("options", [(), ("--tcp", "127.0.0.1:0")], ids=["unix", "tcp"])
def test_honest_clients_next_to_others(start, pytestconfig, options):
    listener = start(*options, "--slow", "2", "--idle", "2")
    with listener.session() as session:
        tb.require_ok(session.create_accounts([account(1), account(2)]))
    files, faults, waits = listener.files(), [], []
    seeds = range(pytestconfig.getoption("seed"), pytestconfig.getoption("seed") + CALLERS)
    callers = [threading.Thread(target=attack, args=(listener, it, faults)) for it in seeds]
    for it in callers:
        it.start()
    in_threads(CLIENTS, lambda _: move(listener, waits))
    for it in callers:
        it.join()
    assert faults == []
    assert max(waits) < IN_TIME
    with listener.session() as session:
        assert session.lookup_accounts([2])[0].credits_posted == CLIENTS * BATCHES
    until(lambda: listener.files() <= files, IN_TIME)
    assert listener.end() == 0
    assert [it for it in listener.lines[1:] if "a connection is closed: " not in it] == []
