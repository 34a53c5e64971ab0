"""Bytes of requests and replies, and sockets that carry them."""

from __future__ import annotations

import contextlib
import fcntl
import os
import socket
import struct
import termios
import threading
import time
from collections.abc import Callable, Iterator
from typing import Any

import tb_client as tb
from tb_client import Account, Operation, Transfer, request_frame

RESET = struct.pack("ii", 1, 0)  # for SO_LINGER: a connection is reset when it is closed
UPPER = 1 << 64  # the first client id of range 1
OWNER = f"tb_listen: user {os.geteuid()}: "  # how a line names this user
CLOSED = f"{OWNER}a connection is closed: "


def account(id: int, **more: Any) -> Account:
    return Account(id, ledger=700, code=10, **more)


def transfer(id: int, debit: int, credit: int, amount: int) -> Transfer:
    return Transfer(id, debit, credit, amount, ledger=700, code=10)


def register(client: int) -> bytes:
    return request_frame(client, 0, 0, Operation.register)


def header(
    client: int = 1,
    session: int = 1,
    number: int = 1,
    operation: int = 130,
    zeros: bytes = bytes(3),
    length: int = 0,
    rest: bytes = bytes(12),
) -> bytes:
    """The 48 bytes of a request's header, right or wrong."""
    fields = struct.pack("<QIB3sI12s", session, number, operation, zeros, length, rest)
    return client.to_bytes(16, "little") + fields


def octal(data: bytes) -> str:
    """Bytes as `printf` of a shell takes them."""
    return "".join(f"\\{byte:03o}" for byte in data)


def connected(path: str, seconds: float = 120) -> socket.socket:
    """A connection to a listener that may not listen yet."""
    end = time.monotonic() + seconds
    while True:
        it = socket.socket(socket.AF_UNIX)
        it.settimeout(seconds)
        with contextlib.suppress(FileNotFoundError, ConnectionRefusedError):
            it.connect(path)
            return it
        it.close()
        assert time.monotonic() < end, f"nobody listens at {path}"
        time.sleep(0.01)


def received(it: socket.socket) -> bytes:
    """All that comes over a connection until it is closed."""
    data = b""
    with it, contextlib.suppress(ConnectionError):
        while more := it.recv(1 << 16):
            data += more
    return data


def is_read(it: socket.socket) -> bool:
    """Whether the other side of a Unix socket has read all that was sent."""
    return fcntl.ioctl(it, termios.TIOCOUTQ, bytes(4)) == bytes(4)


def taken(it: socket.socket, count: int) -> bytes:
    """The next bytes that come, fewer at the end."""
    return it.recv(count, socket.MSG_WAITALL)


def answer(it: socket.socket) -> bytes:
    """The next 48 bytes, which a reply without a body has, or fewer at the end."""
    return taken(it, 48)


def reply(it: socket.socket) -> tb.Reply:
    return tb.Reply.from_bytes(answer(it))


@contextlib.contextmanager
def held_port(host: str = "127.0.0.1") -> Iterator[int]:
    """A port that no other program gets meanwhile, and at which a program may listen."""
    family = socket.AF_INET6 if ":" in host else socket.AF_INET
    with socket.socket(family) as it:
        it.setsockopt(socket.SOL_SOCKET, socket.SO_REUSEADDR, 1)
        it.bind((host, 0))
        yield it.getsockname()[1]


def has_ipv6() -> bool:
    with contextlib.suppress(OSError), socket.socket(socket.AF_INET6) as it:
        it.bind(("::1", 0))
        return True
    return False


def in_threads(count: int, work: Callable[[int], object]) -> None:
    """Calls `work` with 0, 1 and so on in threads that start together. Raises what one raised."""
    faults: list[BaseException] = []
    start = threading.Barrier(count)

    def run(number: int) -> None:
        try:
            start.wait()
            work(number)
        except BaseException as fault:
            faults.append(fault)

    threads = [threading.Thread(target=run, args=(number,)) for number in range(count)]
    for it in threads:
        it.start()
    for it in threads:
        it.join()
    if faults:
        raise faults[0]
