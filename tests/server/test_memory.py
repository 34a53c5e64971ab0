"""Memory of the listener: of connections that wait, and of long requests under way."""

import contextlib
import os
import select
import signal
import time

from .running import MIB, resident
from .wire import answer, header, register

KIB = 1 << 10
MANY = 1000


def test_idle_connections(start, many_files):
    """Each has had a reply, and takes at most 64 KiB."""
    listener = start("--connections", MANY)
    with contextlib.ExitStack() as held:
        before = resident(listener.process)
        for client in range(1, MANY + 1):
            it = held.enter_context(listener.connect())
            it.sendall(register(client))
            assert len(answer(it)) == 48
        time.sleep(0.5)
        assert resident(listener.process) - before < MANY * 64 * KIB


def test_long_requests_under_way(start):
    """60 connections send 1 MiB each to a server that does nothing. The listener takes no more
    than --memory of them, and their clients wait."""
    listener = start("--memory", 16 * MIB)
    before, server = resident(listener.process), listener.server()
    frame = header(length=128 * 8190) + bytes(128 * 8190)
    os.kill(server, signal.SIGSTOP)
    with contextlib.ExitStack() as held:
        some = [held.enter_context(listener.connect()) for _ in range(60)]
        for it in some:
            it.setblocking(False)
        left = dict.fromkeys(some, frame)
        end = time.monotonic() + 3
        while time.monotonic() < end:
            for it in select.select([], [it for it in some if left[it]], [], 0.1)[1]:
                left[it] = left[it][it.send(left[it]) :]
        waiting = sum(map(bool, left.values()))
        most = resident(listener.process, "VmHWM") - before
        listener.process.kill()
    os.kill(server, signal.SIGCONT)
    assert waiting > 30
    assert most < 3 * 16 * MIB
