"""Ids for accounts, transfers and clients, as TigerBeetle's clients make them."""
from __future__ import annotations

import os
import threading
import time
from typing import Callable, Optional

from .values import U64, whole

RANDOM_BITS = 80
MILLISECOND = 1_000_000  # nanoseconds


def _now() -> int:
    return time.time_ns()


def _draw(count: int) -> bytes:
    return os.urandom(count)


class Ids:
    """Makes ids. `now` returns nanoseconds since 1970, and `draw` a number of random bytes: those
    of the system if nothing is given."""

    def __init__(self, now: Callable[[], int] = _now, draw: Callable[[int], bytes] = _draw) -> None:
        self.now, self.draw = now, draw
        self.lock = threading.Lock()
        self.last = 0

    def next(self) -> int:
        with self.lock:
            now = self.now() // MILLISECOND
            if now > self.last >> RANDOM_BITS:
                drawn = int.from_bytes(self.draw(RANDOM_BITS // 8), "little")
                self.last = now << RANDOM_BITS | drawn
            else:
                self.last += 1  # past the end of the random part it is the next millisecond
            return self.last


_ids = Ids()


def _begin_anew() -> None:
    """A forked child draws its own random part, or it would give out its parent's next ids."""
    global _ids
    _ids = Ids()


os.register_at_fork(after_in_child=_begin_anew)


def id() -> int:
    """A new id of 128 bits: 48 bits of milliseconds since 1970, and 80 random ones. It is above
    each earlier one of this process, in any thread, and neither 0 nor 2^128 - 1."""
    return _ids.next()


def new_client(client_range: Optional[int] = None) -> int:
    """The id of a new client: any, or one whose upper 64 bits are this number."""
    if client_range is None:
        return id()
    upper = whole("client_range", client_range, U64)
    lower: int = 1 + int.from_bytes(os.urandom(8), "little") % U64  # so that no id is 0
    return upper << 64 | lower
