"""What carries frames: the protocol, a function, and another transport with losses."""
from __future__ import annotations

import contextlib
import sys
import threading
from types import TracebackType
from typing import Any, Callable, Iterable, Optional, Protocol, Set, Type, TypeVar

from .errors import Closed, InvalidType, ReplyLost
from .forks import left_by_children
from .values import U64, callable_of, kind_of, listed, whole

Self = TypeVar("Self", bound="Closing")


def to_standard_error(line: str) -> None:
    """Prints what an operator has to know, unless the caller takes it by `report`."""
    with contextlib.suppress(OSError, AttributeError):  # it is full, or closed
        print(line, file=sys.stderr, flush=True)


class Transport(Protocol):
    """Carries frames. `exchange` gives back the reply's frame, or raises `ReplyLost` if no reply
    came (`Busy` if the server said to come later) and `NoMemory` if the server had no memory. If it
    sends nothing, it raises a `NotSent`."""

    def exchange(self, moment: int, frame: bytes) -> bytes:
        ...


class Closing:
    """What is closed at the end of a `with`."""

    def close(self) -> None:
        raise NotImplementedError

    def __enter__(self: Self) -> Self:
        return self

    def __exit__(
        self,
        kind: Optional[Type[BaseException]],
        error: Optional[BaseException],
        trace: Optional[TracebackType],
    ) -> None:
        self.close()


class Direct(Closing):
    """A function that takes a moment and the frame of a request, and gives back the frame of the
    reply. It is called by one thread at a time."""

    def __init__(self, serve: Callable[[int, bytes], bytes]) -> None:
        self._serve, self._lock, self._closed = callable_of("serve", serve), threading.Lock(), False
        left_by_children(self)

    def leave_copy(self) -> None:
        """A thread of the parent may have held the lock."""
        self._lock = threading.Lock()

    def __repr__(self) -> str:
        return f"<Direct {self._serve!r}{', closed' if self._closed else ''}>"

    def exchange(self, moment: int, frame: bytes) -> bytes:
        with self._lock:
            if self._closed:
                raise Closed("this Direct was closed")
            reply: bytes = self._serve(moment, frame)
            return reply

    def close(self) -> None:
        self._closed = True


class Faulty(Closing):
    """Another transport, of which the exchanges with these numbers, from 1, lose their request
    or their reply."""

    def __init__(
        self, inner: Transport, requests: Iterable[int] = (), replies: Iterable[int] = ()
    ) -> None:
        self.inner = transport_of("inner", inner)
        self.requests, self.replies = _numbers("requests", requests), _numbers("replies", replies)
        self.count = 0
        self._lock = threading.Lock()
        left_by_children(self)

    def leave_copy(self) -> None:
        """A thread of the parent may have held the lock."""
        self._lock = threading.Lock()

    def __repr__(self) -> str:
        return f"<Faulty {self.inner!r}, {self.count} exchanges>"

    def exchange(self, moment: int, frame: bytes) -> bytes:
        with self._lock:
            self.count += 1
            count = self.count
        if count in self.requests:
            raise ReplyLost(f"request {count} was lost on purpose")
        reply: bytes = self.inner.exchange(moment, frame)
        if count in self.replies:
            raise ReplyLost(f"reply {count} was lost on purpose")
        return reply

    def close(self) -> None:
        close_transport(self.inner)


def transport_of(field: str, value: Any) -> Any:
    """What has the call of a transport."""
    if not callable(getattr(value, "exchange", None)):
        raise InvalidType(
            field,
            f"must have a call exchange, as Program and Direct have, and {kind_of(value)} has none",
        )
    return value


def _numbers(field: str, numbers: Iterable[int]) -> Set[int]:
    return {whole(f"{field}[{at}]", it, U64) for at, it in enumerate(listed(field, numbers))}


def close_transport(transport: Transport) -> None:
    """Closes a transport that can be closed."""
    close = getattr(transport, "close", None)
    if close is not None:
        close()
