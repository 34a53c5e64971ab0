"""The proved session of one client, over ctypes and a shared object of tb_embed
(docs/use/EMBEDDING.md says how to make it). It needs no other package.

    library = Library("./libtb_embed.so")
    caller = Caller.new(library, 7)
    frame = caller.call(request)           # store caller.fields, then send the frame
    heard, length = caller.received(data)  # of bytes that came

Requests and replies are frames (docs/use/FORMATS.md).
"""

from __future__ import annotations

import ctypes
import enum
import os
from dataclasses import dataclass
from typing import Any, Optional, Tuple, Union

U64 = 2**64 - 1
# what the calls return; tests/embedding/names.py compares it with the definitions
FAULTS = {
    1: "NotRegistered",
    2: "Registered",
    3: "Unanswered",
    4: "Ended",
    5: "NoNumber",
    6: "Malformed",
    7: "TooSmall",
    8: "NoMemory",
    9: "RegisterNumbers",
    10: "OtherClient",
    11: "OtherSession",
    12: "OtherNumber",
    13: "NoClient",
}
TOO_SMALL = 7


class Phase(enum.IntEnum):
    """The phase of a session."""

    UNREGISTERED = 0
    OPEN = 1  # a request waits for its reply
    IDLE = 2
    ENDED = 3  # the session is over, with a request in doubt


class Heard(enum.IntEnum):
    """What a reply is for the request that waits."""

    RETURNED = 0
    ENDED = 1
    REFUSED = 2
    OTHER = 3


class Fault(Exception):
    """A call changed nothing; `name` says why."""

    def __init__(self, status: int) -> None:
        self.status, self.name = status, FAULTS.get(status, f"status {status}")
        super().__init__(self.name)


@dataclass(frozen=True)
class Fields:
    """All that a session is. `frame` is that of the request that waits, or was left in doubt."""

    client: int
    session: int = 0
    last: int = 0
    phase: Phase = Phase.UNREGISTERED
    frame: bytes = b""


class _Numbers(ctypes.Structure):
    _fields_ = [
        ("id_low", ctypes.c_uint64),
        ("id_high", ctypes.c_uint64),
        ("session", ctypes.c_uint64),
        ("last", ctypes.c_uint32),
        ("phase", ctypes.c_uint32),
    ]


assert ctypes.sizeof(_Numbers) == 32


class Library:
    """The shared object. OSError and AttributeError say that it is not one."""

    def __init__(self, path: Union[str, os.PathLike[str]]) -> None:
        loaded = ctypes.CDLL(os.path.abspath(path))
        numbers, size = ctypes.POINTER(_Numbers), ctypes.c_size_t
        room, number = ctypes.POINTER(ctypes.c_char), ctypes.POINTER(ctypes.c_uint32)
        given = [ctypes.c_char_p, size]
        self.call: Any = loaded.tb_caller_call
        self.call.argtypes = [numbers, *given, room, size, ctypes.POINTER(size)]
        self.received: Any = loaded.tb_caller_received
        self.received.argtypes = [numbers, *given, *given, number, ctypes.POINTER(size)]
        self.check: Any = loaded.tb_caller_check
        self.check.argtypes = [numbers, *given]
        for it in (self.call, self.received, self.check):
            it.restype = ctypes.c_uint32


class Caller:
    """One client's session. Threads must not share it."""

    def __init__(self, library: Library, fields: Fields) -> None:
        """Goes on from stored fields, which are checked."""
        self._library, self._frame = library, fields.frame
        low, high = fields.client & U64, fields.client >> 64
        self._numbers = _Numbers(low, high, fields.session, fields.last, fields.phase)
        _test(library.check(self._numbers, self._frame, len(self._frame)))

    @classmethod
    def new(cls, library: Library, client: int) -> Caller:
        """A client that has not registered. Once for each id."""
        return cls(library, Fields(client))

    @property
    def fields(self) -> Fields:
        it = self._numbers
        client = it.id_low | it.id_high << 64
        return Fields(client, it.session, it.last, Phase(it.phase), self._frame)

    def call(self, request: bytes) -> bytes:
        """Makes the next request, and returns its frame. It has the body of the frame `request`,
        whose client, session and number do not count."""
        room, written = ctypes.create_string_buffer(len(request)), ctypes.c_size_t()
        status = self._library.call(self._numbers, request, len(request), room, len(room), written)
        _test(status)
        self._frame = ctypes.string_at(room, written.value)
        return self._frame

    def again(self) -> Optional[bytes]:
        """The frame of the request that waits."""
        return self._frame if self._numbers.phase == Phase.OPEN else None

    def received(self, data: bytes) -> Tuple[Heard, int]:
        """Takes the reply that the bytes begin with: what it is for the request that waits, and the
        length of its frame."""
        heard, read = ctypes.c_uint32(), ctypes.c_size_t()
        status = self._library.received(
            self._numbers, self._frame, len(self._frame), data, len(data), heard, read
        )
        _test(status)
        if self._numbers.phase == Phase.IDLE:
            self._frame = b""
        return Heard(heard.value), read.value


def _test(status: int) -> None:
    if status:
        raise Fault(status)
