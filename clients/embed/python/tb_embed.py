"""The ledger server inside a Python program, over ctypes and a shared object of the library
(docs/use/EMBEDDING.md says how to make it).

    server = Server("./libtb_embed.so")
    reply = server.serve(moment, request)           # frames, as bytes: docs/use/FORMATS.md

With clients/python, whose package it needs next to it: `Session.register(Direct(server.serve))`.
Errors of both are subclasses of `tb_client.ClientError`.
"""
from __future__ import annotations

import ctypes
import os
import threading
import weakref
from typing import Any, Dict, Optional, Type, Union

import tb_client
from tb_client.forks import left_by_children
from tb_client.transports import Closing
from tb_client.values import MOMENT_MAX, U64, U128, kind_of, path_of, whole

# generated: statuses, by tools/tables.py from tools/ledger.json
REPLY_MAX = 48 + 8190 * 128  # bytes
RECORD = 128
CLIENTS_MAX = 64
REFUSALS = {
    1: "Closed",
    2: "Usage",
    3: "NoMemory",
    4: "Malformed",
    5: "TimeExhausted",
    6: "Absent",
    7: "TooSmall",
}
ABSENT, TOO_SMALL = 6, 7
# end of statuses


class Refused(tb_client.ClientError):
    """A call did not do what it is for; `status` is its number, and the text its name, which a
    subclass has too."""

    def __init__(self, status: int) -> None:
        super().__init__(status)
        self.status = status

    def __str__(self) -> str:
        return REFUSALS.get(self.status, f"status {self.status}")


class Closed(Refused, tb_client.Closed):
    """The server was closed."""


class Usage(Refused):
    """The arguments are wrong."""


class NoMemory(Refused, tb_client.NoMemory):
    """There was no memory. The server is as it was, and the same bytes may be sent again: a
    Session does so."""


class Malformed(Refused):
    """The bytes are not one frame of a request."""


class TimeExhausted(Refused):
    """The request is new, and no time is left for it."""


_REFUSALS: Dict[int, Type[Refused]] = {
    1: Closed,
    2: Usage,
    3: NoMemory,
    4: Malformed,
    5: TimeExhausted,
}


_CALLS = (
    "tb_embed_open",
    "tb_embed_serve",
    "tb_embed_account",
    "tb_embed_transfer",
    "tb_embed_close",
)


class _Handle(ctypes.Structure):
    _fields_ = [("at", ctypes.c_void_p), ("is_open", ctypes.c_uint8)]


assert ctypes.sizeof(_Handle) == 16


def _library(path: str) -> Any:
    try:
        # a name without a slash would be looked for only in the loader's own folders
        library = ctypes.CDLL(os.path.abspath(path) if os.path.exists(path) else path)
        for name in _CALLS:
            getattr(library, name)
    except OSError as error:
        raise tb_client.CannotStart(f"the library does not load: {error}") from None
    except AttributeError as error:
        raise tb_client.CannotStart(f"it is no library of the server: {error}") from None
    handle, bytes_in, room, size = (
        ctypes.POINTER(_Handle),
        ctypes.c_char_p,
        ctypes.POINTER(ctypes.c_char),
        ctypes.c_size_t,
    )
    u32, u64 = ctypes.c_uint32, ctypes.c_uint64
    library.tb_embed_open.argtypes = [handle, u32, u32]
    library.tb_embed_serve.argtypes = [
        handle,
        u64,
        bytes_in,
        size,
        room,
        size,
        ctypes.POINTER(size),
    ]
    library.tb_embed_account.argtypes = library.tb_embed_transfer.argtypes = [
        handle,
        u64,
        u64,
        room,
        size,
    ]
    library.tb_embed_close.argtypes = [handle]
    library.tb_embed_close.restype = None
    for call in (
        library.tb_embed_open,
        library.tb_embed_serve,
        library.tb_embed_account,
        library.tb_embed_transfer,
    ):
        call.restype = u32
    return library


class Server(Closing):
    """A server by profile 1 or 2, with 1 to CLIENTS_MAX clients that can have a session at one
    time. Threads may share it: it takes one call at a time. One that is not closed is freed with
    its object. In a forked child it is closed: what it did there would be only in the child's
    history."""

    def __init__(
        self,
        path: Union[str, os.PathLike[str]],
        clients_max: int = CLIENTS_MAX,
        profile: int = 1,
        room: int = 4096,
    ) -> None:
        self._path = name = path_of("path", path)
        places, profile = whole("clients_max", clients_max, CLIENTS_MAX, 1), whole(
            "profile", profile, 2, 1
        )
        self._room = ctypes.create_string_buffer(whole("room", room, REPLY_MAX, 1))
        self._lock = threading.Lock()
        self._library, self._handle, self._written = _library(name), _Handle(), ctypes.c_size_t()
        self._check(self._library.tb_embed_open(self._handle, profile, places))
        # not at the end of Python, when another thread may be within a call
        weakref.finalize(self, self._library.tb_embed_close, self._handle).atexit = False
        left_by_children(self)

    def leave_copy(self) -> None:
        """Closes a forked child's handle. Its copy of the server is not freed: a thread that is
        not here may have been within a call, and may hold the lock."""
        self._handle.at, self._handle.is_open = None, 0
        self._lock = threading.Lock()

    def serve(self, moment: int, request: bytes) -> bytes:
        """The reply's frame to the frame of a request that comes at a moment, in nanoseconds."""
        moment = whole("moment", moment, MOMENT_MAX)
        if not isinstance(request, (bytes, bytearray)):
            raise tb_client.InvalidType("request", f"must be bytes, not {kind_of(request)}")
        with self._lock:
            status = self._serve(moment, bytes(request))
            # it was served: a larger room, and the request again, which gets its reply
            if status == TOO_SMALL:
                self._room = ctypes.create_string_buffer(self._written.value)
                status = self._serve(moment, bytes(request))
            self._check(status)
            return ctypes.string_at(self._room, self._written.value)

    def __repr__(self) -> str:
        return f"<Server {self._path}{'' if self._handle.is_open else ', closed'}>"

    def account(self, id: int) -> Optional[tb_client.Account]:
        """An account as it is after the last request, or None."""
        record = self._record(self._library.tb_embed_account, id)
        return None if record is None else tb_client.Account.from_bytes(record)

    def transfer(self, id: int) -> Optional[tb_client.Transfer]:
        """A transfer as it was recorded, or None."""
        record = self._record(self._library.tb_embed_transfer, id)
        return None if record is None else tb_client.Transfer.from_bytes(record)

    def close(self) -> None:
        """Frees the server. Its calls are refused from then on, as Closed."""
        with self._lock:
            self._library.tb_embed_close(self._handle)

    def _serve(self, moment: int, request: bytes) -> int:
        status: int = self._library.tb_embed_serve(
            self._handle, moment, request, len(request), self._room, len(self._room), self._written
        )
        return status

    def _record(self, call: Any, id: int) -> Optional[bytes]:
        id = whole("id", id, U128)
        record = ctypes.create_string_buffer(RECORD)
        with self._lock:
            status = call(self._handle, id & U64, id >> 64, record, RECORD)
        if status == ABSENT:
            return None
        self._check(status)
        return record.raw

    @staticmethod
    def _check(status: int) -> None:
        if status:
            raise _REFUSALS.get(status, Refused)(status)
