"""A ledger by its file, or by its addresses: the same client."""
from __future__ import annotations

import asyncio
import ssl
from types import TracebackType
from typing import Any, Callable, Generator, Optional, Type

from .clients import Addresses, ClientAsync, ClientSync, begin
from .layout import CLIENTS_MAX
from .ledger_file import LOCK_TIMEOUT, LedgerFile, Path, Progress
from .program import AHEAD_MAX
from .transports import to_standard_error
from .values import path_of


def open(
    file: Path,
    *,
    program: Optional[Path] = None,
    existing: bool = False,
    clients_max: int = CLIENTS_MAX,
    profile: int = 1,
    timeout: Optional[float] = None,
    lock_timeout: float = LOCK_TIMEOUT,
    ahead_max: Optional[float] = AHEAD_MAX,
    report: Callable[[str], object] = to_standard_error,
    progress: Optional[Progress] = None,
    drop_torn: bool = False,
) -> ClientSync:
    """Opens the ledger in a file, which is made if it is not there (with `existing` it is a
    fault), and returns its client once the file was read.

    `tbd` serves the file as a child of this process. It is `program`, the variable TBD, on PATH, or
    next to this package. If it is killed, it is started again, and calls go on; it ends with this
    process. One process has a file open: `Locked` names another, after `lock_timeout` seconds. What
    a start did to the file goes to `report`, and how many MB of how many were read to `progress`,
    if it is long; a terminal shows a line. With `drop_torn` a start cuts off torn bytes without a
    copy of them; there are at most 16 copies.

    `timeout` is that of a call. A ledger whose time is more than `ahead_max` seconds ahead of this
    computer's clock is `ClockJumped` (None: no check)."""
    client = ClientSync(
        0,
        path_of("file", file),
        timeout=timeout,
        connect=lambda: ledger,
        jump_max=None,
        report=report,
    )
    ledger = LedgerFile(
        file,
        program,
        existing=existing,
        clients_max=clients_max,
        profile=profile,
        lock_timeout=lock_timeout,
        ahead_max=ahead_max,
        report=report,
        progress=progress,
        drop_torn=drop_torn,
    )
    try:
        ledger.open()
        begin(client)
    except BaseException:
        ledger.close()
        raise
    return client


def open_async(
    file: Path,
    *,
    program: Optional[Path] = None,
    existing: bool = False,
    clients_max: int = CLIENTS_MAX,
    profile: int = 1,
    timeout: Optional[float] = None,
    lock_timeout: float = LOCK_TIMEOUT,
    ahead_max: Optional[float] = AHEAD_MAX,
    report: Callable[[str], object] = to_standard_error,
    progress: Optional[Progress] = None,
    drop_torn: bool = False,
) -> Opening:
    """`open` for asyncio, by `async with` or `await`. `report` and `progress` are called in another
    thread."""
    return Opening(
        file,
        timeout,
        program=program,
        existing=existing,
        clients_max=clients_max,
        profile=profile,
        lock_timeout=lock_timeout,
        ahead_max=ahead_max,
        report=report,
        progress=progress,
        drop_torn=drop_torn,
    )


class Opening:
    """A file that is opened when it is awaited, or at the head of an `async with`, which closes its
    client."""

    def __init__(self, file: Path, timeout: Optional[float], **options: Any) -> None:
        self._file, self._timeout, self._options = file, timeout, options
        self._client: Optional[ClientAsync] = None

    def __await__(self) -> Generator[Any, None, ClientAsync]:
        return self._opened().__await__()

    async def _opened(self) -> ClientAsync:
        path, loop = path_of("file", self._file), asyncio.get_running_loop()
        client = ClientAsync(
            0,
            path,
            timeout=self._timeout,
            connect=lambda: ledger,
            jump_max=None,
            report=self._options["report"],
        )
        ledger = LedgerFile(path, **self._options)
        try:
            await loop.run_in_executor(None, ledger.open)
            begin(client)
        except BaseException:
            await loop.run_in_executor(None, ledger.close)
            raise
        return client

    async def __aenter__(self) -> ClientAsync:
        self._client = await self._opened()
        return self._client

    async def __aexit__(
        self,
        kind: Optional[Type[BaseException]],
        error: Optional[BaseException],
        trace: Optional[TracebackType],
    ) -> None:
        if self._client is not None:
            await self._client.close()


def connect(
    addresses: Addresses,
    *,
    sessions: int = 1,
    timeout: Optional[float] = None,
    tls: Optional[ssl.SSLContext] = None,
    client_range: Optional[int] = None,
    report: Callable[[str], object] = to_standard_error,
) -> ClientSync:
    """The client of a ledger that listens: on a port ("3001"), on a Unix socket, whose path has a
    slash ("./ledger.sock"), or on several machines ("10.0.0.1:3001,10.0.0.2:3001"). It connects
    when it is first asked. The options are those of `ClientSync`."""
    return ClientSync(
        0,
        addresses,
        sessions=sessions,
        timeout=timeout,
        tls=tls,
        client_range=client_range,
        report=report,
    )


def connect_async(
    addresses: Addresses,
    *,
    sessions: int = 1,
    timeout: Optional[float] = None,
    tls: Optional[ssl.SSLContext] = None,
    client_range: Optional[int] = None,
    report: Callable[[str], object] = to_standard_error,
) -> ClientAsync:
    """`connect` for asyncio."""
    return ClientAsync(
        0,
        addresses,
        sessions=sessions,
        timeout=timeout,
        tls=tls,
        client_range=client_range,
        report=report,
    )
