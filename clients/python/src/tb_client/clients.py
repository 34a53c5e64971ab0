"""Clients with the face of TigerBeetle's own in Python, over a pool of sessions."""
from __future__ import annotations

import asyncio
import concurrent.futures
import contextlib
import os
import re
import ssl
from types import TracebackType
from typing import Any, Callable, Iterable, List, NoReturn, Optional, Type, TypeVar, Union, cast

from .errors import CannotConnect, InvalidType, InvalidValue, NotSupported, ReplyLost
from .ids import new_client
from .names import Operation
from .pools import Call, Pool
from .records import Account, CreateAccountsResult, CreateTransfersResult, Transfer
from .sessions import JUMP_MAX
from .sockets import Address, Socket
from .transports import Closing, Transport, to_standard_error
from .values import U16, U128, callable_of, kind_of, seconds, whole

HOST = "127.0.0.1"  # if only a port is given
PORT = 3001  # if only a host is given, as with TigerBeetle's client
LOOKUP_ACCOUNTS = "lookup_accounts by ids, or tb-sql over the ledger's history"
LOOKUP_TRANSFERS = "lookup_transfers by ids, or tb-sql over the ledger's history"
SESSIONS_MAX = 64  # that a server has at one time

# only a port, or a host with or without one
ADDRESS = re.compile(
    r"(?P<alone>[0-9]+)"
    r"|(\[(?P<number>[^\]]+)\]|(?P<host>\w[^:\[\]]*|(?=:)))(:(?P<port>[0-9]+))?"
)
A = TypeVar("A", bound="ClientAsync")
Addresses = Union[Address, List[Address]]


class _Client:
    """What both clients are made of.

    `replica_addresses` is text as TigerBeetle's client takes it, ports or hosts with ports with
    commas between ("3000", "10.0.0.1:3000,10.0.0.2:3000"), or a path of a Unix socket, which has a
    slash; or what `Socket` takes. `cluster_id` is any number: the server has no such id, and it is
    not sent.

    Up to `sessions` requests go out at once, and the server has places for 64 sessions in all. With
    one session, which is the default, requests are executed in the order of the calls. A call waits
    until its answer is there, whatever is lost and whatever process ends meanwhile; with `timeout`
    it waits that many seconds. That no reply came for 5 seconds is said once, on standard error or
    to `report`. `connect` makes a transport in place of a Socket to the addresses; `jump_max` is
    that of `Session`, if such a transport takes moments. With `client_range` the clients' ids are
    those whose upper 64 bits are that number."""

    def __init__(
        self,
        cluster_id: int,
        replica_addresses: Addresses,
        *,
        sessions: int = 1,
        timeout: Optional[float] = None,
        tls: Optional[ssl.SSLContext] = None,
        connect: Optional[Callable[[], Transport]] = None,
        client_range: Optional[int] = None,
        report: Callable[[str], object] = to_standard_error,
        jump_max: Optional[float] = JUMP_MAX,
    ) -> None:
        self.cluster_id = whole("cluster_id", cluster_id, U128)
        self.replica_addresses = replica_addresses
        self.timeout = None if timeout is None else seconds("timeout", timeout, 0.001)
        self._sessions = whole("sessions", sessions, SESSIONS_MAX, 1)
        jump_max = None if jump_max is None else seconds("jump_max", jump_max, 0)
        new_client(client_range)  # which refuses what is no range
        callable_of("report", report)
        if connect is None:
            places = addresses_of(replica_addresses)
            Socket(places, tls=tls).close()  # which refuses what it can't take
            self._pool = Pool(
                lambda: Socket(places, tls=tls), self._sessions, None, client_range, report
            )
        else:
            made = callable_of("connect", connect)
            self._pool = Pool(made, self._sessions, jump_max, client_range, report)

    def __repr__(self) -> str:
        many = "1 session" if self._sessions == 1 else f"{self._sessions} sessions"
        return f"<{type(self).__name__} of {self.replica_addresses}, {many}>"

    def query_accounts(self, *_: Any, **__: Any) -> NoReturn:
        """TigerBeetle's query, which no server here supports."""
        raise NotSupported("query_accounts", LOOKUP_ACCOUNTS)

    def query_transfers(self, *_: Any, **__: Any) -> NoReturn:
        """TigerBeetle's query, which no server here supports."""
        raise NotSupported("query_transfers", LOOKUP_TRANSFERS)

    def get_account_transfers(self, *_: Any, **__: Any) -> NoReturn:
        """TigerBeetle's filter, which no server here supports."""
        raise NotSupported("get_account_transfers", LOOKUP_TRANSFERS)

    def get_account_balances(self, *_: Any, **__: Any) -> NoReturn:
        """TigerBeetle's filter, which no server here supports."""
        raise NotSupported("get_account_balances", LOOKUP_ACCOUNTS)

    def _late(self, call: Call) -> Any:
        """The answer of a call whose time went by and that was cancelled, if it came at that
        moment; otherwise what became of the call is raised."""
        if not call.future.cancelled():
            return call.future.result()
        within, trouble = f"within {self.timeout:g} seconds", self._pool.trouble()
        if call.may_be_sent:
            raise ReplyLost(f"no reply {within}, and it may be executed yet{trouble}")
        raise CannotConnect(f"not sent {within}, and will not be{trouble}")


class ClientSync(_Client, Closing):
    """A client for threads, which may share it: what they ask for while a request is on its way
    goes out as the next one, and each gets its own results. At the end of a `with` it is closed.

        with ClientSync(cluster_id=0, replica_addresses="3000") as client:
            errors = client.create_transfers([Transfer(id=id(), ..)])
    """

    def create_accounts(self, accounts: Iterable[Account]) -> List[CreateAccountsResult]:
        """Creates accounts. Returns the results of those that were not created, by index."""
        return cast(List[CreateAccountsResult], self._ask(Operation.create_accounts, accounts))

    def create_transfers(self, transfers: Iterable[Transfer]) -> List[CreateTransfersResult]:
        """Makes transfers. Returns the results of those that were not made, by index."""
        return cast(List[CreateTransfersResult], self._ask(Operation.create_transfers, transfers))

    def lookup_accounts(self, accounts: Iterable[int]) -> List[Account]:
        """The accounts that are there, in the order of the ids."""
        return cast(List[Account], self._ask(Operation.lookup_accounts, accounts))

    def lookup_transfers(self, transfers: Iterable[int]) -> List[Transfer]:
        """The transfers that are there, in the order of the ids."""
        return cast(List[Transfer], self._ask(Operation.lookup_transfers, transfers))

    def _ask(self, operation: Operation, items: Iterable[Any]) -> Any:
        call = self._pool.ask(operation, items)
        try:
            with contextlib.suppress(concurrent.futures.TimeoutError):
                return call.future.result(self.timeout)
        finally:
            if call.future.cancel():  # nobody waits for it any more
                self._pool.forget(call)
        return self._late(call)

    def close(self) -> None:
        """Closes the client. A request that is on its way is waited for, as long as one sending may
        take; what was not sent yet is `Closed`."""
        self._pool.close()


class ClientAsync(_Client):
    """A client for asyncio: the same calls, to be awaited. A call that is cancelled and was not
    sent is not executed; one that was sent may be, as after a timeout. Either way the client goes
    on.

        async with ClientAsync(cluster_id=0, replica_addresses="3000") as client:
            errors = await client.create_transfers([Transfer(id=id(), ..)])
    """

    async def create_accounts(self, accounts: Iterable[Account]) -> List[CreateAccountsResult]:
        """Creates accounts. Returns the results of those that were not created, by index."""
        asked = self._ask(Operation.create_accounts, accounts)
        return cast(List[CreateAccountsResult], await asked)

    async def create_transfers(self, transfers: Iterable[Transfer]) -> List[CreateTransfersResult]:
        """Makes transfers. Returns the results of those that were not made, by index."""
        asked = self._ask(Operation.create_transfers, transfers)
        return cast(List[CreateTransfersResult], await asked)

    async def lookup_accounts(self, accounts: Iterable[int]) -> List[Account]:
        """The accounts that are there, in the order of the ids."""
        return cast(List[Account], await self._ask(Operation.lookup_accounts, accounts))

    async def lookup_transfers(self, transfers: Iterable[int]) -> List[Transfer]:
        """The transfers that are there, in the order of the ids."""
        return cast(List[Transfer], await self._ask(Operation.lookup_transfers, transfers))

    async def _ask(self, operation: Operation, items: Iterable[Any]) -> Any:
        call = self._pool.ask(operation, items)
        try:
            with contextlib.suppress(asyncio.TimeoutError):
                return await asyncio.wait_for(asyncio.wrap_future(call.future), self.timeout)
        finally:
            if call.future.cancel():  # nobody waits for it any more
                self._pool.forget(call)
        return self._late(call)

    async def close(self) -> None:
        """Closes the client, as that of `ClientSync`."""
        await asyncio.get_running_loop().run_in_executor(None, self._pool.close)

    async def __aenter__(self: A) -> A:
        return self

    async def __aexit__(
        self,
        kind: Optional[Type[BaseException]],
        error: Optional[BaseException],
        trace: Optional[TracebackType],
    ) -> None:
        await self.close()


def begin(client: _Client) -> None:
    """Makes the client's first transport now, and not with its first call."""
    client._pool.begin()


def addresses_of(addresses: Addresses) -> Addresses:
    """Addresses as `Socket` takes them."""
    if isinstance(addresses, (list, tuple, os.PathLike)):
        return addresses
    if not isinstance(addresses, str):
        kind = kind_of(addresses)
        raise InvalidType("replica_addresses", f"must be text or addresses, not {kind}")
    return [_address(it.strip()) for it in addresses.split(",")]


def _address(text: str) -> Address:
    if "/" in text:
        return text
    found = ADDRESS.fullmatch(text)
    if not text or found is None:
        raise InvalidValue(
            "replica_addresses",
            f"has {text!r:.60}: write a port, HOST, HOST:PORT, or a path with a slash",
        )
    alone, number, host, port = found.group("alone", "number", "host", "port")
    port = alone or port or str(PORT)
    return number or host or HOST, whole("port", int(port.lstrip("0")[:6] or "0"), U16, 1)
