"""A connection to a server that listens on a socket, as `tb-listen` does."""
from __future__ import annotations

import concurrent.futures
import contextlib
import logging
import os
import select
import socket
import ssl
import threading
import time
from typing import Any, List, Optional, Tuple, Union, cast

from .errors import Busy, CannotConnect, Closed, InvalidType, InvalidValue, NotSent, ReplyLost
from .forks import left_by_children
from .frames import header_of, reply_length, test_asked, test_reply
from .layout import HEADER
from .transports import Closing
from .values import kind_of, path_of, seconds, whole

Place = Union[str, Tuple[str, int]]
Address = Union[str, "os.PathLike[str]", Tuple[str, int]]

FIRST_PAUSE = 0.02  # seconds, before the server is called again; doubled each time
LAST_PAUSE = 0.5
WAIT_MAX = 2_000_000.0  # seconds: Python cuts the milliseconds of a longer wait to 32 bits
# begins what a server says before it closes a connection: fewer bytes than a frame has
TOLD = b"tb_listen: "
UNTRUSTED = " (over TLS it may not take this client's certificate, or wants one)"
# TLS's alerts by which a server refuses this client, whose request it does not read
REFUSALS = {
    "BAD_CERTIFICATE",
    "UNSUPPORTED_CERTIFICATE",
    "CERTIFICATE_REVOKED",
    "CERTIFICATE_EXPIRED",
    "CERTIFICATE_UNKNOWN",
    "CERTIFICATE_REQUIRED",
    "UNKNOWN_CA",
    "ACCESS_DENIED",
    "HANDSHAKE_FAILURE",  # in TLS 1.2 if it requires a certificate
}
log = logging.getLogger("tb_client")


class Socket(Closing):
    """A connection to a server at a Unix socket's path, or at a host and a port; or to one of
    several, in a list.

    The server gives the moments: the one that `exchange` is given is not sent. A connection that
    broke, that the server closed, or on which no reply came in time, is closed, and the next
    exchange makes a new one, to the next address if there are several; if no connection can be made
    within `timeout` seconds, nothing is sent, and it is `CannotConnect`. With `tls` connections to
    a host go over TLS, by that context. Threads may share a Socket: an exchange is one thread's
    from its first byte to its last."""

    def __init__(
        self,
        address: Union[Address, List[Address]],
        timeout: float = 5.0,
        tls: Optional[ssl.SSLContext] = None,
    ) -> None:
        self._addresses = _addresses_of(address)
        self._at = 0
        self._gone = self.address  # the one that was given up last
        self.timeout = seconds("timeout", timeout, 0.001)
        self._tls = _context_of(tls, self._addresses)
        self._socket: Optional[socket.socket] = None
        self.trouble = ""  # why no reply came after the last one, or from the beginning on
        self.connections = 0  # that were made
        self._is_known = False  # trouble is more than the end of the time, in this exchange
        self._is_new = False  # nothing came over the connection yet
        self._lock = threading.RLock()  # a signal's handler may close it amid an exchange
        self._is_amid = False
        self._owner = os.getpid()
        self._closed = False
        left_by_children(self)

    def __repr__(self) -> str:
        state = "closed" if self._closed else "not connected" if self._socket is None else ""
        others = len(self._addresses) - 1
        parts = [
            f"{_shown(self.address)}{f' and {others} more' if others else ''}",
            *(["TLS"] if self._tls else []),
            *([state] if state else []),
        ]
        return f"<Socket {', '.join(parts)}>"

    @property
    def address(self) -> Place:
        """The address of the connection, or of the next one."""
        return self._addresses[self._at]

    def exchange(self, moment: int, frame: bytes) -> bytes:
        header_of(frame)  # the server would close the connection at a wrong one
        if self._owner != os.getpid():
            raise Closed("this Socket belongs to the process that made it")
        with self._lock:
            if self._closed:
                raise Closed("this Socket was closed")
            if self._is_amid:
                raise NotSent("a signal's handler asked amid an exchange of its thread")
            try:
                self._is_amid = True
                return self._exchanged(frame)
            finally:
                self._is_amid = False

    def _exchanged(self, frame: bytes) -> bytes:
        deadline = time.monotonic() + seconds("timeout", self.timeout, 0)
        pause, refusing, self._is_known = FIRST_PAUSE, set(), False
        while True:
            try:
                reply = self._asked(frame, deadline)
                self.trouble = ""
                return reply
            except (Starting, Distrusted) as why:  # the server did not take the request
                self._keep(self._gone, str(why))
                if isinstance(why, Distrusted):
                    refusing.add(self._gone)
                untrusted = refusing == set(self._addresses)
                if untrusted or deadline - time.monotonic() <= pause:
                    raise CannotConnect(self.trouble, untrusted) from None
                time.sleep(pause)
                pause = min(2 * pause, LAST_PAUSE)
            except ReplyLost as why:
                self._keep(self._gone, str(why))
                raise

    def _asked(self, frame: bytes, deadline: float) -> bytes:
        """The reply to one sending of a request."""
        it = self._connected(deadline)
        try:
            self._wait(it, deadline)
            self._send(it, frame)
            return self._reply(it, frame, deadline)
        except OSError as error:
            self._lose()
            if self._is_new and _refusal_of(error):
                raise Distrusted(f"the server refuses this client: {_refusal_of(error)}") from None
            raise ReplyLost(self._lost_by(error)) from None
        except BaseException:
            self._lose()
            raise

    def _connected(self, deadline: float) -> socket.socket:
        """The connection, made again if it is missing, or if the server closed it."""
        pause = FIRST_PAUSE
        if self._socket is not None and _is_left(self._socket):
            self._lose()
        while self._socket is None and not self._closed:
            faults = self._call_each(deadline)
            if not faults:
                break
            left = deadline - time.monotonic()
            untrusted = all(map(_is_distrust, faults))
            if left <= 0 or untrusted:
                raise CannotConnect(self.trouble, untrusted) from None
            time.sleep(min(pause, left))
            pause = min(2 * pause, LAST_PAUSE)
        if self._closed:  # by a signal's handler
            self._hang_up()
            raise Closed("this Socket was closed")
        return cast(socket.socket, self._socket)

    def _call_each(self, deadline: float) -> List[OSError]:
        """Calls the addresses in turn, from the present one on, until one replies. Returns their
        faults if none does."""
        faults: List[OSError] = []
        for left in range(len(self._addresses), 0, -1):
            try:
                # of the time, so that one that does not answer leaves some
                share = (deadline - time.monotonic()) / left
                self._socket = _call(self.address, share, self._tls)
                self._is_new = True
                self.connections += 1
                log.info("connected to %s", _shown(self.address))
                return []
            except OSError as error:
                self._told(error)
                faults.append(error)
                self._next()
        return faults

    def _told(self, error: OSError) -> None:
        why = f"{error.strerror or error}{_hint(self.address)}"
        log.info("no connection to %s: %s", _shown(self.address), why)
        self._keep(self.address, why, isinstance(error, socket.timeout))

    def _keep(self, address: Place, why: str, is_late: bool = False) -> None:
        """Keeps why no reply came. That the time ends says less than a fault before it."""
        if not (is_late and self._is_known):
            self.trouble = f"{_shown(address)}: {why}"
        self._is_known |= not is_late

    def _next(self) -> None:
        self._gone = self.address
        self._at = (self._at + 1) % len(self._addresses)

    def _lose(self) -> None:
        """Closes the connection. The next one goes to the next address."""
        log.info("leaves the connection to %s", _shown(self.address))
        self._hang_up()
        self._next()

    def _send(self, it: socket.socket, frame: bytes) -> None:
        """Sends the request. If the server closed the connection, what it said before that is
        reported."""
        try:
            it.sendall(frame)
        except (ConnectionError, ssl.SSLEOFError):
            said = b""
            with contextlib.suppress(ConnectionError, socket.timeout):
                while len(said) < HEADER and (more := it.recv(HEADER - len(said))):
                    said += more
            if said.startswith(TOLD):
                raise _closed(said) from None
            raise

    def _reply(self, it: socket.socket, frame: bytes, deadline: float) -> bytes:
        header = self._read(it, HEADER, deadline)
        self._is_new = False
        test_reply(header)
        test_asked(frame, header)
        return header + self._read(it, reply_length(header) - HEADER, deadline)

    def _read(self, it: socket.socket, count: int, deadline: float) -> bytes:
        data = bytearray()
        while len(data) < count:
            self._wait(it, deadline)
            try:
                more = it.recv(count - len(data))
            except ConnectionError:
                if data.startswith(TOLD):
                    raise _closed(data) from None
                raise
            if not more:
                raise _closed(data, self._hint())
            data += more
        return bytes(data)

    def _lost_by(self, error: OSError) -> str:
        if self._closed:
            return "this Socket was closed before the reply came"
        if isinstance(error, socket.timeout):
            before = f", after {self.trouble}" if self._is_known else ""
            return f"no reply within {self.timeout:g} seconds{before}"
        return f"the connection broke: {error}{self._hint()}"

    def _hint(self) -> str:
        return UNTRUSTED if self._tls and self._is_new and not self._closed else ""

    @staticmethod
    def _wait(it: socket.socket, deadline: float) -> None:
        left = deadline - time.monotonic()
        if left <= 0:
            raise socket.timeout()
        it.settimeout(min(left, WAIT_MAX))

    def _hang_up(self) -> None:
        it, self._socket = self._socket, None
        if it is not None:
            it.close()

    def close(self) -> None:
        """Closes the connection. Each exchange afterwards is `Closed`."""
        if self._owner != os.getpid():
            return  # a forked child: its copy is closed, and a thread that is not here may lock it
        self._closed = True  # who waits for the lock sends nothing more
        with self._lock:
            self._hang_up()

    def leave_copy(self) -> None:
        """Closes a forked child's copy of the connection, or that would stay open for as long as
        the child runs. The parent's goes on."""
        self._hang_up()


def _is_left(it: socket.socket) -> bool:
    """Whether the server closed a connection, or said why it will: it says nothing else before
    it is asked."""
    if isinstance(it, ssl.SSLSocket) and it.pending():
        return True  # it came after the last reply, in the same record
    ready = select.poll()
    ready.register(it, select.POLLIN)
    if not ready.poll(0):
        return False
    if not isinstance(it, ssl.SSLSocket):
        return True
    it.setblocking(False)
    try:  # what came may be TLS's own, as a ticket for the next session
        it.recv(1)
    except ssl.SSLWantReadError:
        return False
    except OSError:
        return True
    return True


# what a client is told to come later for: there are too many connections, or its peer has too many
LATER = ("Busy", "TooManyConnections", "TooManySessions", "TooManyRequests")


class Starting(ReplyLost):
    """The server reads its ledger, and did not take the request."""


class Distrusted(ReplyLost):
    """The server refuses this client's certificate, or that it has none, and did not take the
    request. In TLS 1.3 it says so when the client has agreed, and may have sent the request."""


def _refusal_of(error: OSError) -> str:
    """The alert by which a server refuses this client, or nothing."""
    reason = error.reason if isinstance(error, ssl.SSLError) else None
    alert = (reason or "").partition("_ALERT_")[2]
    return alert.lower().replace("_", " ") if alert in REFUSALS else ""


def _is_distrust(error: OSError) -> bool:
    """Whether one side does not trust the other, which waiting does not mend."""
    return isinstance(error, ssl.SSLCertVerificationError) or bool(_refusal_of(error))


def _closed(said: bytes, hint: str = "") -> ReplyLost:
    """What to raise if the server closed the connection after these bytes: with the name that it
    sent, if it sent one, otherwise with a hint."""
    why = bytes(said[len(TOLD) :]).decode("ascii", "replace").strip()
    if not said.startswith(TOLD) or not why.isprintable():  # no name: it may steer a terminal
        why = ""
    kind = Busy if why in LATER else Starting if why == "Starting" else ReplyLost
    hint = "" if why else hint
    return kind(f"the server closed the connection{hint}{why and ': ' + why}", why)


def _addresses_of(address: object) -> List[Place]:
    if not isinstance(address, list):
        return [_address_of("address", address)]
    if not address:
        raise InvalidValue("address", "has no address")
    return [_address_of(f"address[{at}]", it) for at, it in enumerate(address)]


def _address_of(field: str, address: object) -> Place:
    if isinstance(address, (str, os.PathLike)):
        return path_of(field, address)
    if isinstance(address, tuple) and len(address) == 2 and isinstance(address[0], str):
        if not _is_host(address[0]):
            raise InvalidValue(field, f"has no name of a host: {address[0]!r:.60}")
        return address[0], whole("port", address[1], 65535, 1)
    raise InvalidType(field, f"must be a path, or a host and a port, not {kind_of(address)}")


def _context_of(tls: object, addresses: List[Place]) -> Optional[ssl.SSLContext]:
    if tls is None:
        return None
    if not isinstance(tls, ssl.SSLContext):
        raise InvalidType("tls", f"must be an ssl.SSLContext, not {kind_of(tls)}")
    if any(isinstance(it, str) for it in addresses):
        raise InvalidValue("tls", "is for a host and a port, not for a path")
    return tls


def _is_host(name: str) -> bool:
    """Whether the system can look this up as a host's name or number."""
    try:
        return bool(name.encode("idna")) and name.isprintable()
    except UnicodeError:
        return False


def _call(address: Place, timeout: float, tls: Optional[ssl.SSLContext] = None) -> socket.socket:
    """A new connection within a number of seconds, over TLS if there is a context."""
    deadline = time.monotonic() + min(timeout, WAIT_MAX)
    if isinstance(address, str):
        return _connected_to(socket.AF_UNIX, address, _left(deadline))
    it = _host_called(address, deadline)
    it.setsockopt(socket.IPPROTO_TCP, socket.TCP_NODELAY, 1)
    it.settimeout(_left(deadline))
    return it if tls is None else _agreed(it, tls, address[0])


Found = List[Tuple[Any, ...]]  # what the system's lookup of a host gives


def _looked_up(address: Tuple[str, int], timeout: float) -> Found:
    """The places of a host. A name is looked up by a thread, because the system's lookup has no
    limit that a caller may give. One that comes too late is ignored."""
    with contextlib.suppress(socket.gaierror):
        numeric = socket.AI_NUMERICHOST  # no lookup: it is a number
        return list(socket.getaddrinfo(*address, type=socket.SOCK_STREAM, flags=numeric))
    coming: concurrent.futures.Future[Found] = concurrent.futures.Future()

    def look_up() -> None:
        try:
            coming.set_result(list(socket.getaddrinfo(*address, type=socket.SOCK_STREAM)))
        except Exception as error:
            coming.set_exception(error)

    try:
        threading.Thread(target=look_up, name="tb_client lookup", daemon=True).start()
    except RuntimeError:  # the system has no thread for it, or Python ends
        look_up()
    try:
        return coming.result(timeout)
    except concurrent.futures.TimeoutError:
        raise socket.timeout("the lookup of the host's name timed out") from None


def _host_called(address: Tuple[str, int], deadline: float) -> socket.socket:
    """A connection to one of a host's addresses, each of which has its share of the time."""
    found = _looked_up(address, _left(deadline))
    fault = None  # the last one, but the end of the time says less than another
    for left, (family, _, _, _, place) in zip(range(len(found), 0, -1), found):
        try:
            return _connected_to(family, place, _left(deadline) / left)
        except OSError as error:
            fault = error if not isinstance(error, socket.timeout) else fault or error
    raise fault or OSError("the host has no address")


def _connected_to(family: int, place: Any, timeout: float) -> socket.socket:
    it = socket.socket(family, socket.SOCK_STREAM)
    try:
        it.settimeout(timeout)
        it.connect(place)
    except BaseException:
        it.close()
        raise
    return it


def _left(deadline: float) -> float:
    """The seconds until then; a moment if there are none, because 0 is no wait at all."""
    return max(deadline - time.monotonic(), 0.001)


def _agreed(it: socket.socket, tls: ssl.SSLContext, host: str) -> socket.socket:
    try:
        return tls.wrap_socket(it, server_hostname=host)
    except BaseException:
        it.close()
        raise


def _hint(address: Place) -> str:
    """What may be meant by a path that looks like a host and a port."""
    host, colon, port = address.rpartition(":") if isinstance(address, str) else ("", "", "")
    is_like = bool(host) and "/" not in host and port.isascii() and port.isdigit()
    return f" (a path; a host and a port are ({host!r}, {port}))" if is_like else ""


def _shown(address: Place) -> str:
    if isinstance(address, str):
        return address
    host, port = address
    return f"[{host}]:{port}" if ":" in host else f"{host}:{port}"
