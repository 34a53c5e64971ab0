"""The kit as the server: sockets, and what a scenario has them do."""
import contextlib
import fcntl
import os
import select
import socket
import ssl
import struct
import termios
import time

from runner import Patience

HEADER, ITEM = 48, 128  # bytes
FIN_WAIT1 = 4  # the state of a TCP connection whose end the other side has not taken yet
PATIENCE = 20.0  # seconds that the client may be idle while something is waited for
UNDERWAY = 5.0  # seconds that the system may take for bytes to a client


class Failed(Exception):
    """What the client did is not what the scenario says."""


class Server:
    """One listening socket, at a Unix path or at a port of the loopback interface. The port is its
    own until `close`, also while it does not listen: otherwise another scenario's server may get
    it, and this one's client calls that."""

    def __init__(self, name, folder, over, context=None):
        self.name, self.over, self.context = name, over, context
        self.path = os.path.join(folder, f"{name}.sock")
        self.port, self.holder, self.socket = 0, None, None
        if over != "unix":
            self.holder = bound_to(0)
            self.port = self.holder.getsockname()[1]
        self.listen()

    def listen(self):
        if self.over == "unix":
            with contextlib.suppress(FileNotFoundError):
                os.unlink(self.path)
            self.socket = socket.socket(socket.AF_UNIX)
            self.socket.bind(self.path)
        else:
            self.socket = bound_to(self.port)
        self.socket.listen(16)

    def close(self):
        self.unlisten()
        if self.holder is not None:
            self.holder.close()

    def unlisten(self):
        """Ends it for everyone: a process that another thread starts has its descriptor for a
        moment."""
        if self.socket is not None:
            with contextlib.suppress(OSError):
                self.socket.shutdown(socket.SHUT_RDWR)
            self.socket.close()
            self.socket = None

    def accept(self, patience=None):
        """The next connection, or None if no connection comes in time. Without patience it has to
        be there."""
        while self.socket is not None:
            if readable(self.socket, patience.look() if patience else 0):
                return self.socket.accept()[0]
            if patience is None or patience.is_over():
                break
        return None

    @property
    def address(self):
        if self.over == "unix":
            return {"unix": self.path}
        return {"host": "127.0.0.1", "port": self.port}


def bound_to(port):
    """A socket at a port of the loopback interface, or at a free one, that does not listen."""
    it = socket.socket(socket.AF_INET)
    it.setsockopt(socket.SOL_SOCKET, socket.SO_REUSEADDR, 1)
    it.bind(("127.0.0.1", port))
    return it


def readable(it, seconds):
    ready = select.poll()
    ready.register(it, select.POLLIN)
    return bool(ready.poll(max(seconds, 0) * 1000))


def end(it):
    """Closes this side of a connection, and waits until the other side's system has taken that: so
    that a client that looks at the connection afterwards sees it."""
    with contextlib.suppress(OSError):
        it.shutdown(socket.SHUT_WR)
        deadline = time.monotonic() + PATIENCE
        while it.family == socket.AF_INET and time.monotonic() < deadline:
            if it.getsockopt(socket.IPPROTO_TCP, socket.TCP_INFO, 1)[0] != FIN_WAIT1:
                break
            time.sleep(0.001)


class InFlights:
    """A connection under TLS 1.2 that sees how its client writes: what it has to say before the
    server's turn comes in one piece."""

    def __init__(self, it, context):
        self.socket, self.family, self.pieces = it, it.family, 0
        self.came, self.goes = ssl.MemoryBIO(), ssl.MemoryBIO()
        self.tls = context.wrap_bio(self.came, self.goes, server_side=True)

    def do_handshake(self):
        while not self.is_agreed():
            self.take()
            self.pieces += 1
        if self.pieces > 2:  # its hello, and its key
            raise Failed(f"the client agrees on TLS in {self.pieces} writes, not 2")

    def is_agreed(self):
        try:
            self.tls.do_handshake()
        except ssl.SSLWantReadError:
            return False
        finally:
            self.flush()
        return True

    def flush(self):
        self.socket.sendall(self.goes.read())

    def take(self):
        data = self.socket.recv(1 << 16)
        self.came.write(data) if data else self.came.write_eof()

    def recv(self, count):
        while True:
            try:
                return self.tls.read(count)
            except ssl.SSLWantReadError:
                self.take()
            except (ssl.SSLZeroReturnError, ssl.SSLEOFError):
                return b""

    def send(self, data):
        self.tls.write(data)
        self.flush()
        return len(data)

    def __getattr__(self, name):
        return getattr(self.socket, name)


class Connections:
    """The connections of a scenario by name, and the actions over them."""

    def __init__(self, servers, frames, kill, waited=lambda: 0.0):
        self.servers, self.frames, self.kill, self.waited = servers, frames, kill, waited
        self.open, self.last = {}, {}
        self.sent_at = time.monotonic()  # when the last `send` began
        # servers whose further connections are no fault: who is refused calls again
        self.ignored = ()
        # of shared clients: the client of each session, and by connection what was asked last
        self.clients, self.asked = {}, {}

    def run(self, actions):
        for action in actions:
            (verb,) = [key for key in action if hasattr(self, f"do_{key}")]
            getattr(self, f"do_{verb}")(action[verb], action)

    def bytes_of(self, text):
        """Bytes by the name of a frame, or as hex, or as text after `text:`. A frame of many items
        has the first of them, and their number: ids rise by one."""
        frame = self.frames.get(text, text)
        if isinstance(frame, dict):
            return bytes.fromhex(frame["header"]) + list_of(frame)
        if frame.startswith("text:"):
            return frame[5:].encode("ascii")
        return bytes.fromhex(frame)

    def expected(self, text):
        """The bytes that a client has to send."""
        return self.bytes_of(text)

    def others(self, requests):
        """Requests of other clients, which a real server executes: the kit only says what became
        of them."""

    def begin_call(self, call):
        """A call of the client begins."""

    def wanted(self, call, wants):
        """What a call has to return, after what it was answered."""
        return wants

    def patiently(self, it, step):
        """What a step over a connection gives that waits for the client."""
        patience = Patience(PATIENCE, self.waited)
        while True:
            it.settimeout(patience.look())
            try:
                return step()
            except socket.timeout:
                if patience.is_over():
                    raise

    def taken(self, it, count):
        return self.patiently(it, lambda: it.recv(count))

    def gives(self, it, data):
        while data:
            count = self.patiently(it, lambda: it.send(data))
            data = data[count:]

    def connection(self, action):
        name = action.get("on", "c")
        if name not in self.open:
            raise Failed(f"no connection {name} is open")
        return self.open[name]

    # Connections

    def do_accept(self, name, action):
        server = self.servers[action.get("server", "a")]
        it = server.accept(Patience(PATIENCE, self.waited))
        if it is None:
            raise Failed(f"no connection came to server {server.name} within {PATIENCE:g} s")
        early = action.get("not_before", 0) - (time.monotonic() - self.sent_at)
        if early > 0:
            it.close()
            raise Failed(f"a connection came {early:.3f} s too early")
        if server.context is not None:
            it = self.agreed(it, server, action.get("handshake", "succeeds"))
        if it is not None:
            self.open[name] = it

    def agreed(self, it, server, wanted):
        """The connection under TLS, or None if that was to fail, and failed."""
        try:
            if wanted == "in flights":
                it = InFlights(it, server.context)
            else:
                it = server.context.wrap_socket(it, server_side=True, do_handshake_on_connect=False)
            self.patiently(it, it.do_handshake)
        except (ssl.SSLError, OSError) as error:
            it.close()
            if wanted == "succeeds":
                raise Failed(f"TLS was not agreed on: {error}") from None
            return None
        if wanted == "fails":
            it.close()
            raise Failed("TLS was agreed on")
        return it

    def do_close(self, name, _):
        it = self.open.pop(name, None)
        if it is not None:
            end(it)
            it.close()

    def do_reset(self, name, _):
        """Breaks a connection, so that the client's system reports a reset."""
        it = self.open.pop(name)
        it.setsockopt(socket.SOL_SOCKET, socket.SO_LINGER, struct.pack("ii", 1, 0))
        it.close()

    def do_half(self, name, _):
        with contextlib.suppress(OSError):  # a client may have gone by then
            self.open[name].shutdown(socket.SHUT_WR)

    def do_ended(self, name, _):
        """Waits until the client has closed its side, with nothing sent before."""
        it = self.open.pop(name)
        with contextlib.suppress(ConnectionError, ssl.SSLError):
            try:
                data = self.taken(it, 1)
            except socket.timeout:
                raise Failed(f"the client leaves connection {name} open") from None
            if data:
                raise Failed(f"the client sends more on connection {name}: {data.hex()}..")
        it.close()

    def do_drain(self, name, action):
        """Reads until the client closes its side: nothing, or the beginning of these bytes."""
        wanted, data, it = self.expected(action["of"]), b"", self.open.pop(name)
        try:
            while more := self.taken(it, 1 << 16):
                data += more
        except socket.timeout:
            raise Failed(f"the client leaves connection {name} open") from None
        except (ConnectionError, ssl.SSLError):
            pass
        it.close()
        if not wanted.startswith(data):
            raise Failed(f"the client sends {shown(data)}, not {shown(wanted)}")

    def do_hello(self, name, _):
        """Reads only the first bytes of TLS."""
        data = self.taken(self.open[name], 3)
        if data[:2] != b"\x16\x03":
            raise Failed(f"the client sends {shown(data)}, which is no TLS")

    def do_unlisten(self, name, _):
        self.servers[name].unlisten()

    def do_listen(self, name, _):
        self.servers[name].listen()

    # Bytes

    def do_read(self, text, action):
        """Reads exactly these bytes. `any` has the places that may hold anything; `first` only a
        number of them."""
        wanted = self.expected(text)[: action.get("first")]
        got = self.received(self.connection(action), len(wanted), action)
        compared = bytearray(got)
        for begin, end in action.get("any", ()):
            compared[begin:end] = wanted[begin:end]
        if bytes(compared) != wanted:
            raise Failed(f"the client sends {shown(got)}, not {shown(wanted)}")
        self.last[action.get("on", "c")] = got

    def received(self, it, count, action):
        data = b""
        try:
            while len(data) < count:
                more = self.taken(it, min(count - len(data), 1 << 16))
                if not more:
                    raise Failed(
                        f"the client closes the connection after {len(data)} of {count} bytes"
                    )
                data += more
        except socket.timeout:
            raise Failed(f"the client sends {len(data)} of {count} bytes: {shown(data)}") from None
        except ConnectionError as error:
            raise Failed(
                f"the connection broke after {len(data)} of {count} bytes: {error}"
            ) from None
        early = action.get("not_before", 0) - (time.monotonic() - self.sent_at)
        if early > 0:
            raise Failed(f"bytes came {early:.3f} s too early")
        return data

    def do_send(self, text, action):
        """Sends bytes: in pieces if `cuts` has places, after the client of the last request if
        `client` says so."""
        data, it = self.bytes_of(text), self.connection(action)
        self.sent_at = time.monotonic()
        if action.get("client"):
            data = self.last[action.get("on", "c")][:16] + data[16:]
        places = [0, *action.get("cuts", ()), len(data)]
        with contextlib.suppress(ConnectionError):  # a client may have gone by then
            for begin, end in zip(places, places[1:]):
                self.gives(it, data[begin:end])
                if end < len(data):
                    time.sleep(0.01)

    def do_wait(self, seconds, _):
        """Waits, once the client's system has all that was sent to it."""
        end = time.monotonic() + UNDERWAY
        while any(map(is_underway, self.open.values())) and time.monotonic() < end:
            time.sleep(0.005)
        time.sleep(seconds)

    def do_answer(self, count, action):
        """Reads a number of requests, and replies to each by its own numbers, with an empty body.
        Numbers of a client have to rise by one."""
        name, numbers = action.get("on", "c"), {}
        for commit in range(100, 100 + count):
            header = self.received(self.open[name], HEADER, action)
            client, (session, number, operation, length) = header[:16], struct.unpack(
                "<QIB3xI12x", header[16:]
            )
            self.received(self.open[name], length, action)
            if number != numbers.get(client, number - 1) + 1:
                raise Failed(f"request {number} of a client comes after {numbers[client]}")
            numbers[client] = number
            if readable(self.open[name], 0.02):
                raise Failed("the client sends a request before the reply to the one before it")
            numbers_of = struct.pack("<QIBB2xIQ4x", session, number, operation, 0, 0, commit)
            self.gives(self.open[name], client + numbers_of)

    # Clients that callers share choose their ids, and the order of lists that came at once

    def do_asked(self, wanted, action):
        """Reads a request of these lists, in any order: its session, number and operation are
        wanted. A register has a new client id, and if it is sent `again`, the same bytes."""
        name, (session, number, operation) = action["on"], wanted
        lists = list(map(list_of, action["lists"]))
        body = b"".join(lists)
        header = self.received(self.connection(action), HEADER, action)
        rest = struct.pack("<QIB3xI12x", session, number, operation, len(body))
        if header[16:] != rest:
            raise Failed(f"the client sends {shown(header)}, not one with {rest.hex()}")
        got = self.received(self.connection(action), len(body), {})
        self.test_client(header[:16], session, action)
        frame = header + got
        if action.get("again") and frame not in self.asked.values():
            raise Failed(f"the client sends {shown(frame)}, which are not the same bytes again")
        order = order_of(lists, got)
        if order is None or action.get("ordered") and got != body:
            raise Failed(f"the client sends {shown(frame)}, which are not the lists that wait")
        self.asked[name], self.last[name] = frame, header
        self.order, self.sizes = order, [len(it) // ITEM for it in lists]

    def test_client(self, client, session, action):
        known = self.clients.get(session)
        if session == 0:
            if client == bytes(16) or not action.get("again") and client in self.clients.values():
                raise Failed(f"the client registers {client.hex()}, which is no new id")
            self.clients[0] = client
        elif client != known:
            raise Failed(f"the client is {client.hex()} in a session of {known and known.hex()}")

    def do_says(self, rows, action):
        """Replies to what was asked last: the rows of each list in the order of the lists."""
        header = self.last[action["on"]]
        session, number, operation = struct.unpack_from("<QIB", header, 16)
        status, body, first = action.get("status", 0), b"", 0
        if number == 0:
            session = action["session"]
            self.clients[session] = header[:16]
        for at in self.order if rows else ():
            for it in rows[at]:
                row = it if isinstance(it, str) else struct.pack("<II", first + it[0], it[1]).hex()
                body += bytes.fromhex(row)
            first += self.sizes[at]
        commit = 0 if status else session + number
        numbers = struct.pack("<QIBB2xIQ4x", session, number, operation, status, len(body), commit)
        self.do_send((header[:16] + numbers + body).hex(), action)

    def do_drop(self, name, _):
        """Closes a connection that the client may have left."""
        it = self.open.pop(name)
        it.close()

    def do_kill(self, _, __):
        self.kill()

    # Ends

    def nothing_left(self):
        """Raises if the client sent what no action has read, or made a connection that no action
        has taken."""
        for name, it in self.open.items():
            it.settimeout(0)
            try:
                more = it.recv(256)
            except (BlockingIOError, ssl.SSLWantReadError):
                more = b""
            except (OSError, ssl.SSLError):
                more = b""
            if more:
                raise Failed(f"the client sends more on connection {name}: {shown(more)}")
        for server in self.servers.values():
            it = server.accept()
            if it is not None:
                it.close()
                if server.name in self.ignored:
                    continue
                raise Failed(f"the client makes one more connection to server {server.name}")

    def close(self):
        for it in self.open.values():
            with contextlib.suppress(OSError):
                it.shutdown(socket.SHUT_RDWR)
            it.close()
        self.open.clear()
        for server in self.servers.values():
            server.unlisten()


def is_underway(it):
    """Whether the other side's system has not yet all bytes that were sent. It has those over a
    Unix socket at once."""
    if it.family == socket.AF_UNIX or it.fileno() < 0:
        return False
    return fcntl.ioctl(it.fileno(), termios.TIOCOUTQ, bytes(4)) != bytes(4)


def list_of(given):
    """A list's bytes, as hex or by its first item and their number: ids rise by one."""
    if isinstance(given, str):
        return bytes.fromhex(given)
    first = int.from_bytes(bytes.fromhex(given["first"][:32]), "little")
    rest = bytes.fromhex(given["first"][32:])
    ids = ((first + at).to_bytes(16, "little") for at in range(given["count"]))
    return b"".join(it + rest for it in ids)


def order_of(lists, body):
    """The order in which a body has some lists, each whole, or None if it does not."""
    left, order = dict(enumerate(lists)), []
    while left:
        found = [at for at, it in left.items() if body.startswith(it)]
        if not found:
            return None
        at = max(found, key=lambda it: len(left[it]))
        body = body[len(left.pop(at)) :]
        order.append(at)
    return order


def shown(data):
    """Bytes as a failure shows them: the header's fields apart, and no more than fits a line or
    two."""
    text = data.hex()
    if len(data) >= HEADER:
        parts = (
            text[:32],
            text[32:48],
            text[48:56],
            text[56:64],
            text[64:72],
            text[72:96],
            text[96:],
        )
        text = " ".join(part for part in parts if part)
    return text if len(text) < 400 else f"{text[:240]}..({len(data)} bytes)"
