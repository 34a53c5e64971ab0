"""The kit in front of a real listener.

What a client sends is compared as ever, and goes on to the listener; its reply goes to the client
in place of the scenario's, in the same pieces. What is lost, cut, late or broken on the way is the
kit's work, and so are the listener's lines in place of a reply. What a call has to return is then
what the listener's reply means. A scenario whose server says what no real one says is `Lying`.
"""
import contextlib
import secrets
import socket
import struct

from listening import START
from made.frames import (
    ACCOUNTS,
    ACCOUNT_CODES,
    ACCOUNT_FIELDS,
    ACCOUNT_FLAGS,
    BODIES,
    FIND_ACCOUNTS,
    FIND_TRANSFERS,
    NAMES,
    REGISTER,
    TRANSFERS,
    TRANSFER_CODES,
    TRANSFER_FIELDS,
    TRANSFER_FLAGS,
    account,
    account_bytes,
    request,
)
from server import HEADER, ITEM, Connections, Failed, list_of, shown

TOLD = b"tb_listen: "
SESSIONS = 64  # of the server
COMMIT = slice(36, 44)  # of a reply's header: its place in the history, which is the server's own
RECORDS = {
    FIND_ACCOUNTS: (ACCOUNT_FIELDS, ACCOUNT_FLAGS),
    FIND_TRANSFERS: (TRANSFER_FIELDS, TRANSFER_FLAGS),
}
CODES = {ACCOUNTS: ACCOUNT_CODES, TRANSFERS: TRANSFER_CODES}
OPERATIONS = {name: number for number, name in NAMES.items()}
WIDTH = {ACCOUNTS: 8, TRANSFERS: 8, FIND_ACCOUNTS: ITEM, FIND_TRANSFERS: ITEM}  # of a reply's rows
MANY = 1000  # requests that the kit makes at most to bring a session about
# Refusals that the kit can bring about, by sending requests of its own.
NO_SESSION, SESSION_TOO_LOW, OLDER, COLLISION = 1, 2, 4, 5


class Lying(Exception):
    """What the scenario's server does no real one does."""


class Upstream:
    """A connection to the listener."""

    def __init__(self, path):
        self.path, self.socket = path, None

    def exchange(self, frame):
        """The reply to a request. While the server starts the listener says so, and closes."""
        while True:
            got = self.one(frame)
            if got != TOLD + b"Starting\n":
                return got
            self.close()

    def one(self, frame):
        if self.socket is None:
            self.socket = socket.socket(socket.AF_UNIX)
            self.socket.settimeout(START)
            self.socket.connect(self.path)
        with contextlib.suppress(BrokenPipeError):  # it says why
            self.socket.sendall(frame)
        head = self.received(HEADER)
        if len(head) < HEADER or head.startswith(TOLD):
            return head
        return head + self.received(int.from_bytes(head[32:36], "little"))

    def received(self, count):
        data = b""
        while len(data) < count and (more := self.socket.recv(min(count - len(data), 1 << 16))):
            data += more
        return data

    def close(self):
        if self.socket is not None:
            self.socket.close()
            self.socket = None


class Reply:
    """The reply that a connection owes its client: that of the listener, and how many of the
    scenario's bytes were sent of it."""

    def __init__(self, asked, frame):
        self.asked, self.frame, self.sent = asked, frame, 0


class Relay(Connections):
    def __init__(self, path, actions, *more):
        super().__init__(*more)
        self.path, self.actions, self.at = path, actions, 0
        self.upstreams, self.owed, self.sessions = {}, {}, {}
        self.own = Upstream(path)  # for requests of the kit's own
        self.owner = None  # its session
        self.commit, self.known = 0, set()  # of the server: its last commit, and whose sessions
        self.meanings = []  # of the replies of this step: the scenario's, and the listener's
        self.by_list, self.lists = {}, {}  # of clients that callers share: by call, and by list

    def run(self, actions):
        for action in actions:
            self.at += 1
            super().run([action])
            for name in [it for it in self.upstreams if it not in self.open]:
                self.upstreams.pop(name).close()
                self.owed.pop(name, None)

    def close(self):
        for it in [*self.upstreams.values(), self.own]:
            it.close()
        super().close()

    # Requests

    def expected(self, text):
        """A request's bytes, with the session that the listener gave."""
        return self.with_session(self.bytes_of(text))

    def with_session(self, frame):
        session = int.from_bytes(frame[16:24], "little")
        return frame[:16] + self.sessions.get(session, session).to_bytes(8, "little") + frame[24:]

    def do_read(self, text, action):
        super().do_read(text, action)
        name = action.get("on", "c")
        got = self.last[name]
        if len(got) >= HEADER and len(got) == HEADER + int.from_bytes(got[32:36], "little"):
            self.passed_on(name, got, action)

    def do_asked(self, wanted, action):
        session, number, operation = wanted
        super().do_asked([self.sessions.get(session, session), number, operation], action)
        width = 16 if operation in RECORDS else ITEM
        self.counts = [len(list_of(it)) // width for it in action["lists"]]
        self.passed_on(action["on"], self.asked[action["on"]], action)

    def do_answer(self, count, action):
        name = action.get("on", "c")
        for _ in range(count):
            header = self.received(self.open[name], HEADER, action)
            body = self.received(self.open[name], int.from_bytes(header[32:36], "little"), action)
            self.passed_on(name, header + body, action)
            self.gives(self.open[name], self.owed.pop(name).frame)

    def passed_on(self, name, frame, action):
        """Sends a request to the listener, and keeps the reply."""
        if action.get("executed") is False:
            self.owed[name] = Reply(frame, b"")
            return
        status = self.status_ahead(frame)
        if not status:
            self.assume(frame)
        self.prepare(frame)
        self.provoke(status, frame)
        upstream = self.upstreams.setdefault(name, Upstream(self.path))
        got = upstream.exchange(frame)
        if len(got) < HEADER or got.startswith(TOLD):
            raise Failed(f"the listener answers {shown(frame)} with {got!r}")
        self.note(got)
        self.owed[name] = Reply(frame, got)

    # What the scenario takes as given

    def note(self, reply):
        """Keeps what the listener's reply says of sessions and of commits."""
        if not reply[29]:
            self.commit = int.from_bytes(reply[COMMIT], "little")
            self.known.add(reply[:16])

    def itself(self, frame):
        """A request of the kit's own."""
        got = self.own.exchange(frame)
        self.note(got)
        return got

    def assume(self, frame):
        """Brings a session about that a client has from a file: the kit makes the requests before
        this one, so that the session's number is the same."""
        client = int.from_bytes(frame[:16], "little")
        session, number = struct.unpack_from("<QI", frame, 16)
        if frame[:16] in self.known or frame[28] == REGISTER:
            return
        if not self.commit < session < MANY or number > MANY:
            raise Lying("it has a session that a real one does not have")
        while self.commit + 1 < session:
            self.asks_itself(FIND_ACCOUNTS, b"")
        if self.commit + 1 > session:
            raise Lying("it has a session that a real one does not have")
        self.itself(request(0, REGISTER, b"", 0, client))
        for it in range(1, number):
            self.itself(request(it, FIND_ACCOUNTS, b"", session, client))

    def prepare(self, frame):
        """Creates the accounts of transfers."""
        if frame[28] != TRANSFERS:
            return
        accounts = {}
        for at in range(HEADER, len(frame), ITEM):
            ledger = str(int.from_bytes(frame[at + 112 : at + 116], "little"))
            for place in (16, 32):
                id = int.from_bytes(frame[at + place : at + place + 16], "little")
                accounts.setdefault(id, account(id, ledger=ledger))
        body = b"".join(map(account_bytes, accounts.values()))
        for at in range(0, len(body), 8190 * ITEM):
            self.asks_itself(ACCOUNTS, body[at : at + 8190 * ITEM])

    def others(self, requests):
        for name, items in requests:
            operation = OPERATIONS[name]
            body = BODIES[operation](items)
            self.prepare(request(0, operation, body))
            self.asks_itself(operation, body)

    def asks_itself(self, operation, body):
        if self.owner is None:
            client = 2**127 + secrets.randbits(100)
            got = self.itself(request(0, REGISTER, b"", 0, client))
            self.owner = [client, session_of(got), 0]
        client, session, last = self.owner
        self.owner[2] = last + 1
        self.itself(request(last + 1, operation, body, session, client))

    def status_ahead(self, frame):
        """The status of the reply that the scenario has for a request that was just read."""
        for action in self.actions[self.at :]:
            if "read" in action or "asked" in action or "answer" in action:
                return 0
            if "says" in action:
                return action.get("status", 0)
            data = self.bytes_of(action["send"]) if "send" in action else b""
            if len(data) >= HEADER and data[24:29] == frame[24:29]:
                return data[29]
        return 0

    def provoke(self, status, frame):
        """Brings a refusal about, by requests of the kit's own."""
        client = int.from_bytes(frame[:16], "little")
        session, number = struct.unpack_from("<QI", frame, 16)
        if status in (NO_SESSION, SESSION_TOO_LOW):
            for it in range(SESSIONS):
                self.itself(request(0, REGISTER, b"", 0, 2**126 + it))
            self.owner = None
        if status == SESSION_TOO_LOW:
            self.itself(request(0, REGISTER, b"", 0, client))
        if status in (OLDER, COLLISION):
            body = BODIES[FIND_ACCOUNTS](["77"])
            self.itself(request(number, FIND_ACCOUNTS, body, session, client))
        if status == OLDER:
            self.itself(request(number + 1, FIND_ACCOUNTS, body, session, client))

    # Replies

    def do_send(self, text, action):
        data, name = self.bytes_of(text), action.get("on", "c")
        if action.get("client"):
            data = self.last[name][:16] + data[16:]
        if data.startswith(TOLD) or data and TOLD.startswith(data):
            super().do_send(text, action)
            return
        if name not in self.owed:
            raise Lying("it says what nobody asked for")
        owed = self.owed[name]
        if not owed.frame:
            raise Lying("it replies to what it does not execute")
        if not owed.sent and is_whole(data, owed.asked):
            self.compare(data, owed.frame)
            real = self.owed.pop(name).frame
        elif self.is_part(data, owed):  # and it stays one, if the listener's reply is shorter
            real = owed.frame[owed.sent : min(owed.sent + len(data), len(owed.frame) - 1)]
            owed.sent += len(data)
        else:
            raise Lying("no reply to this request")
        cuts = [it for it in action.get("cuts", ()) if it < len(real)]
        super().do_send(real.hex(), {"send": "", "on": name, "cuts": cuts})

    def do_says(self, rows, action):
        name = action["on"]
        if name in self.owed and not action.get("status"):
            self.mean_lists(rows, self.asked[name], self.owed[name].frame)
        super().do_says(rows, action)

    def is_part(self, data, owed):
        """Whether these bytes may follow in a reply to this request. Its commit, its length and
        its body are the listener's."""
        part = slice(owed.sent, min(owed.sent + len(data), 32))
        wanted = self.with_session(bytes(owed.sent) + data + bytes(HEADER))[part]
        return wanted == owed.frame[part]

    def compare(self, data, real):
        """Compares the scenario's reply with the listener's, and keeps what both mean."""
        if real[28] == REGISTER and not real[29]:
            self.sessions[session_of(data)] = session_of(real)
            self.clients[session_of(real)] = real[:16]
        header = self.with_session(data[:HEADER])
        if header[29] != real[29] and header[:29] == real[:29]:
            raise Lying(f"it has the status {header[29]}, a real one {real[29]}")
        if header[:32] != real[:32] or header[44:] != bytes(4):
            raise Lying("no reply to this request")
        if not real[29] and real[28] != REGISTER:
            self.meanings.append((meaning(data), meaning(real)))

    def mean_lists(self, rows, asked, real):
        """Keeps what each list of a request of several callers is answered."""
        operation, body, first = real[28], real[HEADER:], 0
        if operation == REGISTER or real[29]:
            return
        width = 16 if operation in RECORDS else ITEM
        for at in self.order:
            count = self.counts[at]
            given = asked[HEADER + first * width : HEADER + (first + count) * width]
            mine, body = part_of(operation, body, given, first, count)
            said = map(row_bytes, rows[at] if rows else ())
            self.by_list[operation, given] = meant(operation, b"".join(said)), meant(
                operation, mine
            )
            first += count

    # What a call has to return

    def begin_call(self, call):
        self.meanings = []
        if call["do"] == "begin" or call["do"] == "ask" and "shared" in call:
            with contextlib.suppress(KeyError, TypeError, ValueError, AttributeError):
                operation = OPERATIONS[call["operation"]]
                items = call["items"]
                if isinstance(items, dict):
                    first = BODIES[operation]([items["first"]]).hex()
                    body = list_of({**items, "first": first})
                else:
                    body = BODIES[operation](items)
                self.lists[call.get("call")] = operation, body

    def wanted(self, call, wants):
        """What a call has to return, since the listener replied."""
        wants = self.with_sessions(wants)
        scripted, real = None, None
        if call["do"] == "end" or "shared" in call:
            scripted, real = self.by_list.get(self.lists.get(call.get("call")), (None, None))
            is_mine = wants.get("ok") == scripted
        else:
            scripted, real = self.meanings[-1] if self.meanings else (None, None)
            is_mine = isinstance(wants.get("ok"), dict) and set(wants["ok"]) & {
                "results",
                "records",
            }
        if real is None or scripted == real:
            return wants
        if is_mine or wants.get("error") == "EventsFailed":
            if call.get("require_ok") and real.get("results"):
                return {"error": "EventsFailed", **real}
            return {"ok": real}
        return wants

    def with_sessions(self, value):
        """Values with the sessions that the listener gave."""
        if isinstance(value, list):
            return list(map(self.with_sessions, value))
        if not isinstance(value, dict):
            return value
        made = {key: self.with_sessions(it) for key, it in value.items()}
        session, pending = made.get("session"), made.get("pending")
        if isinstance(session, int) or isinstance(session, str) and session.isdigit():
            made["session"] = type(session)(self.sessions.get(int(session), int(session)))
        if isinstance(pending, str) and pending:
            made["pending"] = self.with_session(bytes.fromhex(pending)).hex()
        return made


def is_whole(data, asked):
    """Whether bytes are all of a reply to a request, and no part. Lying if they are not right: a
    reply that names a commit, its body's length and its rows as no server does."""
    if len(data) < HEADER:
        return False
    session = session_of(data)
    operation, status, length = data[28], data[29], int.from_bytes(data[32:36], "little")
    commit = int.from_bytes(data[COMMIT], "little")
    is_its_own = commit == session if operation == REGISTER else commit > session
    if status and (commit or length) or not status and not is_its_own:
        raise Lying("a reply with a wrong commit or length")
    if length % WIDTH.get(operation, 1) or length > 8190 * WIDTH.get(operation, 0):
        raise Lying("a reply with a wrong length")
    if len(data) < HEADER + length:
        return False
    if len(data) > HEADER + length:
        raise Lying("more than a reply")
    if length and not are_rows(operation, data[HEADER:], asked[HEADER:]):
        raise Lying("rows that are no answer to this request")
    return True


def are_rows(operation, body, asked):
    """Whether a reply's rows may answer a request."""
    if operation in CODES:
        rows, codes = list(struct.iter_unpack("<II", body)), set(CODES[operation].values()) - {0}
        places = [it for it, _ in rows]
        rise = sorted(set(places)) == places and places[-1] < len(asked) // ITEM
        return rise and all(code in codes for _, code in rows)
    return not part_of(operation, body, asked, 0, len(asked) // 16)[1]


def row_bytes(row):
    """A row of `says`: a record, or an index and a code."""
    return bytes.fromhex(row) if isinstance(row, str) else struct.pack("<II", *row)


def session_of(reply):
    return int.from_bytes(reply[16:24], "little")


def part_of(operation, body, given, offset, count):
    """What of a reply's body is for one list, with its own indexes, and the rest."""
    mine = b""
    if operation in RECORDS:
        for at in range(0, len(given), 16):
            if body[:16] == given[at : at + 16]:
                mine, body = mine + body[:ITEM], body[ITEM:]
        return mine, body
    while body:
        index, code = struct.unpack_from("<II", body)
        if index >= offset + count:
            break
        mine, body = mine + struct.pack("<II", index - offset, code), body[8:]
    return mine, body


def meaning(reply):
    return meant(reply[28], reply[HEADER:])


def meant(operation, body):
    """What a reply's body means, by the kit's own table."""
    if operation in CODES:
        names = {code: name for name, code in CODES[operation].items()}
        rows = struct.iter_unpack("<II", body)
        return {
            "results": [{"index": at, "result": names.get(code, str(code))} for at, code in rows]
        }
    fields, flags = RECORDS[operation]
    records = [body[at : at + ITEM] for at in range(0, len(body), ITEM)]
    return {"records": [dict(zip(fields, values(it, flags))) for it in records]}


def values(record, flags):
    numbers = [int.from_bytes(record[at : at + 16], "little") for at in range(0, 96, 16)]
    numbers += struct.unpack_from("<QIIIHHQ", record, 96)
    found = list(map(str, numbers))
    found[11] = [name for name, bit in flags.items() if numbers[11] & bit]
    return found
