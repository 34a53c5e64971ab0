"""Scenarios that are drawn by a seed: what callers do, and what a server does at each sending.

What a client may send, and what it makes of the bytes that a server sends, the proved session says
(oracle.py); what a connection does is by the rules of PROTOCOL.md, and the sessions of a ledger are
by docs/use/RULES.md. `Drawn` draws one step after another, each by the seed and its place, so that
a scenario without some of its steps is one too."""
import dataclasses
import random
import struct

from .frames import (
    ACCOUNT_CODES,
    ACCOUNT_FLAGS,
    ACCOUNTS,
    BODIES,
    FIND_ACCOUNTS,
    FIND_TRANSFERS,
    LONG,
    REGISTER,
    SHORT,
    TABLE,
    TRANSFER_CODES,
    TRANSFER_FLAGS,
    TRANSFERS,
    U32,
    account_bytes,
    accept,
    ask,
    close,
    connect,
    error,
    in_doubt,
    load,
    prepare,
    read,
    refusal,
    registers,
    reply,
    request,
    results,
    retry,
    save,
    send,
    told,
    transfer_bytes,
    whole_account,
    whole_transfer,
)
from .oracle import STATUS, STATUSES, Asked, Fields, Held, Phase  # noqa: F401
from .table import RULES

HEADER = 48
REFUSALS, NOT_YET = range(1, 7), 7
TOLD = {row["name"]: row["executed"] for row in TABLE["told"]}
NAMED = [it.comes for it in RULES.values() if it.is_told and it.error == "ReplyLost"]
BUSY = [it.comes for it in RULES.values() if it.is_told and it.error == "Busy"]
CREATES = {
    ACCOUNTS: (ACCOUNT_CODES, ACCOUNT_FLAGS, account_bytes, whole_account),
    TRANSFERS: (TRANSFER_CODES, TRANSFER_FLAGS, transfer_bytes, whole_transfer),
}
FOUND = {FIND_ACCOUNTS: ACCOUNTS, FIND_TRANSFERS: TRANSFERS}
SERVERS = ("a", "b", "c")
UNREAD_MAX = 10_000  # bytes that a socket takes while nobody reads them


@dataclasses.dataclass
class Line:
    """A transport: its servers, the place of the next connection, and the one that is there."""

    name: str
    servers: list
    at: int = 0
    connection: str = ""
    is_left: bool = False  # the server closed it, or said something while nothing was asked
    is_read: bool = True  # nothing is to be drained from it
    is_new: bool = False  # it was made for this sending
    is_closed: bool = False


@dataclasses.dataclass
class Row:
    """A session in the ledger, with its last request and its reply."""

    session: int
    number: int
    frame: bytes
    reply: bytes
    says: dict


class Ledger:
    """The sessions of a server. What a request does is drawn, so that no two replies are alike."""

    def __init__(self, draw):
        self.draw, self.rows = draw, {}
        self.commit = draw.choice((0, 0, 2**32 - 2, 2**63 - 2, 2**64 - 10**6))
        self.replies = []  # to all requests that were executed

    def reply_to(self, client, asked, session):
        """A reply's frame, and what a caller is told: an answer, or the name of a refusal."""
        row = self.rows.get(client)
        status = self._status(row, asked, session)
        if status is None:
            return self._execute(client, asked, session)
        if status == 0:
            return row.reply, row.says
        return refusal(asked.number, asked.operation, status, session, client), STATUSES[status]

    @staticmethod
    def _status(row, asked, session):
        """None for a new request, 0 for a repeat, otherwise the refusal's."""
        if asked.operation == REGISTER:
            return None if row is None else 0 if row.number == 0 else 4
        if row is None:
            return 1
        if session != row.session:
            return 2 if session < row.session else 3
        if asked.number == row.number:
            return 0 if asked.frame == row.frame else 5
        return 4 if asked.number < row.number else None if asked.number == row.number + 1 else 6

    def _execute(self, client, asked, session):
        self.commit += self.draw.choice((1, 1, 1, 2, 1000))
        if asked.operation == REGISTER:
            session, body, says = self.commit, b"", {"session": str(self.commit)}
        else:
            body, says = self._said(asked)
        frame = reply(
            asked.number, asked.operation, body, session, client=client, commit=self.commit
        )
        self.rows[client] = Row(session, asked.number, asked.frame, frame, says)
        self.replies.append(frame)
        return frame, says

    def _said(self, asked):
        if asked.operation in CREATES:
            return self._results(asked)
        kind = FOUND[asked.operation]
        _, _, as_bytes, whole = CREATES[kind]
        there = [it for it in asked.items if self.draw.random() < 0.6]
        records = [whole(record(self.draw, kind, it)) for it in there]
        return b"".join(map(as_bytes, records)), {"records": records}

    def _results(self, asked):
        codes = [(name, code) for name, code in CREATES[asked.operation][0].items() if code]
        rows = [
            (at, *self.draw.choice(codes))
            for at in range(len(asked.items))
            if self.draw.random() < 0.5
        ]
        says = [{"index": at, "result": name} for at, name, _ in rows]
        return results(*((at, code) for at, _, code in rows)), {"results": says}


def record(draw, kind, id):
    """A record with some fields."""
    flags = [name for name in CREATES[kind][1] if draw.random() < 0.2]
    some = {
        "user_data_128": str(draw.getrandbits(128)),
        "user_data_64": str(draw.getrandbits(64)),
        "ledger": str(draw.getrandbits(32)),
        "code": str(draw.getrandbits(16)),
    }
    if kind == TRANSFERS:
        some["amount"] = str(draw.getrandbits(draw.choice((1, 64, 128))))
    return {"id": str(id), **some, "flags": flags}


class Drawn:
    """One scenario."""

    def __init__(self, seed, only=None):
        """The scenario of a seed; or what `only` some of its steps, by their places, make."""
        self.seed, self.only, self.draw = seed, only, random.Random(seed)
        self.ledger = Ledger(self.draw)
        self.steps, self.server = [], []
        self.lines, self.held, self.on, self.attempts, self.files = {}, {}, {}, {}, {}
        self.names, self.places = iter(range(10**6)), []
        self.ids = iter(range(1000 * (seed % 10**9 + 1), 10**18))
        kind = self.draw.random()
        self.is_hurried, self.is_cancelling = kind < 0.12, 0.12 <= kind < 0.2
        self.over = self.draw.choice(("", "", "", "tcp", "tls"))
        self.servers = list(SERVERS[: self.draw.choice((1, 1, 2, 3))])
        self.listening = set(self.servers)
        self.weights = self._weights()

    def _weights(self):
        """How often a server does what it can do at a sending: some of it never."""
        usual = {
            "answers": 12,
            "closes_early": 2,
            "closes_unexecuted": 1,
            "closes_executed": 3,
            "cuts": 3,
            "tells": 2,
            "is_busy": 2,
            "is_starting": 1,
            "refuses": 1,
            "is_not_yet": 1,
            "answers_another": 1,
            "says_what_is_none": 1,
            "answers_wrongly": 1,
            "answers_twice": 1,
            "evicts": 1,
            "is_late": 2 if self.is_hurried else 0,
            "resets": 2 if self.over == "tcp" else 0,
        }
        return {
            name: weight
            for name, weight in usual.items()
            if weight and (name == "answers" or self.draw.random() < 0.6)
        }

    # The whole

    def scenario(self):
        self.connects("t")
        self.registers("s")
        for place in range(self.draw.randrange(4, 24)):
            if self.only is None or place in self.only:
                self.draw.seed(f"{self.seed} {place}")
                self.one_step()
                self.places.append(place)
        for name in list(self.held):
            self.tests(name)
        kind = {"tls": {"cert": "server"}} if self.over == "tls" else {}
        needs = {
            "addresses": len(self.servers) > 1,
            "cancel": self.is_cancelling,
            self.over: self.over,
        }
        return {
            "name": f"drawn-{self.seed}",
            "says": f"The same again: --drawn 1 --seed {self.seed}{self.chosen()}",
            "group": "drawn",
            "seed": self.seed,
            "places": self.places,
            **({"over": "tcp"} if self.over else {}),
            "servers": {name: kind for name in self.servers},
            "needs": [name for name, holds in needs.items() if holds],
            "steps": self.steps,
        }

    def chosen(self):
        return "" if self.only is None else f" --steps {','.join(map(str, self.places)) or 'none'}"

    def one_step(self):
        usual = {
            "asks": 10,
            "prepares": 3,
            "retries": 8 if self.doubtful() else 0.5,
            "tests_one": 2,
            "tells_doubt": 1,
            "saves": 2,
            "loads": 1.5 if self.files else 0,
            "is_killed": 0.7 if self.files else 0,
            "registers_another": 1 if len(self.held) < 4 else 0.1,
            "resumes": 0.3,
            "rests": 2,
            "unlistens": 0.7,
            "closes": 0.2,
            "goes_too_far": 0.2,
        }
        name = self.draw.choices(list(usual), list(usual.values()))[0]
        getattr(self, name)()

    def doubtful(self):
        return [name for name, it in self.held.items() if it.asked]

    def any_session(self):
        return self.draw.choice(list(self.held)) if self.held else None

    # What a caller does

    def connects(self, name):
        servers = self.servers[:]
        self.lines[name] = Line(name, servers)
        timeout = SHORT if self.is_hurried else LONG
        tls = {"ca": {"certificate": "ca"}} if self.over == "tls" else None
        self.steps.append(connect(name, tuple(servers), timeout, tls))

    def line_of(self, name):
        return self.lines[self.on[name]]

    def open_line(self):
        """A transport that is not closed, made if all are closed."""
        found = [name for name, it in self.lines.items() if not it.is_closed]
        if not found or self.draw.random() < 0.1:
            name = f"t{next(self.names)}"
            self.connects(name)
            return name
        return self.draw.choice(found)

    def registers(self, name):
        """Registers in one call, as an application does it, or by prepare and retry."""
        client = self.draw.choice((7, 2**64, 2**128 - 1, next(self.ids)))
        if any(it.client == client for it in self.held.values()):
            client = next(self.ids)
        attempts, line = self.draw.choice((1, 2, 2, 3, 4)), self.open_line()
        call = {
            "do": "register",
            "session": name,
            "transport": line,
            "client": str(client),
            "attempts": attempts,
            "pause": 0.01,
        }
        held = Held.new(client)
        self.held[name], self.on[name], self.attempts[name] = held, line, attempts
        if self.draw.random() < 0.5:
            self.opens(name, call, client)
            held.call([], registers(client))
            self.steps.append(prepare(REGISTER, session=name))
            self.calls(name, lambda server, wants: retry(server, wants, name))
            return
        held.call([], registers(client))
        self.calls(name, lambda server, wants: self.registering(call, server, wants))
        if not self.held[name].session:
            del self.held[name]

    def opens(self, name, call, client):
        """A session that is not registered, and perhaps a request that it cannot make yet."""
        wants = {"ok": {"client": str(client)}}
        self.steps.append({"call": {**call, "do": "open"}, "wants": wants})
        if self.draw.random() < 0.2:
            operation = self.draw.choice((*CREATES, *FOUND))
            items = self.drawn_items(operation)
            self.steps.append(ask(operation, items, (), self.make(name, operation, items), name))

    @staticmethod
    def registering(call, server, wants):
        if "ok" in wants:
            wants = {"ok": {"client": call["client"], **wants["ok"]}}
        return {"call": call, "server": server, "wants": wants}

    def registers_another(self):
        self.registers(f"s{next(self.names)}")

    def resumes(self):
        """A session whose numbers are nearly used up."""
        name, line, client = f"s{next(self.names)}", self.open_line(), next(self.ids)
        last = U32 - self.draw.randrange(4)
        held = Held(Fields(client, self.ledger.commit or 1, last, Phase.IDLE))
        self.ledger.commit = held.session
        self.ledger.rows[client] = Row(held.session, last, b"", b"", {})
        self.held[name], self.on[name], self.attempts[name] = held, line, 2
        call = {"do": "resume", "session": name, "transport": line, "saved": held.shown}
        call = {**call, "attempts": 2, "pause": 0.01}
        self.steps.append({"call": call, "wants": {"ok": held.shown}})

    def drawn_items(self, operation):
        if operation == REGISTER:
            return []
        count = self.draw.choice((0, 1, 1, 2, 3, 8))
        if self.draw.random() < 0.02:
            count = 2000  # more than a socket holds
        ids = [next(self.ids) for _ in range(count)]
        if operation in CREATES:
            return [record(self.draw, operation, it) for it in ids]
        return [str(it) for it in ids]

    def make(self, name, operation, items):
        """Makes the next request of a session. None, or what a client says if there is no
        request."""
        if operation == REGISTER:
            return self.held[name].call(items, registers())
        return self.held[name].call(items, request(1, operation, BODIES[operation](items)))

    def asks(self):
        free = [name for name, it in self.held.items() if it.session and not it.asked]
        name = self.draw.choice(free) if free and self.draw.random() < 0.9 else self.any_session()
        if name is None or not free and self.draw.random() < 0.7:
            return self.registers_another()
        operation = self.draw.choice((*CREATES, *FOUND))
        items, before = self.drawn_items(operation), self.held[name].copy()
        fault = self.make(name, operation, items)
        if fault:
            self.steps.append(ask(operation, items, (), fault, name))
            return None
        return self.calls(
            name, lambda server, wants: ask(operation, items, server, wants, name), before
        )

    def prepares(self):
        name = self.any_session()
        if name is None:
            return
        operation = self.draw.choice((*CREATES, *FOUND) * 5 + (REGISTER,))
        items = self.drawn_items(operation)
        self.steps.append(prepare(operation, items, self.make(name, operation, items), name))
        if self.draw.random() < 0.5:
            self.saves(name)

    def retries(self):
        name = self.draw.choice(self.doubtful() or [self.any_session()])
        if name is None:
            return
        if not self.held[name].asked:
            self.steps.append(retry((), error("NothingInDoubt", sent=False), name))
            return
        self.calls(name, lambda server, wants: retry(server, wants, name))
        if self.draw.random() < 0.5 and name in self.held:
            self.saves(name)

    def tests_one(self):
        name = self.any_session()
        if name:
            self.tests(name)

    def tests(self, name):
        held = self.held[name]
        call = {"do": "saved", "session": name}
        self.steps.append({"call": call, "wants": {"ok": held.shown}})

    def tells_doubt(self):
        name = self.any_session()
        if name is None:
            return
        held = self.held[name]
        if held.asked is None:
            self.steps.append(in_doubt(None, name))
            return
        asked, shown = held.asked, held.asked.items
        if asked.operation in CREATES:
            shown = [CREATES[asked.operation][3](it) for it in shown]
        self.steps.append(in_doubt({**held.shown_doubt, "items": shown}, name))

    def saves(self, name=None):
        name = name or self.any_session()
        if name is None:
            return
        path = f"{self.draw.choice('xyz')}.json"
        self.files[path] = self.held[name].copy()
        self.steps.append(save(path, name))

    def loads(self):
        """A session from a file, which may be older than what became of it."""
        path = self.draw.choice(list(self.files))
        name = self.draw.choice((*self.held, f"s{next(self.names)}"))
        line = self.open_line()
        self.held[name], self.on[name] = self.files[path].copy(), line
        self.attempts[name] = 2
        self.steps.append(load({"ok": self.held[name].shown}, path, name, line))
        if self.held[name].asked and self.draw.random() < 0.7:
            self.calls(name, lambda server, wants: retry(server, wants, name))

    def is_killed(self):
        """The client ends as by a crash, at rest or amid a call."""
        name = self.any_session()
        if name and self.held[name].asked and self.draw.random() < 0.7:
            self.killed_amid(name)
        else:
            self.steps.append({"kill": True})
        left = [{"close": it.connection} for it in self.lines.values() if it.connection]
        if left:
            self.steps.append({"server": left})
        self.lines.clear()
        self.held.clear()
        self.connects("t")
        self.loads()

    def killed_amid(self, name):
        line = self.line_of(name)
        if line.is_closed or not self.can_connect(line):
            self.steps.append({"kill": True})
            return
        self.server = []
        self.connected(line)
        held = self.held[name]
        self.reads(line, held)
        if self.draw.random() < 0.6:
            answer, _ = self.ledger.reply_to(held.client, held.asked, held.session)
            if self.draw.random() < 0.5:
                place = self.draw.randrange(1, len(answer))
                self.server += [send(answer[:place], line.connection), {"wait": 0.02}]
        self.server.append({"kill": True})
        self.steps.append(
            {"call": {"do": "retry", "session": name}, "server": self.server, "wants": None}
        )

    def closes(self):
        line = self.lines[self.open_line()]
        line.is_closed = True
        self.steps.append(close(transport=line.name))
        if line.connection:
            if not line.is_left:
                self.steps.append({"server": [{"ended": line.connection}]})
            elif not line.is_read:
                self.steps.append({"server": [{"drain": line.connection, "of": ""}]})
            line.connection = ""

    def goes_too_far(self):
        """One item too many."""
        name = self.any_session()
        if name is None or self.held[name].asked or not self.held[name].session:
            return
        many = {"count": 8191, "first": "1"}
        self.steps.append(ask(FIND_ACCOUNTS, many, (), error("Invalid", sent=False), name))

    # What a server does while nothing is asked

    def rests(self):
        usable = [it for it in self.lines.values() if it.connection and not it.is_left]
        kind = self.draw.randrange(4)
        if kind == 0 and self.ledger.rows:
            self.ledger.rows.pop(self.draw.choice(list(self.ledger.rows)))
        elif usable:
            line = self.draw.choice(usable)
            line.is_left = True
            if kind == 1:
                said = self.draw.choice((told("Idle"), self.stale()))
                self.server = [send(said, line.connection), {"wait": 0.05}]
                line.is_read = False
            elif kind == 2:
                self.server = [send(told("Idle"), line.connection), {"close": line.connection}]
            elif self.over == "tcp" and self.draw.random() < 0.5:
                self.server = [{"reset": line.connection}, {"wait": 0.05}]
            else:
                self.server = [{"close": line.connection}]
            self.steps.append({"server": self.server})

    def unlistens(self):
        gone = [it for it in self.servers if it not in self.listening]
        if gone and self.draw.random() < 0.6:
            name = self.draw.choice(gone)
            self.listening.add(name)
            self.steps.append({"server": [{"listen": name}]})
        elif len(self.listening) > 1 or self.is_hurried and self.listening:
            name = self.draw.choice(sorted(self.listening))
            self.listening.remove(name)
            self.steps.append({"server": [{"unlisten": name}]})

    # A call, and its sendings

    def calls(self, name, step, before=None):
        """A call of a session that sends its request. `step` is given what the server does, and
        what the call returns. A call that made its request itself, and could not send it, is as if
        it had not been: the session is as `before`."""
        self.held[name] = self.held[name].copy()  # after its end a session goes on as from a file
        line, held = self.line_of(name), self.held[name]
        self.server = []
        self.cancels = self.is_cancelling and self.draw.random() < 0.3
        wants, was_sent = self.outcome(line, held, self.attempts[name])
        if before and not was_sent:
            self.held[name] = before
        made = step(self.server, wants)
        if self.cancels:
            made["call"]["within"] = 0.4 if wants.get("error") == "Cancelled" else 30.0
        self.steps.append(made)
        if self.draw.random() < 0.5 and held.session and name in self.held:
            self.tests(name)

    def outcome(self, line, held, attempts):
        """What a call returns that sends its request up to a number of times, and whether it may
        have sent it."""
        if line.is_closed:
            return error("Closed", sent=False), False
        was_sent = False
        for _ in range(attempts):
            goes_on, wants = self.sending(line, held)
            if wants is None:
                name = "ReplyLost" if was_sent else "CannotConnect"
                return error(name, sent=was_sent), was_sent
            was_sent = True
            if not goes_on:
                break
        return wants, True

    def can_connect(self, line):
        return line.connection and not line.is_left or self.listening & set(line.servers)

    def drop_left(self, line):
        """The client leaves a connection that was left, and finds nobody."""
        if line.connection and line.is_left:
            if not line.is_read:
                self.server.append({"drain": line.connection, "of": ""})
            line.connection, line.is_left, line.is_read = "", False, True
            line.at = (line.at + 1) % len(line.servers)

    def connected(self, line):
        """The actions by which a connection is there."""
        line.is_new = not line.connection or line.is_left
        if not line.is_new:
            return
        old = line.connection if line.connection and not line.is_read else ""
        if line.connection:
            line.at = (line.at + 1) % len(line.servers)
        while line.servers[line.at] not in self.listening:
            line.at = (line.at + 1) % len(line.servers)
        line.connection = f"c{next(self.names)}"
        line.is_left, line.is_read = False, True
        self.server.append(accept(line.connection, server=line.servers[line.at]))
        if old:
            self.server.append({"drain": old, "of": ""})

    def lose(self, line, *actions):
        self.server += actions
        line.connection = ""
        line.at = (line.at + 1) % len(line.servers)

    def sending(self, line, held):
        """Whether the call goes on, and what it returns if it does not; None if nobody listens."""
        if not self.can_connect(line):
            self.drop_left(line)
            return False, None
        self.connected(line)
        if self.cancels and self.draw.random() < 0.6:
            return self.is_cancelled(line, held)
        name = self.draw.choices(list(self.weights), list(self.weights.values()))[0]
        return getattr(self, name)(line, held)

    def reads(self, line, held, **more):
        self.server.append(read(held.asked.frame, line.connection, **more))

    def executed(self, held):
        return self.ledger.reply_to(held.client, held.asked, held.session)

    @staticmethod
    def after(name):
        """Whether a call goes on after this, and what it returns if it does not."""
        return RULES[name].goes_on, RULES[name].fails

    def lost(self):
        return self.after("nothing")

    def answers(self, line, held):
        self.reads(line, held)
        frame, says = self.executed(held)
        cuts = sorted(self.draw.sample(range(1, len(frame)), self.draw.choice((0, 0, 1, 3))))
        self.server.append(send(frame, line.connection, **({"cuts": cuts} if cuts else {})))
        return held.hears(frame, says)

    def answers_twice(self, line, held):
        self.reads(line, held)
        frame, says = self.executed(held)
        if len(frame) > UNREAD_MAX:
            self.server.append(send(frame, line.connection))
            return held.hears(frame, says)
        self.server.append(send(frame + frame, line.connection))
        line.is_left, line.is_read = True, False
        return held.hears(frame, says)

    def closes_early(self, line, held):
        place = self.draw.randrange(1, len(held.asked.frame))
        self.reads(line, held, first=place)
        self.lose(line, {"close": line.connection})
        return self.lost()

    def closes_unexecuted(self, line, held):
        self.reads(line, held)
        self.lose(line, {"close": line.connection})
        return self.lost()

    def closes_executed(self, line, held):
        self.reads(line, held)
        self.executed(held)
        name = line.connection
        halves = self.over != "tls" and self.draw.random() < 0.5
        self.lose(line, *([{"half": name}, {"ended": name}] if halves else [{"close": name}]))
        return self.lost()

    def cuts(self, line, held):
        self.reads(line, held)
        frame, _ = self.executed(held)
        place = self.draw.randrange(1, len(frame))
        self.lose(line, send(frame[:place], line.connection), {"close": line.connection})
        return self.lost()

    def resets(self, line, held):
        self.reads(line, held)
        if self.draw.random() < 0.7:
            frame, _ = self.executed(held)
            if self.draw.random() < 0.5:
                place = self.draw.randrange(1, len(frame))
                self.server += [send(frame[:place], line.connection), {"wait": 0.05}]
        self.lose(line, {"reset": line.connection})
        return self.lost()

    def tells(self, line, held):
        name = self.draw.choice(NAMED)
        self.reads(line, held)
        if TOLD.get(name, "perhaps") == "perhaps" and self.draw.random() < 0.5:
            self.executed(held)
        self.lose(line, send(told(name), line.connection), {"close": line.connection})
        return self.after(name)

    def is_busy(self, line, held):
        name, why = line.connection, self.draw.choice(BUSY)
        # before a connection that is there already is used the client looks at it
        if not line.is_new or self.over == "tls" or self.draw.random() < 0.5:
            self.reads(line, held)
            self.lose(line, send(told(why), name), {"close": name})
        else:
            drained = {"drain": name, "of": held.asked.frame.hex()}
            self.lose(line, send(told(why), name), {"half": name}, drained)
        return self.after(why)

    def is_starting(self, line, held):
        """The same sending goes on over another connection."""
        self.reads(line, held)
        stops = self.is_hurried and self.draw.random() < 0.3
        if stops:
            self.server += [{"unlisten": it} for it in sorted(self.listening)]
            self.listening.clear()
        self.lose(line, send(told("Starting"), line.connection), {"close": line.connection})
        return self.sending(line, held)

    def refuses(self, line, held):
        """A refusal that the ledger has no reason for."""
        status = self.draw.choice(REFUSALS)
        self.reads(line, held)
        if self.draw.random() < 0.3:
            self.executed(held)
        return self.refused(line, held, status)

    def is_not_yet(self, line, held):
        self.reads(line, held)
        return self.refused(line, held, NOT_YET)

    @staticmethod
    def refusal(held, status):
        asked = held.asked
        return refusal(asked.number, asked.operation, status, held.session, held.client)

    def refused(self, line, held, status):
        frame = self.refusal(held, status)
        self.server.append(send(frame, line.connection))
        return held.hears(frame)

    def evicts(self, line, held):
        self.ledger.rows.pop(held.client, None)
        return self.answers(line, held)

    def stale(self):
        """The reply to a request of before."""
        short = [it for it in self.ledger.replies if len(it) <= UNREAD_MAX]
        return self.draw.choice(short or [registers()])

    def answers_another(self, line, held):
        """The reply to a request of before, or one that differs in what names its request, as a
        refusal does."""
        self.reads(line, held)
        frame, _ = self.executed(held)
        if self.draw.random() < 0.3:
            frame = self.refusal(held, self.draw.choice(REFUSALS))
        wrong = self.stale() if self.draw.random() < 0.3 else self.renamed(frame)
        if held.is_for(wrong):
            wrong = bytes([0xFF]) * HEADER
        return self.bad(line, held, wrong)

    def renamed(self, frame):
        """A reply of another client, session, number or operation, which differs in one bit if it
        can; if it is no refusal with the greatest commit, so that every session may have one."""
        client, session, number, operation = struct.unpack_from("<16sQIB", frame)
        bit = self.draw.randrange(128)
        kind = self.draw.randrange(4)
        if kind == 0:
            client = (int.from_bytes(client, "little") ^ 1 << bit).to_bytes(16, "little")
        elif kind == 1:
            session ^= 1 << bit % 64
        elif kind == 2:
            number ^= 1 << bit % 32
        else:
            operation = {ACCOUNTS: TRANSFERS, TRANSFERS: ACCOUNTS}.get(operation, operation ^ 7)
        header = client + struct.pack("<QIB", session, number, operation) + frame[29:36]
        return header + (frame[36:44] if frame[STATUS] else b"\xff" * 8) + frame[44:]

    def says_what_is_none(self, line, held):
        self.reads(line, held)
        if self.draw.random() < 0.5:
            self.executed(held)
        junk = bytes([0xFF, *(self.draw.randrange(256) for _ in range(self.draw.choice((47, 99))))])
        return self.bad(line, held, junk[:29] + b"\xff" + junk[30:])

    def bad(self, line, held, wrong):
        self.lose(line, send(wrong, line.connection), {"ended": line.connection})
        return held.hears(wrong)

    def answers_wrongly(self, line, held):
        """A header that is right, and a body that no reply to this request has: the client takes
        such a frame for no reply, as docs/use/CLIENTS.md says."""
        asked = held.asked
        if asked.operation == REGISTER:
            return self.answers_another(line, held)
        self.reads(line, held)
        if self.draw.random() < 0.5:
            self.executed(held)
        if asked.operation in CREATES:
            body = results((len(asked.items), 1))
        else:
            kind = FOUND[asked.operation]
            _, _, as_bytes, whole = CREATES[kind]
            body = as_bytes(whole(record(self.draw, kind, next(self.ids))))
        frame = reply(
            asked.number, asked.operation, body, held.session, held.client, commit=2**64 - 1
        )
        self.lose(line, send(frame, line.connection), {"close": line.connection})
        return False, error("BadReply", sent=True)

    def is_late(self, line, held):
        self.falls_silent(line, held)
        return self.lost()

    def is_cancelled(self, line, held):
        self.falls_silent(line, held)
        return False, error("Cancelled", sent=True)

    def falls_silent(self, line, held):
        """Before the reply or amid it."""
        self.reads(line, held)
        if self.draw.random() < 0.5:
            frame, _ = self.executed(held)
            if self.draw.random() < 0.5:
                place = self.draw.randrange(1, len(frame))
                self.server.append(send(frame[:place], line.connection))
        self.lose(line, {"ended": line.connection})


def drawn(seed, only=None):
    return Drawn(seed, only).scenario()
