"""Sends requests until their replies are there, and keeps what the replies say of sessions."""
from __future__ import annotations

import time
from typing import Callable, Iterator, NamedTuple, Optional

import tb_client as tb
from tb_client.frames import test_asked, test_said
from tb_client.moments import Moments

from .dates import date_of, spoken
from .faults import Device, Fault, report
from .filling import Live, Session
from .ledgers import Ledger
from .reader import Pair, Statement
from .words import CLOSINGS, SECOND, STATUSES, TIME_MAX

TRIES = 8
PAUSE_MAX = 5.0
AGAIN = (tb.ReplyLost, tb.NoMemory, tb.CannotConnect)  # after these the bytes may be sent again
# why a server closes a connection each time, however often it is asked: nothing was executed
FINAL = {"NotAllowed", "ClientNotAllowed", "ClientZero", "UnknownOperation", "Reserved"}
FINAL |= {"RegisterNumbers", "RequestZero", "BadLength", "TooMany"}
NOT_SENT = "no reply is waited for, and nothing was sent"
IN_DOUBT = "no reply is waited for: the statement may have been executed, or may be yet."
# at a terminal a statement that is typed again has the same number, in another process it has not
TYPED_AGAIN = "Typed\n  again as it was, it gets its first reply, or is executed now"
RUN_AGAIN = "What\n  it created is refused as exists if it is created again with the same ids"
DAY = 86400 * SECOND
CLOCK_JUMP_MAX = 60.0  # seconds that the clock may be ahead of a clock that nobody sets
AHEAD = """ahead of this computer's clock, and nothing was sent: the ledger's time would stay
  there for ever, and each hold that is due by then would expire. --ahead SECONDS allows it"""
CLOCK_JUMPED = """this computer's clock jumped ahead by more than a minute, and nothing was sent:
  if it is right now, start telovamish again"""
MOVES_TIME = """at= moves the ledger's time to {}, also in a lookup:
  it never goes back, and each hold that is due by then expires"""
NO_LOOK_BACK = "at= does not look back: this is the ledger as it is now, at {}"
AT_HAS_NO_EFFECT = "at= has no effect over a connection: moments are the server's"
NO_SESSION_WRITTEN = """no session was written, and 0 was sent: write session=N too, or leave out
  client and request"""
SESSION_NOT_KNOWN = """has a session that is not known here: write session=N and request=N
  before the operation, or name another client"""
OTHER_CONTENT = """was executed before, with other content, and this statement was not. Typed again
  it is the next request"""
EXECUTED = ("Nothing was", "An earlier sending of it may have been")
NO_SESSION_LEFT = "has no session any more; its next statement registers it"


class Served(NamedTuple):
    """A request, its reply, and whether it is known to be a repeat."""

    pair: Pair
    reply: tb.Reply
    is_repeat: bool


class NotServed(Device):
    """A statement got no reply."""


class Ahead(Fault):
    """A moment is further ahead of the clock than is allowed, and was not sent."""


class Late(Fault):
    """A request is refused before it is sent: no time is left for it."""


def report_days(pair: Pair, last: int) -> None:
    """Says that the events of a batch are of two days: they end at the batch's time, a nanosecond
    apart."""
    first = last - pair.length + 1
    if not pair.operation.startswith("create_") or first // DAY == last // DAY:
        return
    before = DAY - first % DAY
    report(
        f"the first {before} of its {pair.length} events are of the day before: from "
        f"{date_of(first)} to {date_of(last)}.\n  The events of a batch end at its time, a "
        f"nanosecond apart: {pair.length} ns later all are of one day"
    )


class Desk:
    """Sends the statements of one terminal or text. What a statement leaves out is filled in by
    `live`; the moment is the clock's."""

    def __init__(self, ledger: Ledger, client: int) -> None:
        self.ledger = ledger
        self.client = client  # that of statements which name no other
        self.live = Live(client)
        self.renew: Callable[[], int] = lambda: self.client  # gives another client
        self._is_trial = False  # the client's session is a stored one, which may have ended
        self.entries = 0  # that are known to have been made by this desk
        self._is_reached = False  # the server has replied
        self.is_typed = False  # the statements are typed at a terminal
        self._may_be_sent = False  # the request that has no reply yet
        self._has_noted_at = False
        self._clock = Moments()
        self._connections = ledger.connections

    def serve(self, statement: Statement) -> Iterator[Served]:
        """The replies to a statement, to a register before it among them."""
        self._check_at(statement)
        pair = statement.pair._replace(at=self._moment(statement))
        is_unknown = pair.client not in self.live.sessions
        if "session" in statement.filled and is_unknown and pair.operation != "register":
            self._check_time(pair)
            served = self._send(Pair(pair.at, pair.client, 0, 0, "register", b""))
            yield served
            if served.reply.status:
                report(f"client {pair.client} {SESSION_NOT_KNOWN}")
                return
            pair = pair._replace(session=served.reply.session)
        served = self._send(pair)
        if self._is_trial and served.reply.status and pair.client == self.client:
            if {"session", "request"} <= statement.filled.keys():
                yield from self._renewed(pair)
                return
        self._is_trial = self._is_trial and pair.client != self.client
        yield served
        has_none = not pair.session and "session" not in {**statement.written, **statement.filled}
        if served.reply.status and has_none and pair.operation != "register":
            report(NO_SESSION_WRITTEN)

    def resume(self, client: int, session: Session) -> None:
        """Goes on in a session that an earlier process has left."""
        self.client = self.live.last = client
        self.live.sessions[client] = session
        self._is_trial = True

    def settled(self) -> Optional[Session]:
        """The client's session, if each of its requests has a reply."""
        return None if self._may_be_sent else self.live.sessions.get(self.client)

    def _renewed(self, pair: Pair) -> Iterator[Served]:
        """The replies to a statement by another client, of which the stored session has ended: the
        refusal says that nothing was executed."""
        self.live.sessions.pop(self.client, None)
        self._is_trial = False
        self.client = self.live.last = self.renew()
        served = self._send(Pair(pair.at, self.client, 0, 0, "register", b""))
        yield served
        if not served.reply.status:
            yield self._send(
                pair._replace(client=self.client, session=served.reply.session, request=1)
            )

    def _moment(self, statement: Statement) -> int:
        if not self.ledger.has_moments:
            return 0
        if "at" in statement.written:
            return statement.pair.at
        if self.ledger.ahead_max is None:
            return time.time_ns()
        try:
            return self._clock.take(time.time_ns, CLOCK_JUMP_MAX)
        except tb.ClockJumped:
            raise Ahead(CLOCK_JUMPED) from None

    def _check_at(self, statement: Statement) -> None:
        """Refuses a written moment that is too far ahead for a ledger in a file, and says what
        one of a lookup does."""
        if "at" not in statement.written:
            return
        at, history = statement.pair.at, self.ledger.history
        if not self.ledger.has_moments:
            self._note_at(AT_HAS_NO_EFFECT, is_once=True)
            return
        ahead = at - time.time_ns()
        if self.ledger.ahead_max is not None and ahead > self.ledger.ahead_max * SECOND:
            raise Ahead(f"at= is {spoken(ahead)} {AHEAD}")
        if statement.pair.operation.startswith("lookup_") and history.seen:
            if history.time + SECOND < at <= TIME_MAX:
                self._note_at(MOVES_TIME.format(date_of(at)))
            elif at < history.time - SECOND:
                self._note_at(NO_LOOK_BACK.format(date_of(history.time)))

    def _note_at(self, text: str, is_once: bool = False) -> None:
        """Says what a moment does: each time over a file, otherwise once."""
        if not (self._has_noted_at and (is_once or self.ledger.is_memory)):
            report(text)
        self._has_noted_at = True

    def _check_time(self, pair: Pair) -> None:
        """Refuses what could end the program, and its ledger with it. What is at most the last
        request of its session is not new, and takes no time."""
        known = self.live.sessions.get(pair.client)
        is_old = known and known.number == pair.session and 0 < pair.request < known.next
        if not is_old and not self.ledger.history.has_time_for(pair):
            raise Late("TimeExhausted")

    def _send(self, pair: Pair) -> Served:
        self._check_time(pair)
        frame = pair.frame()
        data = self._exchange(min(pair.at, TIME_MAX), frame)
        try:
            reply = tb.Reply.from_bytes(data)
            test_asked(frame, data)
            if not reply.status:
                test_said(frame, tb.Operation(reply.operation), reply.items)
        except tb.ClientError as why:
            raise NotServed(f"{why}\ntelovamish: {self.doubt()}") from None
        self._is_reached, self._may_be_sent = True, False
        history = self.ledger.history
        if self.ledger.connections != self._connections:
            self._connections = self.ledger.connections
            history.forget()
        self.entries += reply.commit > history.seen
        is_repeat = history.is_repeat(pair, reply)
        if not is_repeat and not reply.status and self.ledger.has_moments:
            report_days(pair, history.time)
        self._learn(pair, reply)
        return Served(pair, reply, is_repeat)

    def _exchange(self, moment: int, frame: bytes) -> bytes:
        """Sends the same bytes until their reply is here."""
        may_be_sent = self._may_be_sent = False
        for turn in range(2, TRIES + 2):
            try:
                self._may_be_sent = True  # for whom an interrupt ends this
                return self.ledger.transport.exchange(moment, frame)
            except tb.ClientError as why:
                self._may_be_sent = may_be_sent
                final = self._final(why)
                if final:
                    what = EXECUTED[may_be_sent]
                    raise NotServed(f"{final}. {what} executed, and it is not sent again") from None
                may_be_sent |= isinstance(why, tb.ReplyLost) and not isinstance(why, tb.Busy)
                self._may_be_sent = may_be_sent
                is_there = self._is_reached or may_be_sent or "Starting" in str(why)
                is_away = isinstance(why, tb.CannotConnect) and not is_there
                if turn > TRIES or is_away or not isinstance(why, AGAIN):
                    raise NotServed(self._lost_text(why)) from None
                report(f"{why}; the same bytes are sent again, try {turn} of {TRIES}")
                time.sleep(min(PAUSE_MAX, 0.05 * 2**turn))
        raise AssertionError("there is a last try")

    def _final(self, why: tb.ClientError) -> str:
        """What waiting does not mend, in words; otherwise nothing."""
        closing = getattr(why, "told", "")
        if closing in FINAL:
            return f"{closing}: {CLOSINGS[closing]}"
        if getattr(why, "untrusted", False):
            return str(why)
        return "" if self._is_reached or closing else self.ledger.tls_fault(str(why))

    def doubt(self) -> str:
        """What became of a statement whose reply is not waited for."""
        if not self._may_be_sent:
            return NOT_SENT
        return f"{IN_DOUBT} {TYPED_AGAIN if self.is_typed else RUN_AGAIN}"

    def _lost_text(self, why: tb.ClientError) -> str:
        """What went wrong, and what became of the statement."""
        if isinstance(why, tb.ProgramEnded):
            lost = ", and its ledger with it" if self.ledger.is_memory else ""
            return f"the server ended{lost}: {why}"
        if isinstance(why, (tb.NotSent, tb.Busy, tb.NoMemory)) and not self._may_be_sent:
            return str(why)
        return f"{why}\ntelovamish: {self.doubt()}"

    def _learn(self, pair: Pair, reply: tb.Reply) -> None:
        """Keeps the session and the number of a request that got a reply, and drops a session that
        ended."""
        live, status = self.live, STATUSES[reply.status]
        if reply.status and self._is_trial and pair.client == self.client:
            return
        live.last, known = pair.client, live.sessions.get(pair.client)  # also if it is refused
        is_in_it = known is not None and known.number == pair.session
        if status == "reply":
            live.learn(pair.client, reply.session, pair.request)
        elif status == "collision" and is_in_it:
            live.learn(pair.client, pair.session, pair.request)
            report(f"request {pair.request} {OTHER_CONTENT}")
        elif known and (status == "no_session" or status == "session_too_low" and is_in_it):
            del live.sessions[pair.client]
            report(f"client {pair.client} {NO_SESSION_LEFT}")
