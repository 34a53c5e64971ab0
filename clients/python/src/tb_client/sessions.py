"""Sessions: a client that is registered, its requests by number, and the one that is in doubt."""
from __future__ import annotations

import binascii
import json
import logging
import threading
import time
from typing import (
    Any,
    Callable,
    Iterable,
    Iterator,
    List,
    Mapping,
    Optional,
    Type,
    TypedDict,
    TypeVar,
    Union,
    cast,
)

from .errors import (
    REFUSALS,
    BadReply,
    Busy,
    Closed,
    EventsFailed,
    Evicted,
    InDoubt,
    InvalidType,
    InvalidValue,
    NoMemory,
    NothingInDoubt,
    NotSent,
    NotYet,
    ReplyLost,
)
from .files import Path, read_saved, write_whole
from .forks import left_by_children
from .frames import (
    Item,
    Reply,
    Request,
    Said,
    body_of,
    header_of,
    operation_of,
    request_frame,
    said_by,
    test_said,
)
from .ids import new_client
from .layout import NUMBER_MAX
from .moments import Moments
from .names import Operation, Status
from .records import Account, EventResult, Transfer
from .transports import Closing, Transport, close_transport, transport_of
from .values import (
    U32,
    U64,
    U128,
    callable_of,
    kind_of,
    listed,
    path_of,
    seconds,
    whole,
)

ATTEMPTS = 5
JUMP_MAX = 60.0  # seconds
# seconds, before a request is sent again if the server said to come later; doubled each time
PAUSE = 0.05
PAUSE_MAX = 1.0  # seconds, beyond which it is doubled no more

S = TypeVar("S", bound="Session")
log = logging.getLogger("tb_client")


class Saved(TypedDict):
    """What outlives a client: its id, its session, the number of its last answered request, and
    the bytes in doubt in hex."""

    client: int
    session: int
    number: int
    pending: str


def pauses_from(first: float) -> Iterator[float]:
    """The seconds that go by before each attempt if the server said to come later."""
    pause, greatest = first, max(first, PAUSE_MAX)
    while True:
        yield pause
        pause = min(2 * pause, greatest)


def _names_a_fault(why: Exception) -> bool:
    return isinstance(why, ReplyLost) and not isinstance(why, Busy) and bool(why.told)


class Session(Closing):
    """The session of a client, whose id is any number from 1 to 2^128 - 1 that no other client has.

    `saved` is what outlives the client. A program that keeps it between `prepare` and `retry` can
    go on after a crash, by `Session.resumed`, and knows after `retry` what the last request did.
    `save` and `load` keep it in a file.

    A request is sent `attempts` times at most in a call, and then stays in doubt. If the server
    said to come later (Busy, NoMemory, NotYet), `pause` seconds go by before it is sent again, each
    time twice as many, up to a second or `pause`, whichever is longer. `now` gives the moments, in
    nanoseconds; one that is more than `jump_max` seconds too far ahead is `ClockJumped` and is not
    sent (None: no such test). Threads may share a session: their requests go one after another. At
    the end of a `with` the transport is closed."""

    def __init__(
        self,
        transport: Transport,
        client: int,
        session: int = 0,
        number: int = 0,
        pending: Optional[bytes] = None,
        attempts: int = ATTEMPTS,
        now: Callable[[], int] = time.time_ns,
        jump_max: Optional[float] = JUMP_MAX,
        pause: float = PAUSE,
    ) -> None:
        self.client = whole("client", client, U128, 1)
        self.transport: Transport = transport_of("transport", transport)
        self.session = whole("session", session, U64)
        self.number = whole("number", number, U32)
        self.attempts = whole("attempts", attempts, U32, 1)
        self.now = callable_of("now", now)
        self.jump_max = None if jump_max is None else seconds("jump_max", jump_max, 0)
        self.pause = seconds("pause", pause, 0)
        _test_pending("pending", pending, self.client, self.session, self.number)
        self.pending = None if pending is None else bytes(pending)
        self._refused: Optional[Type[Exception]] = None
        self._may_be_sent = pending is not None
        self._is_abandoned = False
        self._moments = Moments()
        self._lock = threading.RLock()
        left_by_children(self)

    def leave_copy(self) -> None:
        """In a forked child no thread is there that may have held the lock: a call gets what the
        transport says."""
        self._lock = threading.RLock()

    def __repr__(self) -> str:
        doubt, pending = "", self.pending  # which another thread may settle meanwhile
        if pending is not None:
            asked = header_of(pending)
            doubt = f" in doubt: request {asked.number}, {asked.operation.name}"
        ended = ", abandoned" if self._is_abandoned else ""
        return (
            f"<Session {self.session} of client {self.client}, {self.number} requests answered"
            f"{',' if doubt else ''}{doubt}{ended}>"
        )

    @classmethod
    def register(
        cls: Type[S],
        transport: Transport,
        client: Optional[int] = None,
        *,
        client_range: Optional[int] = None,
        attempts: int = ATTEMPTS,
        now: Callable[[], int] = time.time_ns,
        jump_max: Optional[float] = JUMP_MAX,
        pause: float = PAUSE,
    ) -> S:
        """Registers the client, and returns its new session. If no id is given, the client has a
        new one; with `client_range` one whose upper 64 bits are that number, for a listener that
        lets each peer have a range."""
        self = cls(
            transport,
            new_client(client_range) if client is None else client,
            attempts=attempts,
            now=now,
            jump_max=jump_max,
            pause=pause,
        )
        self._ask(Operation.register, ())
        return self

    @classmethod
    def resumed(
        cls: Type[S],
        transport: Transport,
        saved: Union[Saved, Mapping[str, Any]],
        *,
        attempts: int = ATTEMPTS,
        now: Callable[[], int] = time.time_ns,
        jump_max: Optional[float] = JUMP_MAX,
        pause: float = PAUSE,
    ) -> S:
        """The session as it was when `saved` was taken. If a request was in doubt, `retry` it
        first."""
        if not isinstance(saved, Mapping):
            raise InvalidType("saved", f"must be a dict, not {kind_of(saved)}")
        for field in Saved.__annotations__:
            if field not in saved:
                raise InvalidValue(f"saved['{field}']", "is missing")
        client = whole("saved['client']", saved["client"], U128, 1)
        session, number = whole("saved['session']", saved["session"], U64), whole(
            "saved['number']", saved["number"], U32
        )
        pending = _frame_of("saved['pending']", saved["pending"])
        _test_pending("saved['pending']", pending, client, session, number)
        return cls(
            transport,
            client,
            session,
            number,
            pending,
            attempts=attempts,
            now=now,
            jump_max=jump_max,
            pause=pause,
        )

    @property
    def saved(self) -> Saved:
        with self._lock:
            return {
                "client": self.client,
                "session": self.session,
                "number": self.number,
                "pending": (self.pending or b"").hex(),
            }

    def save(self, path: Path) -> None:
        """Keeps `saved` in a file, whole: after a crash the file has it as it is now or as it was
        before. If it fails, the file is as it was before, or as it is now if only its folder could
        not be synced."""
        name = path_of("path", path)
        with self._lock:
            self._test_not_abandoned()
            write_whole(name, json.dumps(self.saved).encode("ascii"))

    @classmethod
    def load(
        cls: Type[S],
        transport: Transport,
        path: Path,
        *,
        attempts: int = ATTEMPTS,
        now: Callable[[], int] = time.time_ns,
        jump_max: Optional[float] = JUMP_MAX,
        pause: float = PAUSE,
    ) -> S:
        """The session that `save` kept in a file. If a request was in doubt, `retry` it
        first."""
        return cls.resumed(
            transport,
            read_saved(path_of("path", path)),
            attempts=attempts,
            now=now,
            jump_max=jump_max,
            pause=pause,
        )

    @property
    def in_doubt(self) -> Optional[Request]:
        """The request that has no reply yet, with its records or ids. It is kept over refusals,
        because it may have been executed before: after an eviction create its records again, with
        the same ids, in a new session."""
        with self._lock:
            return None if self.pending is None else Request.from_bytes(self.pending)

    def abandon(self) -> Optional[Request]:
        """Gives the session up, and returns the request in doubt, which is given up with it.

        That request may have been executed, or may be yet, if its bytes are on their way, and the
        session cannot go on without knowing: each later call of it is `Closed`, and the file of
        `save` stays as it is. Create the records again with the same ids, in a new session: what
        was executed then gets `exists`, and money moves once. The transport stays open."""
        with self._lock:
            given_up = self.in_doubt
            if not self._is_abandoned:
                log.warning("abandoned: %r", self)
            self.pending, self._is_abandoned = None, True
            return given_up

    def _test_not_abandoned(self) -> None:
        if self._is_abandoned:
            raise Closed("this Session was abandoned: register a new one")

    def create_accounts(self, accounts: Iterable[Account]) -> List[EventResult]:
        """Creates accounts. Returns the results of those that were not created, by index."""
        return cast(List[EventResult], self._ask(Operation.create_accounts, accounts))

    def create_transfers(self, transfers: Iterable[Transfer]) -> List[EventResult]:
        """Makes transfers. Returns the results of those that were not made, by index."""
        return cast(List[EventResult], self._ask(Operation.create_transfers, transfers))

    def lookup_accounts(self, ids: Iterable[int]) -> List[Account]:
        """The accounts that are there, in the order of the ids. It takes a number: if the session
        is saved, use `prepare`, `save`, `retry` and `save`."""
        return cast(List[Account], self._ask(Operation.lookup_accounts, ids))

    def lookup_transfers(self, ids: Iterable[int]) -> List[Transfer]:
        """The transfers that are there, in the order of the ids. It takes a number: if the session
        is saved, use `prepare`, `save`, `retry` and `save`."""
        return cast(List[Transfer], self._ask(Operation.lookup_transfers, ids))

    def _ask(self, operation: Operation, items: Iterable[Item]) -> Any:
        with self._lock:
            self._test_not_in_doubt()
            return self.ask_body(operation, body_of(operation, items))

    def ask_body(self, kind: Operation, body: bytes) -> Any:
        """Makes the next request of its items' bytes, and sends it."""
        with self._lock:
            self.prepare_body(kind, body)
            try:
                return self.retry()
            except NotSent:
                if not self._may_be_sent:  # it is as if it had not been asked for
                    self.pending = None
                raise

    def prepare(self, operation: int, items: Iterable[Item] = ()) -> None:
        """Makes the next request, which is in doubt from then on: keep `saved`, then `retry`."""
        with self._lock:
            self._test_not_in_doubt()
            kind = operation_of(operation)
            self.prepare_body(kind, body_of(kind, items))

    def prepare_body(self, kind: Operation, body: bytes) -> None:
        """`prepare`, if the items' bytes are there already."""
        with self._lock:
            self._test_not_in_doubt()  # again: what gives the items may have used the session
            if kind == Operation.register:
                if self.session:
                    raise InvalidValue("session", f"is {self.session}: it is registered already")
                self.pending = request_frame(self.client, 0, 0, kind)
            else:
                if not self.session:
                    raise InvalidValue("session", "is 0: register first")
                if whole("number", self.number, NUMBER_MAX) == NUMBER_MAX:
                    raise InvalidValue("number", "is 2^32 - 1, the last one: register anew")
                self.pending = request_frame(self.client, self.session, self.number + 1, kind, body)
            self._refused, self._may_be_sent = None, False

    def _test_not_in_doubt(self) -> None:
        self._test_not_abandoned()
        if self.pending is None:
            return
        refusal = self._refused
        if refusal is None:
            raise InDoubt("the last request has no reply yet: retry it")
        if issubclass(refusal, Evicted):
            raise InDoubt(
                f"the session has ended ({refusal.__name__}): register anew, and see in_doubt"
            )
        raise InDoubt(
            f"the last request was refused ({refusal.__name__}), and is in doubt: see in_doubt"
        )

    def retry(self) -> Any:
        """Sends the request in doubt, the same bytes each time, until its reply has come. Returns
        what it says: results of a create, records of a lookup, None of a register."""
        with self._lock:
            self._test_not_abandoned()
            if self.pending is None:
                raise NothingInDoubt("no request is in doubt")
            attempts, pauses = self._options()
            last: Optional[str] = None  # what became of an attempt of this call
            is_named = False  # it told the fault that the server ended with
            for left in reversed(range(attempts)):
                try:
                    moment = self._moments.take(self.now, self.jump_max)
                    return self._take(Reply.from_bytes(self._exchange(moment, self.pending)))
                except NotSent as why:
                    if last is None:
                        raise
                    raise ReplyLost(f"{last}; it was not sent again: {why}") from why
                except (ReplyLost, NoMemory, NotYet) as why:
                    if not left:
                        raise
                    if not is_named or _names_a_fault(why):  # a fault that was told is not lost
                        last, is_named = str(why), _names_a_fault(why)
                    log.warning("sent again, %d times left: %s", left, why)
                    if isinstance(why, (Busy, NoMemory, NotYet)):
                        time.sleep(next(pauses))
            raise AssertionError("attempts is 1 at least")

    def _options(self) -> tuple[int, Iterator[float]]:
        """How often the request is sent, and the pauses between. Options may have been changed
        since they were given: they are checked."""
        transport_of("transport", self.transport)
        callable_of("now", self.now)
        if self.jump_max is not None:
            seconds("jump_max", self.jump_max, 0)
        pauses = pauses_from(seconds("pause", self.pause, 0))
        return whole("attempts", self.attempts, U32, 1), pauses

    def _exchange(self, moment: int, frame: bytes) -> bytes:
        try:
            reply = self.transport.exchange(moment, frame)
        except NotSent:
            raise
        except BaseException:
            self._may_be_sent = True
            raise
        self._may_be_sent = True
        return reply

    def _take(self, reply: Reply) -> Said:
        """Takes the reply to the request in doubt, which is in doubt no longer: the session goes on
        after it. A refusal leaves it in doubt, because it may have been executed before."""
        asked = header_of(cast(bytes, self.pending))
        session = asked.session
        if (reply.client, reply.number, reply.operation) != (
            self.client,
            asked.number,
            asked.operation,
        ):
            raise BadReply(
                f"a reply to request {reply.number} of client {reply.client} came for request "
                f"{asked.number}"
            )
        if reply.status != Status.Reply:
            if reply.session != session:
                raise BadReply(
                    f"a refusal in session {reply.session} came for request {asked.number} of "
                    f"session {session}"
                )
            refusal = REFUSALS[Status(reply.status)]
            log.warning("request %d is refused: %s", asked.number, refusal.__name__)
            self._refused = refusal
            raise refusal(
                f"request {asked.number} of session {session} is refused: {refusal.reason}"
            )
        if asked.operation == Operation.register:
            session = reply.session
        if reply.session != session or not session:
            raise BadReply(f"a reply in session {reply.session} came in session {session}")
        said = said_by(asked.operation, reply.body)
        test_said(cast(bytes, self.pending), asked.operation, said)
        self.session, self.number, self.pending = session, asked.number, None
        if asked.operation == Operation.register:
            log.info("client %d is registered, session %d", self.client, session)
        log.debug("request %d, %s: answered", asked.number, asked.operation.name)
        return said

    def close(self) -> None:
        """Closes the transport."""
        close_transport(self.transport)


def _frame_of(field: str, text: object) -> Optional[bytes]:
    """The bytes in doubt of what was saved, or no bytes."""
    if not isinstance(text, str):
        raise InvalidType(field, f"must be a str, not {kind_of(text)}")
    try:
        return binascii.unhexlify(text) or None  # unlike bytes.fromhex it skips no blanks
    except ValueError:
        raise InvalidValue(field, "is no hex") from None


def _test_pending(
    field: str, pending: Optional[bytes], client: int, session: int, number: int
) -> None:
    """Refuses bytes in doubt that are not the next request of this very session."""
    if pending is None:
        return
    try:
        asked = header_of(pending)
    except ValueError as fault:
        raise InvalidValue(field, f"is no request: {fault}") from None
    except TypeError:
        raise InvalidType(field, f"must be bytes, not {kind_of(pending)}") from None
    is_next = (
        session == number == 0
        if asked.operation == Operation.register
        else session > 0 and asked.number == number + 1
    )
    if (asked.client, asked.session) != (client, session) or not is_next:
        raise InvalidValue(field, "is not the next request of this session")


def require_ok(results: Optional[Iterable[object]]) -> None:
    """Raises `EventsFailed` if an event was not accepted. Everything else in a reply, as the
    records of a lookup, is ignored."""
    failed = (
        []
        if results is None
        else [it for it in listed("results", results) if isinstance(it, EventResult)]
    )
    if failed:
        raise EventsFailed(failed)
