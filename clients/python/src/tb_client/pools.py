"""Sessions that many callers share. What they ask for while a session waits for its reply goes out
as its next request, in one."""
from __future__ import annotations

import collections
import concurrent.futures
import contextlib
import logging
import math
import os
import threading
import time
from typing import Any, Callable, Deque, Iterable, List, Optional, Tuple

from .errors import Busy, CannotConnect, Closed, Evicted, NoMemory, NotSent, NotYet, ReplyLost
from .frames import body_of
from .ids import new_client
from .joined import CREATES, answers, is_linked, settled
from .layout import ITEM_SIZES, ITEMS_MAX, NUMBER_MAX, RECORD
from .names import Operation
from .sessions import PAUSE, Session, pauses_from
from .transports import Transport, close_transport

FORBIDDEN = ("NotAllowed", "ClientNotAllowed")  # what a client gets that may not come
SILENCE_MAX = 5.0  # seconds without a reply, after which it is said that calls wait
CLOSED = "this client was closed before the reply came"
log = logging.getLogger("tb_client")


class Call:
    """What one caller asks for: its list as bytes, and the future that gets its answer."""

    def __init__(self, operation: Operation, body: bytes) -> None:
        self.operation, self.body = operation, body
        self.count = len(body) // ITEM_SIZES[operation]
        self.future: concurrent.futures.Future[Any] = concurrent.futures.Future()
        self.may_be_sent = False

    @property
    def is_open(self) -> bool:
        """Whether the list ends in a chain that a next event would be joined to."""
        return self.operation in CREATES and self.count > 0 and is_linked(self.body, -RECORD)

    def tell(self, answer: Any = None, error: Optional[BaseException] = None) -> None:
        """Gives the caller its answer, if it still waits for one."""
        with contextlib.suppress(concurrent.futures.InvalidStateError):
            if error is not None:
                self.future.set_exception(error)
            else:
                self.future.set_result(answer)


class Pool:
    """Up to a number of sessions, each with a thread and a transport of its own. They are
    registered when they are needed. Calls get their answers in their order if there is one
    session."""

    def __init__(
        self,
        connect: Callable[[], Transport],
        sessions: int,
        jump_max: Optional[float],
        client_range: Optional[int],
        report: Optional[Callable[[str], object]] = None,
    ) -> None:
        self._connect, self._sessions = connect, sessions
        self._report = report  # says that the server has not replied for long
        self._waits_since: Optional[float] = None
        self._jump_max, self._client_range = jump_max, client_range
        self._calls: Deque[Call] = collections.deque()
        self._changed = threading.Condition()
        self._workers: List[Worker] = []
        self._idle = 0
        self._stopped = threading.Event()
        self._owner = os.getpid()

    def begin(self) -> None:
        """Makes the first worker now, which closes its transport at the end."""
        with self._changed:
            if not self._workers:
                self._grow()

    def ask(self, operation: Operation, items: Iterable[Any]) -> Call:
        """Takes what a caller asks for. Its values are checked here, so that a wrong one is nobody
        else's fault."""
        call = Call(operation, body_of(operation, items))
        if self._owner != os.getpid():
            raise Closed("this client belongs to the process that made it")
        with self._changed:
            if self._stopped.is_set():
                raise Closed("this client was closed")
            if self._idle <= len(self._calls) and len(self._workers) < self._sessions:
                self._grow()
            self._calls.append(call)
            self._changed.notify()
        if self._stopped.is_set():  # by a signal's handler, amid the lines above
            self.close()
        return call

    def _grow(self) -> None:
        """Adds a worker. If it cannot be made, those that are there do its work."""
        try:
            self._workers.append(self._started())
        except Exception as why:
            if not self._workers:
                raise
            log.warning("no session more than %d: %s", len(self._workers), why)

    def _started(self) -> Worker:
        """A worker whose thread runs: the system may have no thread for it."""
        worker = Worker(self, self._connect())
        try:
            worker.start()
        except BaseException:
            close_transport(worker.transport)
            raise
        return worker

    def forget(self, call: Call) -> None:
        """Takes a call off the queue whose caller waits no longer."""
        with self._changed, contextlib.suppress(ValueError):
            self._calls.remove(call)

    # What workers call

    def wait(self) -> bool:
        """Waits until there is a call to answer. False at the end."""
        with self._changed:
            self._idle += 1
            while not self._calls and not self._stopped.is_set():
                self._changed.wait()
            self._idle -= 1
            return not self._stopped.is_set()

    def take(self) -> List[Call]:
        """The next calls that one request can hold, except those whose callers have gone. A list is
        never cut, and no call is joined to one that ends in an open chain."""
        batch: List[Call] = []
        count = 0
        with self._changed:
            while self._calls and (not batch or _may_join(batch[-1], count, self._calls[0])):
                call = self._calls.popleft()
                call.may_be_sent = True  # before it is asked: who leaves later is told so
                if not call.future.cancelled():
                    batch.append(call)
                    count += call.count
        return batch

    def give_back(self, batch: List[Call]) -> None:
        """Puts calls back of which nothing was sent. At the client's end they are told so."""
        with self._changed:
            for call in reversed([it for it in batch if not it.future.cancelled()]):
                call.may_be_sent = False
                self._calls.appendleft(call)
        if self._stopped.is_set():  # no worker looks for them any more
            self._tell_end()

    def new_session(self, transport: Transport) -> Session:
        """A session that is to be registered. Each of its calls sends once."""
        client = new_client(self._client_range)
        session = Session(transport, client, attempts=1, jump_max=self._jump_max)
        session.prepare(Operation.register)
        return session

    def pause(self, seconds: float, why: Exception) -> None:
        """Waits before the same bytes are sent again. At the client's end `why` is raised, and if
        the server does not let this client in."""
        if isinstance(why, ReplyLost) and why.told in FORBIDDEN:
            raise why
        log.warning("sent again in %.2f s: %s", seconds, why)
        self.note_wait(why)
        if self.rest(seconds):
            raise why

    def note_wait(self, why: BaseException) -> None:
        """Says once that calls wait for a server that does not reply."""
        now, since = time.monotonic(), self._waits_since
        if since is None:
            self._waits_since = now
        elif now - since > SILENCE_MAX and self._report is not None:
            self._waits_since = math.inf  # until there is a reply
            self._report(
                f"tb_client: no reply for {now - since:.0f} seconds: {why}. Calls wait until the "
                "server is back, or for timeout= of the client"
            )

    def note_reply(self) -> None:
        self._waits_since = None

    def rest(self, seconds: float) -> bool:
        """Waits. Says whether the client ended meanwhile."""
        return self._stopped.wait(seconds)

    def trouble(self) -> str:
        """Why no reply came of late, if a transport says that."""
        for worker in list(self._workers):
            found = str(getattr(worker.transport, "trouble", ""))
            if found:
                return f": {found}"
        return ""

    def close(self) -> None:
        """Ends the sessions. Requests on their way are waited for as long as their transport
        does."""
        if self._owner != os.getpid():
            return
        with self._changed:
            self._stopped.set()
            workers = list(self._workers)
            self._changed.notify_all()
        self._tell_end()
        for worker in workers:
            worker.end()

    def _tell_end(self) -> None:
        """Tells those who wait that nothing of theirs was sent, and will not be."""
        with self._changed:
            left = list(self._calls)
            self._calls.clear()
        for call in left:
            call.tell(error=Closed("this client was closed, and nothing of this call was sent"))


def _may_join(last: Call, count: int, call: Call) -> bool:
    """Whether a call may go out after others, of which this is the last one."""
    fits = count + call.count <= ITEMS_MAX
    return fits and call.operation == last.operation and not last.is_open


def _may_come(why: BaseException) -> bool:
    """Whether the server was not there, and may be later."""
    return isinstance(why, CannotConnect) and not why.untrusted


class Worker(threading.Thread):
    """A thread that serves calls, over a session that it registers when it needs one."""

    def __init__(self, pool: Pool, transport: Transport) -> None:
        super().__init__(name="tb_client", daemon=True)
        self._pool, self.transport = pool, transport
        self._session: Optional[Session] = None
        self._patience = _Patience()  # with a server that is not there

    def run(self) -> None:
        while self._pool.wait():
            try:
                self._registered()
            except BaseException as why:
                if _may_come(why):
                    self._rest(why)
                else:
                    self._leave()
                    self._tell_all(self._pool.take(), why)
                continue
            batch = self._pool.take()
            if batch:
                self._serve(batch)

    def _serve(self, batch: List[Call]) -> None:
        operation, bodies = batch[0].operation, [call.body for call in batch]
        try:
            said, is_doubtful = self._ask(operation, b"".join(bodies))
            if is_doubtful and operation in CREATES:
                said = settled(operation, b"".join(bodies), said, self._look_up)
            found = answers(operation, bodies, said)
        except BaseException as why:
            if not isinstance(why, NotSent) or self._is_in_doubt():
                self._leave()  # or its request in doubt would go out as the next one
            if _may_come(why):
                self._pool.give_back(batch)
                self._rest(why)
            else:
                self._tell_all(batch, why)
        else:
            self._patience = _Patience()
            self._pool.note_reply()
            for call, answer in zip(batch, found):
                call.tell(answer)

    def _rest(self, why: BaseException) -> bool:
        """Waits before a server is called again that was not there: a transport may report that at
        once. Says whether the client ended meanwhile."""
        log.warning("%s", why)
        self._pool.note_wait(why)
        return self._pool.rest(self._patience.next(why))

    @staticmethod
    def _tell_all(batch: List[Call], why: BaseException) -> None:
        for call in batch:
            call.tell(error=why)

    def _look_up(self, operation: Operation, body: bytes) -> Any:
        return self._ask(operation, body, True)[0]

    def _ask(
        self, operation: Operation, body: bytes, is_doubtful: bool = False
    ) -> Tuple[Any, bool]:
        """What the reply to a request says, and whether the request may have been executed before,
        in a session that has ended. A `NotSent` if nothing was ever executed."""
        is_lost, patience = False, _Patience()
        while True:
            try:
                session = self._registered()
                said = (
                    session.ask_body(operation, body)
                    if session.pending is None
                    else session.retry()
                )
                return said, is_doubtful
            except Evicted as why:
                is_doubtful, is_lost = is_doubtful or is_lost, False
                self._leave()
                self._pool.pause(patience.next(why), why)
            except NotSent as why:
                if not is_lost and not is_doubtful:
                    raise
                if not isinstance(why, Closed) and not _may_come(why):
                    raise ReplyLost(f"no reply came, and it was not sent again: {why}") from why
                if isinstance(why, Closed) or self._rest(why):
                    raise ReplyLost(CLOSED) from why
            except (ReplyLost, NoMemory, NotYet) as why:
                is_lost = is_lost or isinstance(why, ReplyLost) and not isinstance(why, Busy)
                self._pool.pause(patience.next(why), why)

    def _registered(self) -> Session:
        """The session, registered. `CannotConnect` if nothing replies."""
        it = self._session
        if it is not None and it.number == NUMBER_MAX and it.pending is None:
            self._leave()  # it has no next number
        if self._session is None:
            self._session = self._pool.new_session(self.transport)
        session, patience = self._session, _Patience()
        while not session.session:
            try:
                session.retry()
            except (ReplyLost, NoMemory, NotYet) as why:
                self._pool.pause(patience.next(why), why)
        return session

    def _is_in_doubt(self) -> bool:
        """Whether the session has a request without a reply, other than its register."""
        it = self._session
        return it is not None and bool(it.session) and it.pending is not None

    def _leave(self) -> None:
        """Gives the session up. The next request has a new one."""
        if self._session is not None:
            self._session.abandon()
            self._session = None

    def end(self) -> None:
        close_transport(self.transport)
        if threading.current_thread() is not self:
            self.join()


class _Patience:
    """The seconds before each next sending, which follows a first lost reply at once."""

    def __init__(self) -> None:
        self._pauses, self._is_first = pauses_from(PAUSE), True

    def next(self, why: BaseException) -> float:
        is_at_once = self._is_first and not isinstance(why, (Busy, NoMemory, NotYet))
        self._is_first = False
        return 0.0 if is_at_once else next(self._pauses)
