"""What goes wrong, as exceptions below one base, `ClientError`. Those of
clients/embed/python/tb_embed.py are below it too."""
from __future__ import annotations

from typing import TYPE_CHECKING, Optional, Sequence

from .names import Status

if TYPE_CHECKING:
    from .locks import Owner
    from .records import EventResult


SHOWN = 10  # failed events in an error's text


class ClientError(Exception):
    """The base of all that this package and the embedded server raise."""


# Nothing was sent


class NotSent(ClientError):
    """Nothing was sent by this call."""


class Invalid(NotSent):
    """A field or an argument, `field`, may not hold what was given."""

    def __init__(self, field: str, problem: str) -> None:
        super().__init__(field, problem)
        self.field, self.problem = field, problem

    def __str__(self) -> str:
        return " ".join(self.args)


class InvalidType(Invalid, TypeError):
    """It has the wrong type."""


class InvalidValue(Invalid, ValueError):
    """It is out of its range."""


class InDoubt(NotSent):
    """The last request has no reply yet: `retry` it before another one is made."""


class NothingInDoubt(NotSent, ValueError):
    """There is no request to be sent again."""


class ClockJumped(NotSent):
    """The clock is further ahead than `jump_max` allows. The ledger's time would go there for
    good."""


class Closed(NotSent):
    """The transport, or the embedded server, was closed."""


class ScriptFull(NotSent):
    """The requests that a Program keeps for its restarts would take more than `script_max`
    bytes."""


class CannotStart(NotSent):
    """The program does not start."""


class NotSupported(NotSent):
    """The server has no such call. `instead` is what to use."""

    def __init__(self, call: str = "", instead: str = "") -> None:
        super().__init__(f"the server has no {call}: use {instead}")
        self.instead = instead


class CannotConnect(NotSent):
    """No connection to the server can be made. `untrusted` if its certificate is not trusted,
    or it refuses this client's: waiting does not mend that."""

    def __init__(self, text: str = "", untrusted: bool = False) -> None:
        super().__init__(text)
        self.untrusted = untrusted


# Something was sent


class ReplyLost(ClientError):
    """No reply came. The request may have been executed or not: send the same bytes again. `told`
    is the name that the server gave before it closed the connection, if it gave one."""

    def __init__(self, text: str = "", told: str = "") -> None:
        super().__init__(text)
        self.told = told


class Busy(ReplyLost):
    """The server has too many connections, or this peer has its share, and the server did not take
    the request: come later."""


class NoMemory(ClientError):
    """The server had no memory for the request, and did not execute it: send the same bytes
    again."""


class ProgramEnded(ClientError):
    """The program ended, with this fault's name (as its line on standard error has it) and this
    exit status. Its history has ended with it. A negative status is the number of the signal that
    killed it."""

    def __init__(self, fault: str, status: int) -> None:
        super().__init__(fault, status)
        self.fault, self.status = fault, status

    @property
    def name(self) -> str:
        """The name of the fault, as Full, or nothing."""
        return self.fault.split(":")[0] if self.status > 0 else ""

    def __str__(self) -> str:
        return f"{self.fault or 'the program ended'} (status {self.status})"


class Locked(ProgramEnded):
    """The file is open in another program: in the process `owner`, or None if the system does not
    say which."""

    STATUS = 4

    def __init__(self, fault: str, status: int = STATUS, owner: Optional[Owner] = None) -> None:
        super().__init__(fault, status)
        self.owner = None if owner is None else owner.process
        self._shown = "" if owner is None else f": {owner}"

    def __str__(self) -> str:
        return f"{super().__str__()}{self._shown}"


class BadReply(ClientError):
    """What came is no reply to the request that was sent."""


class Refused(ClientError):
    """The server refused the request, and changed nothing. `status` says why; a subclass has the
    status's name."""

    status: Status
    reason: str


class Evicted(Refused):
    """The session has ended, and its requests are refused for ever. The last one may have been
    executed before that."""


class NoSession(Evicted):
    status = Status.NoSession
    reason = "the client has no session, register anew"


class SessionTooLow(Evicted):
    status = Status.SessionTooLow
    reason = "the client has a later session"


class NewerSession(Refused):
    status = Status.NewerSession
    reason = "the server knows no such session"


class Older(Refused):
    status = Status.Older
    reason = "a later request of the session was executed"


class Collision(Refused):
    status = Status.Collision
    reason = "its number was used for another request"


class NewerRequest(Refused):
    status = Status.NewerRequest
    reason = "a request before it is missing"


class NotYet(Refused):
    status = Status.NotYet
    reason = "it is not shown yet"


REFUSALS = {
    it.status: it
    for it in (NoSession, SessionTooLow, NewerSession, Older, Collision, NewerRequest, NotYet)
}


class EventsFailed(ClientError):
    """Events of a batch were not accepted; `results` says which, and why by name."""

    def __init__(self, results: Sequence[EventResult]) -> None:
        super().__init__(results)
        self.results = results

    def __str__(self) -> str:
        more = len(self.results) - SHOWN
        said = ", ".join(f"event {it.index}: {it.result.name}" for it in self.results[:SHOWN])
        return f"{said}, and {more} more" if more > 0 else said


# As TigerBeetle's client in Python calls them
ClientClosedError = Closed
InitError = Invalid
IntegerOverflowError = InvalidValue
NativeError = PacketError = ClientError
