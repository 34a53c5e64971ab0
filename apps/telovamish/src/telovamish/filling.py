"""What a statement leaves out before its operation: it is filled in when the reader meets the
operation's word."""
from __future__ import annotations

from typing import NamedTuple, Optional

from .reader import Numbers, Pair
from .words import OPERATIONS, U32
from .written import Written


class Session(NamedTuple):
    """A client's session, and the number of the next request there."""

    number: int
    next: int


class Known:
    """What the statements so far say of clients."""

    def __init__(self, last: Optional[int] = None) -> None:
        self.last = last  # the client named last
        self.written: Optional[Written] = None  # names and decimal places, if some are known
        self.sessions: dict[int, Session] = {}

    def note(self, pair: Pair) -> None:
        """Takes a statement that was read. After a register the session is not known."""
        self.last = pair.client
        self.sessions.pop(pair.client, None)
        if pair.session:
            self.sessions[pair.client] = Session(pair.session, pair.request + 1)

    def session_of(self, client: int) -> Optional[Session]:
        return self.sessions.get(client)

    def fill(self, given: Numbers, word: str) -> Numbers:
        """The fields that are omitted before this word, which is an operation's or may be one;
        no fields if they are not known."""
        client = given.get("client", self.last)
        if client is None:
            return {}
        filled = {"client": client}
        if word != "register":
            if "client" in given and "request" in given:
                return {}
            known = self.session_of(client)
            if "session" not in given:
                if known is None or known.next > U32:
                    return {}
                filled |= {"session": known.number, "request": known.next}
            else:
                is_in_it = known is not None and known.number == given["session"]
                following = known.next if known is not None and is_in_it else 1
                filled["request"] = following if following <= U32 else 1
        return {name: number for name, number in filled.items() if name not in given}

    def has_no_session(self, given: Numbers, word: str) -> Optional[int]:
        """The client whose session is not known, if a batch or a lookup leaves it out."""
        client = given.get("client", self.last)
        is_whole = "session" in given or "client" in given and "request" in given
        if client is None or is_whole or word not in OPERATIONS or word == "register":
            return None
        known = self.session_of(client)
        return client if known is None or known.next > U32 else None


class Live(Known):
    """What a ledger replied to clients. A client that has no session is registered first, and its
    session is not known before that."""

    def session_of(self, client: int) -> Session:
        return self.sessions.get(client) or Session(1, 1)

    def learn(self, client: int, number: int, last: int) -> None:
        """Takes a request that is in the history: the last of its session, or an earlier one."""
        known = self.sessions.get(client)
        is_in_it = known is not None and known.number == number
        following = max(known.next, last + 1) if known and is_in_it else last + 1
        self.sessions[client] = Session(number, following)
