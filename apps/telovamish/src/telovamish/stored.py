"""The client's session of a ledger that stays, which one command after another uses: each new one
would take the place of another client's."""
from __future__ import annotations

import contextlib
import fcntl
import hashlib
import json
import os
import pathlib
from typing import Any, Optional

from .filling import Session
from .words import U32, U64, U128


def folder() -> Optional[pathlib.Path]:
    """The place that the system gives this program for its state; nobody else can read it."""
    state = os.environ.get("XDG_STATE_HOME", "")
    try:
        top = pathlib.Path(state) if os.path.isabs(state) else pathlib.Path.home() / ".local/state"
        path = top / "telovamish"
        path.mkdir(mode=0o700, parents=True, exist_ok=True)
    except (OSError, RuntimeError):  # this user has no folder
        return None
    return path


def key_of(file: Optional[str], addresses: Optional[str], *others: Any) -> str:
    """What tells ledgers apart: a file that is another one has another key."""
    place: list[Any] = [addresses]
    if file:
        place = [os.path.realpath(file)]
        with contextlib.suppress(OSError):
            status = os.stat(file)
            place += [status.st_dev, status.st_ino]
    elif addresses and "/" in addresses:
        place = [os.path.abspath(addresses)]
    return hashlib.sha256(json.dumps([place, *others]).encode()).hexdigest()[:32]


class Stored:
    """A session in a file. It is taken by one process at a time, and only if the one before ended
    with a reply to each of its requests: while it is used the file is empty."""

    def __init__(self, number: int) -> None:
        self._number = number
        self.client = 0
        self.session: Optional[Session] = None
        with contextlib.suppress(OSError, ValueError, TypeError, KeyError):
            found = json.loads(os.pread(number, 4096, 0))
            session = Session(*map(int, (found["session"], found["next"])))
            client = int(found["client"])
            if 0 < client <= U128 and 0 < session.number <= U64 and 0 < session.next <= U32:
                self.client, self.session = client, session
        os.ftruncate(number, 0)
        os.fsync(number)

    def end(self, client: int, session: Optional[Session]) -> None:
        """Keeps a session that has a reply to each request, for the next process."""
        if session is not None:
            shown = {"client": str(client), "session": str(session.number), "next": session.next}
            with contextlib.suppress(OSError):
                os.pwrite(self._number, json.dumps(shown).encode(), 0)
        os.close(self._number)


def taken(key: str) -> Optional[Stored]:
    """The stored session of a ledger, or none if another process uses it, or nothing can be
    stored."""
    top = folder()
    try:
        if top is None:
            return None
        (top / "sessions").mkdir(mode=0o700, exist_ok=True)
        flags = os.O_CREAT | os.O_RDWR | os.O_CLOEXEC
        number = os.open(top / "sessions" / key, flags, 0o600)
    except OSError:
        return None
    try:
        fcntl.flock(number, fcntl.LOCK_EX | fcntl.LOCK_NB)
        return Stored(number)
    except OSError:
        os.close(number)
        return None
