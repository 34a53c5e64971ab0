"""What a client may send and return at each point, by the proved session of crates/tb_caller: the
expectations of drawn scenarios are what it does.

The program tb_oracle does a step of it: a client's fields, and a call or bytes that came, go in;
the outcome and the fields after it come out. crates/tb_oracle/src/steps.rt has the bytes."""

import dataclasses
import enum
import functools
import os
import pathlib
import shutil
import struct
import subprocess
import threading
from typing import Optional

from .frames import NAMES, REGISTER, TABLE, TOP, error
from .table import RULES

# The head of a step: client, session, last number, phase, kind, the length of what comes after it.
STEP = struct.Struct("<16sQIBBQ")
# That of an answer: client, session, last number, phase, outcome, the lengths of the frame of the
# client's request, which comes after it, and of the reply's frame.
ANSWER = struct.Struct("<16sQIBBQQ")
CALL, RECEIVE = 0, 1  # kinds of a step


class Phase(enum.IntEnum):
    """The phase of a session."""

    UNREGISTERED = 0
    OPEN = 1  # a request waits for its reply
    IDLE = 2
    ENDED = 3  # the session is over, with a request in doubt


class Outcome(enum.IntEnum):
    """What a step makes of a session."""

    MADE = 0  # the next request is made
    RETURNED = 1  # the bytes begin with the reply to the request
    SESSION_ENDED = 2
    REFUSED = 3
    OTHER = 4  # a reply to no request that waits
    NO_REPLY = 5
    NOT_REGISTERED = 6  # from here on the call makes no request
    REGISTERED = 7
    UNANSWERED = 8
    ENDED = 9
    NO_NUMBER = 10
    WRONG_FRAME = 11


STATUSES = {row["number"]: row["name"] for row in TABLE["statuses"]}
STATUS = 29  # its place in a reply
# How a client names what makes no request.
NO_CALL = {
    Outcome.UNANSWERED: error("InDoubt", sent=False),
    Outcome.ENDED: error("InDoubt", sent=False),
    Outcome.NOT_REGISTERED: error("InvalidValue", sent=False, field="session"),
    Outcome.REGISTERED: error("InvalidValue", sent=False, field="session"),
    Outcome.NO_NUMBER: error("InvalidValue", sent=False, field="number"),
}


@dataclasses.dataclass(frozen=True)
class Fields:
    """All that a session is. `frame` is that of the request that waits, or was left in doubt."""

    client: int
    session: int = 0
    last: int = 0
    phase: Phase = Phase.UNREGISTERED
    frame: bytes = b""


class Ended(Exception):
    """The program ended: its standard error says why."""


class Program:
    """The program as a process, which threads may share."""

    def __init__(self, path):
        pipes = {"stdin": subprocess.PIPE, "stdout": subprocess.PIPE}
        self.process = subprocess.Popen([path], start_new_session=True, **pipes)
        self.lock = threading.Lock()

    def step(self, fields: Fields, kind: int, given: bytes):
        """Does a step: its outcome, the fields after it, and the length of the reply's frame."""
        client, length = fields.client.to_bytes(16, "little"), len(fields.frame) + len(given)
        head = STEP.pack(client, fields.session, fields.last, fields.phase, kind, length)
        with self.lock:
            try:
                self.process.stdin.write(head + fields.frame + given)
                self.process.stdin.flush()
            except BrokenPipeError:
                raise Ended(f"status {self.process.wait()}") from None
            client, session, last, phase, outcome, length, read = ANSWER.unpack(
                self._taken(ANSWER.size)
            )
            frame = self._taken(length)
        client = int.from_bytes(client, "little")
        return Outcome(outcome), Fields(client, session, last, Phase(phase), frame), read

    def _taken(self, length):
        data = self.process.stdout.read(length)
        if len(data) < length:
            raise Ended(f"status {self.process.wait()}")
        return data


@functools.lru_cache(maxsize=None)
def program():
    """The program: that of TB_ORACLE, then on PATH, then in crates/tb_oracle/out."""
    built = pathlib.Path(TOP, "crates/tb_oracle/out/tb_oracle")
    return Program(os.environ.get("TB_ORACLE") or shutil.which("tb_oracle") or built)


@dataclasses.dataclass(frozen=True)
class Asked:
    """A request in doubt."""

    number: int
    operation: int
    items: list
    frame: bytes


class Held:
    """A session as its object has it and as a file keeps it: the proved one, and the items of the
    request in doubt as the caller gave them."""

    def __init__(self, fields: Fields, items=()):
        self.fields, self.items = fields, items

    @classmethod
    def new(cls, client: int):
        return cls(Fields(client))

    def copy(self):
        """The same session once more, by its fields: what a file has, and a next process reads. A
        file has no word for the end of a session, so that the request in doubt waits there."""
        fields = self.fields
        if fields.phase == Phase.ENDED:
            fields = dataclasses.replace(fields, phase=Phase.OPEN)
        return Held(fields, self.items)

    @property
    def client(self):
        return self.fields.client

    @property
    def session(self):
        return self.fields.session

    @property
    def last(self):
        return self.fields.last

    @property
    def asked(self) -> Optional[Asked]:
        fields = self.fields
        if not fields.frame:
            return None
        return Asked(fields.last, fields.frame[28], self.items, fields.frame)

    @property
    def shown(self):
        """As `saved` shows it: with the number of the last request that was answered."""
        fields = self.fields
        waits = bool(fields.frame) and fields.frame[28] != REGISTER
        numbers = {
            "client": fields.client,
            "session": fields.session,
            "number": fields.last - waits,
        }
        return {**{name: str(it) for name, it in numbers.items()}, "pending": fields.frame.hex()}

    @property
    def shown_doubt(self):
        """As `in_doubt` shows it, without the items."""
        asked = self.asked
        numbers = {"client": self.client, "session": self.session, "number": asked.number}
        shown = {name: str(it) for name, it in numbers.items()}
        return {**shown, "operation": NAMES[asked.operation]}

    def call(self, items, frame: bytes):
        """Makes the next request, with the body of a frame. None, or the client's error."""
        outcome, self.fields, _ = program().step(self.fields, CALL, frame)
        if outcome != Outcome.MADE:
            return NO_CALL[outcome]
        self.items = items
        return None

    def hears(self, frame: bytes, says=None):
        """Takes bytes that a server sent: whether the call goes on, and what it reports. It returns
        `says` if they are the reply, and fails with the refusal's name if they are one; bytes that
        are no reply to this request are a BadReply."""
        outcome, self.fields, length = program().step(self.fields, RECEIVE, frame)
        if outcome in (Outcome.NO_REPLY, Outcome.OTHER) or length != len(frame):
            rule = RULES["another request's reply"]
            return rule.goes_on, rule.fails
        if outcome == Outcome.RETURNED:
            return False, {"ok": says}
        name = STATUSES[frame[STATUS]]
        return RULES[name].goes_on, RULES[name].fails

    def is_for(self, frame: bytes):
        """Whether bytes would be taken for a reply to this request."""
        return self.copy().hears(frame)[1] != RULES["another request's reply"].fails
