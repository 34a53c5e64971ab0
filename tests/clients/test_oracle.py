"""The program tb_oracle, a step of a client's session at a time: what each call and each reply
makes of the session, as docs/use/CLIENTS.md says, and the fault of wrong input. The sample of the
crate, which CI runs, has the steps of this table."""

import os
import struct
import subprocess
import sys

import pytest

from ..conftest import ROOT, ran
from ..programs.refusing import Refuser

sys.path.append(str(ROOT / "clients/conformance"))

from made.oracle import ANSWER, CALL, RECEIVE, STEP, Fields, Outcome, Phase  # noqa: E402

CLIENT = 2**64 + 7
SESSION = 2**32 + 3
LAST = 2**32 - 1
FIND = 131


def request(client=CLIENT, session=0, number=0, operation=2, body=b""):
    """A request's frame: docs/use/FORMATS.md."""
    head = client.to_bytes(16, "little") + struct.pack("<QIB3x", session, number, operation)
    return head + struct.pack("<I12x", len(body)) + body


def reply(number, status=0, client=CLIENT, session=SESSION, operation=FIND, commit=0):
    head = client.to_bytes(16, "little") + struct.pack("<QIB", session, number, operation)
    return head + struct.pack("<B2xIQ4x", status, 0, commit)


REGISTER = request()
LOOKUP = request(1, 1, 1, FIND, bytes([5] * 16))  # whose numbers do not count
FIRST = request(CLIENT, SESSION, 1, FIND, LOOKUP[48:])
UNREGISTERED = Fields(CLIENT)
REGISTERING = Fields(CLIENT, 0, 0, Phase.OPEN, REGISTER)
IDLE = Fields(CLIENT, SESSION, 0, Phase.IDLE)
OPEN = Fields(CLIENT, SESSION, 1, Phase.OPEN, FIRST)
OVER = Fields(CLIENT, SESSION, 1, Phase.ENDED, FIRST)
USED_UP = Fields(CLIENT, SESSION, LAST, Phase.IDLE)
DONE = Fields(CLIENT, SESSION, 1, Phase.IDLE)
# The fields before, what is done, and what is given; the outcome, the fields after, and the length
# of the reply's frame.
STEPS = [
    (UNREGISTERED, CALL, LOOKUP, Outcome.NOT_REGISTERED, UNREGISTERED, 0),
    (UNREGISTERED, CALL, REGISTER, Outcome.MADE, REGISTERING, 0),
    (Fields(0), CALL, REGISTER, Outcome.WRONG_FRAME, Fields(0), 0),
    (
        REGISTERING,
        RECEIVE,
        reply(0, operation=2, commit=SESSION),
        Outcome.RETURNED,
        IDLE,
        48,
    ),
    (IDLE, CALL, REGISTER, Outcome.REGISTERED, IDLE, 0),
    (IDLE, CALL, LOOKUP, Outcome.MADE, OPEN, 0),
    (USED_UP, CALL, LOOKUP, Outcome.NO_NUMBER, USED_UP, 0),
    (OPEN, CALL, LOOKUP, Outcome.UNANSWERED, OPEN, 0),
    (OPEN, RECEIVE, reply(1, commit=SESSION + 1) + b"more", Outcome.RETURNED, DONE, 48),
    (OPEN, RECEIVE, reply(1, commit=SESSION + 1)[:-1], Outcome.NO_REPLY, OPEN, 0),
    (OPEN, RECEIVE, b"", Outcome.NO_REPLY, OPEN, 0),
    (OPEN, RECEIVE, reply(2, commit=SESSION + 2), Outcome.OTHER, OPEN, 48),
    (OPEN, RECEIVE, reply(1, client=7, commit=SESSION + 1), Outcome.OTHER, OPEN, 48),
    (OPEN, RECEIVE, reply(1, session=3, commit=SESSION + 1), Outcome.OTHER, OPEN, 48),
    (OPEN, RECEIVE, reply(1, operation=132, commit=SESSION + 1), Outcome.OTHER, OPEN, 48),
    *((OPEN, RECEIVE, reply(1, it), Outcome.SESSION_ENDED, OVER, 48) for it in (1, 2, 3)),
    *((OPEN, RECEIVE, reply(1, it), Outcome.REFUSED, OPEN, 48) for it in (4, 5, 6, 7)),
    (OVER, CALL, LOOKUP, Outcome.ENDED, OVER, 0),
    (OVER, RECEIVE, reply(1, commit=SESSION + 1), Outcome.OTHER, OVER, 48),
    (DONE, RECEIVE, reply(1, commit=SESSION + 1), Outcome.OTHER, DONE, 48),
]


def step(fields, kind, given, **changed):
    """The bytes of a step; with other numbers in its head."""
    length = changed.get("length", len(fields.frame) + len(given))
    phase, client = changed.get("phase", fields.phase), fields.client.to_bytes(16, "little")
    head = STEP.pack(client, fields.session, fields.last, phase, kind, length)
    return head + fields.frame + given


def answer(outcome, fields, length):
    client, frame = fields.client.to_bytes(16, "little"), fields.frame
    numbers = (fields.session, fields.last, fields.phase, outcome, len(frame), length)
    return ANSWER.pack(client, *numbers) + frame


INPUT = b"".join(step(*it[:3]) for it in STEPS)
OUTPUT = b"".join(answer(*it[3:]) for it in STEPS)


@pytest.fixture
def oracle(program):
    return program("tb_oracle")


def test_each_step(oracle):
    for before, kind, given, *after in STEPS:
        assert ran([oracle], step(before, kind, given)) == (0, answer(*after), b"")


def test_the_sample_of_the_crate(oracle):
    crate = ROOT / "crates/tb_oracle"
    assert (crate / "stdin").read_bytes() == INPUT
    assert (crate / "stdout").read_bytes() == OUTPUT
    assert ran([oracle], INPUT) == (0, OUTPUT, b"")


WRONG = {
    "a head that ends early": ("Short", step(IDLE, CALL, LOOKUP)[:37]),
    "a rest that ends early": ("Short", step(IDLE, CALL, LOOKUP)[:-1]),
    "a rest that is too long": ("TooMany", step(IDLE, CALL, b"", length=2**22 + 1)),
    "no such phase": ("UnknownPhase", step(IDLE, CALL, LOOKUP, phase=4)),
    "no such kind": ("UnknownStep", step(IDLE, 2, LOOKUP)),
    "no frame of the request": ("Short", step(IDLE, CALL, b"", phase=Phase.OPEN)),
    "a call of no frame": ("Short", step(IDLE, CALL, b"")),
    "a call of more than a frame": ("BadLength", step(IDLE, CALL, LOOKUP + b"\0")),
    "a call of an unknown operation": ("UnknownOperation", step(IDLE, CALL, request(operation=9))),
    "a session that is not registered": (
        "RegisterNumbers",
        step(IDLE, CALL, LOOKUP, phase=Phase.UNREGISTERED),
    ),
    "another client's request": (
        "OtherClient",
        step(Fields(8, SESSION, 1, Phase.OPEN, FIRST), CALL, LOOKUP),
    ),
    "a request of another session": (
        "OtherSession",
        step(Fields(CLIENT, 3, 1, Phase.OPEN, FIRST), CALL, LOOKUP),
    ),
    "a request of another number": (
        "OtherNumber",
        step(Fields(CLIENT, SESSION, 2, Phase.ENDED, FIRST), CALL, LOOKUP),
    ),
}


@pytest.mark.parametrize("name", WRONG)
def test_wrong_input(oracle, name):
    """Its fault is named, and each step before it is answered."""
    fault, given = WRONG[name]
    assert ran([oracle], INPUT + given) == (2, OUTPUT, f"tb_oracle: {fault}\n".encode())


def test_a_failed_write(oracle):
    with open("/dev/full", "wb") as full:
        assert ran([oracle], INPUT, stdout=full)[::2] == (1, b"tb_oracle: Device\n")


def test_a_failed_read(oracle, tmp_path):
    folder = os.open(tmp_path, os.O_RDONLY)
    try:
        it = subprocess.run([oracle], stdin=folder, capture_output=True, timeout=60)
    finally:
        os.close(folder)
    assert (it.returncode, it.stdout, it.stderr) == (1, b"", b"tb_oracle: Device\n")


@pytest.mark.parametrize("kind", ["growth", "read", "write"])
def test_each_call_refused_in_turn(oracle, kind, tmp_path):
    """The fault is named, only whole answers are written, and all memory is given back."""
    begun = [b"".join(answer(*it[3:]) for it in STEPS[:count]) for count in range(len(STEPS) + 1)]
    fault, runs = "NoMemory" if kind == "growth" else "Device", 0
    for _, ran_so in Refuser(tmp_path, 1).in_turn(oracle, [], INPUT, kind=kind):
        assert ran_so.blocks == 0
        if ran_so.refused:
            runs += 1
            assert (ran_so.status, ran_so.lines) == (1, [f"tb_oracle: {fault}"])
            assert ran_so.output in begun
        else:
            assert (ran_so.status, ran_so.output, ran_so.lines) == (0, OUTPUT, [])
    print(f"{runs} calls of {kind} refused")
    assert runs >= {"growth": 3 * len(STEPS), "read": 2, "write": len(STEPS)}[kind]


def test_reads_and_writes_of_one_byte(oracle, tmp_path):
    in_parts = Refuser(tmp_path, 1).run(oracle, [], INPUT, "growth", 0, read=1, write=1)
    assert in_parts[:3] == (0, OUTPUT, [])
