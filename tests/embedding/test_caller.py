"""The proved session of a client, by the wrapper in Python over tb_embed's library: each call, each
fault by its name, and each allocation refused in turn. Needs cc and the library that
`rt lib` leaves in crates/tb_embed/out, or for most of it a shared object in TB_EMBED_SO."""

import ctypes
import os
import subprocess
import sys
from pathlib import Path

import pytest

from ..conftest import ROOT

sys.path.append(str(ROOT / "clients/embed/python"))

from tb_caller import Caller, Fault, Fields, Heard, Library, Phase  # noqa: E402

pytestmark = pytest.mark.slow(
    reason="builds the embedded library for C, Rust and Python", seconds=60
)
HERE = ROOT / "tests" / "embedding"
ARCHIVE = ROOT / "crates/tb_embed/out/libtb_embed.a"
ACCOUNT = 131


def frame(client=9, session=9, number=9, operation=ACCOUNT, status=0, commit=0, body=b""):
    """A request's frame or, with a commit or a status, a reply's."""
    numbers = session.to_bytes(8, "little") + number.to_bytes(4, "little")
    rest = bytes([operation, status, 0, 0]) + len(body).to_bytes(4, "little")
    return (
        client.to_bytes(16, "little")
        + numbers
        + rest
        + commit.to_bytes(8, "little")
        + bytes(4)
        + body
    )


REGISTER = frame(session=0, number=0, operation=2)
LOOKUP = frame(body=(5).to_bytes(16, "little"))
CLIENT = 2**64 + 7


def shared(made, *more):
    """The whole archive as a shared object, with these sources and archives."""
    whole = ["-Wl,--whole-archive", str(ARCHIVE), "-Wl,--no-whole-archive"]
    subprocess.run(["cc", "-shared", "-fPIC", "-O1", *whole, *more, "-o", str(made)], check=True)
    return made


@pytest.fixture(scope="module")
def library(tmp_path_factory):
    if named := os.environ.get("TB_EMBED_SO"):
        return Library(named)
    said = subprocess.run(["rt", "doc"], stdout=subprocess.PIPE, check=True, text=True).stdout
    heap = Path(os.environ.get("KIT") or Path(said.strip()).parent, "c/liblibc_c.a")
    return Library(shared(tmp_path_factory.mktemp("caller") / "libtb_embed.so", str(heap)))


def registered(library):
    caller = Caller.new(library, CLIENT)
    caller.call(REGISTER)
    reply = frame(CLIENT, 3, 0, operation=2, commit=3)
    assert caller.received(reply + b"more") == (Heard.RETURNED, 48)
    return caller


def refused(name, call, *given):
    with pytest.raises(Fault) as why:
        call(*given)
    assert why.value.name == name


def test_register_and_lookup(library):
    caller = registered(library)
    assert caller.fields == Fields(CLIENT, 3, 0, Phase.IDLE)
    assert caller.again() is None
    sent = caller.call(LOOKUP)
    assert sent == frame(CLIENT, 3, 1, body=LOOKUP[48:])
    assert caller.again() == sent
    assert caller.fields == Fields(CLIENT, 3, 1, Phase.OPEN, sent)
    reply = frame(CLIENT, 3, 1, commit=4)
    assert caller.received(frame(CLIENT, 3 + 2**32, 1, commit=2**40)) == (Heard.OTHER, 48)
    assert caller.received(frame(CLIENT, 3, 1, status=7)) == (Heard.REFUSED, 48)
    assert caller.received(reply) == (Heard.RETURNED, 48)
    assert caller.received(reply) == (Heard.OTHER, 48)
    assert caller.fields == Fields(CLIENT, 3, 1, Phase.IDLE)


def test_calls_that_make_no_request(library):
    caller = Caller.new(library, CLIENT)
    refused("NotRegistered", caller.call, LOOKUP)
    refused("Malformed", caller.call, LOOKUP[:-1])
    refused("Malformed", caller.call, LOOKUP + b"more")
    refused("Malformed", Caller.new(library, 0).call, REGISTER)
    caller = registered(library)
    refused("Registered", caller.call, REGISTER)
    caller.call(LOOKUP)
    refused("Unanswered", caller.call, LOOKUP)
    refused("Malformed", caller.received, frame(CLIENT, 3, 1, commit=4)[:-1])
    assert caller.received(frame(CLIENT, 3, 1, status=1)) == (Heard.ENDED, 48)
    assert caller.fields.phase == Phase.ENDED
    refused("Ended", caller.call, LOOKUP)
    last = Caller(library, Fields(CLIENT, 3, 2**32 - 1, Phase.IDLE))
    refused("NoNumber", last.call, LOOKUP)


@pytest.mark.parametrize(
    "name, changed",
    [
        ("OtherClient", {"client": CLIENT + 1}),
        ("OtherSession", {"session": 4}),
        ("OtherNumber", {"last": 2}),
        ("NoClient", {"phase": 4}),
        ("NoClient", {"frame": b""}),
        ("RegisterNumbers", {"phase": Phase.UNREGISTERED}),
    ],
)
def test_stored_fields(library, name, changed):
    stored = Fields(CLIENT, 3, 1, Phase.OPEN, frame(CLIENT, 3, 1, body=LOOKUP[48:]))
    assert Caller(library, stored).again() == stored.frame
    refused(name, Caller, library, Fields(**{**stored.__dict__, **changed}))


@pytest.fixture(scope="module")
def refusing(tmp_path_factory):
    """The library over an allocator that refuses what it is told to."""
    return shared(tmp_path_factory.mktemp("caller") / "libtb_embed.so", str(HERE / "refusing.c"))


def test_each_allocation_refused(refusing):
    library, counts = Library(refusing), ctypes.CDLL(str(refusing))
    steps = 0
    for name in ("call", "received", "check"):
        for at in range(100):
            caller = registered(library)
            if name != "call":
                caller.call(LOOKUP)
            before = caller.fields
            given = {"call": LOOKUP, "received": frame(CLIENT, 3, 1, commit=4, body=bytes(128))}
            again = {**given, "check": None}[name]
            step = getattr(caller, name) if name != "check" else lambda _: Caller(library, before)
            counts.refuse(at)
            try:
                step(again)
            except Fault as fault:
                assert fault.name == "NoMemory"
                assert caller.fields == before
            else:
                assert not counts.refused()
                break
            finally:
                counts.refuse(-1)
            steps += 1
            step(again)
        assert counts.left() == 0
    assert steps >= 6
