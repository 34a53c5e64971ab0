"""Tests of the module over a library that answers what it is told to.
tests/embedding/test_embedded.py has those over the true one.

    /usr/bin/python3 -m pytest -q
"""
import ctypes
import ctypes.util
import fractions
import gc
import io
import pathlib
import subprocess
import sys
import threading
from unittest import mock

import pytest

HERE = pathlib.Path(__file__).resolve().parent
PYTHON = HERE.parents[1] / "python"
sys.path += [str(PYTHON / "src"), str(PYTHON / "tests")]

import script  # noqa: E402
import tb_client  # noqa: E402
import tb_embed  # noqa: E402
from helpers.threads import status_in_a_child  # noqa: E402
from tb_client import Direct, Session  # noqa: E402
from tb_embed import Server  # noqa: E402

REGISTER = tb_client.request_frame(7, 0, 0, 2)
MOMENT = 10


class Library:
    """Returns the statuses in turn, then 0 with the reply. `most` is how many calls were in it at
    once; a call waits there for another one, for the seconds of `within`."""

    def __init__(self):
        self.statuses, self.calls, self.inside, self.most = [], [], 0, 0
        self.within, self.entered = 0.0, threading.Condition()

    def tb_embed_open(self, handle, profile, clients_max):
        self.calls.append((profile, clients_max))
        return 0

    def tb_embed_serve(self, handle, moment, request, length, room, size, written):
        with self.entered:
            self.inside += 1
            self.most = max(self.most, self.inside)
            self.entered.notify_all()
            self.entered.wait_for(lambda: self.inside > 1, self.within)
            self.inside -= 1
        self.calls.append((moment, request))
        session, number = int.from_bytes(request[16:24], "little"), int.from_bytes(
            request[24:28], "little"
        )
        reply = tb_client.Reply(
            int.from_bytes(request[:16], "little"),
            session or 1,
            number,
            request[28],
            0,
            9 if session else 1,
            b"",
        ).to_bytes()
        written.value = len(reply)
        if self.statuses:
            return self.statuses.pop(0)
        if size < len(reply):
            return 7
        ctypes.memmove(room, reply, len(reply))
        return 0

    def tb_embed_account(self, handle, low, high, room, size):
        self.calls.append((low, high))
        return self.statuses.pop(0) if self.statuses else 6

    tb_embed_transfer = tb_embed_account

    def tb_embed_close(self, handle):
        self.statuses = [1] * 100


@pytest.fixture(name="library")
def fixture_library():
    library = Library()
    with mock.patch("tb_embed._library", lambda path: library):
        yield library


@pytest.fixture(name="server")
def fixture_server(library):
    server = Server("libtb_embed.so")
    library.calls.clear()
    return server


def has_to_refuse(field, call, *arguments, **named):
    with pytest.raises(tb_client.Invalid) as raised:
        call(*arguments, **named)
    assert raised.value.field == field


NO_NUMBERS = {
    "a-float": 1.5,
    "a-whole-float": 1.0,
    "a-fraction": fractions.Fraction(1),
    "a-text": "1",
    "bytes": b"1",
    "none": None,
    "a-bool": True,
    "a-list": [1],
    "an-object": object(),
    "minus-one": -1,
}


def numbers(*more):
    """What is no number of a field: each kind, and those that are too small or too large."""
    return pytest.mark.parametrize(
        "value", [*(pytest.param(it, id=name) for name, it in NO_NUMBERS.items()), *more]
    )


def param(value):
    return pytest.param(value, id=f"{value:.4g}")


@numbers(param(2**63), param(2**64 + 5), pytest.param(10**6000, id="6001-digits"))
def test_no_moment(server, library, value):
    has_to_refuse("moment", server.serve, value, REGISTER)
    assert library.calls == []


@pytest.mark.parametrize("call", ["account", "transfer"])
@numbers(param(2**128), pytest.param(2**128 + 1, id="3.403e+38+1"))
def test_no_id(server, library, call, value):
    has_to_refuse("id", getattr(server, call), value)
    assert library.calls == []


@pytest.mark.parametrize("field", ["clients_max", "profile", "room"])
@numbers(param(0), param(2**32 + 1))
def test_no_option(library, field, value):
    has_to_refuse(field, Server, "libtb_embed.so", **{field: value})
    assert library.calls == []


@pytest.mark.parametrize("value", [None, "x", 5, [REGISTER]], ids=["none", "text", "5", "list"])
def test_no_request(server, library, value):
    has_to_refuse("request", server.serve, MOMENT, value)
    assert library.calls == []


@pytest.mark.parametrize("path", [None, "", "a\0b", "\ud800"], ids=["none", "empty", "nul", "half"])
def test_no_path(library, path):
    has_to_refuse("path", Server, path)
    assert library.calls == []


def test_a_library_that_is_not_there():
    wanted = "^the library does not load: /nowhere/libtb_embed.so: "
    with pytest.raises(tb_client.CannotStart, match=wanted):
        Server("/nowhere/libtb_embed.so")


def test_a_library_of_something_else():
    wanted = "^it is no library of the server: .*tb_embed_open"
    with pytest.raises(tb_client.CannotStart, match=wanted):
        Server(ctypes.util.find_library("c"))


CALLED = {
    status: name
    for status, name in tb_embed.REFUSALS.items()
    if status not in (tb_embed.ABSENT, tb_embed.TOO_SMALL)
}


@pytest.mark.parametrize("status, name", CALLED.items(), ids=CALLED.values())
def test_a_status_by_its_name(server, library, status, name):
    library.statuses = [status]
    with pytest.raises(tb_embed.Refused) as raised:
        server.serve(MOMENT, REGISTER)
    fault = raised.value
    assert (str(fault), type(fault).__name__, fault.status) == (name, name, status)
    assert isinstance(fault, tb_client.ClientError)


@pytest.mark.parametrize("name", ["NoMemory", "Closed"])
def test_a_refusal_is_that_of_the_client(name):
    assert issubclass(getattr(tb_embed, name), getattr(tb_client, name))


def test_out_of_memory_is_tried_again(server, library):
    with mock.patch("time.sleep"):
        library.statuses = [3, 3, 3, 3]
        session = Session.register(Direct(server.serve), 7, now=lambda: MOMENT)
        assert (session.session, len(library.calls), len(set(library.calls))) == (1, 5, 1)
        library.statuses = [3] * 5
        with pytest.raises(tb_client.NoMemory):
            session.lookup_accounts([])
        assert session.retry() == []


@pytest.mark.usefixtures("library")
def test_a_room_that_is_too_small():
    assert len(Server("libtb_embed.so", room=1).serve(MOMENT, REGISTER)) == 48


def test_closed(server):
    with server:
        session = Session.register(Direct(server.serve), 7, now=lambda: MOMENT)
    with pytest.raises(tb_embed.Closed):
        server.account(1)
    with pytest.raises(tb_client.Closed):
        session.lookup_accounts([1])
    assert session.pending is None


def test_threads_share_a_server(server, library):
    """One call at a time: none comes while another one waits for it."""
    library.within = 0.002

    def serve():
        for _ in range(10):
            server.serve(MOMENT, REGISTER)

    threads = [threading.Thread(target=serve) for _ in range(8)]
    for it in threads:
        it.start()
    for it in threads:
        it.join()
    assert (len(library.calls), library.most) == (80, 1)


FAKE = """
#include <stddef.h>
#include <stdint.h>
#include <string.h>
typedef struct { void *at; uint8_t is_open; } tb_server;
static int times;
int freed;
uint32_t tb_embed_open(tb_server *s, uint32_t profile, uint32_t clients) {
    s->is_open = 1;
    return profile == 2 && clients == 64 ? 0 : 2;
}
uint32_t tb_embed_serve(tb_server *s, uint64_t moment, const char *request, size_t length,
                        char *reply, size_t room, size_t *written) {
    if (!s->is_open) return 1;
    if (moment == 3) return ++times < 3 ? 3 : 0;
    *written = length + 8;
    if (room < length + 8) return 7;
    memcpy(reply, &moment, 8);
    memcpy(reply + 8, request, length);
    return 0;
}
uint32_t tb_embed_account(tb_server *s, uint64_t low, uint64_t high, char *record, size_t room) {
    if (!s->is_open) return 1;
    if (low == 9) return 6;
    memset(record, 0, room);
    memcpy(record, &low, 8);
    memcpy(record + 8, &high, 8);
    return 0;
}
uint32_t tb_embed_transfer(tb_server *s, uint64_t low, uint64_t high, char *record, size_t room) {
    return tb_embed_account(s, low, high, record, room);
}
void tb_embed_close(tb_server *s) {
    freed += s->is_open;
    s->is_open = 0;
}
"""


@pytest.fixture(name="path", scope="module")
def fixture_path(tmp_path_factory):
    """A library in C that gives back what it was given."""
    path = tmp_path_factory.mktemp("fake") / "libfake.so"
    words = ["cc", "-shared", "-fPIC", "-x", "c", "-", "-o", path]
    subprocess.run(words, input=FAKE.encode(), check=True)
    return path


@pytest.fixture(name="echo")
def fixture_echo(path):
    with Server(path, 64, 2, room=48) as server:
        yield server


FRAMES = {
    "empty": b"",
    "with-zeros": b"\0\1\0" * 13,
    "a-megabyte": bytes(range(256)) * 4000,
    "a-bytearray": bytearray(b"ab\0c"),
}


@pytest.mark.parametrize("moment", [0, 5, 2**63 - 1])
@pytest.mark.parametrize("request_", FRAMES.values(), ids=FRAMES)
def test_a_request_arrives_whole(echo, moment, request_):
    assert echo.serve(moment, request_) == moment.to_bytes(8, "little") + request_


@pytest.mark.parametrize("id", [0, 1, 2**64, 2**128 - 1])
def test_an_id_arrives_whole(echo, id):
    assert echo.account(id) == tb_client.Account(id)


def test_refusals_over_ctypes(path, echo):
    assert echo.transfer(9) is None
    with pytest.raises(tb_embed.NoMemory):
        echo.serve(3, b"")
    with pytest.raises(tb_embed.Usage):
        Server(path, 64, 1)


def test_closed_over_ctypes(path, echo):
    assert repr(echo) == f"<Server {path}>"
    echo.close()
    with pytest.raises(tb_embed.Closed):
        echo.serve(5, b"")
    with pytest.raises(tb_embed.Closed):
        echo.account(5)
    assert repr(echo) == f"<Server {path}, closed>"


@pytest.fixture(name="freed")
def fixture_freed(path):
    """How many servers the library freed since the test began."""
    count = ctypes.c_int.in_dll(ctypes.CDLL(str(path)), "freed")
    before = count.value
    return lambda: count.value - before


def test_a_server_is_freed_once(path, freed):
    """With its object, if nobody closed it."""
    servers = [Server(path, 64, 2) for _ in range(3)]
    closed = servers.pop()
    closed.close()
    closed.close()
    assert freed() == 1
    servers.clear()
    gc.collect()
    assert freed() == 3


def test_a_forked_child_has_a_closed_server(echo, freed):
    """It frees nothing, though a thread that is not there held the lock; its parent's goes on."""

    def is_closed():
        for call in (lambda: echo.serve(5, b""), lambda: echo.account(5)):
            with pytest.raises(tb_embed.Closed):
                call()

    def frees():
        echo.close()
        return freed()

    for call in (is_closed, frees):
        assert status_in_a_child(call, echo._lock) == 0
    assert echo.account(5) == tb_client.Account(5)


USAGE = "usage: script.py LIBRARY [CLIENTS_MAX [PROFILE]]"
WORDS = {
    "first-none": (["first.py"], "usage: first.py LIBRARY"),
    "first-two": (["first.py", "a", "b"], "usage: first.py LIBRARY"),
    "first-empty": (["first.py", ""], "first: path is no path"),
    "first-nowhere": (
        ["first.py", "/nowhere"],
        "first: the library does not load: /nowhere: ",
    ),
    "script-none": (["script.py"], USAGE),
    "script-no-number": (["script.py", "a", "x"], USAGE),
    "script-5000-digits": (["script.py", "a", "9" * 5000], USAGE),
    "script-65-clients": (
        ["script.py", "a", "65"],
        "script: clients_max must be 1 to 64, not 65",
    ),
    "script-profile-3": (
        ["script.py", "a", "64", "3"],
        "script: profile must be 1 to 2, not 3",
    ),
    "script-nowhere": (
        ["script.py", "/nowhere"],
        "script: the library does not load: /nowhere: ",
    ),
}


@pytest.mark.parametrize("words, said", WORDS.values(), ids=WORDS)
def test_an_example_that_is_called_wrongly(words, said):
    """tests/embedding/test_embedded.py runs them over the true library."""
    ran = subprocess.run(
        [sys.executable, "-B", HERE / words[0], *words[1:]],
        stdin=subprocess.DEVNULL,
        capture_output=True,
        text=True,
        timeout=60,
    )
    assert (ran.returncode, ran.stdout) == (1, "")
    assert ran.stderr.startswith(said) and ran.stderr.count("\n") == 1


@pytest.mark.parametrize("name", ["sys.stdin", "sys.stdout"])
def test_a_stream_that_is_closed(name):
    with mock.patch(name, None), pytest.raises(SystemExit) as ended:
        script.serve(mock.Mock())
    assert ended.value.code == "script: standard input or standard output is closed"


PAIR = MOMENT.to_bytes(8, "little") + REGISTER
CUT = MOMENT.to_bytes(8, "little") + tb_client.request_frame(7, 1, 1, 131, bytes(16))[:-1]
SCRIPTS = {
    "two-requests": (PAIR * 2, 2, None),
    "a-cut-body": (PAIR + CUT, 1, "script: a cut script"),
    "a-cut-header": (PAIR[:55], 0, "script: a cut script"),
    "empty": (b"", 0, None),
}


@pytest.mark.parametrize("data, served, said", SCRIPTS.values(), ids=SCRIPTS)
def test_a_script(data, served, said):
    server, output = mock.Mock(), io.BytesIO()
    server.serve.return_value = b"reply"
    given, taken = io.TextIOWrapper(io.BytesIO(data)), io.TextIOWrapper(output)
    with mock.patch("sys.stdin", given), mock.patch("sys.stdout", taken):
        if said is None:
            script.serve(server)
        else:
            with pytest.raises(SystemExit) as ended:
                script.serve(server)
            assert ended.value.code == said
        sys.stdout.flush()
    assert output.getvalue() == b"reply" * served
