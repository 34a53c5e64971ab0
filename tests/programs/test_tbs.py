"""`tbs run` over examples/first.script and scripts made of it: replies, exit statuses and the line
on standard error, for input and output of every kind that a shell can give. Frames and faults are
those of docs/use/FORMATS.md. Needs Linux (/dev/full).

    /usr/bin/python3 -m pytest tests/programs/test_tbs.py [-k part_of_a_case]
"""

import os
import resource
import select
import signal
import subprocess
import time

import pytest
from frames import account, ids, pair, reply, result, transfer

from ..conftest import ROOT
from .runs import DUMPED, FIRST, FIRST_REPLY, HEAD, MAX_TIME, PAIR_ENDS, REPLAY, REPLIES
from .runs import REPLY_ENDS, RUN, SCRIPT, SECONDS, ENTRIES, closing, done, entry, line
from .runs import many_items, refused

LOST = refused("Device", status=1)


# Standard input


@pytest.mark.parametrize("script, replies", [(SCRIPT, REPLIES), (b"", b"")], ids=["whole", "empty"])
def test_a_file_and_a_pipe_as_input(server, script, replies):
    assert server.with_file(script)[0] == done(replies)
    assert server.ended(script) == done(replies)


def test_a_pipe_byte_by_byte(server):
    with server.started() as program:
        for byte in SCRIPT:
            program.stdin.write(bytes([byte]))
            program.stdin.flush()
            time.sleep(0.0005)
        got = program.communicate(timeout=SECONDS)
    assert (program.returncode, *got) == done(REPLIES)


def test_closed_input(server):
    assert server.without_input() == LOST


def test_a_folder_as_input(server):
    folder = os.open(ROOT, os.O_RDONLY)
    with server.started(stdin=folder) as program:
        got = program.communicate(timeout=SECONDS)
    os.close(folder)
    assert (program.returncode, *got) == LOST


def taken(program, length):
    """So many bytes of the program's replies, or those that come in time."""
    got, end = b"", time.monotonic() + SECONDS
    while len(got) < length:
        ready, _, _ = select.select([program.stdout], [], [], max(0, end - time.monotonic()))
        more = os.read(program.stdout.fileno(), length - len(got)) if ready else b""
        if not more:
            break
        got += more
    return got


def conversation(server, sendings):
    """Sends the bytes of each sending and waits for its reply before the next one; returns the
    replies and the end."""
    program = server.started(bufsize=0)
    got = []
    for sent, length in sendings:
        program.stdin.write(sent)
        got.append(taken(program, length))
    rest, fault = program.communicate(timeout=SECONDS)
    return got, rest, fault, program.returncode


ONE_BY_ONE = [SCRIPT[start:end] for start, end in zip(PAIR_ENDS, PAIR_ENDS[1:])]
REPLIED = [REPLIES[start:end] for start, end in zip(REPLY_ENDS, REPLY_ENDS[1:])]
CONVERSATIONS = {
    "request by request": (ONE_BY_ONE, REPLIED),
    "each request twice": ([it * 2 for it in ONE_BY_ONE], [it * 2 for it in REPLIED]),
    "while the next frame is cut": ([SCRIPT[:60], SCRIPT[60:380], SCRIPT[380:]], REPLIED),
}


@pytest.mark.parametrize("name", CONVERSATIONS)
def test_replies_come_before_more_is_sent(server, name):
    sent, replies = CONVERSATIONS[name]
    got = conversation(server, zip(sent, map(len, replies)))
    assert got == (replies, b"", b"", 0)


@pytest.mark.parametrize("end", range(len(SCRIPT) + 1))
def test_a_script_that_is_cut(server, end):
    whole = max(k for k in range(4) if PAIR_ENDS[k] <= end)
    replies = REPLIES[: REPLY_ENDS[whole]]
    is_cut = PAIR_ENDS[whole] != end
    assert server.ended(SCRIPT[:end]) == (refused("Short", replies) if is_cut else done(replies))


# Frames


def changed(at, byte):
    """The script's first pair, and after it its second with one byte of the frame changed."""
    frame = bytearray(SCRIPT[56:])
    frame[8 + at] = byte
    return FIRST + bytes(frame)


FAULTS = {
    "a client 0": ("ClientZero", changed(0, 0)),
    "an operation that is none": ("UnknownOperation", changed(28, 133)),
    "the first reserved byte": ("Reserved", changed(29, 1)),
    "the last reserved byte": ("Reserved", changed(47, 1)),
    "a register with numbers": ("RegisterNumbers", changed(28, 2)),
    "a request 0": ("RequestZero", changed(24, 0)),
    "a length that is no whole event": ("BadLength", changed(32, 1)),
    "8191 events": ("TooMany", FIRST + pair(10, 7, 1, 1, 129, b"", 8191 * 128)),
    "8190 events that are missing": ("Short", FIRST + pair(10, 7, 1, 1, 129, b"", 8190 * 128)),
    # of two faults the first one by the order of the tests
    "client before operation": ("ClientZero", FIRST + pair(10, 0, 0, 0, 3)),
    "operation before length": ("UnknownOperation", FIRST + pair(10, 7, 1, 1, 3, b"", 1)),
    "register before length": ("RegisterNumbers", FIRST + pair(10, 7, 1, 0, 2, b"", 1)),
    "request before length": ("RequestZero", FIRST + pair(10, 7, 1, 0, 129, b"", 255)),
    "length before end": ("BadLength", FIRST + pair(10, 7, 1, 1, 129, b"", 255)),
}


@pytest.mark.parametrize("name", FAULTS)
def test_the_second_frame_is_refused(server, name):
    fault, script = FAULTS[name]
    assert server.ended(script) == refused(fault, FIRST_REPLY)


LAST = pair(MAX_TIME, 7, 0, 0, 2)
TIMES = {
    "a request after the last moment": (
        LAST + pair(0, 8, 0, 0, 2),
        refused("TimeExhausted", FIRST_REPLY),
    ),
    "a repeat after the last moment": (LAST + pair(0, 7, 0, 0, 2), done(FIRST_REPLY * 2)),
    "the moment 2^63": (pair(2**63, 7, 0, 0, 2), refused("TimeExhausted")),
}


@pytest.mark.parametrize("name", TIMES)
def test_the_end_of_time(server, name):
    script, wanted = TIMES[name]
    assert server.ended(script) == wanted


# Sessions


def test_the_first_register_again(server):
    assert server.ended(FIRST + SCRIPT) == done(FIRST_REPLY + REPLIES)


def test_a_repeat_and_each_refusal(server):
    transfers = [pair(10, 7, 1, 3, 130, transfer(11, 1, 2, amount)) for amount in (100, 101)]
    script = [
        SCRIPT,
        transfers[0],
        transfers[0],
        SCRIPT[368:],
        transfers[1],
        pair(10, 7, 1, 5, 131),
        pair(10, 7, 2, 4, 131),
        pair(10, 7, 0, 4, 131),
        pair(10, 9, 1, 1, 131),
    ]
    replies = [
        REPLIES,
        reply(7, 1, 3, 130, 0, 4),
        reply(7, 1, 3, 130, 0, 4),
        reply(7, 1, 2, 131, 4, 0),
        reply(7, 1, 3, 130, 5, 0),
        reply(7, 1, 5, 131, 6, 0),
        reply(7, 2, 4, 131, 3, 0),
        reply(7, 0, 4, 131, 2, 0),
        reply(9, 1, 1, 131, 1, 0),
    ]
    assert server.ended(b"".join(script)) == done(b"".join(replies))


def test_sessions_that_end_for_others(server):
    """Of two places the row of least commit goes, whatever its session."""
    register = {client: pair(10, client, 0, 0, 2) for client in (7, 8, 9)}
    late = pair(10, 8, 2, 1, 131)
    script = [
        register[7],
        register[8],
        pair(10, 7, 1, 1, 131),
        register[9],
        late,
        register[8],
        late,
        register[7],
        pair(10, 9, 4, 1, 131),
    ]
    replies = [
        reply(7, 1, 0, 2, 0, 1),
        reply(8, 2, 0, 2, 0, 2),
        reply(7, 1, 1, 131, 0, 3),
        reply(9, 4, 0, 2, 0, 4),
        reply(8, 2, 1, 131, 1, 0),
        reply(8, 5, 0, 2, 0, 5),
        reply(8, 2, 1, 131, 2, 0),
        reply(7, 6, 0, 2, 0, 6),
        reply(9, 4, 1, 131, 1, 0),
    ]
    assert server.ended(b"".join(script)) == done(b"".join(replies))


def test_a_pending_transfer_before_and_at_its_last_moment(server):
    """Pending at 100 for a second, it is due at 1000000100; code 35 is pending_transfer_expired."""
    held, due = (account(1, timestamp=11, debits_pending=it) for it in (40, 0))
    script = [
        SCRIPT[:368],
        pair(100, 7, 1, 2, 130, transfer(60, 1, 2, 40, timeout=1, flags=2)),
        pair(1000000099, 7, 1, 3, 131, ids(1)),
        pair(1000000100, 7, 1, 4, 131, ids(1)),
        pair(1000000101, 7, 1, 5, 130, transfer(61, 0, 0, 0, pending_id=60, flags=4)),
    ]
    replies = [
        REPLIES[:96],
        reply(7, 1, 2, 130, 0, 3),
        reply(7, 1, 3, 131, 0, 4, held),
        reply(7, 1, 4, 131, 0, 5, due),
        reply(7, 1, 5, 130, 0, 6, result(0, 35)),
    ]
    assert server.ended(b"".join(script)) == done(b"".join(replies))


@pytest.mark.parametrize("profile, again", [("1", b""), ("2", result(0, 68))])
def test_a_failed_id(server, profile, again):
    """There is no account 99: code 21. Profile 2 keeps the id, and returns 68 for it."""
    script = (
        SCRIPT[:368]
        + pair(10, 7, 1, 2, 130, transfer(70, 99, 2, 1))
        + pair(10, 7, 1, 3, 130, transfer(70, 1, 2, 1))
    )
    replies = REPLIES[:96] + reply(7, 1, 2, 130, 0, 3, result(0, 21))
    wanted = done(replies + reply(7, 1, 3, 130, 0, 4, again))
    assert server.ended(script, ["run", "2", profile]) == wanted


def test_many_items(server):
    script, replies = many_items()
    assert server.ended(script) == done(replies)


def test_many_results(server):
    """8190 transfers that are refused: the longest list of results."""
    numbers = range(1, 8191)
    script = pair(10, 7, 1, 2, 130, b"".join(transfer(id, 99, 2, 1) for id in numbers))
    codes = b"".join(result(at, 21) for at in range(8190))
    replies = REPLIES[:96] + reply(7, 1, 2, 130, 0, 3, codes)
    assert server.ended(SCRIPT[:368] + script) == done(replies)


# Standard output


def test_closed_output(server):
    assert server.ended(SCRIPT, preexec_fn=closing(1)) == LOST


def test_closed_output_and_nothing_to_write(server):
    assert server.ended(b"", preexec_fn=closing(1)) == done(b"")


LONG = many_items()[0]
SCRIPTS = {"whole": SCRIPT, "cut": SCRIPT[:-1], "replies past the buffer": LONG}


@pytest.mark.parametrize("name", SCRIPTS)
def test_a_full_device(server, name):
    with open("/dev/full", "wb") as full:
        assert server.ended(SCRIPTS[name], stdout=full) == LOST


@pytest.mark.parametrize("name", ["whole", "replies past the buffer"])
@pytest.mark.parametrize("action", [signal.SIG_DFL, signal.SIG_IGN], ids=["default", "ignored"])
def test_a_pipe_that_nobody_reads(server, name, action):
    """However the shell leaves SIGPIPE."""
    reader, writer = os.pipe()
    os.close(reader)
    got = server.ended(
        SCRIPTS[name],
        stdout=writer,
        restore_signals=False,
        preexec_fn=lambda: signal.signal(signal.SIGPIPE, action),
    )
    os.close(writer)
    assert got == LOST


def test_a_pipe_whose_reader_goes_in_the_middle(server):
    words = ["head", "-c", "100000"]
    with subprocess.Popen(words, stdin=subprocess.PIPE, stdout=subprocess.DEVNULL) as reader:
        got = server.ended(LONG, stdout=reader.stdin)
        reader.stdin.close()
    assert got == LOST


# Arguments


WRONG = [
    [],
    ["run"],
    ["run", "0"],
    ["run", "65"],
    ["run", "+2"],
    ["run", ""],
    ["run", " 2"],
    ["run", "2 "],
    ["run", "-1"],
    ["run", "2", "0"],
    ["run", "2", "3"],
    ["run", "2", "1", "1"],
    ["run", "18446744073709551618"],
    ["serve", "2"],
    ["RUN", "2"],
    ["run", b"\xff"],
    ["--help"],
    ["dump"],
    ["dump", "0"],
    ["dump", "2", "9223372036854775808"],
    ["dump", "2", "+1"],
    ["dump", "2", ""],
    ["dump", "2", "1", "1"],
    ["replay", "2"],
    ["storm"],
    ["storm", "2"],
    ["storm", "0", "3"],
    ["storm", "17", "3"],
    ["storm", "2", "0"],
    ["storm", "2", "1001"],
    ["storm", "2", "-3"],
    ["storm", "", "3"],
    ["storm", "2", "3", "1"],
]


@pytest.mark.parametrize("words", WRONG, ids=lambda it: f"{it}")
def test_wrong_words_read_nothing(server, words):
    assert server.with_file(SCRIPT, words) == (refused("Usage"), 0)


def test_wrong_words_and_closed_input(server):
    assert server.without_input(["run", "0"]) == refused("Usage")


@pytest.mark.parametrize("words", ["run 2 1", "run 2 2", "run 002", "run 1", "run 64 01"])
def test_right_words(server, words):
    assert server.with_file(SCRIPT, words.split())[0] == done(REPLIES)


# Storms: many client threads at once


@pytest.mark.parametrize(
    "words, totals",
    [
        ("2 3", (2, 10, 6, 12)),
        ("1 1", (1, 4, 1, 1)),
        ("016 1000", (16, 16018, 16000, 8008000)),
    ],
    ids=["two clients", "one client", "16 clients"],
)
def test_the_totals_of_a_storm(server, words, totals):
    """They are the same whatever the order of its requests was."""
    lines = "clients %d\ncommits %d\ntransfers %d\ncredited %d\n" % totals
    assert server.ended(b"", ["storm", *words.split()]) == done(lines.encode())


def test_a_storm_and_a_full_device(server):
    with open("/dev/full", "wb") as full:
        assert server.ended(b"", ["storm", "2", "3"], stdout=full) == LOST


# Standard error that takes no line: the status is the same


def test_wrong_words_and_a_full_standard_error(server):
    with open("/dev/full", "wb") as full:
        assert server.ended(b"", ["run", "0"], stderr=full) == (2, b"", b"")


def test_a_cut_script_and_a_closed_standard_error(server):
    got = server.ended(SCRIPT[:-1], RUN, stderr=None, preexec_fn=closing(2))
    assert got == (2, REPLIES[:96], b"")


# Memory: so little that a register is served, and there is none for a body of 1048320 bytes

BODY = pair(10, 7, 1, 1, 129, b"", 8190 * 128)
BODIES = {
    "a script's": (FIRST + BODY, RUN),
    "a dump's": (HEAD + ENTRIES[0] + entry(2, 10000, BODY), REPLAY),
}


def limited(kib):
    return lambda: resource.setrlimit(resource.RLIMIT_AS, (kib << 10, kib << 10))


@pytest.fixture(name="least")
def fixture_least(server):
    """The KiB in which a register is served."""
    for kib in range(1024, 65536, 128):
        if server.ended(FIRST, preexec_fn=limited(kib)) == done(FIRST_REPLY):
            return kib
    return pytest.fail("no register is served in 64 MiB")


@pytest.mark.parametrize("name", BODIES)
def test_memory_for_a_body(server, least, name):
    script, words = BODIES[name]
    got = server.ended(script, words, preexec_fn=limited(least + 128))
    assert got == refused("NoMemory", FIRST_REPLY, status=1)


# Dumps with streams that fail


@pytest.mark.parametrize("words", [DUMPED, REPLAY], ids=["dump", "replay"])
class TestFailingStreams:
    def script(self, words):
        return b"" if words == DUMPED else HEAD + b"".join(ENTRIES)

    def test_closed_output(self, server, words):
        assert server.ended(self.script(words), words, preexec_fn=closing(1)) == LOST

    def test_a_full_device(self, server, words):
        with open("/dev/full", "wb") as full:
            assert server.ended(self.script(words), words, stdout=full) == LOST

    def test_closed_input(self, server, words):
        status, _, said = server.without_input(words)
        assert (status, said) == (1, line("Device"))
