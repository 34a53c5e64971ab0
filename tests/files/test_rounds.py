"""What `tbd run` and `tbd follow` answer, and when: replies leave before more is waited for, pairs
that are there at once share a commit, and the folder of a new file is synced.

    python3 -m pytest tests/files/test_rounds.py
"""

import os
import select
import subprocess

import pytest
from frames import account, ids, pair, transfer
from tb_client import Operation

from ..conftest import ROOT
from . import kinds
from .calls import calls_of, environment
from .kinds import ran

ACCOUNTS = account(1) + account(2)
MOVED = transfer(11, 1, 2, 128)
# A register, two accounts, a transfer, the same again, the request before it, and a lookup.
PAIRS = [
    pair(10, 7, 0, 0, Operation.register),
    pair(10, 7, 1, 1, Operation.create_accounts, ACCOUNTS),
    pair(10, 7, 1, 2, Operation.create_transfers, MOVED),
    pair(10, 7, 1, 2, Operation.create_transfers, MOVED),
    pair(10, 7, 1, 1, Operation.lookup_accounts, ids(1)),
    pair(10, 7, 1, 3, Operation.lookup_accounts, ids(2)),
]
SCRIPT = b"".join(PAIRS)
REPLIES = [48, 48, 48, 48, 48, 176]  # the bytes of each
ENTRIES = 4  # that the script makes: the fourth pair is a repeat, the fifth is older
LOG = (ROOT / "examples/first.log").read_bytes()
# The end of an item of the log, and how many bytes answer all up to there.
ITEMS = [(385, 122), (386, 195), (587, 256), (860, 506), (861, 579)]


def ends(pairs, replies):
    """The end of each pair, and how many bytes answer all up to there."""
    given, answered, found = 0, 0, []
    for one, reply in zip(pairs, replies):
        given, answered = given + len(one), answered + reply
        found.append((given, answered))
    return found


@pytest.fixture(name="tbd")
def fixture_tbd(program):
    return str(program("tbd").resolve())


def conversed(words, folder, data, turns, piece):
    """All that is answered to data in pieces. What is due is read before more is sent."""
    out = b""
    process = subprocess.Popen(
        words,
        cwd=folder,
        stdin=subprocess.PIPE,
        stdout=subprocess.PIPE,
        stderr=subprocess.DEVNULL,
        bufsize=0,
    )
    try:
        for begin in range(0, len(data), piece):
            process.stdin.write(data[begin : begin + piece])
            due = max((said for end, said in turns if end <= begin + piece), default=0)
            while len(out) < due:
                more = process.stdout.read(due - len(out))
                assert more, (begin, len(out), due)
                out += more
        rest = process.communicate(timeout=kinds.SECONDS)[0]
    finally:
        process.kill()
    assert process.returncode == 0
    return out + rest


@pytest.mark.parametrize("piece", [1, 7, 55, 56, 57, 368, 551, 737, 1000])
def test_replies_leave_before_it_waits(tbd, tbs, tmp_path, piece):
    """The replies are those of `tbs run` to the same script."""
    turns = ends(PAIRS, REPLIES)
    wanted = ran(str(tbs), tmp_path, ["run", "2"], SCRIPT)[1]
    words = [tbd, "run", "ledger", "2"]
    assert conversed(words, tmp_path, SCRIPT, turns, piece) == wanted
    assert b"entries 4\n" in ran(tbd, tmp_path, ["check", "ledger"])[1]


@pytest.mark.parametrize("piece", [1, 16, 385, 386, 387, 600, 1000])
def test_answers_to_a_log_leave_before_it_waits(tbd, tmp_path, piece):
    wanted = (ROOT / "examples/first.answers").read_bytes()
    assert conversed([tbd, "follow", "2"], tmp_path, LOG, ITEMS, piece) == wanted


def test_a_start_is_reported_before_the_first_request(tbd, tmp_path):
    words = ["run", "ledger", "2", "--progress"]
    lines = b"tbd: made ledger\ntbd: ready: commit 0, time 0\n"
    streams = dict.fromkeys(("stdin", "stdout", "stderr"), subprocess.PIPE)
    with subprocess.Popen([tbd, *words], cwd=tmp_path, **streams) as process:
        said, more = b"", True
        while more and len(said) < len(lines):
            ready = select.select([process.stderr], [], [], kinds.SECONDS)[0]
            more = ready and os.read(process.stderr.fileno(), len(lines) - len(said))
            said += more or b""
        process.stdin.close()
    assert (said, process.returncode) == (lines, 0)


def test_a_repeat_after_a_start_gets_its_first_reply(tbd, tmp_path):
    words = ["run", "ledger", "2"]
    replies = ran(tbd, tmp_path, words, SCRIPT)[1]
    data = (tmp_path / "ledger").read_bytes()
    assert ran(tbd, tmp_path, words, PAIRS[-1]) == (0, replies[-REPLIES[-1] :], "")
    assert (tmp_path / "ledger").read_bytes() == data


THREE = b"".join(PAIRS[:2]) + pair(10, 7, 1, 2, Operation.create_transfers, MOVED)
AT = len(PAIRS[0] + PAIRS[1])  # where the third pair begins
# The place where the third pair is changed and to what, or nothing if its last byte is missing; the
# fault.
FAULTS = [(None, "Short"), ((37, 1), "Reserved"), ((7, 128), "TimeExhausted")]


@pytest.mark.parametrize("change, fault", FAULTS)
def test_a_fault_ends_serving_behind_those_before_it(tbd, tmp_path, change, fault):
    """The two pairs before it are answered, and their entries are in the file."""
    given = bytearray(THREE)
    if change is None:
        given.pop()
    else:
        given[AT + change[0]] = change[1]
    status, out, said = ran(tbd, tmp_path, ["run", "ledger", "2"], bytes(given))
    line = "the next request on standard input is refused; those before it were answered"
    assert (status, len(out), said) == (2, 96, f"tbd: made ledger\ntbd: {fault}: {line}\n")
    assert b"entries 2\n" in ran(tbd, tmp_path, ["check", "ledger"])[1]


def watched(tbd, shim, folder, words, path, given=b""):
    """The calls of a program on a file, on standard output, and on folders."""
    log = folder / "calls"
    log.unlink(missing_ok=True)
    env = environment(shim, path, log=log)
    status = ran(tbd, folder, words, given, env=env)[0]
    assert status == 0
    return list(calls_of(log))


def count(calls, letter):
    return sum(it.kind == letter for it in calls)


def test_pairs_that_are_there_share_a_commit(tbd, shim, tmp_path):
    """A commit is two writes, each with a sync: one for all entries, or one for each."""
    words = ["run", "ledger", "2"]
    at_once = watched(tbd, shim, tmp_path, words, "ledger", SCRIPT)
    data = (tmp_path / "ledger").read_bytes()
    (tmp_path / "ledger").unlink()
    log = tmp_path / "calls"
    log.unlink()
    env = environment(shim, "ledger", log=log)
    with subprocess.Popen(
        [tbd, *words],
        cwd=tmp_path,
        env=env,
        stdin=subprocess.PIPE,
        stdout=subprocess.PIPE,
        stderr=subprocess.DEVNULL,
        bufsize=0,
    ) as process:
        for one, length in zip(PAIRS, REPLIES):
            process.stdin.write(one)
            assert len(process.stdout.read(length)) == length
        process.stdin.close()
    by_turns = list(calls_of(log))
    for letter in "WS":
        assert count(by_turns, letter) - count(at_once, letter) == 2 * (ENTRIES - 1)
    assert (tmp_path / "ledger").read_bytes() == data


@pytest.mark.parametrize("path", ["ledger", "./ledger", "a/ledger", "a/b/ledger", "link"])
def test_the_folder_of_a_new_file_is_synced(tbd, shim, tmp_path, path):
    """For a link it is that of its target. A start over a file that is there syncs it again."""
    target = tmp_path / path
    if path == "link":
        (tmp_path / "targets").mkdir()
        target = tmp_path / "targets" / "ledger"
        target.write_bytes(b"")
        (tmp_path / path).symlink_to("targets/ledger")
    target.parent.mkdir(parents=True, exist_ok=True)
    for _ in range(2):
        calls = watched(tbd, shim, tmp_path, ["run", path, "2"], path)
        synced = [it.place for it in calls if it.kind == "F"]
        assert target.parent.stat().st_ino in synced


def test_a_file_that_nobody_may_write(tbd, tmp_path):
    line = (
        "tbd: Device: no permission to open /sys/kernel/notes;"
        " change its mode or its folder's, or run tbd as a user that may\n"
    )
    assert ran(tbd, tmp_path, ["run", "/sys/kernel/notes", "2"]) == (1, b"", line)
