"""A file that is moved, removed, replaced or cut while tbd serves it: from then on nothing more is
acknowledged, and the program ends by a name and an exit status of its own.

    python3 -m pytest tests/files/test_gone.py

Twelve clients send a transfer each in turn. What they were answered has to be in the file, wherever
it is by then.
"""

import itertools
import os
import struct
import subprocess
import threading
import time

import pytest
from tb_client import HEADER, Account, Operation, Transfer, reply_length, request_frame

GONE, MISSING, EMPTY = 10, 1, 5  # exit statuses
CLIENTS = range(1, 13)
SECONDS = 60


def pair(client, session, number, operation, body=b""):
    """A moment and the frame of a request."""
    return struct.pack("<Q", 10) + request_frame(client, session, number, operation, body)


class Served:
    """A program over a file, and the clients before it."""

    def __init__(self, tbd, path, *options):
        words = [str(tbd), "run", str(path), "64", *options]
        self.path = path
        self.process = subprocess.Popen(
            words, stdin=subprocess.PIPE, stdout=subprocess.PIPE, stderr=subprocess.PIPE
        )
        self.numbers = dict.fromkeys(CLIENTS, 0)
        self.ids = itertools.count(100)
        self.answered = []

    def reply(self):
        """Whether a reply came, to its last byte."""
        head = self.process.stdout.read(HEADER)
        if len(head) < HEADER:
            return False
        more = reply_length(head) - HEADER
        return len(self.process.stdout.read(more)) == more

    def sends(self, data):
        try:
            self.process.stdin.write(data)
            self.process.stdin.flush()
        except BrokenPipeError:
            return False
        return True

    def opens(self):
        """Registers the clients and makes two accounts."""
        for client in CLIENTS:
            assert self.sends(pair(client, 0, 0, Operation.register)) and self.reply()
        accounts = b"".join(Account(id=it, ledger=700, code=10).to_bytes() for it in (1, 2))
        self.numbers[1] = 1
        assert self.sends(pair(1, 1, 1, Operation.create_accounts, accounts)) and self.reply()

    def round(self):
        """A transfer of each client at once, and their replies: whether all of them came."""
        sent = []
        for client in CLIENTS:
            self.numbers[client] += 1
            moved = Transfer(next(self.ids), 1, 2, 1, ledger=700, code=10)
            body = moved.to_bytes()
            data = pair(client, client, self.numbers[client], Operation.create_transfers, body)
            if not self.sends(data):
                return False
            sent.append(body[:16])
        for it in sent:
            if not self.reply():
                return False
            self.answered.append(it)
        return True

    def ended(self):
        """The exit status, and what was said."""
        try:
            self.process.stdin.close()
        except BrokenPipeError:
            pass
        said = self.process.stderr.read().decode()
        return self.process.wait(SECONDS), said


def moved(path):
    path.rename(path.with_name("moved"))


def removed(path):
    path.unlink()


def replaced(path):
    path.with_name("other").write_bytes(path.read_bytes())
    path.with_name("other").rename(path)


def emptied(path):
    os.truncate(path, 0)


def halved(path):
    os.truncate(path, path.stat().st_size // 2)


def lengthened(path):
    with open(path, "ab") as file:
        file.write(b"\xff" * 5)


HARMS = [moved, removed, replaced, emptied, halved, lengthened]


@pytest.fixture(name="tbd")
def fixture_tbd(program):
    return program("tbd")


def line(path):
    """What is reported of a file that is gone."""
    why = "is not the file that was opened, or another program cut it"
    return f"tbd: Gone: {path} {why}; put that file back before the next start\n"


@pytest.mark.parametrize("harm", HARMS)
def test_nothing_more_is_acknowledged(tbd, tmp_path, harm):
    served = Served(tbd, tmp_path / "ledger")
    served.opens()
    for _ in range(3):
        assert served.round()
    harm(served.path)
    count = len(served.answered)
    assert not served.round()
    assert len(served.answered) == count
    status, said = served.ended()
    assert (status, said) == (GONE, f"tbd: made {served.path}\n{line(served.path)}")


@pytest.mark.parametrize("harm", [moved, removed])
def test_what_was_acknowledged_is_in_the_file(tbd, tmp_path, harm):
    """The file goes amid the rounds, and is looked at by another name that it has."""
    served = Served(tbd, tmp_path / "ledger")
    os.link(served.path, tmp_path / "beside") if served.opens() is None else None
    assert served.round()
    slow = threading.Timer(0.2, harm, [served.path])
    slow.start()
    end = time.monotonic() + SECONDS
    while served.round():
        assert time.monotonic() < end
    slow.join()
    assert served.ended()[0] == GONE
    dump = subprocess.run([tbd, "dump", tmp_path / "beside"], capture_output=True, check=True)
    assert served.answered and all(it in dump.stdout for it in served.answered)


@pytest.mark.parametrize("harm", [moved, removed, replaced])
def test_a_dump_follows_no_other_file(tbd, tmp_path, harm):
    """What was committed before is written, and then the follower is told."""
    path = tmp_path / "ledger"
    script = pair(1, 0, 0, Operation.register)
    subprocess.run([tbd, "run", path, "64"], input=script, capture_output=True, check=True)
    whole = subprocess.run([tbd, "dump", path], capture_output=True, check=True).stdout
    words = [tbd, "dump", path, "--follow"]
    with subprocess.Popen(words, stdout=subprocess.PIPE, stderr=subprocess.PIPE) as follower:
        assert follower.stdout.read(len(whole)) == whole
        harm(path)
        rest, said = follower.communicate(timeout=SECONDS)
    assert (follower.returncode, rest, said.decode()) == (GONE, b"", line(path))


@pytest.mark.parametrize("first", range(1, 13))
def test_a_look_that_fails_is_no_file_that_is_gone(tbd, tmp_path, first):
    """strace has each look at the name and at the file fail with EIO from one on: those of the
    start, and those of the commit."""
    path = tmp_path / "ledger"
    script = pair(1, 0, 0, Operation.register)
    subprocess.run([tbd, "run", path, "64"], input=script, capture_output=True, check=True)
    looks = "statx,newfstatat"
    inject = ["-e", f"trace={looks}", "-e", f"inject={looks}:error=EIO:when={first}+"]
    words = ["strace", "-f", "-qq", "-P", path, *inject, "-o", tmp_path / "calls"]
    done = subprocess.run(
        [*words, tbd, "run", path, "64"],
        input=pair(2, 0, 0, Operation.register),
        capture_output=True,
        check=False,
        timeout=SECONDS,
    )
    failed = "EIO" in (tmp_path / "calls").read_text()
    assert (done.returncode, bool(done.stdout)) == ((1, False) if failed else (0, True))
    assert done.stderr.decode().startswith("tbd: Device: " if failed else "")


@pytest.mark.parametrize("first", [1, 2, 4, 8, 16])
def test_a_follower_whose_look_fails_is_told_of_the_device(tbd, tmp_path, first):
    """strace has each look fail with EIO from one on: those of the opening, and those of a pause,
    before which all was written."""
    path = tmp_path / "ledger"
    script = pair(1, 0, 0, Operation.register)
    subprocess.run([tbd, "run", path, "64"], input=script, capture_output=True, check=True)
    whole = subprocess.run([tbd, "dump", path], capture_output=True, check=True).stdout
    looks = "statx,newfstatat"
    inject = ["-e", f"trace={looks}", "-e", f"inject={looks}:error=EIO:when={first}+"]
    words = ["strace", "-f", "-qq", "-P", path, *inject, "-o", tmp_path / "calls"]
    done = subprocess.run(
        [*words, tbd, "dump", path, "--follow"], capture_output=True, check=False, timeout=SECONDS
    )
    assert done.returncode == 1 and done.stderr.decode().startswith("tbd: Device: ")
    assert done.stdout in ([whole] if first == 16 else [b"", whole])


def test_another_name_does_no_harm(tbd, tmp_path):
    """A hard link more, and a start through a symbolic link."""
    os.symlink("ledger", tmp_path / "link")
    (tmp_path / "ledger").touch()
    served = Served(tbd, tmp_path / "link")
    served.opens()
    os.link(tmp_path / "ledger", tmp_path / "beside")
    assert served.round()
    assert served.ended()[0] == 0


def test_no_file_is_made_where_one_is_wanted(tbd, tmp_path):
    path = tmp_path / "ledger"
    assert Served(tbd, path, "--existing").ended()[0] == MISSING
    assert not path.exists()
    path.touch()
    assert Served(tbd, path, "--existing").ended()[0] == EMPTY
    assert path.stat().st_size == 0
    assert Served(tbd, path).ended()[0] == 0
    again = Served(tbd, path, "1", "--existing")
    again.opens()
    assert again.ended() == (0, "")
