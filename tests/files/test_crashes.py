"""Files that a power loss may leave of the built tbd's work, by the calls that it made, and a
disk that is full.

    /usr/bin/python3 -m pytest tests/files/test_crashes.py [--rounds N] [--images N] [--seed N]

shim.c, which needs gcc, writes down each write, cut and sync of the file and each write of replies.
From them the files are made that the disk may have at each moment: what was synced, and any of the
writes after that, one of them torn. Each has to be a prefix of the history with all that was
acknowledged until then, and each tenth is opened by the program. Each mutant that leaves out a
sync, and a program that answers first, have to be caught. A small file system is filled if this
user may mount one. The test fails if the program holds a reply back, or does not end, for two
minutes (CHECK_LONGER times as long).
"""

import contextlib
import functools
import os
import shutil
import signal
import struct
import subprocess
import threading

import pytest
import tried
from tb_client import (
    HEADER,
    Account,
    Operation,
    Reply,
    Status,
    Transfer,
    reply_length,
    request_frame,
)

from .calls import MUTANTS, calls_of, environment
from .cases import drop_copies
from .losses import PowerLoss, after

CLIENTS = 24
CASH, SALES = 1, 2
SECONDS = 120 * tried.LONGER  # that a reply, an end and a check may take
MAGIC, CLOSED = b"TBJRNL02", b"\x5a\xc3\x96\x69"
FIRST = MAGIC + CLOSED
QUICK_ROUNDS, QUICK_IMAGES = 14, 3  # of the run in CI
WHOLE_LATCH = "die 4 4"  # a kill after the write of a latch, before its sync


def holds(wrong):
    """Nothing is wrong; otherwise the first one of it is shown."""
    assert not wrong, f"{len(wrong)} wrong, as {wrong[0]}"


# The file


def _table():
    for byte in range(256):
        for _ in range(8):
            byte = byte >> 1 ^ (0x82F63B78 if byte & 1 else 0)
        yield byte


TABLE = list(_table())


@functools.lru_cache(maxsize=1 << 16)
def checksum(data):
    """CRC-32C."""
    rest = 0xFFFFFFFF
    for byte in data:
        rest = TABLE[(rest ^ byte) & 255] ^ rest >> 8
    return rest ^ 0xFFFFFFFF


def records_of(data):
    """The records of a file, or why it has no records: docs/use/TBD.md says how it is read."""
    if not data.startswith(MAGIC):
        return "NotAJournal"
    at, records = len(MAGIC), []
    while data[at : at + 4] != CLOSED:
        size, start = data[at + 4 : at + 7], at + 11
        end = start + int.from_bytes(size, "little")
        if start > len(data) or end > len(data):
            return f"Damaged at {at}"
        if checksum(size + data[start:end]) != int.from_bytes(data[at + 7 : start], "little"):
            return f"Damaged at {at}"
        records.append(data[start:end])
        at = end
    return records


# A run


@contextlib.contextmanager
def in_time(process):
    """Ends the test if a program does not go on in time."""
    late = threading.Event()
    timer = threading.Timer(SECONDS, lambda: (late.set(), process.kill()))
    timer.start()
    try:
        yield
    finally:
        timer.cancel()
        if late.is_set():
            raise subprocess.TimeoutExpired(process.args, SECONDS)


class Run:
    """A file, the clients that use it, all that they sent, and the first reply to each request."""

    def __init__(self, tbd, folder, name, rng, shim="", mutant=""):
        self.tbd, self.rng, self.moment, self.shim, self.mutant = tbd, rng, 0, shim, mutant
        self.file, self.log = (os.path.join(folder, f"{name}.{it}") for it in ("tbk", "log"))
        self.sent, self.first, self.sessions, self.done, self.wrong = {}, {}, {}, {}, []

    def start(self, fault=""):
        drop_copies(self.file)
        env = None
        if self.shim:
            of = {"log": self.log, "fault": fault, "mutant": self.mutant}
            env = environment(self.shim, self.file, **of)
        words = [self.tbd, "run", self.file, "64"]
        streams = dict.fromkeys(("stdin", "stdout", "stderr"), subprocess.PIPE)
        return subprocess.Popen(words, env=env, **streams)

    def frame(self, client):
        """The request that a client has no reply to: its register, or the one after its last."""
        number = self.done.get(client, -1) + 1
        if (client, number) not in self.sent:
            if number == 0:
                made = request_frame(client, 0, 0, Operation.register)
            elif client == CLIENTS and number == 1:
                body = b"".join(Account(id, ledger=700, code=10).to_bytes() for id in (CASH, SALES))
                made = request_frame(
                    client, self.sessions[client], 1, Operation.create_accounts, body
                )
            else:
                body = Transfer(
                    client << 32 | number, CASH, SALES, self.rng.randint(1, 9), ledger=700, code=10
                ).to_bytes()
                made = request_frame(
                    client, self.sessions[client], number, Operation.create_transfers, body
                )
            self.sent[client, number] = made
        return self.sent[client, number]

    def ask(self, process, frames):
        """Sends frames, and takes the replies that come."""
        pairs = []
        for frame in frames:
            self.moment += 1
            pairs.append(struct.pack("<Q", self.moment) + frame)
        try:
            process.stdin.write(b"".join(pairs))
            process.stdin.flush()
        except BrokenPipeError:
            return []
        with in_time(process):
            return list(self.replies(process, len(frames)))

    @staticmethod
    def replies(process, count):
        """The next replies: the number that is asked for, or fewer if the program ends."""
        for _ in range(count):
            header = process.stdout.read(HEADER)
            body = (
                process.stdout.read(reply_length(header) - HEADER) if len(header) == HEADER else b""
            )
            if len(header) < HEADER or len(header + body) < reply_length(header):
                break
            yield header + body

    def take(self, reply):
        """Takes the first reply to a request, or the same again."""
        it = Reply.from_bytes(reply)
        if it.status != Status.Reply or it.items:
            self.wrong.append(f"refused: {it}")
        elif self.first.setdefault((it.client, it.number), reply) != reply:
            self.wrong.append(f"another reply: {it}")
        else:
            self.sessions.setdefault(it.client, it.session)
            self.done[it.client] = max(self.done.get(it.client, -1), it.number)

    def round(self, process, clients):
        """A request of each of the clients. False if the program ended."""
        replies = self.ask(process, [self.frame(client) for client in clients])
        for reply in replies:
            self.take(reply)
        return len(replies) == len(clients)

    def open(self, process):
        """The first client makes the accounts."""
        self.round(process, [CLIENTS])
        self.round(process, [CLIENTS])

    def in_doubt(self):
        """The clients whose last request has no reply."""
        return sorted(
            {client for client, number in self.sent if number > self.done.get(client, -1)}
        )

    def some(self):
        return self.rng.sample(range(1, CLIENTS + 1), self.rng.randint(1, CLIENTS))


def ended(process):
    """Ends the input of a program, and returns its status."""
    try:
        process.stdin.close()
    except BrokenPipeError:
        pass
    with in_time(process):
        process.stdout.read()
        process.stdout.close()
        process.stderr.close()
        return process.wait()


def lives(run, rounds, fault=""):
    """Serves rounds in several lives, of which the second and some later ones are ended by a kill
    amid a write. After it a start answers those in doubt first. Returns how many were killed."""
    process = run.start(fault)
    run.open(process)
    starts = kills = 0
    for number in range(rounds):
        if not run.round(process, run.some()) or number % 7 == 6:
            kills += was_killed(run, process)
            kill = f"die {run.rng.randint(1, 9)} {run.rng.choice([0, 1, 9, 100, 400])}"
            process = run.start(fault or (run.rng.choice(["", kill]) if starts else WHOLE_LATCH))
            starts += 1
            run.round(process, run.in_doubt())
    return kills + was_killed(run, process)


def was_killed(run, process):
    """Ends a life of a run. It is wrong unless it ends well, or by a kill."""
    status = ended(process)
    if status not in (0, -signal.SIGKILL):
        run.wrong.append(f"a life ended with status {status}")
    return status == -signal.SIGKILL


# What the disk may have


def replies_in(data):
    at = 0
    while at + HEADER <= len(data):
        end = at + reply_length(data, at)
        yield data[at:end]
        at = end


class Images:
    """The files that a power loss may leave, each judged."""

    def __init__(self, run, folder, rng, opens=True):
        with open(run.file, "rb") as file:
            self.last = records_of(file.read())
        self.run, self.rng, self.opens = run, rng, opens
        self.path = os.path.join(folder, "image.tbk")
        self.commit, self.done, self.wrong, self.judged, self.opened = 0, {}, [], 0, 0

    def judge(self, image):
        """A file has the entries of all replies that were written so far, and is a prefix of
        the history."""
        self.judged += 1
        records = records_of(image)
        if isinstance(records, str):
            if self.commit or len(image) > len(FIRST):
                self.wrong.append(f"{records}, after {self.commit} entries were acknowledged")
        elif records != self.last[: len(records)]:
            self.wrong.append("records that are not those of the history")
        elif len(records) <= self.commit and self.commit:
            self.wrong.append(
                f"{len(records)} records, after {self.commit} entries were acknowledged"
            )
        elif self.opens and self.judged % 10 == 0 and records:
            self.open(image, len(records) - 1)

    def open(self, image, entries):
        """The program reports this many entries, and serves on: each client's last request gets its
        first reply again, one in doubt is done."""
        self.opened += 1
        with open(self.path, "wb") as file:
            file.write(image)
        words = [self.run.tbd, "check", self.path]
        told = subprocess.run(words, capture_output=True, text=True, timeout=SECONDS)
        if told.returncode or f"entries {entries}\n" not in told.stdout:
            self.wrong.append(
                f"check of {entries} entries: {told.returncode}, {told.stdout!r}, {told.stderr!r}"
            )
        again = Run(self.run.tbd, os.path.dirname(self.path), "image", self.rng)
        process = again.start()
        in_file = {(record[16:32], record[40:44]) for record in self.last[1 : entries + 1]}
        for client, number in self.done.items():
            behind = self.run.sent.get((client, number + 1))
            done = behind is None or (behind[:16], behind[24:28]) not in in_file
            reply = again.ask(process, [self.run.sent[client, number]]) if done else []
            if done and reply != [self.run.first[client, number]]:
                self.wrong.append(f"client {client}: another reply to request {number}")
            if behind and [Reply.from_bytes(it).status for it in again.ask(process, [behind])] != [
                Status.Reply
            ]:
                self.wrong.append(f"client {client}: request {number + 1} in doubt is not done")
        if ended(process):
            self.wrong.append("a start over a file that a power loss left ends by a fault")

    def follow(self, files):
        """Goes over the calls, and judges what may be left at each: `files` of a power loss."""
        synced, since = b"", []
        for call in calls_of(self.run.log):
            if call.kind == "S":
                synced, since = functools.reduce(after, since, synced), []
            elif call.kind == "O":
                for reply in replies_in(call.data):
                    it = Reply.from_bytes(reply)
                    self.commit = max(self.commit, it.commit)
                    self.done[it.client] = max(self.done.get(it.client, -1), it.number)
            elif call.kind in "WT":
                since.append(call)
            self.judge(synced)
            for image in files(PowerLoss(synced, since, self.rng)):
                self.judge(image)
        return self


# Cases


def some_of(count):
    return lambda loss: loss.some(count)


def lost_at_each_moment(run, rounds, files):
    """What a power loss may leave at each moment of a run in several lives."""
    assert lives(run, rounds), "no life was killed"
    holds(run.wrong)
    images = Images(run, os.path.dirname(run.file), run.rng).follow(files)
    holds(images.wrong)
    assert images.opened, "no file was opened"


@pytest.mark.slow(reason="judges the files of 120 rounds, 20 at each call", seconds=300)
def test_losses(tbd, tbs, folder, shim, rng, pytestconfig):
    """A run in several lives: all moments of it, and its dump."""
    rounds, count = pytestconfig.getoption("rounds"), pytestconfig.getoption("images")
    run = Run(tbd, folder, "losses", rng, shim)
    lost_at_each_moment(run, rounds, some_of(count))
    dumped(run, tbs)


def test_few_losses(tbd, tbs, folder, shim, rng):
    """A short run: all moments of it, and its dump."""
    run = Run(tbd, folder, "losses", rng, shim)
    lost_at_each_moment(run, QUICK_ROUNDS, some_of(QUICK_IMAGES))
    dumped(run, tbs)


@pytest.mark.slow(reason="judges each file that a power loss may leave", seconds=30)
def test_each_subset_of_what_is_lost(tbd, folder, shim, rng):
    """A short run: each subset of the writes that are not synced, each of them torn in each way."""
    run = Run(tbd, folder, "subsets", rng, shim)
    lost_at_each_moment(run, QUICK_ROUNDS, PowerLoss.every)


@pytest.mark.parametrize("mutant", [it for it in MUTANTS if it != "no-sync-of-a-copy"])
def test_a_mutant_is_caught(tbd, folder, shim, rng, mutant):
    """A program that leaves out a sync; that of a copy is in test_asides.py."""
    run = Run(tbd, folder, mutant, rng, shim, mutant)
    lives(run, QUICK_ROUNDS)
    holds(run.wrong)
    assert Images(run, folder, rng, opens=False).follow(some_of(2 * QUICK_IMAGES)).wrong


def dumped(run, tbs):
    """The dump has each acknowledged request once, at the commit that its reply gave, and its
    replay gives each reply."""
    got = subprocess.run([run.tbd, "dump", run.file], capture_output=True, timeout=SECONDS)
    with open(run.file, "rb") as file:
        records = records_of(file.read())
    assert got.returncode == 0 and got.stdout[16:] == b"".join(records[1:])
    for (client, number), reply in run.first.items():
        record = records[Reply.from_bytes(reply).commit]
        assert record[16:] == run.sent[client, number], f"client {client}, request {number}"
    assert len({record[16:] for record in records[1:]}) == len(records) - 1
    replies = list(replies_in(tried.ran([tbs, "replay"], got.stdout)[1]))
    for key, reply in run.first.items():
        assert replies[Reply.from_bytes(reply).commit - 1] == reply, key


@pytest.mark.slow(reason="a control of the test of losses", seconds=5)
def test_early_replies_are_caught(tbd, folder, shim, rng):
    """A program that answers before it commits."""
    run = Run(tbd, folder, "early", rng, shim)
    lives(run, 5, "early 1")
    assert Images(run, folder, rng, opens=False).follow(some_of(1)).wrong


@pytest.mark.slow(reason="a control of the test of losses", seconds=5)
def test_early_replies_are_caught_by_kills(tbd, folder, shim, rng):
    run = Run(tbd, folder, "killed", rng)
    process = run.start()
    run.open(process)
    ended(process)
    run.shim = shim
    for _ in range(5):
        process = run.start("early 200")
        run.round(process, run.some())
        process.kill()
        ended(process)
    run.shim = ""
    process = run.start()
    for client, number in sorted(run.done.items()):
        for reply in run.ask(process, [run.sent[client, number]]):
            run.take(reply)
    ended(process)
    assert run.wrong


@pytest.mark.slow(reason="mounts and fills a file system", seconds=5)
def test_full(tbd, tbs, folder, rng):
    """A file system of 64 KiB is filled. With more room all that was acknowledged is there."""
    room = os.path.join(folder, "room")
    os.mkdir(room)
    if (
        os.geteuid()
        or subprocess.run(
            ["mount", "-t", "tmpfs", "-o", "size=64k", "none", room], capture_output=True
        ).returncode
    ):
        pytest.skip("needs root, to mount a file system")
    try:
        run = Run(tbd, room, "full", rng)
        process = run.start()
        run.open(process)
        for _ in range(1000):
            if not run.round(process, run.some()):
                break
        with in_time(process):
            told = process.stderr.read()
        why = "the disk is full, or the file has its greatest length; free space, and start again"
        lines = f"tbd: made {run.file}\ntbd: Full: {run.file}: {why}\n"
        assert (ended(process), told.decode()) == (8, lines)
        run.file = shutil.copy(run.file, os.path.join(folder, "more.tbk"))
    finally:
        subprocess.run(["umount", room], check=True)
    process = run.start()
    for client in range(1, CLIENTS + 1):
        run.round(process, [client])
    assert not ended(process), "a start with more room ends by a fault"
    holds(run.wrong)
    dumped(run, tbs)
