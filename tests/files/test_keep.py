"""Kills the built tbd amid its work, damages its files and lets its calls fail: nothing acknowledged is lost, and nothing happens twice.

    /usr/bin/python3 -m pytest tests/files/test_keep.py [--kills N] [--flips N] [--cuts N] [--seed N]

A program that holds a reply back, or does not end, for 20 seconds (KEEP_SECONDS) fails the test with a line that names it. Clients retry as
docs/use/CLIENTS.md says: each sends one request at a time, and the same bytes again until it has the reply. Calls of the program fail or lie by
shim.c, which needs gcc. Two mutants are built too, unproved, by `rt try` in a copy, and run under strace: one that replies before it commits and one
that does not sync have to be caught.
"""
import atexit
import contextlib
import os
import pty
import re
import select
import shutil
import socket
import struct
import subprocess
import termios
import threading
import time

import pytest
import tried
from tb_client import (
    HEADER,
    Account,
    Operation,
    Reply,
    Status,
    Transfer,
    reply_length,
    request_frame,
)

from ..conftest import ROOT
from .calls import calls_of, environment
from .cases import case, drop_copies

pytestmark = pytest.mark.usefixtures("counted")

CLIENTS = 24
SECONDS = tried.from_environment(
    "KEEP_SECONDS", "20", int
)  # a reply, an end and a check that take longer are missing
CASH, SALES = 1, 2
STEP = tried.from_environment(
    "KEEP_STEP", "64", int
)  # the megabytes of a file that are read between two reports
EINTR, EIO, ENOSPC = 4, 5, 28
COPIED = "47219394"  # the CRC-32C of the torn bytes of a case
CLOSED = b"\x5a\xc3\x96\x69"  # the latch that ends the records
FAILED = ": a read or write failed; look at the disk, and start again"


# A server, and the clients before it


def stuck(process, name):
    """Ends the test: a program did not go on in time."""
    process.kill()
    pytest.fail(f"{name}: not within {SECONDS} s")


def taken(process, count):
    """The next bytes of a program's output, or fewer if it ends before."""
    data = b""
    while len(data) < count:
        if not select.select([process.stdout], [], [], SECONDS)[0]:
            stuck(process, "a reply is there")
        piece = os.read(process.stdout.fileno(), count - len(data))
        if not piece:
            break
        data += piece
    return data


def ended(process):
    """The status of a program that ends."""
    try:
        return process.wait(SECONDS)
    except subprocess.TimeoutExpired:
        return stuck(process, "the program ends")


class Client:
    """A client that sends one request at a time."""

    def __init__(self, number):
        self.number = number
        self.session = 0
        self.request = 0
        self.made = 0
        self.frame = None  # what was sent and not answered
        self.first = None  # the last request, and the first reply to it

    def next_frame(self):
        """The request that is in doubt, or a new one."""
        if self.frame is None:
            if not self.session:
                self.frame = request_frame(self.number, 0, 0, Operation.register)
            else:
                self.request += 1
                transfer = Transfer(
                    self.number << 32 | self.request, CASH, SALES, 1, ledger=700, code=10
                )
                self.frame = request_frame(
                    self.number,
                    self.session,
                    self.request,
                    Operation.create_transfers,
                    transfer.to_bytes(),
                )
        return self.frame

    def take(self, reply):
        """Takes the reply to the request in doubt. What is wrong with it, or None."""
        answer = Reply.from_bytes(reply)
        if answer.status != Status.Reply or answer.client != self.number:
            return f"client {self.number}: {answer}"
        if not self.session:
            self.session = answer.session
        elif answer.items:
            return f"client {self.number}, request {self.request}: {answer.items}"
        else:
            self.made += 1
        self.first, self.frame = (self.frame, reply), None
        return None


class Ledger:
    """A file, the clients that use it, and what is known of both."""

    def __init__(self, tbd, folder, name="ledger"):
        self.tbd = tbd
        self.file = os.path.join(folder, f"{name}.tbk")
        self.clients = [Client(1000 + n) for n in range(CLIENTS)]
        self.moment = 1
        self.wrong = []
        self.answered = 0
        self.opener = Client(7)

    def start(self, shim=None, **how):
        """The program over the file; how the shim of its calls is given is in calls.py."""
        drop_copies(self.file)
        words = [self.tbd, "run", self.file, "64"]
        env = environment(shim, self.file, **how) if shim else None
        streams = dict.fromkeys(("stdin", "stdout", "stderr"), subprocess.PIPE)
        return subprocess.Popen(words, env=env, **streams)

    def pair(self, frame):
        self.moment += 1
        return struct.pack("<Q", self.moment) + frame

    def send(self, process, frames):
        """Sends frames; a program that has ended takes no frame."""
        try:
            process.stdin.write(b"".join(self.pair(frame) for frame in frames))
            process.stdin.flush()
        except (BrokenPipeError, ValueError):
            pass

    @staticmethod
    def reply(process):
        """The next whole reply, or None at the end."""
        header = taken(process, HEADER)
        if len(header) < HEADER:
            return None
        body = taken(process, reply_length(header) - HEADER)
        return header + body if len(header + body) == reply_length(header) else None

    def round(self, process, clients, kill_after=None):
        """Each of the clients sends, and takes its reply. False if the program ended."""
        timer = threading.Timer(kill_after, process.kill) if kill_after is not None else None
        self.send(process, [it.next_frame() for it in clients])
        if timer:
            timer.start()
        for it in clients:
            reply = self.reply(process)
            if reply is None:
                break
            self.answered += 1
            wrong = it.take(reply)
            if wrong:
                self.wrong.append(wrong)
        else:
            if timer:
                timer.join()
            return timer is None
        if timer:
            timer.join()
        return False

    def again(self, process, it):
        """A client sends its last request again: the reply is the first one."""
        if it.first and it.frame is None:
            self.send(process, [it.first[0]])
            reply = self.reply(process)
            if reply is not None and reply != it.first[1]:
                self.wrong.append(f"client {it.number}: another reply to a repeat")

    def open_accounts(self):
        """Two accounts, made by a client of their own."""
        process = self.start()
        self.opener.frame = request_frame(7, 0, 0, Operation.register)
        self.round(process, [self.opener])
        body = (
            Account(CASH, ledger=700, code=10).to_bytes()
            + Account(SALES, ledger=700, code=10).to_bytes()
        )
        self.send(
            process, [request_frame(7, self.opener.session, 1, Operation.create_accounts, body)]
        )
        case("accounts are made", not Reply.from_bytes(self.reply(process)).items)
        process.stdin.close()
        case("status 0 at the end", ended(process) == 0)

    def settle(self, name):
        """All that is in doubt is sent again, and the sums are those of the transfers that were acknowledged."""
        process = self.start()
        clients = [it for it in self.clients if it.frame is not None]
        self.round(process, clients)
        for it in self.clients:
            self.again(process, it)
        self.opener.request = 2
        self.send(
            process,
            [
                request_frame(
                    7,
                    self.opener.session,
                    2,
                    Operation.lookup_accounts,
                    struct.pack("<QQ", SALES, 0),
                )
            ],
        )
        sales = Reply.from_bytes(self.reply(process)).items[0]
        process.stdin.close()
        status = ended(process)
        made = sum(it.made for it in self.clients)
        entries = 3 + sum(it.request + bool(it.session) for it in self.clients)
        told = check(self.tbd, self.file)
        well = (
            status == 0
            and not self.wrong
            and sales.credits_posted == made
            and told.get("entries") == entries
        )
        case(
            name,
            well,
            f"status {status}, {made} acknowledged, {sales.credits_posted} posted, {entries} entries, {told}, {self.wrong[:3]}",
        )


def check(tbd, file, shim=None, fault=""):
    """What `tbd check` prints, and its status."""
    env = environment(shim, file, fault=fault) if shim else None
    ran = subprocess.run(
        [tbd, "check", file], capture_output=True, text=True, env=env, timeout=SECONDS
    )
    told = {
        name: int(number)
        for name, number in re.findall(r"^([a-z_ ]+) (\d+)(?:, .*)?$", ran.stdout, re.M)
    }
    return {"status": ran.returncode, "said": ran.stderr.strip(), **told}


# Cases


@pytest.mark.slow(reason="kills the server a thousand times", seconds=600)
def test_kills(tbd, folder, rng, pytestconfig):
    """The program is killed amid rounds, at random moments."""
    count = pytestconfig.getoption("kills") or 1000
    ledger = Ledger(tbd, folder, "kills")
    ledger.open_accounts()
    began = time.monotonic()
    for number in range(count):
        process = ledger.start()
        for _ in range(rng.randrange(3)):
            ledger.round(process, rng.sample(ledger.clients, rng.randint(1, CLIENTS)))
        ledger.again(process, rng.choice(ledger.clients))
        ledger.round(process, rng.sample(ledger.clients, CLIENTS), kill_after=rng.uniform(0, 0.003))
        process.kill()
        process.wait()
        for stream in (process.stdin, process.stdout, process.stderr):
            try:
                stream.close()
            except BrokenPipeError:
                pass
        if (number + 1) % 100 == 0:
            print(
                f"{number + 1} kills, {ledger.answered} requests answered, {time.monotonic() - began:.0f} s",
                flush=True,
            )
    ledger.settle(f"{count} kills: nothing acknowledged is lost, nothing is twice")


def faulty(tbd, folder, shim, fault, status, name):
    """A life with a fault, and then one without."""
    ledger = Ledger(tbd, folder, name.replace(" ", "_"))
    ledger.open_accounts()
    process = ledger.start(shim, fault=fault)
    for _ in range(40):
        if not ledger.round(process, ledger.clients):
            break
    try:
        process.stdin.close()
    except BrokenPipeError:
        pass
    found = ended(process)
    case(
        f"{name}: status",
        found == status,
        f"{found} for {status}: {process.stderr.read().decode()}",
    )
    ledger.settle(f"{name}: nothing is lost, nothing is twice")
    os.unlink(ledger.file)


@pytest.mark.slow(reason="fails each call of a run under load", seconds=120)
def test_faults(tbd, folder, shim):
    """Calls on the file that fail once, or take a part."""
    for number in range(1, 51):
        # The first are those of the opening, of the file and of its folder.
        faulty(tbd, folder, shim, f"sync {number} {EIO}", 9, f"sync {number} fails")
    for number in range(1, 9):
        faulty(tbd, folder, shim, f"write {number} {EIO}", 1, f"write {number} fails")
        # The first call is the cut of the opening.
        for part in (0, 1, 7, 100) if number > 1 else ():
            faulty(
                tbd,
                folder,
                shim,
                f"torn {number} {part} {EIO}",
                1,
                f"write {number} is cut after {part} bytes",
            )
            faulty(
                tbd,
                folder,
                shim,
                f"die {number} {part}",
                -9,
                f"killed in write {number} after {part} bytes",
            )
            faulty(
                tbd,
                folder,
                shim,
                f"short {number} {part}",
                0,
                f"write {number} takes {part} bytes first",
            )
    for limit in (2000, 5000, 5001, 20000):
        faulty(tbd, folder, shim, f"full {limit}", 8, f"the disk is full at {limit} bytes")


def unread(path):
    """The lines of a file of which a read failed: while it was opened, and later."""
    return f"tbd: Device: {path}", f"tbd: Device: {path}{FAILED}"


@pytest.mark.slow(reason="fails each read of a start", seconds=20)
def test_reads(tbd, folder, shim, data):
    """Reads of the file that fail once, are interrupted once, or give few bytes."""
    path = os.path.join(folder, "read.tbk")
    with open(path, "wb") as file:
        file.write(data)
    sound = check(tbd, path)
    number = 1
    while (told := check(tbd, path, shim, f"read {number} {EIO}"))["status"]:
        case(
            f"read {number} fails: Device",
            told["status"] == 1 and told["said"] in unread(path),
            told,
        )
        case(
            f"read {number} is interrupted: read again",
            check(tbd, path, shim, f"read {number} {EINTR}") == sound,
        )
        number += 1
    case("reads that failed were some", number > 3, f"{number - 1}")
    for count in (1, 7, 100, 4096):
        case(
            f"reads that give {count} bytes at most",
            check(tbd, path, shim, f"few {count}") == sound,
        )
    for number in (1, 2, 3):
        faulty(tbd, folder, shim, f"read {number} {EIO}", 1, f"read {number} of a start fails")
    for count in (1, 100):
        faulty(
            tbd, folder, shim, f"few {count}", 0, f"a start whose reads give {count} bytes at most"
        )


def logged(log):
    """The calls that the shim wrote down: a letter each, and whether it opens a latch."""
    return [(it.kind, it.opens_a_latch) for it in calls_of(log) if it.kind in "WTSO"]


def traced(log):
    """The same by strace, of the process that wrote to a file."""
    with open(log, encoding="utf-8", errors="replace") as file:
        lines = [line.split(None, 1) for line in file]
    program = next((number for number, said in lines if said.startswith("pwrite64(")), None)
    for number, said in lines:
        found = (
            re.match(r"(pwrite64|ftruncate|fdatasync|fsync|write\(1,)", said)
            if number == program
            else None
        )
        if found:
            yield {"p": "W", "w": "O"}.get(
                said[0], "T" if said.startswith("ft") else "S"
            ), '"\\377\\377\\377\\377", 4, ' in said


def told_early(calls):
    """How often a reply was sent before the commit that it rests on was durable. Each reply has one: a latch that is opened, and synced."""
    waits, opened, committed, early, told = False, 0, 0, 0, 0
    for letter, opens in calls:
        if letter in "WT":
            waits, opened = True, opened + opens
        elif letter == "S":
            waits, committed = False, opened
        else:
            told += 1
            early += waits or committed < told
    return early, told


CONTROLS = {"no sync": {"mutant": "no-sync"}, "a reply before": {"fault": "early 1"}}


@pytest.mark.parametrize("control", [None, *CONTROLS])
@pytest.mark.slow(reason="serves 20 rounds under a library that writes its calls down", seconds=5)
def test_orders(tbd, folder, shim, control):
    """Each reply comes after the sync of its entry; a control that does not has to be caught."""
    ledger = Ledger(tbd, folder, "order")
    ledger.open_accounts()
    log = os.path.join(folder, "order.log")
    process = ledger.start(shim, log=log, **CONTROLS.get(control, {}))
    for _ in range(20):
        ledger.round(process, ledger.clients)
    process.stdin.close()
    ended(process)
    early, told = told_early(logged(log))
    case(f"{early} of {told} replies", told >= 20 and (early > 0) == (control is not None))


# Mutants: the program's own body, in which nothing is to be caught, one that replies before it commits, and one that does not sync.
BUILDS = (
    (
        "the program as it is",
        "crates/tb_file/src/rounds.rt",
        "keeper.journal.commit()?;",
        "keeper.journal.commit()?;",
    ),
    (
        "replies before it commits",
        "crates/tb_file/src/rounds.rt",
        "keeper.journal.commit()?;",
        "hand_out(replies, writer)?; keeper.journal.commit()?;",
    ),
    (
        "does not sync",
        "crates/tb_file_journal/src/journals.rt",
        "Ok(()) => device.sync(),",
        "Ok(()) => Ok(()),",
    ),
)


def test_texts_of_builds():
    """Whether the text of each is in its file once."""
    for name, path, old, _ in BUILDS:
        case(f"{name}: its text is in {path} once", (ROOT / path).read_text().count(old) == 1)


@pytest.mark.slow(reason="builds two mutants of `tbd`", seconds=300)
def test_builds(tbd, folder):
    """Builds them in a copy, unproved, and serves the first script over a file without entries."""
    copy, log = os.path.join(folder, "copy"), os.path.join(folder, "calls")
    shutil.copytree(ROOT, copy, ignore=shutil.ignore_patterns("out", ".git", "target"))
    for name, path, old, new in BUILDS:
        with open(f"{copy}/{path}", encoding="utf-8") as file:
            text = file.read()
        with open(f"{copy}/{path}", "w", encoding="utf-8") as file:
            file.write(text.replace(old, new))
        kept = os.path.join(folder, "built.tbk")
        subprocess.run([tbd, "run", kept, "2"], stdin=subprocess.DEVNULL, check=True)
        words = [
            "strace",
            "-f",
            "-qq",
            "-s",
            "4",
            "-e",
            "trace=pwrite64,ftruncate,fdatasync,fsync,write",
            "-o",
            log,
            "rt",
            "try",
            "--",
            "run",
            kept,
            "2",
        ]
        with open(f"{ROOT}/examples/first.script", "rb") as script:
            ran = subprocess.run(
                words, cwd=f"{copy}/crates/tbd", stdin=script, capture_output=True, check=False
            )
        early, told = told_early(traced(log))
        well = ran.returncode == 0 and told > 0 and (early > 0) == (old != new)
        case(
            f"a build: {name}",
            well,
            f"status {ran.returncode}, {early} of {told} sent early: {ran.stderr[-500:].decode(errors='replace')}",
        )
        print(f"a build: {name}: {early} of {told} sent early", flush=True)
        with open(f"{copy}/{path}", "w", encoding="utf-8") as file:
            file.write(text)
        os.unlink(kept)


def in_latch(at, latches):
    """Whether a byte is one of a latch."""
    return any(latch <= at < latch + 4 for latch in latches)


def sample(tbd, folder):
    """A file of some rounds, and where its latches are."""
    ledger = Ledger(tbd, folder, "sample")
    ledger.open_accounts()
    process = ledger.start()
    for _ in range(3):
        ledger.round(process, ledger.clients)
    process.stdin.close()
    ended(process)
    with open(ledger.file, "rb") as file:
        data = file.read()
    latches, at = [], 8
    while data[at : at + 4] != CLOSED:
        latches.append(at)
        at += 11 + int.from_bytes(data[at + 4 : at + 7], "little")
    return data, latches + [at], check(tbd, ledger.file)["entries"]


@pytest.fixture
def tbd(program):
    return str(program("tbd"))


@pytest.fixture
def words_file(tbd, folder):
    """words.tbk: a file of one register."""
    told_of(tbd, folder, ["run", "words.tbk", "3"], pair_of_a_register())


@pytest.fixture
def kept(tbd, folder):
    return sample(tbd, folder)


@pytest.fixture
def data(kept, folder):
    """The bytes of a file of some rounds, which is sound.tbk too."""
    with open(os.path.join(folder, "sound.tbk"), "wb") as file:
        file.write(kept[0])
    return kept[0]


@pytest.fixture
def latches(kept):
    """The places of its latches."""
    return kept[1]


@pytest.fixture
def entries(kept):
    return kept[2]


def look_at(tbd, path, data):
    with open(path, "wb") as file:
        file.write(data)
    told = check(tbd, path)
    with open(path, "rb") as file:
        told["same"] = file.read() == data
    return told


# Words that are not one of the program's forms, and what is reported for them.
WORDS = [
    ("run ledger.tbk 65", "run ledger.tbk 65: CLIENTS_MAX is 1 to 64"),
    ("run ledger.tbk 65 1", "run ledger.tbk 65: CLIENTS_MAX is 1 to 64"),
    ("run ledger.tbk 2 3", "run ledger.tbk 2 3: PROFILE is 1 or 2"),
    ("run ledger.tbk", "run ledger.tbk: CLIENTS_MAX is missing, 1 to 64"),
    ("check", "check: FILE is missing"),
    (
        "run ledger.tbk 2 1 --reports",
        "run ledger.tbk 2 1 --reports: unknown option; those of run are --existing, --progress and --drop-torn",
    ),
    ("check ledger.tbk 2", "check ledger.tbk 2: too many words"),
    ("serve", "serve: unknown; --help shows the forms"),
]


def told_of(tbd, folder, words, data=b"", output=subprocess.PIPE, **how):
    """The status of words, what goes to the output, and what is reported."""
    ran = subprocess.run(
        [tbd, *words],
        cwd=folder,
        input=data,
        stdout=output,
        stderr=subprocess.PIPE,
        timeout=SECONDS,
        check=False,
        **how,
    )
    return ran.returncode, ran.stdout, ran.stderr.decode()


def pair_of_a_register():
    return struct.pack("<Q", 5) + request_frame(7, 0, 0, Operation.register)


@pytest.mark.parametrize("words, line", WORDS, ids=[it[0] or "none" for it in WORDS])
def test_told_of_wrong_words(tbd, folder, words, line):
    told = told_of(tbd, folder, words.split())
    case("its line", told == (2, b"", f"tbd: Usage: {line}\n"), told)


@pytest.mark.parametrize("form", ["run", "dump", "check", "salvage", "backup"])
def test_the_page_of_a_form(tbd, folder, form):
    status, page, reported = told_of(tbd, folder, [form, "words.tbk", "--help"])
    first = f"Usage: tbd FORM\n\n  {form} FILE"
    well = (status, reported) == (0, "") and page.decode().startswith(first)
    case("its page", well, (status, page, reported))


def test_told_of_words(tbd, folder):
    """What is reported of words that are no text, of output that is lost, and of a file that this
    user may not read."""
    told = told_of(tbd, folder, ["check", b"\xff"])
    case("a word that is no text", told == (2, b"", "tbd: Usage: a word is not UTF-8\n"), told)
    told = told_of(tbd, folder, ["check", "a\x1b[2J\n\x9bb"])
    case(
        "a path with an escape code",
        told == (1, b"", "tbd: Device: cannot find a?[2J??b; look at its name and at its folder\n"),
        told,
    )
    told = told_of(tbd, folder, ["serve\x07"])
    case(
        "a word with a control character",
        told == (2, b"", "tbd: Usage: serve?: unknown; --help shows the forms\n"),
        told,
    )
    words = ["run", "--drop-torn", "words.tbk", "--existing", "3", "--progress"]
    told = told_of(tbd, folder, words)
    line = "tbd: Device: cannot find words.tbk; look at its name and at its folder\n"
    case("three options between the operands", told == (1, b"", line), told)
    told_of(tbd, folder, ["run", "words.tbk", "3"], pair_of_a_register())
    for form in ("dump", "check"):
        with open("/dev/full", "wb") as full:
            told = told_of(tbd, folder, [form, "words.tbk"], output=full)
        case(f"lost output of {form}", told == (1, None, "tbd: Device: standard output\n"), told)
    if os.geteuid() == 0:
        os.chmod(folder, 0o755)
        copy = shutil.copy(tbd, os.path.join(folder, "copy"))
        os.chmod(copy, 0o755)
        told = told_of(copy, folder, ["check", "words.tbk"], user=65534)
        case(
            "no permission",
            told
            == (
                1,
                b"",
                "tbd: Device: no permission to open words.tbk; change its mode or its folder's, or run tbd as a user that may\n",
            ),
            told,
        )


def test_lost_replies(tbd, folder):
    """A `run` whose output is lost ends at the first reply, though more input may come."""
    with open("/dev/full", "wb") as full:
        process = subprocess.Popen(
            [tbd, "run", "lost.tbk", "3"],
            cwd=folder,
            stdin=subprocess.PIPE,
            stdout=full,
            stderr=subprocess.PIPE,
        )
    process.stdin.write(pair_of_a_register())
    process.stdin.flush()
    told = ended(process), process.stderr.read()
    case(
        "lost output of run",
        told == (1, b"tbd: made lost.tbk\ntbd: Device: standard output\n"),
        told,
    )
    process.stdin.close()


@pytest.mark.usefixtures("words_file")
def test_told_of_ends(tbd, folder):
    """What is reported of torn bytes that are cut off, and that nothing is written of a file that is damaged."""
    with open(os.path.join(folder, "words.tbk"), "rb") as file:
        data = file.read()
    with open(os.path.join(folder, "torn.tbk"), "wb") as file:
        file.write(data + b"\0\2\0")
    told = check(tbd, os.path.join(folder, "torn.tbk"))
    case("what is reported of torn bytes", told["bytes after the records"] == 3, told)
    told = told_of(tbd, folder, ["run", "torn.tbk", "3"])
    case(
        "torn bytes are reported",
        told
        == (
            0,
            b"",
            f"tbd: copied 3 bytes, from byte {len(data)} on, 0 whole entries,"
            f" to torn.tbk.cut-{len(data)}-{COPIED}\n"
            f"tbd: cut 3 bytes of a batch that was not committed, after byte {len(data) - 4}\n",
        ),
        told,
    )
    with open(os.path.join(folder, "turned.tbk"), "wb") as file:
        file.write(data[:-2] + bytes([data[-2] ^ 1]) + data[-1:])
    told = told_of(tbd, folder, ["dump", "turned.tbk"])
    case("nothing is written of a damaged file", told[:2] == (6, b""), told)
    told = told_of(tbd, folder, ["run", "turned.tbk", "3"], pair_of_a_register())
    case("nothing is served over a damaged file", told[:2] == (6, b""), told)


@pytest.mark.slow(reason="fails each read of a dump", seconds=20)
@pytest.mark.usefixtures("words_file")
def test_failing_dumps(tbd, folder, shim):
    """A read that fails, at each place in turn, ends a dump in Device; once no read is left to
    fail, the dump is whole."""
    path, number = os.path.join(folder, "words.tbk"), 0
    whole = told_of(tbd, folder, ["dump", path])
    status = 1
    while status:
        number += 1
        env = environment(shim, path, fault=f"read {number} {EIO}")
        told = told_of(tbd, folder, ["dump", path], env=env)
        status = told[0]
        case(
            f"read {number} of a dump fails",
            status == 0 or status == 1 and told[2].rstrip("\n") in unread(path),
            told,
        )
    case("a dump whose reads do not fail is whole", told == whole and number > 3, (number, told))


def test_told_by_check(tbd, folder):
    """What is reported of a file that is not there, and of one of each profile, with a register."""
    absent = os.path.join(folder, "absent.tbk")
    told = check(tbd, absent)
    case(
        "a file that is not there",
        told["status"] == 1 and absent in told["said"] and not os.path.exists(absent),
        told,
    )
    for profile in (1, 2):
        path = os.path.join(folder, f"profile{profile}.tbk")
        told_of(tbd, folder, ["run", path, "3", str(profile)], pair_of_a_register())
        told = check(tbd, path)
        wanted = {
            "status": 0,
            "said": "",
            "records": 2,
            "entries": 1,
            "profile": profile,
            "clients_max": 3,
            "last time": 5,
            "bytes after the records": 0,
        }
        case(f"what is reported of profile {profile}", told == wanted, told)


# Files that are read while they are served, and files that may only be read


def rounds_until(ledger, process, stop):
    """Rounds of all clients, until they are to stop: no more than a hundred a second, so that a file stays short on a slow machine."""
    while not stop.is_set() and ledger.round(process, ledger.clients):
        stop.wait(0.01 * tried.LONGER)


@contextlib.contextmanager
def under_load(ledger):
    """A server, and rounds of all clients until this ends, however it ends."""
    process, stop = ledger.start(), threading.Event()
    load = threading.Thread(target=rounds_until, args=(ledger, process, stop))
    load.start()
    try:
        yield
    finally:
        stop.set()
        load.join()
        process.stdin.close()
        ended(process)


def dumped(tbd, folder, path, **how):
    """The dump of a file, or None."""
    status, dump, said = told_of(tbd, folder, ["dump", path], **how)
    return dump if status == 0 and said == "" else None


@pytest.mark.slow(reason="waits for looks at a file that grows", seconds=30)
def test_looks(tbd, folder):
    """Dumps and checks next to a server under load: no form is refused, and each dump is a prefix of the next."""
    ledger = Ledger(tbd, folder, "live")
    ledger.open_accounts()
    dumps, told = [], []
    with under_load(ledger):
        for _ in range(12):
            dumps.append(dumped(tbd, folder, ledger.file))
            told.append(check(tbd, ledger.file))
    dumps.append(dumped(tbd, folder, ledger.file))
    well = None not in dumps and dumps[0] != dumps[-1]
    case("dumps next to a server", well, [it and len(it) for it in dumps])
    case(
        "each dump is a prefix of the next",
        well and all(later.startswith(it) for it, later in zip(dumps, dumps[1:])),
    )
    case(
        "no dump ends within an entry", well and all(entry_ends(it)[-1] == len(it) for it in dumps)
    )
    case(
        "checks next to a server",
        all(it["status"] == 0 and it["said"] == "" for it in told),
        told[:2],
    )
    entries = [it.get("entries", 0) for it in told]
    case("each check finds what the one before found", entries == sorted(entries), entries)


READ_ONLY = 'mount --bind "$1" "$1" && mount -o remount,bind,ro "$1" && shift && exec "$@"'
NOBODY = 65534


def on_a_read_only_mount(tbd, place, wanted):
    """The same on a mount that is read-only for everyone, in a namespace of its own."""
    words = ["unshare", "-rm", "sh", "-c", READ_ONLY, "sh", place]
    tried_out = [*words, "sh", "-c", '! touch "$0"', f"{place}/kept.tbk"]
    if (
        not shutil.which("unshare")
        or subprocess.run(tried_out, capture_output=True, check=False).returncode
    ):
        print("passed over: a read-only mount: none can be made here")
        return
    told = told_of(words[0], place, [*words[1:], tbd, "dump", f"{place}/kept.tbk"])
    case("a dump on a read-only mount", told == (0, wanted, ""), told)
    told = told_of(words[0], place, [*words[1:], tbd, "check", f"{place}/kept.tbk"])
    case("a check on a read-only mount", told[0] == 0 and told[2] == "", told)


def test_read_only(tbd, folder):
    """A file and a folder that may only be read, by a user that may not write to them."""
    place = os.path.join(folder, "shelf")
    os.mkdir(place)
    told_of(tbd, place, ["run", "kept.tbk", "3"], pair_of_a_register())
    path = os.path.join(place, "kept.tbk")
    case(
        "a new file has mode 0600",
        os.stat(path).st_mode & 0o777 == 0o600,
        oct(os.stat(path).st_mode),
    )
    wanted = dumped(tbd, place, "kept.tbk")
    copy, how = shutil.copy(tbd, os.path.join(folder, "tbd_copy")), {}
    os.chmod(copy, 0o755)
    os.chmod(folder, 0o755)
    if os.geteuid() == 0:
        how = {"user": NOBODY, "group": NOBODY, "extra_groups": []}
    os.chmod(place, 0o555)
    # the file of another user, and one of the reader's own
    for owner, mode in ((0, 0o444), (NOBODY, 0o400)):
        if how:
            os.chown(path, owner, owner)
        os.chmod(path, mode)
        case(
            f"a dump of a file of mode {mode:o}",
            wanted and dumped(copy, place, "kept.tbk", **how) == wanted,
        )
        told = told_of(copy, place, ["check", "kept.tbk"], **how)
        case(f"a check of a file of mode {mode:o}", told[0] == 0 and told[2] == "", told)
        told = told_of(copy, place, ["run", "kept.tbk", "3"], **how)
        case(
            f"a file of mode {mode:o} is not served",
            told
            == (
                1,
                b"",
                "tbd: Device: no permission to open kept.tbk; change its mode or its folder's, or run tbd as a user that may\n",
            ),
            told,
        )
    os.chmod(place, 0o755)
    if how:
        os.chown(path, 0, 0)
    os.chmod(path, 0o600)
    on_a_read_only_mount(tbd, place, wanted)


@pytest.mark.usefixtures("words_file")
def test_names(tbd, folder):
    """Names of what is no regular file."""
    os.symlink(os.path.join(folder, "nowhere.tbk"), os.path.join(folder, "link.tbk"))
    os.mkfifo(os.path.join(folder, "pipe.tbk"))
    os.mkdir(os.path.join(folder, "folder.tbk"))
    for form in (["run", "link.tbk", "3"], ["check", "link.tbk"], ["dump", "link.tbk"]):
        told = told_of(tbd, folder, form)
        case(
            f"a link to nothing: {form[0]}",
            told
            == (
                1,
                b"",
                "tbd: Device: link.tbk is a link to nothing; remove it, or make the file that it names\n",
            ),
            told,
        )
    case(
        "no file is made through a link to nothing",
        not os.path.exists(os.path.join(folder, "nowhere.tbk")),
    )
    for name in ("pipe.tbk", "folder.tbk", "/dev/null"):
        for form in (["check", name], ["dump", name], ["run", name, "3"]):
            told = told_of(tbd, folder, form)
            case(
                f"no regular file: {' '.join(form)}",
                told == (1, b"", f"tbd: Device: {name} is no regular file; give the name of one\n"),
                told,
            )
    os.symlink(os.path.join(folder, "words.tbk"), os.path.join(folder, "good.tbk"))
    told = told_of(tbd, folder, ["check", "good.tbk"])
    case("a link to a file", told[0] == 0, told)
    with open(os.path.join(folder, "dump.tbs"), "wb") as file:
        file.write(dumped(tbd, folder, "words.tbk"))
    told = told_of(tbd, folder, ["dump", "dump.tbs"])
    case(
        "a dump is no ledger",
        told
        == (
            5,
            b"",
            "tbd: NotAJournal: dump.tbs is a dump; tbs replay and telovamish dump read it\n",
        ),
        told,
    )
    told = told_of(tbd, folder, ["run", "words.tbk", "4", "2"])
    line = "tbd: OtherRules: words.tbk was made with CLIENTS_MAX 3 and PROFILE 1, not with CLIENTS_MAX 4 and PROFILE 2\n"
    case("other rules are reported", told == (7, b"", line), told)


def test_reported(tbd, folder):
    """Starts that are reported."""
    told = told_of(tbd, folder, ["run", "reported.tbk", "3", "--progress"], pair_of_a_register())
    case(
        "a start that is reported",
        (told[0], told[2]) == (0, "tbd: made reported.tbk\ntbd: ready: commit 0, time 0\n"),
        told,
    )
    told = told_of(tbd, folder, ["run", "reported.tbk", "3"])
    case("a start that is not", told == (0, b"", ""), told)


@pytest.mark.slow(reason="starts over files of hundreds of megabytes", seconds=60)
def test_long_starts(tbd, folder):
    """A start over more than some megabytes: its progress is reported if that is asked for, and otherwise nothing."""
    wrong = Transfer(1, CASH, SALES, 1, ledger=700, code=10).to_bytes() * 8190
    frames = [
        request_frame(7, 1, number, Operation.create_transfers, wrong)
        for number in range(1, STEP + 1)
    ]
    script = pair_of_a_register() + b"".join(struct.pack("<Q", 5) + it for it in frames)
    path = os.path.join(folder, "long.tbk")
    told = []
    for words, data in ((), script), (("--progress",), b""), ((), b""):
        words = [tbd, "run", "long.tbk", "3", *words]
        ran = subprocess.run(
            words,
            cwd=folder,
            input=data,
            stdout=subprocess.DEVNULL,
            stderr=subprocess.PIPE,
            timeout=10 * SECONDS,
            check=False,
        )
        told.append((ran.returncode, ran.stderr.decode()))
    length = os.path.getsize(path)
    size = length // 10**6
    case(
        f"a file of more than {STEP} MB",
        told[0] == (0, "tbd: made long.tbk\n") and length > STEP * 10**6,
        (told[0], length),
    )
    lines = rf"tbd: reading long.tbk, 0 of {size} MB\ntbd: reading long.tbk, ({STEP}|{STEP + 1}) of {size} MB\ntbd: ready: commit [0-9]+, time [0-9]+\n"
    case(
        "a long start that is reported",
        told[1][0] == 0 and re.fullmatch(lines, told[1][1]),
        told[1],
    )
    case("a long start that is not", told[2] == (0, ""), told[2])
    os.unlink(path)


def terminal():
    """Both ends of a terminal that shows bytes as they are."""
    master, slave = pty.openpty()
    settings = termios.tcgetattr(slave)
    settings[1] &= ~termios.OPOST
    settings[3] &= ~termios.ECHO
    termios.tcsetattr(slave, termios.TCSANOW, settings)
    return master, slave


@pytest.mark.slow(reason="starts over a long file at a terminal", seconds=30)
def test_on_terminals(tbd, folder):
    """What is reported if requests would be typed, and if lines are seen on a terminal."""
    master, slave = terminal()
    os.write(master, b"\x04")  # Ctrl-D
    ran = subprocess.run(
        [tbd, "run", "typed.tbk", "3"],
        cwd=folder,
        stdin=slave,
        capture_output=True,
        timeout=SECONDS,
        check=False,
    )
    lines = b"tbd: standard input is a terminal, and run reads request frames there; telovamish repl and telovamish script take words\ntbd: made typed.tbk\n"
    case(
        "requests from a terminal", (ran.returncode, ran.stdout, ran.stderr) == (0, b"", lines), ran
    )
    ran = subprocess.run(
        [tbd, "run", "seen.tbk", "3"],
        cwd=folder,
        stdin=subprocess.DEVNULL,
        stdout=subprocess.PIPE,
        stderr=slave,
        timeout=SECONDS,
        check=False,
    )
    shown = os.read(master, 4096) if select.select([master], [], [], SECONDS)[0] else b""
    case(
        "a start that is seen on a terminal",
        (ran.returncode, shown) == (0, b"tbd: made seen.tbk\ntbd: ready: commit 0, time 0\n"),
        ran,
    )
    os.close(slave)
    os.close(master)


def test_told_at_once(tbd, folder):
    """A line goes out in one write: it stays whole if several programs write to one file."""
    ours, theirs = socket.socketpair(socket.AF_UNIX, socket.SOCK_SEQPACKET)
    with ours:
        with theirs:
            subprocess.run(
                [tbd, "check", "absent.tbk"],
                cwd=folder,
                stderr=theirs,
                timeout=SECONDS,
                check=False,
            )
        said = ours.recv(4096)
    case(
        "a line goes out at once",
        said == b"tbd: Device: cannot find absent.tbk; look at its name and at its folder\n",
        said,
    )


# Dumps after a commit, and dumps that go on


def entry_ends(dump):
    """The end of each entry of a dump, after its head."""
    ends = [16]
    while ends[-1] < len(dump):
        at = ends[-1]
        ends.append(at + 64 + int.from_bytes(dump[at + 48 : at + 52], "little"))
    return ends


def more_of(process, count):
    """At least this many more bytes of a program's output, or fewer if it ends before or is late."""
    data, until = b"", time.monotonic() + SECONDS
    while len(data) < count and time.monotonic() < until:
        if select.select([process.stdout], [], [], 0.1)[0]:
            piece = os.read(process.stdout.fileno(), 1 << 16)
            if not piece:
                break
            data += piece
    return data


def followers(tbd, folder, path, after):
    """A dump of a file that goes on, with a head and without one."""
    words = [
        [tbd, "dump", path, "--follow"],
        [tbd, "dump", path, "--after", str(after), "--follow"],
    ]
    going = [
        subprocess.Popen(it, cwd=folder, stdout=subprocess.PIPE, stderr=subprocess.PIPE)
        for it in words
    ]
    for it in going:
        atexit.register(it.kill)  # where the script ends before them
    return going


def test_follows(tbd, folder):
    """What is written of a file that is served, killed and served again: each entry once."""
    ledger = Ledger(tbd, folder, "followed")
    ledger.open_accounts()
    process = ledger.start()
    ledger.round(process, ledger.clients)
    first = entry_ends(dumped(tbd, folder, ledger.file))
    after = len(first) - 5
    going = followers(tbd, folder, ledger.file, after)
    for _ in range(3):
        ledger.round(process, ledger.clients)
    process.kill()
    process.wait()
    process = ledger.start()
    for _ in range(3):
        ledger.round(process, ledger.clients)
    process.stdin.close()
    ended(process)
    whole = dumped(tbd, folder, ledger.file)
    ends = entry_ends(whole)
    wanted = [whole, whole[ends[after] :]]
    for name, follower, dump in zip(("--follow", "--after --follow"), going, wanted):
        data = more_of(follower, len(dump))
        case(f"{name}: each entry once", data == dump, (len(data), len(dump)))
        case(f"{name}: it goes on", follower.poll() is None, follower.poll())
        follower.terminate()
        case(f"{name}: ends by SIGTERM", ended(follower) == -15, follower.returncode)
    told = told_of(tbd, folder, ["dump", ledger.file, "--after", str(after)])
    case(
        "--after: the later entries without a head",
        told == (0, wanted[1], ""),
        (told[0], len(told[1]), told[2]),
    )
    told = told_of(tbd, folder, ["dump", ledger.file, "--after", str(len(ends))])
    case("--after a commit that is to come", told == (0, b"", ""), told)
    with open("/dev/full", "wb") as full:
        told = told_of(tbd, folder, ["dump", ledger.file, "--follow"], output=full)
    case(
        "--follow ends at a write that fails",
        told == (1, None, "tbd: Device: standard output\n"),
        told,
    )
    closed_pipe(tbd, folder, ledger)
    shorter_file(tbd, folder, ledger)


def shorter_file(tbd, folder, ledger):
    """A dump that goes on ends if its file gets shorter than what it wrote: all of it was."""
    path = shutil.copy(ledger.file, os.path.join(folder, "shorter.tbk"))
    follower, other = followers(tbd, folder, path, 0)
    other.kill()
    more_of(follower, len(dumped(tbd, folder, path)))
    os.truncate(path, 1000)
    told = ended(follower), follower.stderr.read().decode()
    case(
        "--follow of a file that gets shorter", told == (1, f"tbd: Device: {path}{FAILED}\n"), told
    )


def closed_pipe(tbd, folder, ledger):
    """A dump that goes on ends if nobody reads it any more."""
    follower, other = followers(tbd, folder, ledger.file, 0)
    other.kill()
    follower.stdout.close()
    process = ledger.start()
    ledger.round(process, ledger.clients)
    case("--follow ends where its pipe is closed", ended(follower) in (1, -13), follower.returncode)
    process.stdin.close()
    ended(process)


# Copies of files


def copied(tbd, form, path, new, **how):
    """What a form that makes a new file of a file says, and what the new file holds: None if there is no new file."""
    told = told_of(tbd, os.path.dirname(path), [form, path, new], **how)
    return told, dumped(tbd, os.path.dirname(path), new) if os.path.exists(new) else None


@pytest.mark.slow(reason="salvages damaged files", seconds=60)
def test_salvages(tbd, folder, data, latches, rng):
    """A file with a bit flipped at many places: what is before the damage is copied, and all if it is in a length; what is lost is reported."""
    count = 40
    whole, path = os.path.join(folder, "sound.tbk"), os.path.join(folder, "hurt.tbk")
    with open(whole, "wb") as file:
        file.write(data)
    dump = dumped(tbd, folder, whole)
    ends, wrong = entry_ends(dump), []
    for number in range(count):
        at = rng.choice(
            [it for it in range(latches[1], len(data) - 4) if not in_latch(it, latches)]
        )
        new = os.path.join(folder, f"new{number}.tbk")
        hurt = data[:at] + bytes([data[at] ^ 1 << rng.randrange(8)]) + data[at + 1 :]
        with open(path, "wb") as file:
            file.write(hurt)
        (status, said, line), kept = copied(tbd, "salvage", path, new)
        taken = sum(latch <= at for latch in latches) - 2
        with open(path, "rb") as file:
            same = file.read() == hurt
        latch = latches[taken + 1]
        got = len(ends) - 1 if at - latch < 7 else taken
        left = 0 if got > taken else len(data) - latch - 4
        report = f"entries {got}\nlast commit {got}\n".encode()
        lost = f"\nbytes lost {left} after byte {latch}: Damaged: ".encode()
        on = f"\nread on {got - taken} of the entries from byte {latch}\n".encode()
        missing = f"tbd: Damaged: {path}: {left} bytes after byte {latch} were not copied; restore a backup, or enter again what is missing\n"
        well = (status, line) == ((6, missing) if left else (0, ""))
        well = well and said.startswith(report) and lost in said and same
        well = well and said.endswith(on) == (got > taken)
        if not well or kept != dump[: ends[got]]:
            wrong.append((at, status, said, line))
    case(f"{count} damaged files salvaged", not wrong, wrong[:2])
    told, kept = copied(tbd, "backup", path, os.path.join(folder, "part.tbk"))
    case("a damaged file is not whole", told[0] == 6 and told[2].startswith("tbd: Damaged: "), told)
    case("it has no backup", kept is None, kept and len(kept))


def test_sound_copies(tbd, folder, data):
    """Copies of a whole file and of one with a torn end are equal to it, only for the owner, and can be served."""
    whole = os.path.join(folder, "sound.tbk")
    dump = dumped(tbd, folder, whole)
    entries = len(entry_ends(dump)) - 1
    for form in ("salvage", "backup"):
        for torn in (b"", b"\0\2\0"):
            path, new = os.path.join(folder, "torn.tbk"), os.path.join(
                folder, f"{form}{len(torn)}.tbk"
            )
            with open(path, "wb") as file:
                file.write(data + torn)
            (status, said, line), kept = copied(tbd, form, path, new)
            behind = f"bytes after the records {len(torn)}{', not committed yet or torn' if torn else ''}\n"
            well = (
                (status, line) == (0, "")
                and said.startswith(f"entries {entries}\n".encode())
                and said.endswith(behind.encode())
            )
            case(
                f"{form} of a file with {len(torn)} torn bytes",
                well and kept == dump,
                (status, said, line),
            )
            case(
                f"{form}: mode 0600",
                os.stat(new).st_mode & 0o777 == 0o600,
                oct(os.stat(new).st_mode),
            )
            told = told_of(tbd, folder, ["run", new, "64"])
            case(f"{form}: it can be served", told == (0, b"", ""), told)


@pytest.fixture
def shelf(folder, words_file):
    """A folder with what no copy is made of, and with names that no copy may have."""
    with open(os.path.join(folder, "letter.txt"), "w", encoding="utf-8") as file:
        file.write("to whom it may concern\n")
    os.symlink(os.path.join(folder, "target.tbk"), os.path.join(folder, "to_nothing.tbk"))
    os.mkdir(os.path.join(folder, "folder.tbk"))
    for name, data in (("taken.tbk", b"another file"), ("no_byte.tbk", b"")):
        with open(os.path.join(folder, name), "wb") as file:
            file.write(data)
    return folder


ANOTHER_NAME = "exists; give the name of one that is not there"
NO_COPIES = [
    ("letter.txt new.tbk", 5, "NotAJournal: letter.txt is a text"),
    (
        "absent.tbk new.tbk",
        1,
        "Device: cannot find absent.tbk; look at its name and at its folder",
    ),
    ("folder.tbk new.tbk", 1, "Device: folder.tbk is no regular file; give the name of one"),
    ("words.tbk taken.tbk", 2, f"Usage: taken.tbk {ANOTHER_NAME}"),
    ("words.tbk no_byte.tbk", 2, f"Usage: no_byte.tbk {ANOTHER_NAME}"),
    ("words.tbk words.tbk", 2, f"Usage: words.tbk {ANOTHER_NAME}"),
    ("words.tbk to_nothing.tbk", 2, f"Usage: to_nothing.tbk {ANOTHER_NAME}"),
    (
        "words.tbk nowhere/new.tbk",
        1,
        "Device: cannot find nowhere/new.tbk; look at its name and at its folder",
    ),
    ("words.tbk 64", 2, "Usage: FORM words.tbk 64: NEW is a number; write ./NEW"),
    ("words.tbk", 2, "Usage: FORM words.tbk: NEW is missing"),
    ("words.tbk new.tbk more", 2, "Usage: FORM words.tbk new.tbk more: too many words"),
]


@pytest.mark.parametrize("words, status, line", NO_COPIES, ids=[it[0] for it in NO_COPIES])
@pytest.mark.parametrize("form", ["salvage", "backup"])
def test_copies_of_no_ledger(tbd, shelf, form, words, status, line):
    """Nothing is made of what is no ledger, or of names that cannot be."""
    before = sorted(os.listdir(shelf))
    told = told_of(tbd, shelf, [form, *words.split()])
    well = told[:2] == (status, b"") and told[2].count("\n") == 1
    well = well and told[2].startswith(f"tbd: {line.replace('FORM', form)}")
    case("its line", well, told)
    case("nothing is made", sorted(os.listdir(shelf)) == before, os.listdir(shelf))
    with open(os.path.join(shelf, "taken.tbk"), "rb") as file:
        case("a file that exists is not overwritten", file.read() == b"another file")


@pytest.mark.slow(reason="fills the disk at each byte of a copy", seconds=30)
def test_copies_on_a_full_disk(tbd, folder, shim, data):
    """A disk that is full amid a copy, and a sync of it that fails, are reported by their status; the file is as before."""
    path = os.path.join(folder, "sound.tbk")
    for number, (fault, status) in enumerate(
        (("full 2000", 8), ("full 5000", 8), (f"sync 1 {EIO}", 9), (f"write 2 {EIO}", 1))
    ):
        for form in ("salvage", "backup"):
            new = os.path.join(folder, f"full{number}{form}.tbk")
            env = environment(shim, f"{new}.part", fault=fault)
            told = told_of(tbd, folder, [form, path, new], env=env)
            case(f"{form}: no new file", not os.path.exists(new))
            case(f"{form}: {fault}", told[:2] == (status, b"") and told[2].count("\n") == 1, told)
    with open(path, "rb") as file:
        case("the file is as before", file.read() == data)


@pytest.mark.slow(reason="copies files next to a server under load", seconds=30)
def test_backups(tbd, folder):
    """Backups of a file that is served are prefixes of it, the later ones longer, and can be served."""
    ledger = Ledger(tbd, folder, "backed")
    ledger.open_accounts()
    news = [os.path.join(folder, f"copy{number}.tbk") for number in range(5)]
    with under_load(ledger):
        told = [told_of(tbd, folder, ["backup", ledger.file, new]) for new in news]
    dumps = [dumped(tbd, folder, it) for it in [*news, ledger.file]]
    case("backups next to a server", all((it[0], it[2]) == (0, "") for it in told), told[:2])
    well = (
        None not in dumps
        and dumps[0] != dumps[-1]
        and all(later.startswith(it) for it, later in zip(dumps, dumps[1:]))
    )
    case("each backup is a prefix of the next", well, [it and len(it) for it in dumps])
    served = told_of(tbd, folder, ["run", news[-1], "64"])
    case("a backup can be served", served == (0, b"", ""), served)


@pytest.mark.slow(reason="cuts a file at each of its last 1,000 bytes", seconds=60)
def test_cuts(tbd, folder, data, latches, entries, pytestconfig):
    """The file cut at each of its last bytes, a number of them."""
    count = pytestconfig.getoption("cuts")
    path, wrong = os.path.join(folder, "cut.tbk"), []
    for length in range(len(data) - count, len(data)):
        told = look_at(tbd, path, data[:length])
        # Records end at a closed latch and nowhere else.
        if not told["same"] or told["status"] != 6:
            wrong.append((length, told))
    case(f"cut at each of the last {count} bytes", not wrong, wrong[:2])


@pytest.mark.slow(reason="changes 10,000 bits of a file", seconds=300)
def test_flips(tbd, folder, data, latches, entries, rng, pytestconfig):
    """Bits that are turned, each reported as damage except those of open latches, which stay open."""
    count = pytestconfig.getoption("flips")
    path, wrong, damaged = os.path.join(folder, "flip.tbk"), [], 0
    for _ in range(count):
        at, bit = rng.randrange(len(data)), rng.randrange(8)
        told = look_at(tbd, path, data[:at] + bytes([data[at] ^ 1 << bit]) + data[at + 1 :])
        if in_latch(at, latches[:-1]):
            well = told["status"] == 0 and told["entries"] == entries
        else:
            well = told["status"] == (5 if at < 8 else 6)
            damaged += 1
        if not well or not told["same"]:
            wrong.append((at, bit, told))
    case(f"{count} bits turned, {damaged} of them outside latches", not wrong, wrong[:2])
