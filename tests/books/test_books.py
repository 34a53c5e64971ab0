"""apps/books over the built programs: what its tables have is what the proved server replies.

Loads through `tbd run`, scripts of bench/make_script.py and three of our own, by both profiles. The
tables have exactly the accounts and transfers that lookup_accounts and lookup_transfers return,
field by field, and each pending transfer has the state that a void of it meets. Loads are killed
and go on; a file is followed while a server adds to it; a server's accounts are compared while
money moves.

SIZE is the number of events of a load, KILLS how many loads are killed.
"""

import contextlib
import os
import pathlib
import random
import signal
import sqlite3
import subprocess
import sys
import threading
import time

import frames
import pytest
import tb_client
from tb_client import Account, Operation, Transfer

ROOT = pathlib.Path(__file__).resolve().parents[2]
BOOKS = ROOT / "apps" / "books"
PYTHON = "/usr/bin/python3"
TB_SQL = [PYTHON, "-B", str(BOOKS / "tb-sql")]
MAX = (1 << 128) - 1
ASKED = 8190
PATIENCE = 900  # seconds, for one program on a busy machine
SIZE, KILLS = int(os.environ.get("SIZE", "2000")), int(os.environ.get("KILLS", "6"))
ASKER, PROBER = 999_001, 999_002
STATES = {0: "voided", 33: "posted", 34: "voided", 35: "expired"}
INTEGER_END = 1 << 63


def slow(seconds):
    """The mark of what loads thousands of events through both programs."""
    return pytest.mark.slow(reason="thousands of events by both programs", seconds=seconds)


def held(value):
    """A number as a table of SQLite has it."""
    return value if value < INTEGER_END else str(value)


def run(words, input=None, **more):
    """Runs a program that has to end well; what it wrote."""
    ran = subprocess.run(words, input=input, stdout=subprocess.PIPE, timeout=PATIENCE, **more)
    assert ran.returncode == 0, words
    return ran.stdout


def pair(moment, client, session, number, operation, items=()):
    """A moment and a request's frame."""
    body = b"".join(it if isinstance(it, bytes) else it.to_bytes() for it in items)
    return frames.pair(moment, client, session, number, operation, body)


class Script:
    """Statements of one client, the register first."""

    def __init__(self, client=7):
        self.client, self.number, self.moment = client, 0, 1
        self.data = pair(1, client, 0, 0, Operation.register)

    def add(self, operation, items):
        self.number += 1
        self.data += pair(self.moment, self.client, 1, self.number, operation, items)


def some(rng, count):
    """Accounts, and a script that makes them."""
    flags = (0, 0, 2, 4, 8)
    script = Script()
    ids = [min(rng.getrandbits(rng.choice([8, 64, 128])) + 1, MAX - 1) for _ in range(count)]
    script.add(
        Operation.create_accounts,
        [Account(it, ledger=700, code=10, flags=rng.choice(flags), **user_data(rng)) for it in ids],
    )
    return script, ids


def batches(size, seed, made):
    """A script of batches of events that a function makes."""
    rng = random.Random(seed)
    script, ids = some(rng, 40)
    for first in range(0, size, 50):
        events = [made(rng, ids, 10**6 + first + at) for at in range(50)]
        script.add(Operation.create_transfers, events)
        script.moment += rng.choice([0, 5, 10**9, 3 * 10**9])
    return script.data


def user_data(rng):
    """Fields of a user's own, each 0 or as great as it may be."""
    return {f"user_data_{bits}": rng.choice([0, (1 << bits) - 1]) for bits in (128, 64, 32)}


def moved(rng, ids, id, amount, flags=0, **more):
    debit, credit = rng.sample(ids, 2)
    more.update(user_data(rng))
    return Transfer(id, debit, credit, amount, flags=flags, ledger=700, code=10, **more)


def balancing(size, seed):
    """Balancing transfers of both kinds, single and pending, with amounts up to the greatest."""

    def made(rng, ids, id):
        flags = rng.choice([0, 0, 16, 32, 48, 18, 34])
        amount = rng.choice([MAX, 10, 1000, 1 << 90]) if flags & 48 else rng.choice([5, 1 << 63])
        return moved(rng, ids, id, amount, flags, timeout=rng.choice([0, 1]) if flags & 2 else 0)

    return batches(size, seed, made)


def resolving(rng, ids, id, flags):
    amount = rng.choice([0, MAX, 3]) if flags == 4 else 0
    return Transfer(id, amount=amount, pending_id=id - rng.randint(1, 60), flags=flags)


def closing(size, seed):
    """Closing transfers that are voided or expire, among others."""

    def made(rng, ids, id):
        flags = rng.choice([0, 2, 66, 130, 194, 4, 8, 8, 8])
        if flags in (4, 8):
            return resolving(rng, ids, id, flags)
        return moved(rng, ids, id, 7, flags, timeout=rng.choice([1, 2, 3]) if flags & 2 else 0)

    return batches(size, seed, made)


def failing(size, seed):
    """Transfers that fail by their accounts, in chains too, and come again with the same ids."""

    def made(rng, ids, id):
        id -= rng.choice([0, 0, 0, 5, 100])
        chosen = moved(rng, ids, id, rng.choice([1, MAX]), rng.choice([0, 0, 1, 2]))
        if rng.random() < 0.2:
            chosen = Transfer(id, 99, ids[0], 1, ledger=700, code=10, flags=1)
        return chosen

    return batches(size, seed, made)


def bench(workload):
    def script(size, seed):
        words = [ROOT / "bench" / "make_script.py", workload, str(size), str(seed)]
        return run([sys.executable, *words])

    return script


LOADS = {
    "mixed": (bench("mixed"), 1),
    "mixed, profile 2": (bench("mixed"), 2),
    "expiring": (bench("expiring"), 1),
    "pending": (bench("pending"), 2),
    "chains": (bench("chains"), 1),
    "balancing": (balancing, 1),
    "closing": (closing, 2),
    "failing": (failing, 2),
}


def replies_of(data):
    return map(tb_client.Reply.from_bytes, frames.split(data))


def ids_of(script, operation):
    """The ids of all events of an operation, except 0 and the greatest."""
    found = set()
    for _, frame in frames.pairs(script):
        if frame[28] == operation:
            found.update(
                int.from_bytes(frame[at : at + 16], "little") for at in range(48, len(frame), 128)
            )
    return sorted(found)


class Ledger:
    """A ledger in a file, by `tbd run`."""

    def __init__(self, path, programs, profile=1):
        self.path, self.programs = path, programs
        self.words = [programs["TBD"], "run", path, "64", str(profile)]
        self.commit = 0

    @property
    def environment(self):
        """What a load gets, which starts the programs."""
        return {**os.environ, **self.programs}

    def serve(self, script):
        """Serves a script; its replies."""
        replies = list(replies_of(run(self.words, script)))
        self.commit = max([self.commit, *(it.commit for it in replies)])
        return replies

    def ask(self, client, requests):
        """Registers a client, and sends its requests; the items of their replies."""
        session = self.commit + 1
        script = pair(0, client, 0, 0, Operation.register)
        for number, (operation, items) in enumerate(requests, 1):
            script += pair(0, client, session, number, operation, items)
        return [it.items for it in self.serve(script)[1:]]

    def look_up(self, client, operation, ids):
        parts = [ids[at : at + ASKED] for at in range(0, len(ids), ASKED)]
        asked = [(operation, [frames.ids(it) for it in part]) for part in parts]
        return [record for answer in self.ask(client, asked) for record in answer]


def load(path, ledger, *more):
    """Loads a ledger's file; the exit status and what was said."""
    words = [*TB_SQL, "load", path, "--ledger", ledger.path, "--quiet", *more]
    ran = subprocess.run(
        words, capture_output=True, text=True, timeout=PATIENCE, env=ledger.environment
    )
    return ran.returncode, ran.stderr.strip()


def rows(path, table):
    with contextlib.closing(sqlite3.connect(path)) as connection:
        connection.row_factory = sqlite3.Row
        return {int(it["id"]): it for it in connection.execute(f"SELECT * FROM {table}")}


def differing(records, kept):
    """The first record that differs from its row; nothing if all are the same."""
    if {it.id for it in records} != set(kept):
        return f"{len(records)} answered, {len(kept)} rows"
    for record in records:
        row = kept[record.id]
        for name in row.keys():
            value = getattr(record, name, None)
            if value is not None and held(int(value)) != row[name]:
                return f"{record.id}, {name}: {int(value)} answered, {row[name]!r} in the tables"
    return ""


@pytest.fixture
def programs(program):
    return {it.upper(): str(program(it)) for it in ("tbd", "tbs")}


@pytest.mark.parametrize(
    "name, size",
    [
        ("failing", 300),
        ("expiring", 300),
        *(pytest.param(it, SIZE, marks=slow(15)) for it in LOADS),
    ],
)
def test_load(programs, tmp_path, name, size):
    """The tables before and after the probes of its pending transfers, and the check of both."""
    made, profile = LOADS[name]
    path = str(tmp_path / "ledger.sqlite")
    ledger = Ledger(str(tmp_path / "ledger.tbk"), programs, profile)
    script = made(size, 5)
    ledger.serve(script)
    ids = ids_of(script, Operation.create_transfers)
    transfers = ledger.look_up(ASKER, Operation.lookup_transfers, ids)
    ids = ids_of(script, Operation.create_accounts)
    accounts = ledger.look_up(PROBER, Operation.lookup_accounts, ids)
    assert load(path, ledger) == (0, "")
    kept = rows(path, "transfers")
    assert accounts and transfers
    assert differing(accounts, rows(path, "accounts")) == ""
    assert differing(transfers, kept) == ""
    probe_states(ledger, path, kept)
    for more in ([], ["--ledger", ledger.path]):
        checked = [*TB_SQL, "check", path, *more]
        assert b"each row is that of" in run(checked, env=ledger.environment)


def probe_states(ledger, path, kept):
    """Voids each pending transfer: the result says its state."""
    pending = [it for it, row in kept.items() if row["flags"] & 2]
    first = 1 << 100
    events = [Transfer(first + at, pending_id=it, flags=8) for at, it in enumerate(pending)]
    parts = [events[at : at + ASKED] for at in range(0, len(events), ASKED)]
    answers = ledger.ask(PROBER + 1, [(Operation.create_transfers, it) for it in parts])
    results = {
        part[it.index].pending_id: int(it.result)
        for part, answer in zip(parts, answers)
        for it in answer
    }
    assert load(path, ledger) == (0, "")
    after = rows(path, "transfers")
    for at, id in enumerate(pending):
        row, result = after[id], results.get(id, 0)
        by_probe = row["ended_by"] == held(first + at)
        assert (row["state"], by_probe) == (STATES.get(result), result == 0), id
        assert kept[id]["state"] != "pending" or result in (0, 35), id


def contents(path):
    with contextlib.closing(sqlite3.connect(path)) as connection:
        names = connection.execute("SELECT name FROM sqlite_master WHERE type = 'table'").fetchall()
        return [
            connection.execute(f"SELECT * FROM {it} ORDER BY 1, 2").fetchall() for (it,) in names
        ]


SMALL = "import sys; from tb_sql import loading, commands; loading.EVENTS_MAX = 300; "
SMALL += "sys.exit(commands.main())"
FOLDERS = ("apps/books/src", "apps/telovamish/src", "clients/python/src")


def started(path, ledger, *more):
    """A load in small transactions."""
    packages = ":".join(str(ROOT / it) for it in FOLDERS)
    words = [PYTHON, "-B", "-c", SMALL, "load", path, "--ledger", ledger.path, "--quiet", *more]
    return subprocess.Popen(words, env={**ledger.environment, "PYTHONPATH": packages})


def reached(path):
    try:
        with contextlib.closing(sqlite3.connect(path)) as connection:
            return connection.execute("SELECT commit_number FROM position").fetchone()[0]
    except sqlite3.Error:
        return 0


@slow(30)
def test_kills(programs, tmp_path):
    """Loads that are killed and run again make the tables of one that was not."""
    ledger, rng = Ledger(str(tmp_path / "ledger.tbk"), programs), random.Random(3)
    ledger.serve(failing(4 * SIZE, 1))
    whole, path, amid = str(tmp_path / "whole.sqlite"), str(tmp_path / "killed.sqlite"), 0
    began = time.monotonic()
    assert started(whole, ledger).wait(PATIENCE) == 0
    seconds = time.monotonic() - began
    for _ in range(KILLS):
        process = started(path, ledger)
        time.sleep(rng.uniform(0.3, 1) * seconds)
        process.kill()
        process.wait(PATIENCE)
        amid += 0 < reached(path) < ledger.commit
    assert started(path, ledger).wait(PATIENCE) == 0
    assert contents(path) == contents(whole)
    assert amid


@slow(60)
def test_follow(programs, tmp_path):
    """A file that is followed while a server adds to it; the load is killed meanwhile."""
    path, whole = str(tmp_path / "live.sqlite"), str(tmp_path / "whole.sqlite")
    ledger = Ledger(str(tmp_path / "live.tbk"), programs)
    run(ledger.words, b"")
    script = list(frames.pairs(failing(SIZE, 1)))
    feeding = threading.Thread(target=feed, args=(ledger, script))
    feeding.start()
    process = started(path, ledger, "--follow")
    time.sleep(3)
    process.kill()
    process.wait(PATIENCE)
    process = started(path, ledger, "--follow")
    feeding.join()
    deadline = time.monotonic() + PATIENCE
    while reached(path) < ledger.commit and time.monotonic() < deadline:
        assert process.poll() is None
        time.sleep(0.2)
    process.send_signal(signal.SIGTERM)
    assert process.wait(PATIENCE) == 0
    assert load(whole, ledger) == (0, "")
    assert ledger.commit == len(script)
    assert contents(path) == contents(whole)


def feed(ledger, script):
    """Sends requests to a server one by one."""
    with subprocess.Popen(ledger.words, stdin=subprocess.PIPE, stdout=subprocess.PIPE) as process:
        for moment, frame in script:
            process.stdin.write(frames.little(moment) + frame)
            process.stdin.flush()
            header = process.stdout.read(frames.HEADER)
            reply = header + process.stdout.read(frames.length_of(header) - len(header))
            ledger.commit = max(ledger.commit, tb_client.Reply.from_bytes(reply).commit)
            time.sleep(0.1)


@slow(20)
@pytest.mark.parametrize("is_wrong", (False, True), ids=("right", "wrong"))
def test_server(programs, tmp_path, is_wrong):
    """The accounts of a server on a socket are those of the tables, at the lookup's entry, while
    another client moves money."""
    ledger = Ledger(str(tmp_path / "served.tbk"), programs)
    path, socket = str(tmp_path / "served.sqlite"), str(tmp_path / "socket")
    ledger.serve(closing(600, 3))
    assert load(path, ledger) == (0, "")
    ended, moved = checked_by_server(ledger, path, socket, is_wrong)
    assert moved
    if is_wrong:
        assert ended[0] == 1 and ", code at entry" in ended[1]
    else:
        assert ended[0] == 0 and "are those of the server" in ended[1]


def checked_by_server(ledger, path, socket, is_wrong):
    """Its result, and how many transfers came meanwhile."""
    code = "from tb_sql import checking, commands; import sys; "
    code += "checking.checked = lambda *_: ''; sys.exit(commands.main())"
    listen = [str(ROOT / "server" / "out" / "tb-listen")]
    listener = subprocess.Popen([*listen, "--unix", socket, "--", *ledger.words])
    words = [PYTHON, "-B", "-c", code] if is_wrong else TB_SQL
    words = [*words, "check", path, "--server", socket, "--ledger", ledger.path]
    words += ["--wait", str(PATIENCE)]
    plain = [it for it, row in rows(path, "accounts").items() if not row["flags"] & 0b100110]
    packages = ":".join(str(ROOT / it) for it in FOLDERS)
    environment, moved = {**ledger.environment, "PYTHONPATH": packages}, 0
    if is_wrong:  # which the check of the rows would find before
        with contextlib.closing(sqlite3.connect(path)) as connection:
            connection.execute("UPDATE accounts SET code = code + 1 WHERE rowid % 7 = 3")
            connection.commit()
    try:
        with tb_client.Session.register(tb_client.Socket(socket, timeout=PATIENCE)) as session:
            pipe = subprocess.PIPE
            checking = subprocess.Popen(
                words, stdout=pipe, stderr=subprocess.STDOUT, text=True, env=environment
            )
            try:
                until = time.monotonic() + PATIENCE
                while checking.poll() is None and time.monotonic() < until:
                    it = Transfer((1 << 101) + moved, *plain[:2], 5, ledger=700, code=10)
                    tb_client.require_ok(session.create_transfers([it]))
                    moved += 1
                    time.sleep(0.02)
                said = checking.communicate(timeout=PATIENCE)[0]
            finally:
                checking.kill()
    finally:
        listener.send_signal(signal.SIGTERM)
        listener.wait(PATIENCE)
    return (checking.returncode, said.strip()), moved
