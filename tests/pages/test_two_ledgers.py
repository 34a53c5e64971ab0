"""The program of docs/use/SCALING.md: money moves between two ledgers once, or not at all, however
often the program is killed, with what it started. The sums are worked out by hand: 60 payments of
10.00, by turns from two payers; the six whose payee is in no ledger are all of the second payer."""

import os
import random
import signal
import subprocess
import time

import pytest

import tb_client as tb

from ..conftest import ROOT

PROGRAM = ROOT / "examples/two_ledgers/between.py"
SAID = "54 of 60 payments are made\n"
# accounts of each ledger with what they have posted: debits, credits
FROM = {1: (1000_00, 0), 2: (0, 540_00), 10: (300_00, 500_00), 11: (240_00, 500_00)}
TO = {1: (0, 0), 2: (540_00, 0), 20: (0, 300_00), 21: (0, 240_00)}
LIMIT = 300  # seconds


@pytest.fixture(name="started")
def _started(tbd, tmp_path):
    """Starts the program over two files of a folder, in a process group of its own."""
    (tmp_path / "tbd").symlink_to(tbd)
    environment = {**os.environ, "PATH": f"{tmp_path}:{os.environ['PATH']}"}
    environment["PYTHONPATH"] = str(ROOT / "clients/python/src")
    words = ["/usr/bin/python3", "-B", str(PROGRAM)]

    def started(folder):
        files = [str(folder / it) for it in ("from.tbk", "to.tbk")]
        pipe = subprocess.PIPE
        return subprocess.Popen([*words, *files], stdout=pipe, text=True, env=environment)

    return started


def size(folder):
    return sum(it.stat().st_size for it in folder.glob("*.tbk"))


def kill_amid(process, folder, more):
    """Kills it once the files have grown by so many bytes. False if it has ended before that."""
    at, end = size(folder) + more, time.monotonic() + LIMIT
    while size(folder) < at and process.poll() is None:
        assert time.monotonic() < end, "the files do not grow"
        time.sleep(0.001)
    is_alive = process.poll() is None
    process.send_signal(signal.SIGKILL)
    process.communicate()
    return is_alive


def posted(file, accounts, tbd):
    """What accounts have posted. Nothing is held."""
    with tb.open(file, program=tbd) as ledger:
        found = ledger.lookup_accounts(list(accounts))
    assert not any(it.debits_pending or it.credits_pending for it in found)
    return {it.id: (it.debits_posted, it.credits_posted) for it in found}


def killed(started, folder, tbd, kills, seed):
    """Kills it so often, and then lets it end. Returns how often it was killed."""
    folder.mkdir()
    drawn = random.Random(seed)
    count = sum(kill_amid(started(folder), folder, drawn.randrange(1, 9000)) for _ in range(kills))
    process = started(folder)
    assert process.communicate(timeout=LIMIT)[0] == SAID
    assert posted(folder / "from.tbk", FROM, tbd) == FROM
    assert posted(folder / "to.tbk", TO, tbd) == TO
    return count


def test_payments_between_two_ledgers(started, tbd, tmp_path):
    assert killed(started, tmp_path / "ledgers", tbd, 5, 1) > 0


@pytest.mark.slow(reason="kills the program two hundred times", seconds=200)
def test_two_hundred_kills(started, tbd, tmp_path):
    count = sum(killed(started, tmp_path / f"{it}", tbd, 10, it) for it in range(24))
    assert count >= 200, count
