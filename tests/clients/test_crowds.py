"""Calls at once, and what becomes of each exchange, drawn by a seed: those of a session that
callers share, of each client (clients/conformance/crowds.py), and those of ClientSync and
ClientAsync in Python (clients/python/tests/drawn_calls.py). Clients that are made wrong are caught
by them, and by drawn scenarios of the kit. `--drawn N` says how many seeds, `--seed N` which is the
first; a failure prints the words to repeat it."""

import shutil
import subprocess
import sys

import pytest

from ..conftest import ROOT
from .conftest import CLIENTS, SECONDS, built

CONFORMANCE = ROOT / "clients/conformance"
PYTHON = ROOT / "clients/python"
CALLS = PYTHON / "tests/drawn_calls.py"
RUNNER = [sys.executable, "-B", "conformance_runner.py"]  # of a client that is made wrong
FEW = "20"  # seeds, which take seconds
MANY = "1000"  # seeds within which a wrong client is caught

sys.path.append(str(CONFORMANCE))

from wrong_clients import edited, wrong  # noqa: E402

# What the calls of a shared client have to find: edits of clients/python/src/tb_client.
WRONG_CALLS = {
    "a request in doubt is answered to the next list": (
        (
            "pools.py",
            "            if not isinstance(why, NotSent) or self._is_in_doubt():\n",
            "            if not isinstance(why, NotSent):\n",
        ),
    ),
    "a list that may be executed is reported as not sent": (
        (
            "pools.py",
            "                if not is_lost and not is_doubtful:\n                    raise\n",
            "                raise\n",
        ),
    ),
}
WRONG_CROWDS = (
    "a session that two threads use at once",
    "two requests in flight on a connection",
)
WRONG_SESSIONS = (
    "a new number for each retry",
    "a refusal ends the doubt",
    "a lost reply ends the doubt",
    "any reply will do",
    "a connection that was closed is not looked at",
    "a file forgets the request in doubt",
)


def played(words, folder):
    """Plays what is drawn: what it prints, and its status."""
    words = [sys.executable, "-B", *map(str, words)]
    ran = subprocess.run(words, cwd=folder, capture_output=True, text=True, timeout=SECONDS)
    print(ran.stdout, ran.stderr)
    return ran.returncode, ran.stdout + ran.stderr


def is_caught(words, folder):
    status, said = played(words, folder)
    return status == 1 and any(it.startswith("FAILED") for it in said.splitlines())


def crowds(count, seed, *more):
    return [CONFORMANCE / "crowds.py", *more, "--count", count, "--seed", seed, "--"]


@pytest.fixture
def wrong_client(tmp_path):
    """Makes a copy of the Python client with an edit."""

    def made(edit):
        edited("python", tmp_path, edit)
        (tmp_path / "tests").mkdir()
        shutil.copy(CALLS, tmp_path / "tests")
        return tmp_path

    return made


def test_a_few_calls_at_once_in_python(seeds):
    words = [*crowds(FEW, seeds["seed"]), *built(PYTHON)]
    assert played(words, PYTHON)[0] == 0


def test_a_few_calls_of_shared_clients(seeds):
    assert played([CALLS, "--count", FEW, "--seed", seeds["seed"]], PYTHON)[0] == 0


@pytest.mark.slow(reason="200 schedules of calls at once", seconds=120)
@pytest.mark.parametrize("folder", CLIENTS, ids=lambda it: it.name)
def test_calls_at_once(folder, seeds):
    assert played([*crowds(seeds["drawn"], seeds["seed"]), *built(folder)], folder)[0] == 0


@pytest.mark.slow(reason="200 schedules of calls at once", seconds=60)
def test_calls_of_shared_clients(seeds):
    words = [CALLS, "--count", seeds["drawn"], "--seed", seeds["seed"]]
    assert played(words, PYTHON)[0] == 0


@pytest.mark.slow(reason="draws schedules until a wrong client is caught", seconds=60)
@pytest.mark.parametrize("name", WRONG_CALLS)
def test_wrong_shared_clients_are_caught(name, wrong_client, seeds):
    folder = wrong_client(WRONG_CALLS[name])
    words = ["tests/drawn_calls.py", "--first", "--seed", seeds["seed"], "--count", MANY]
    assert is_caught(words, folder)


@pytest.mark.slow(reason="draws schedules until a wrong client is caught", seconds=60)
@pytest.mark.parametrize("name", WRONG_CROWDS)
def test_wrong_sharing_is_caught(name, wrong_client, seeds):
    words = [*crowds(MANY, seeds["seed"], "--first"), *RUNNER]
    assert is_caught(words, wrong_client(wrong("python")[name]))


@pytest.mark.slow(reason="draws schedules until a wrong client is caught", seconds=60)
@pytest.mark.parametrize("name", WRONG_SESSIONS)
def test_wrong_sessions_are_caught(name, wrong_client, seeds):
    drawn = ["--first", "--seed", seeds["seed"], "--drawn", MANY]
    words = [CONFORMANCE / "kit.py", *drawn, "--", *RUNNER]
    assert is_caught(words, wrong_client(wrong("python")[name]))
