"""Each client: its own tests, the conformance kit, money that moves once during kills, a saved
session that is durable, and wrong clients, which the kit has to catch. They need tbd. What each
command prints is printed; `--kills N` says how often something is killed."""

import contextlib
import functools
import json
import os
import shlex
import signal
import subprocess
import sys
import time

import pytest

from ..conftest import ROOT
from .conftest import CLIENTS, SECONDS, built

CONFORMANCE = ROOT / "clients/conformance"
PYTHON = ROOT / "clients/python"
KILLS = 30
INTERRUPTED = 10  # seconds that a command may take to end after Ctrl-C
PATHS = {"PYTHONPATH": f"{PYTHON}/src:{PYTHON}/tests"}
of_each = pytest.mark.parametrize("folder", CLIENTS, ids=lambda it: it.name)


def ran(words, folder, seconds=SECONDS, **more):
    """Runs a command in a folder, and prints what it prints. Its status, None if it did not end in
    time, and its output. What it started is ended with it."""
    pipes = {"stdout": subprocess.PIPE, "stderr": subprocess.STDOUT, "text": True}
    words, there = list(map(str, words)), {**os.environ, **more}
    with subprocess.Popen(words, cwd=folder, env=there, start_new_session=True, **pipes) as it:
        try:
            said, status = it.communicate(timeout=seconds)[0], it.returncode
        except subprocess.TimeoutExpired:
            os.killpg(it.pid, signal.SIGKILL)
            said, status = f"no end after {seconds} seconds", None
        except KeyboardInterrupt:  # which the terminal does not send to another session
            with contextlib.suppress(ProcessLookupError, subprocess.TimeoutExpired):
                os.killpg(it.pid, signal.SIGINT)
                it.wait(INTERRUPTED)
            with contextlib.suppress(ProcessLookupError):
                os.killpg(it.pid, signal.SIGKILL)
            raise
    print(said)
    return status, said


def passes(words, folder, **more):
    return ran(words, folder, **more)[0] == 0


def script(name, *words):
    """A command of the kit."""
    return [sys.executable, "-B", CONFORMANCE / name, *words]


@functools.cache
def about(folder):
    return json.loads((folder / "conformance.json").read_text())


def is_running(number):
    """Whether a process still runs: one that was killed may stay as a zombie for a moment."""
    try:
        with open(f"/proc/{number}/stat", encoding="utf-8") as it:
            return it.read().rpartition(")")[2].split()[0] != "Z"
    except FileNotFoundError:
        return False


@pytest.fixture
def money(pytestconfig, tbd):
    """The command that moves money over tbd, with the number of kills."""
    kills = str(pytestconfig.getoption("kills") or KILLS)
    return script("money.py", "--server", shlex.join([str(tbd)]), "--kills", kills)


def test_what_a_late_command_started_is_ended(tmp_path):
    words = ["sh", "-c", "sleep 600 & echo $! > started; wait"]
    assert ran(words, tmp_path, seconds=1) == (None, "no end after 1 seconds")
    started, deadline = int((tmp_path / "started").read_text()), time.monotonic() + 10
    while is_running(started) and time.monotonic() < deadline:
        time.sleep(0.02)
    assert not is_running(started)


def test_the_status_and_the_output_of_a_command(tmp_path):
    assert ran(["sh", "-c", "echo said; echo told >&2; exit 3"], tmp_path) == (3, "said\ntold\n")


@pytest.mark.slow(reason="builds each client, and runs its own tests once more", seconds=120)
@of_each
def test_own_tests(folder):
    built(folder)
    assert all(passes(words, folder, **PATHS) for words in about(folder)["tests"])


@pytest.mark.slow(reason="the whole kit over each client", seconds=120)
@of_each
def test_the_kit(folder):
    assert passes(script("kit.py", "--", *built(folder)), folder)


@pytest.mark.slow(reason="kills client, server and listener", seconds=120)
@of_each
def test_money_amid_kills(folder, money):
    assert passes([*money, "--", *built(folder)], folder)


@pytest.mark.slow(reason="kills client, server and listener", seconds=120)
@of_each
def test_money_of_a_shared_client_amid_kills(folder, money):
    assert passes([*money, "--shared", "--", *built(folder)], folder)


JUNIT = "/usr/share/java/junit4.jar:/usr/share/java/hamcrest-core.jar"
TIMES = "200"
KILLED = {
    "go": ["go", "test", "-count=1", "-timeout", "2h", "-run", "^TestKills$", ".", "-kills", TIMES],
    "java": [
        "java",
        "-cp",
        f"out/classes:out/test-classes:{JUNIT}",
        "org.junit.runner.JUnitCore",
        "org.telovamish.tbclient.KillsTest",
    ],
    "node": ["node", "--test", "test/kills.test.js"],
}


@pytest.mark.slow(reason="kills a program and its child 200 times each", seconds=1200)
@pytest.mark.parametrize("client", KILLED)
def test_a_file_that_is_opened_amid_kills(tbd, client):
    """That of Python is in clients/python/tests."""
    folder = ROOT / "clients" / client
    if client == "java":
        assert passes(["sh", "build.sh", "tests"], folder)
    assert passes(KILLED[client], folder, TBD=str(tbd), KILLS=TIMES)


@pytest.mark.slow(reason="traces each client's calls by strace", seconds=30)
@of_each
def test_a_saved_session_is_durable(folder):
    assert passes(script("durability.py", "--", *built(folder)), folder)


@pytest.mark.slow(reason="runs the kit over each wrong client", seconds=600)
@of_each
def test_wrong_clients_are_caught(folder):
    built(folder)
    assert passes(about(folder)["wrong"], folder)
