"""clients/python/examples/sockets.py ends, and prints the reason, if its work cannot go on."""

import os
import shlex
import subprocess
import sys
import time
import unittest.mock

import pytest

from ..conftest import ROOT
from .running import STAND_IN

FOLDER = ROOT / "clients" / "python" / "examples"
sys.path.append(str(FOLDER))
import sockets  # noqa: E402


def why(start, clients, patience=20.0):
    """What it prints if these are its clients and nothing is done."""
    started = [subprocess.Popen(words) for words in clients]
    listener = start()
    began = time.monotonic()
    try:
        with unittest.mock.patch("sockets.PATIENCE", patience):
            with pytest.raises(SystemExit) as raised:
                kept = [os.path.join(listener.folder, "session0.json")]
                sockets.wait_until(1, kept, started, listener)
    finally:
        for it in started:
            it.kill()
            it.wait()
    assert time.monotonic() - began < 10
    return raised.value.code


@pytest.mark.parametrize(
    "clients, status",
    [
        ([["sh", "-c", "exit 3"], ["sleep", "60"]], 3),
        ([["sleep", "60"], ["sh", "-c", "kill -9 $$"]], -9),
    ],
    ids=["status", "signal"],
)
def test_a_client_that_fails(start, clients, status):
    assert why(start, clients) == f"a client failed, with status {status}"


def test_clients_that_do_nothing(start):
    found = why(start, [["sleep", "60"], ["true"]], patience=0.5)
    assert found == "the clients did not make 1 transfers in 0.5 seconds"


def test_a_server_that_ends():
    ran = subprocess.run(
        [sys.executable, "-B", FOLDER / "sockets.py", shlex.join(STAND_IN)],
        capture_output=True,
        text=True,
        timeout=120,
        env={**os.environ, "FAIL": "Full:8:20"},
    )
    assert (ran.returncode, ran.stdout) == (1, "on a Unix socket:\n")
    assert "the listener ended, with status 8: " in ran.stderr
    assert "tb_listen: tbd: Full\n" in ran.stderr
