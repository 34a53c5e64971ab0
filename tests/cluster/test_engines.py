"""The engines of the agreed log in Go over servers of etcd and PostgreSQL, and what follows a log
over tbd, in the simulator too: the tests of server/ with the tag slow."""

import os
import subprocess

import pytest

from .processes import TOP

SLOW = "^Test(Servers|Full|Passwords|Server|ProvedSeeds)$"


@pytest.mark.slow(reason="starts etcd, PostgreSQL and tbd", seconds=300)
@pytest.mark.needs_etcd
@pytest.mark.needs_postgresql
def test_over_servers(program):
    words = [f"{TOP}/server/build", "test", "-p", "1", "-tags", "slow", "-run", SLOW]
    environment = {**os.environ, "TBD": str(program("tbd"))}
    ran = subprocess.run(words, capture_output=True, text=True, timeout=1200, env=environment)
    assert ran.returncode == 0, ran.stdout + ran.stderr
    passed = [it for it in ran.stdout.splitlines() if it.startswith("ok ")]
    assert sum("no tests to run" not in it for it in passed) == 4, ran.stdout
