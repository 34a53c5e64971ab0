"""The listener's memory while a thousand connections make transfers for half an hour.

    /usr/bin/python3 -m pytest -s tests/server/test_soak.py [--soak SECONDS]
"""

import json
import statistics
import subprocess
import time

import pytest

from ..conftest import ROOT
from .running import MIB, resident

SESSIONS, CONNECTIONS = 60, 1000
REST = 0.02  # seconds of a session after each reply: what tbd keeps grows with each transfer
LIMIT = {"GOMEMLIMIT": "96MiB"}
SAMPLES = 60
GROWTH = 1.1  # of the median of the last third of the samples, over that of the second one


@pytest.fixture
def load(tmp_path):
    """The program that makes a load."""
    place = tmp_path / "load"
    folder = ROOT / "bench" / "listener"
    subprocess.run(["go", "build", "-o", place, "."], cwd=folder, check=True, timeout=600)
    return place


@pytest.mark.slow(reason="runs half an hour", seconds=1900)
@pytest.mark.usefixtures("many_files")
def test_memory_stays(start, load, pytestconfig):
    seconds = pytestconfig.getoption("soak")
    listener = start("--connections", CONNECTIONS + 8, "--ahead", "60", env=LIMIT)
    words = [load, "-workers", SESSIONS, "-connections", CONNECTIONS, "-rest", REST]
    words += ["-seconds", seconds, f"unix:{listener.path}"]
    with subprocess.Popen(list(map(str, words)), stdout=subprocess.PIPE, text=True) as it:
        found = []
        while it.poll() is None:
            found.append(resident(listener.process))
            time.sleep(seconds / SAMPLES)
        line = json.loads(it.stdout.read())
    assert it.returncode == 0 and listener.end() == 0
    print(line, "KiB:", [it >> 10 for it in found])
    third = len(found) // 3
    second, last = (statistics.median(found[at : at + third]) for at in (third, 2 * third))
    assert len(found) >= SAMPLES // 2
    assert last < second * GROWTH and max(found) < 128 * MIB
