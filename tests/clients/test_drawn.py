"""Each client against drawn schedules: what it sends, takes for a reply and keeps is what the
proved session does (clients/conformance/made/oracle.py). CI draws 200 for each (tools/check.py).
`--drawn N` says how many, `--seed N` which is the first; a failure prints the words that repeat it.
"""

import subprocess
import sys

import pytest

from ..conftest import ROOT
from .conftest import CLIENTS, SECONDS, built

KIT = ROOT / "clients/conformance/kit.py"
pytestmark = pytest.mark.slow(reason="200 schedules of each client", seconds=60)


@pytest.mark.parametrize("folder", CLIENTS, ids=lambda it: it.name)
def test_drawn_schedules(folder, seeds, program):
    program("tb_oracle")
    drawn = ["--drawn", seeds["drawn"], "--seed", seeds["seed"]]
    words = [sys.executable, str(KIT), *drawn, "--", *built(folder)]
    ran = subprocess.run(words, cwd=folder, stdout=subprocess.PIPE, text=True, timeout=SECONDS)
    print(ran.stdout)
    assert ran.returncode == 0
