"""The clients of clients/, each by its conformance.json: built once."""

import functools
import json
import shutil
import subprocess
from pathlib import Path

import pytest

from ..conftest import ROOT

CLIENTS = sorted(it.parent for it in ROOT.glob("clients/*/conformance.json"))
SECONDS = 3600  # that one command may take, also on a busy computer


@functools.cache
def built(folder: Path) -> tuple[str, ...]:
    """Builds a client. The command of its runner, to be run in its folder."""
    about = json.loads((folder / "conformance.json").read_text())
    assert all(map(shutil.which, about["needs"])), f"{about['needs']} are needed"
    for words in about["build"]:
        subprocess.run(words, cwd=folder, check=True, timeout=SECONDS)
    return tuple(about["runner"])


@pytest.fixture
def seeds(pytestconfig: pytest.Config) -> dict[str, str]:
    """How many seeds are drawn, and the first: --drawn N, --seed N."""
    return {name: str(pytestconfig.getoption(name)) for name in ("drawn", "seed")}
