"""What the tests share: the command, and the programs that it runs."""
from __future__ import annotations

import os
import pathlib
import subprocess
from typing import TYPE_CHECKING, Iterator, Optional

import pytest
from hypothesis import HealthCheck, settings

from telovamish.programs import found

if TYPE_CHECKING:
    from terminals import Terminal

pytest_plugins = ["marks"]
# the same examples in each run, and no limit of time on a busy machine
settings.register_profile(
    "telovamish",
    max_examples=100,
    deadline=None,
    derandomize=True,
    suppress_health_check=[HealthCheck.too_slow],
)
settings.load_profile("telovamish")

APP = pathlib.Path(__file__).resolve().parent.parent
COMMAND = APP / "telovamish"


@pytest.fixture(autouse=True)
def state_of_its_own(tmp_path_factory, monkeypatch):
    """Each test has its own stored sessions and history."""
    monkeypatch.setenv("XDG_STATE_HOME", str(tmp_path_factory.mktemp("state")))


def ran(*words: str, given: bytes = b"", env: Optional[dict[str, str]] = None):
    """The command's exit status, what it wrote, and what it printed on standard error."""
    it = subprocess.run(
        [str(COMMAND), *words],
        input=given,
        capture_output=True,
        timeout=120,
        env={**os.environ, **(env or {})},
    )
    return it.returncode, it.stdout, it.stderr.decode()


def needed(name: str) -> str:
    path = found(name)
    if not path:
        pytest.fail(f"no program {name}: build it in crates/{name}, or set {name.upper()}")
    return path


@pytest.fixture(scope="session")
def tbs() -> str:
    return needed("tbs")


@pytest.fixture(scope="session")
def tbd() -> str:
    return needed("tbd")


@pytest.fixture
def env(tbs: str, tbd: str) -> dict[str, str]:
    return {"TBS": tbs, "TBD": tbd}


@pytest.fixture
def state(tmp_path: pathlib.Path) -> str:
    return str(tmp_path / "state")


@pytest.fixture
def terminal(state: str, tbs: str) -> "Iterator[Terminal]":
    """The command at a terminal, at its first prompt."""
    from terminals import Terminal  # which needs COMMAND

    it = Terminal(state=state, env={"TBS": tbs})
    it.wait("> ")
    yield it
    it.close()
