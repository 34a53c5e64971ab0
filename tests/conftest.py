"""What the tests over built programs share: where a program is, and the client library's path."""

import os
import pathlib
import shutil
import subprocess
import sys

import pytest

ROOT = pathlib.Path(__file__).resolve().parent.parent
for folder in ("tools", "tools/testing", "clients/python/src"):
    sys.path.append(str(ROOT / folder))

pytest_plugins = ["marks"]


def found(name):
    """A program's path: by the variable of its name (TBS), otherwise from PATH, otherwise as `rt
    ci` leaves it in this clone."""
    chosen = os.environ.get(name.upper()) or shutil.which(name)
    built = ROOT / "crates" / name / "out" / name
    path = pathlib.Path(chosen) if chosen else built
    return path if os.access(path, os.X_OK) else None


@pytest.fixture(scope="session")
def program():
    """Gives a built program's path. The test fails without one: it is no skip."""

    def path(name):
        at = found(name)
        if at is None:
            pytest.fail(f"no program {name}: build it in crates/{name}, or set {name.upper()}")
        return at

    return path


@pytest.fixture(scope="session")
def tbs(program):
    return program("tbs")


@pytest.fixture(scope="session")
def tbd(program):
    return program("tbd")


def ran(words, given=b"", seconds=120, **how):
    """Runs a program on these bytes: its status, its output and its standard error."""
    how = {"stdout": subprocess.PIPE, "stderr": subprocess.PIPE, **how}
    it = subprocess.run(list(map(str, words)), input=given, timeout=seconds, **how)
    return it.returncode, it.stdout or b"", it.stderr or b""


def pytest_addoption(parser):
    parser.addoption("--storms", type=int, default=3, help="how often each storm is run")
    parser.addoption("--kills", type=int, help="of tbd (1000)")
    parser.addoption("--cuts", type=int, default=1000, help="last bytes at which a file is cut")
    parser.addoption("--flips", type=int, default=10_000, help="bits that are changed in a file")
    parser.addoption("--frames", type=int, default=20_000, help="frames that are damaged")
    parser.addoption("--rounds", type=int, default=120, help="of clients before a power loss")
    parser.addoption("--images", type=int, default=20, help="files that a write may leave")
    parser.addoption("--drawn", type=int, default=200, help="schedules for each client")
    parser.addoption("--faults", type=int, default=300, help="of machines, disks and clocks")
    parser.addoption("--kinds", type=lambda it: it.split(","), help="of faults, with commas")
    parser.addoption("--seed", type=int, default=1, help="of what is drawn")
    parser.addoption("--between", type=float, default=0.5, help="seconds between faults")
    parser.addoption("--pause", type=float, default=0.1, help="seconds between a client's requests")
    parser.addoption("--sync", type=float, default=0, help="ms that each sync takes longer (rates)")
    parser.addoption("--seconds", type=int, default=10, help="of each load (rates)")
    parser.addoption("--requests", type=int, default=100_000, help="before a start over them")
    parser.addoption("--every", type=int, default=1, help="refuse the first call, each N-th")
    parser.addoption("--soak", type=int, default=1800, help="seconds of a load (soak)")
