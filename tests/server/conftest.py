"""What the tests of the listener share: it is the program that LISTENER names, a `tb-listen` on
PATH, or server/out/tb-listen, in front of tbd."""

import contextlib
import os
import resource
import signal
import tempfile
from collections.abc import Callable, Iterator
from pathlib import Path

import pytest

from .running import LISTENER, Listener
from .tls import Certificates

Start = Callable[..., Listener]


@pytest.fixture(scope="session", autouse=True)
def programs(program: Callable[[str], Path]) -> None:
    """Fails without the listener or tbd: a test is not skipped because a program is missing."""
    program("tbd")
    if not os.access(LISTENER, os.X_OK):
        pytest.fail(f"no program {LISTENER}: build it in server, or set LISTENER")


@pytest.fixture(scope="session", autouse=True)
def interrupts() -> None:
    """A shell's background ignores SIGINT, and programs would inherit that."""
    signal.signal(signal.SIGINT, signal.default_int_handler)


@pytest.fixture
def many_files() -> Iterator[None]:
    """This process and those that it starts may open enough files."""
    before = resource.getrlimit(resource.RLIMIT_NOFILE)
    resource.setrlimit(resource.RLIMIT_NOFILE, (before[1], before[1]))
    yield
    resource.setrlimit(resource.RLIMIT_NOFILE, before)


@pytest.fixture
def folder() -> Iterator[Path]:
    """A folder with a short name: that of a Unix socket has 107 bytes at most."""
    with tempfile.TemporaryDirectory(prefix="tb") as it:
        yield Path(it)


@pytest.fixture
def launch(folder: Path) -> Iterator[Start]:
    """Starts listeners without waiting for a line, and ends them after the test."""
    with contextlib.ExitStack() as held:

        def launched(*options: object, **how: object) -> Listener:
            it = Listener(how.pop("folder", folder), *options, **how)
            held.callback(it.close)
            return it

        yield launched


@pytest.fixture
def start(launch: Start) -> Start:
    """Starts listeners, and reads the first line of each."""
    return lambda *options, **how: launch(*options, **how).begun()


@pytest.fixture(scope="session")
def certificates() -> Iterator[Certificates]:
    with tempfile.TemporaryDirectory(prefix="tb") as folder:
        yield Certificates(Path(folder))
