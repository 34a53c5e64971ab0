"""What the commands print."""

from __future__ import annotations

import contextlib
import sys
from typing import Iterator

from telovamish.faults import leave

from .errors import Failed


class Unread(Failed):
    """Nobody reads standard output any more: nothing is said of it."""


@contextlib.contextmanager
def writing() -> Iterator[None]:
    """Standard output is written within. What fails is a fault of it."""
    try:
        yield
        if sys.stdout is not None:
            sys.stdout.flush()
    except OSError as error:
        leave(sys.stdout)
        if isinstance(error, BrokenPipeError):
            raise Unread() from None
        raise Failed(f"standard output: {error.strerror or error}") from None


def say(text: str) -> None:
    """Prints a line on standard output at once."""
    with writing():
        print(text)


def report(text: str, end: str = "\n") -> None:
    """Prints a message on standard error, if somebody can read it."""
    with contextlib.suppress(OSError):
        print(text, end=end, file=sys.stderr, flush=True)
