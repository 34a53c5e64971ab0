"""What ends the command, with its exit status."""
from __future__ import annotations

import contextlib
import os
import shutil
import sys
import textwrap
from typing import IO, Any, Iterator, Optional


class Fault(Exception):
    """The input or the arguments are wrong. Its text is printed on standard error."""

    status = 2


class Device(Fault):
    """Reading or writing failed, or there is no program."""

    status = 1


class Left(Device):
    """Who read the output has left: there is nobody to say it to."""


@contextlib.contextmanager
def devices(what: str) -> Iterator[None]:
    """A fault of the system within is reported as one of this device."""
    try:
        yield
    except BrokenPipeError:
        raise Left("") from None
    except OSError as why:
        raise Device(f"Device: {what}: {why.strerror or why}") from None


def folded(text: str, width: int) -> str:
    """Lines that break between words, where a terminal would break within one. A line that is
    quoted from an input, and the mark under it, stay."""
    lines = []
    for line in text.split("\n"):
        indent = len(line) - len(line.lstrip())
        is_quoted = line.startswith("  ") and not line.startswith("  expected ")
        if len(line) <= width or is_quoted and "\n  " + line.strip() in text and "^" in text:
            lines.append(line)
            continue
        rest = " " * (indent + 2)
        lines += textwrap.wrap(
            line, width, subsequent_indent=rest, break_long_words=False, break_on_hyphens=False
        )
    return "\n".join(lines)


def width_of(stream: Any, most: int = 0) -> int:
    """The columns of a terminal; of another stream the given number."""
    with contextlib.suppress(OSError, ValueError, AttributeError):
        if os.isatty(stream.fileno()):
            return max(20, shutil.get_terminal_size().columns)
    return most


def report(text: str) -> None:
    """Prints a message on standard error. What does not begin with the command's name gets it."""
    shown = (text if text.startswith("telovamish: ") else f"telovamish: {text}").rstrip("\n")
    width = width_of(sys.stderr)
    with contextlib.suppress(OSError):
        print(folded(shown, width) if width else shown, file=sys.stderr, flush=True)


def leave(stream: Optional[IO[str]]) -> None:
    """Drops what a stream did not take: Python would write it again at its end, and end with
    another status."""
    if stream is not None:
        try:
            stream.flush()
        except OSError:
            os.dup2(os.open(os.devnull, os.O_WRONLY), stream.fileno())
