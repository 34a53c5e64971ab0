"""`tbd run` over a file, as a child that is found, waited for, and started again."""
from __future__ import annotations

import contextlib
import os
import re
import shutil
import sys
import time
from typing import Callable, Optional, TextIO, Union

from .errors import CannotStart, ClockJumped, Closed, Locked, ReplyLost
from .layout import CLIENTS_MAX, SECOND
from .moments import SteadyMoments
from .program import AHEAD_MAX, Program
from .transports import to_standard_error
from .values import callable_of, path_of, seconds

Path = Union[str, "os.PathLike[str]"]
Progress = Callable[[int, int], object]

NAME = "tbd"
MISSING = (
    f"{NAME} was not found: install the package telovamish, or give its path as program= or in the "
    "variable TBD"
)
READING = re.compile(r"^tbd: reading .*, ([0-9]+) of ([0-9]+) MB$")
READY = re.compile(r"^tbd: ready: commit [0-9]+, time ([0-9]+)$")
LOCK_TIMEOUT = 5.0  # seconds that a program's child may take to end when the program was killed
STARTS = 5  # of a child that is killed before it serves
SLICE = 0.5  # seconds of one wait for a child that reads its file
PAUSE = 0.05  # seconds before a locked file is opened again


class LedgerFile(Program):
    """`tbd run` over a file. It gives the moments: the one that `exchange` is given is not sent.
    Its child is started again when it was killed, and waited for however long it reads."""

    def __init__(
        self,
        file: Path,
        program: Optional[Path] = None,
        *,
        existing: bool = False,
        clients_max: int = CLIENTS_MAX,
        profile: int = 1,
        lock_timeout: float = LOCK_TIMEOUT,
        ahead_max: Optional[float] = AHEAD_MAX,
        report: Callable[[str], object] = to_standard_error,
        progress: Optional[Progress] = None,
        drop_torn: bool = False,
    ) -> None:
        # of no folder to which this process may go before a restart
        self.file = os.path.abspath(path_of("file", file))
        self.lock_timeout = seconds("lock_timeout", lock_timeout, 0)
        self._allowed = None if ahead_max is None else seconds("ahead_max", ahead_max, 0)
        self._progress: Optional[Progress] = (
            progress_line(self.file, sys.stderr)
            if progress is None
            else callable_of("progress", progress)
        )
        self._size = 0  # MB, of a file that is being read
        self._last_time = 0
        self._moments = SteadyMoments()
        super().__init__(
            found_program(program),
            clients_max,
            profile,
            restarts=True,
            file=self.file,
            existing=existing,
            ahead_max=None,
            report=report,
            drop_torn=drop_torn,
        )

    def open(self) -> None:
        """Waits until the file was read. Raises the fault of a file that cannot be served."""
        deadline = time.monotonic() + self.lock_timeout
        for left in reversed(range(STARTS)):
            try:
                self._open_by(deadline)
                return self._test_time()
            except ReplyLost as why:
                if not left:
                    raise CannotStart(f"{why}, each of {STARTS} times") from None

    def _open_by(self, deadline: float) -> None:
        """Waits until the file was read. One that is locked is opened again until the deadline:
        the child of a program that was killed ends a moment after it."""
        while True:
            try:
                while not self.wait(SLICE):
                    pass
                return
            except Locked:
                if time.monotonic() >= deadline:
                    raise
                time.sleep(PAUSE)

    def _test_time(self) -> None:
        """Refuses a ledger whose time is far ahead: what is pending would expire at once."""
        ahead = self._last_time - time.time_ns()
        if self._allowed is not None and ahead > self._allowed * SECOND:
            raise ClockJumped(
                f"the ledger's last time is {ahead / SECOND:.3f} s ahead of this computer's clock, "
                f"and ahead_max is {self._allowed:g} s: set the clock right, or give ahead_max"
            )

    def exchange(self, moment: int, frame: bytes) -> bytes:
        self._test_owner()
        try:
            self._open_by(time.monotonic() + self.lock_timeout)
        except ReplyLost:
            if self._is_closed:  # which killed a child that read its file
                raise Closed("this ledger was closed") from None
            raise
        return super().exchange(self._moments.next(), frame)

    def pass_on(self, line: str) -> None:
        if found := READING.match(line):
            self._advance(int(found[1]), int(found[2]))
            return
        self._advance(self._size, self._size)
        if found := READY.match(line):
            self._last_time = int(found[1])
            self._moments.go_on(self._last_time)
        super().pass_on(line)

    def _advance(self, done: int, size: int) -> None:
        """Reports how much was read. That all was is reported once, if anything was."""
        is_amid = done < size
        if self._progress is not None and (is_amid or self._size):
            self._progress(done, size)
        self._size = size if is_amid else 0

    def close(self) -> None:
        process = self.process
        if self._owner == os.getpid() and not self.is_ready and process is not None:
            self._is_closed = True
            process.kill()  # it reads its file, and was sent nothing
        super().close()


def found_program(program: Optional[Path]) -> str:
    """The path of `tbd`: what was given, the variable TBD, on PATH, in the folder of this package
    or of the interpreter."""
    given = program if program is not None else os.environ.get("TBD") or None
    if given is not None:
        name = path_of("program" if program is not None else "TBD", given)
        found = shutil.which(name)
        if found is None:
            raise CannotStart(f"{name} is no program that can be run; {MISSING}")
        return os.path.abspath(found)
    near = [os.path.dirname(os.path.abspath(__file__)), os.path.dirname(sys.executable)]
    found = shutil.which(NAME) or shutil.which(NAME, path=os.pathsep.join(near))
    if found is None:
        raise CannotStart(MISSING)
    return os.path.abspath(found)


def progress_line(file: str, stream: Optional[TextIO]) -> Optional[Progress]:
    """Shows on a terminal how much of a file was read, in a line that is gone at the end. None if
    the stream is no terminal."""
    if stream is None or not stream.isatty():
        return None
    terminal = stream

    def show(done: int, size: int) -> None:
        text = "" if done == size else f"reading {file}: {done} of {size} MB"
        with contextlib.suppress(OSError, ValueError):  # it is full, or closed
            terminal.write(f"\r\x1b[K{text}")
            terminal.flush()

    return show
