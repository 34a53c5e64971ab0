"""The source of a history: a dump on standard input, or a ledger's file by `tbd dump`.
`tbs replay` gives the reply to each entry."""

from __future__ import annotations

import ctypes
import os
import re
import signal
import subprocess
import sys
import time
from typing import Callable, Iterable, Iterator, NamedTuple, Optional, Tuple

from telovamish.faults import devices
from telovamish.live import end_of
from telovamish.programs import program

from .errors import Failed, Gone, NoDump, Refused
from .histories import History, Step
from .loading import Loading

LOST = "standard output"  # the end of what a dump prints if nobody reads it
END_WITH_PARENT = 1  # of Linux: the number of PR_SET_PDEATHSIG
LOOK = 1.0  # seconds after which the name of a followed file is looked at, though entries come


class Programs(NamedTuple):
    """What the options name."""

    tbd: Optional[str] = None
    tbs: Optional[str] = None

    def path(self, name: str) -> str:
        return program(name, getattr(self, name), f"--{name}")


def end_with_parent() -> None:
    """Has the system end this process when the one that started it has ended, if it can: a
    program that follows a file would wait for its next entry."""
    try:
        ctypes.CDLL(None).prctl(END_WITH_PARENT, signal.SIGTERM)
    except (OSError, AttributeError):
        pass


def read_dump(loading: Loading, programs: Programs, tell: Callable[[], None]) -> None:
    """Enters a dump from standard input."""
    if sys.stdin is None:
        raise Failed("standard input is closed")
    with History(sys.stdin.fileno(), programs.path("tbs")) as history:
        loading.read(history, tell)
    if not loading.is_done:
        loading.ended()


class Name:
    """The name of a file that is followed, and which file it led to at first."""

    def __init__(self, path: str) -> None:
        self._path = path
        self._first = self._now()

    def _now(self) -> Optional[Tuple[int, int]]:
        """The device and inode of the file that the name leads to; nothing without a file."""
        try:
            found = os.stat(self._path)
        except (FileNotFoundError, NotADirectoryError):
            return None
        return found.st_dev, found.st_ino

    def check(self) -> None:
        """Raises `Gone` if the name leads to another file or to none."""
        if self._now() != self._first:
            raise Gone(self._path)

    def watch(self, steps: Iterable[Step]) -> Iterator[Step]:
        """The steps of this file, to the first look that finds another one. What came before that
        is written first, as before each pause."""
        looked = time.monotonic()
        for step in steps:
            yield step
            now = time.monotonic()
            if step is None or now - looked > LOOK:
                looked = now
                try:
                    self.check()
                except Gone:
                    yield None
                    raise


class Ledger:
    """A ledger's file, and the programs that read it, also while it is served."""

    def __init__(self, path: str, programs: Programs) -> None:
        if not os.path.isfile(path):
            there_is = "is no file" if os.path.exists(path) else "does not exist"
            raise Failed(f"{path} {there_is}: a ledger's file is meant")
        self.path = path
        self._tbd, self._tbs = programs.path("tbd"), programs.path("tbs")

    def read(
        self, loading: Loading, tell: Callable[[], None] = lambda: None, follow: bool = False
    ) -> None:
        """Enters what the file holds, and what comes later if it is followed, as long as its name
        leads to it."""
        name = Name(self.path)  # before a program opens the file
        if follow and entries_of(self.path, self._tbd) < loading.commit_number:
            loading.ends_before()
        refused: Optional[Refused] = None
        with self._dump(follow) as dump:
            assert dump.stdout and dump.stderr
            with History(dump.stdout.fileno(), self._tbs) as history:
                steps = name.watch(history) if follow else iter(history)
                try:
                    loading.read(steps, tell)
                except Refused as error:
                    refused = error
                finally:
                    has_ended = history.has_ended  # by itself: its status says why
                    if not has_ended and (follow or refused or loading.is_done):
                        dump.kill()
                    else:
                        dump.wait()
            history.join()
            said = dump.stderr.read().decode(errors="replace").strip()
        is_failed = dump.returncode > 0 or has_ended and dump.returncode < 0
        if is_failed and not said.endswith(LOST):
            raise Failed(self._end_of(dump, said))
        if isinstance(refused, NoDump):
            raise Failed(f"{self._tbd} wrote no dump of {self.path}: {refused.fault}")
        if refused:
            raise refused
        if not loading.is_done:
            if dump.returncode:
                raise Failed(self._end_of(dump, said))
            loading.ended()

    def _end_of(self, dump: "subprocess.Popen[bytes]", said: str) -> str:
        return said or end_of(f"tbd dump {self.path}", dump.returncode, "")

    def _dump(self, follow: bool) -> "subprocess.Popen[bytes]":
        pipe = subprocess.PIPE
        with devices(f"{self._tbd} does not start"):
            return subprocess.Popen(
                [self._tbd, "dump", self.path, *(["--follow"] if follow else [])],
                stdin=subprocess.DEVNULL,
                stdout=pipe,
                stderr=pipe,
                preexec_fn=end_with_parent,
            )


def entries_of(path: str, tbd: str) -> int:
    """How many entries a file has now: the number of the last one."""
    with devices(f"{tbd} does not start"):
        ran = subprocess.run([tbd, "check", path], capture_output=True, check=False)
    found = re.search(rb"^entries ([0-9]+)$", ran.stdout, re.M)
    if ran.returncode or not found:
        said = ran.stderr.decode(errors="replace").strip()
        raise Failed(said or end_of(f"tbd check {path}", ran.returncode, "no number of entries"))
    return int(found[1])
