"""A listener as a process, and what its standard error says."""

from __future__ import annotations

import contextlib
import os
import re
import resource
import shutil
import signal
import socket
import subprocess
import sys
import time
from collections.abc import Callable, Iterator, Sequence
from pathlib import Path
from typing import Any, Optional, Union

from tb_client import Session, Socket

from ..conftest import ROOT, found
from .wire import connected, received, register

BUILT = ROOT / "server" / "out" / "tb-listen"
LISTENER = os.environ.get("LISTENER") or shutil.which("tb-listen") or str(BUILT)
TBD = found("tbd")
STAND_IN = [sys.executable, "-SE", str(ROOT / "clients/python/tests/stand_in_tbd.py")]
# lines that a start and an end print, and that a test reads only if it is about them
NOTES = (
    "tb_listen: tbd: made ",
    "tb_listen: tbd: reading ",
    "tb_listen: tbd: copied ",
    "tb_listen: tbd: cut ",
    "tb_listen: has stopped: ",
)
MIB = 1 << 20
SECONDS = 120  # that a start, an end or a line may take on a busy machine
Address = Union[str, tuple[str, int]]


def children(process: int) -> list[int]:
    """The processes that a process started, by their ids: any of its threads may have done so."""
    some: list[int] = []
    for thread in Path(f"/proc/{process}/task").glob("*"):
        with contextlib.suppress(OSError):
            some += map(int, (thread / "children").read_text().split())
    return some


def state_of(process: int) -> str:
    """The letter that the system has for a process's state."""
    return Path(f"/proc/{process}/stat").read_text().rpartition(")")[2].split()[0]


def resident(process: subprocess.Popen[str], name: str = "VmRSS") -> int:
    """Bytes of memory that a process has now, or (VmHWM) had at most."""
    text = Path(f"/proc/{process.pid}/status").read_text()
    found = re.search(rf"^{name}:\s+(\d+) kB$", text, re.M)
    assert found
    return int(found[1]) << 10


def is_gone(process: int) -> bool:
    """Whether a process has ended, though nobody may have asked for its status."""
    with contextlib.suppress(OSError):
        return state_of(process) == "Z"
    return True


def until(holds: Callable[[], Any], seconds: float = SECONDS) -> Any:
    """Waits until something holds, and returns it."""
    end = time.monotonic() + seconds
    while not (value := holds()):
        assert time.monotonic() < end, f"not within {seconds} s"
        time.sleep(0.01)
    return value


class Listener:
    """A listener in front of tbd, or of another command. A command that does not say what it
    runs gets `run FILE 64`."""

    def __init__(
        self,
        folder: Path,
        *options: object,
        command: Optional[list[str]] = None,
        before: Sequence[str] = (),
        places: Optional[list[str]] = None,
        fail: str = "",
        **how: Any,
    ) -> None:
        self.folder = folder
        self.path, self.file = str(folder / "ledger.sock"), folder / "ledger.tbk"
        if places is None:
            places = [] if {"--tcp", "--unix"} & set(options) else ["--unix", self.path]
        self.command = list(map(str, command or [TBD]))
        if "run" not in self.command:
            self.command += ["run", str(self.file), "64"]
        words = [*before, LISTENER, *places, *map(str, options), "--", *self.command]
        env = {**os.environ, "FAIL": fail, **how.pop("env", {})}
        self.process = subprocess.Popen(words, stderr=subprocess.PIPE, text=True, env=env, **how)
        self.notes: list[str] = []  # of its start and its end
        self.lines: list[str] = []  # all others that were read

    def begun(self) -> Listener:
        """Reads its first line: the address at which it listens, or why it does not."""
        place = re.fullmatch(r"tb_listen: listens on (.*):([0-9]+)\n", self.line())
        self.address: Address = (place[1].strip("[]"), int(place[2])) if place else self.path
        return self

    def line(self) -> str:
        """Its next line that is no note."""
        assert self.process.stderr
        while (line := self.process.stderr.readline()).startswith(NOTES):
            self.notes.append(line)
        self.lines.append(line)
        return line

    def line_with(self, part: str) -> str:
        """Its next line with these words."""
        while part not in (line := self.line()):
            assert line, f"it ended without {part!r}: {self.lines}"
        return line

    def end(self, number: int = signal.SIGTERM) -> int:
        self.process.send_signal(number)
        return self.ended()

    def ended(self, seconds: float = SECONDS) -> int:
        """Its exit status, when it has ended. All its lines are then read."""
        status = self.process.wait(seconds)
        assert self.process.stderr
        for line in self.process.stderr:
            (self.notes if line.startswith(NOTES) else self.lines).append(line)
        return status

    def close(self) -> None:
        """Ends it, if it runs."""
        assert self.process.stderr
        if self.process.poll() is None:
            self.process.send_signal(signal.SIGCONT)
            self.process.terminate()
            try:
                self.process.wait(SECONDS)
            except subprocess.TimeoutExpired:
                self.process.kill()
                self.process.wait()
        self.process.stderr.close()

    def server(self) -> int:
        """The id of the server's process, when it runs."""
        return int(until(lambda: children(self.process.pid))[0])

    def kill_server(self) -> None:
        os.kill(self.server(), signal.SIGKILL)

    def connect(self, host: str = "") -> socket.socket:
        """A connection to it, over TCP from this address if one is given."""
        if isinstance(self.address, str):
            return connected(self.path)
        return socket.create_connection(self.address, SECONDS, (host, 0) if host else None)

    def session(self, client: Optional[int] = None, **how: Any) -> Session:
        """A session over a socket of its own."""
        attempts = {"attempts": how.pop("attempts")} if "attempts" in how else {}
        return Session.register(Socket(self.address, **how), client, **attempts)

    def files(self) -> int:
        """How many files it has open."""
        return len(os.listdir(f"/proc/{self.process.pid}/fd"))

    @contextlib.contextmanager
    def no_more_files(self) -> Iterator[None]:
        """It may not open another file meanwhile."""
        files = self.files()
        limits = resource.prlimit(self.process.pid, resource.RLIMIT_NOFILE)
        self.allow_files((files, limits[1]))
        try:
            yield
        finally:
            if self.process.poll() is None:
                self.allow_files(limits)

    def allow_files(self, limits: tuple[int, int]) -> None:
        resource.prlimit(self.process.pid, resource.RLIMIT_NOFILE, limits)

    def cpu_seconds(self) -> float:
        """CPU time that it has used."""
        fields = Path(f"/proc/{self.process.pid}/stat").read_text().rpartition(")")[2].split()
        return (int(fields[11]) + int(fields[12])) / os.sysconf("SC_CLK_TCK")


def ended(*options: object, command: tuple[str, ...] = ("true",), **how: Any) -> tuple[int, str]:
    """The status and the last line of a listener that does not begin, or whose command ends."""
    words = [LISTENER, *map(str, options), "--", *command]
    return ended_with(words, **how)


def ended_with(words: list[str], **how: Any) -> tuple[int, str]:
    ran = subprocess.run(words, capture_output=True, text=True, timeout=SECONDS, **how)
    return ran.returncode, ran.stderr.splitlines()[-1] if ran.stderr else ""


def is_starting(path: str) -> bool:
    """Whether a listener answers a register with Starting."""
    with connected(path, SECONDS) as it:
        it.sendall(register(1))
        return received(it) == b"tb_listen: Starting\n"
