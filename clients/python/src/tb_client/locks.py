"""Which process has a file locked."""
from __future__ import annotations

import contextlib
import dataclasses
import os
import pathlib
from typing import Optional

LOCKS = pathlib.Path("/proc/locks")
SHOWN = 200  # characters of a command


@dataclasses.dataclass(frozen=True)
class Owner:
    """A process that has a file locked, and its parent, with their commands."""

    process: int
    command: str
    parent: int
    parent_command: str

    def __str__(self) -> str:
        started = f", started by process {self.parent} ({self.parent_command})"
        return f"process {self.process} ({self.command}){started if self.parent else ''}"


def owner_of(path: str) -> Optional[Owner]:
    """The process that holds the lock of a file, as far as this system says."""
    with contextlib.suppress(OSError, ValueError, IndexError):
        found = os.stat(path)
        place = f"{os.major(found.st_dev):02x}:{os.minor(found.st_dev):02x}:{found.st_ino}"
        # 1: FLOCK ADVISORY WRITE 4711 fe:00:10952783 0 EOF; one that waits has an arrow
        lines = map(str.split, LOCKS.read_text(encoding="ascii").splitlines())
        locks = [it for it in lines if it[1] == "FLOCK" and it[5].endswith(f":{found.st_ino}")]
        locks.sort(key=lambda it: it[5] != place)  # some file systems have another device there
        return _owner(int(locks[0][4]))
    return None


def _owner(process: int) -> Optional[Owner]:
    if process <= 0:  # it is none that this process may see
        return None
    parent = _parent_of(process)
    return Owner(process, _command_of(process), parent, _command_of(parent))


def _parent_of(process: int) -> int:
    with contextlib.suppress(OSError, ValueError, IndexError):
        text = pathlib.Path(f"/proc/{process}/stat").read_text(errors="replace")
        return int(text.rpartition(")")[2].split()[1])
    return 0


def _command_of(process: int) -> str:
    with contextlib.suppress(OSError):
        text = pathlib.Path(f"/proc/{process}/cmdline").read_text(errors="replace")
        return text.replace("\0", " ").strip()[:SHOWN]
    return ""
