"""The calls that shim.c wrote down of a program, and the mutants that it makes of one."""

import os
import struct
from collections.abc import Iterator
from pathlib import Path
from typing import NamedTuple

# What each leaves out, by its name in the shim. docs/trust/MUTANTS.md lists them.
MUTANTS = {
    "no-sync": "no sync of the file",
    "no-sync-of-a-batch": "no sync between a batch and its latch",
    "late-sync-of-a-batch": "no sync between a batch and its latch, two after the latch",
    "no-sync-at-a-start": "a start reads the file without a sync before",
    "no-sync-of-a-copy": "the copy of torn bytes is not synced before they are cut off",
}
LATCH = b"\xff" * 4


class Call(NamedTuple):
    """W a write of the file at a place, T a cut of it to a length, S a sync of it; F and C a sync
    of a folder and of another file, by its inode; O a write to standard output."""

    kind: str
    place: int
    data: bytes = b""

    @property
    def opens_a_latch(self) -> bool:
        return self.kind == "W" and self.data == LATCH


def calls_of(log: str | os.PathLike[str]) -> Iterator[Call]:
    data, at = Path(log).read_bytes(), 0
    while at < len(data):
        kind, (place, length) = chr(data[at]), struct.unpack_from("<QQ", data, at + 1)
        at += 17
        written = data[at : at + length] if kind in "WO" else b""
        at += len(written)
        yield Call(kind, place, written)


def environment(shim: str, file: str | os.PathLike[str], **more: object) -> dict[str, str]:
    """A program's environment under the shim: `log`, `fault` and `mutant` as shim.c says."""
    given = {f"KEEP_{name.upper()}": str(it) for name, it in more.items() if it}
    return {**os.environ, "LD_PRELOAD": shim, "KEEP_FILE": str(file), **given}
