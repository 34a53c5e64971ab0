"""The file that keeps a session: written whole or not at all, and read if it is one."""
from __future__ import annotations

import contextlib
import fcntl
import json
import os
import stat
from typing import Any, Union

from .errors import InvalidValue

Path = Union[str, "os.PathLike[str]"]

FILE_MAX = 1 << 22  # bytes: the largest request takes half of that, in hex


def _test_is_file(status: os.stat_result) -> None:
    """Refuses what gives no end or waits for others: a folder, a pipe, a device."""
    if not stat.S_ISREG(status.st_mode):
        raise InvalidValue("path", "is no file, but a folder, a pipe or a device")


# Reading


def read_saved(path: str) -> Any:
    """What the JSON in a file stands for."""
    try:
        return json.loads(_data_at(path).decode("ascii"), object_pairs_hook=_one_of_each)
    except InvalidValue:
        raise
    except ValueError as fault:
        raise InvalidValue("saved", f"is no JSON: {fault}") from None
    except RecursionError:
        raise InvalidValue("saved", "is no session: its JSON is nested too deeply") from None


def _data_at(path: str) -> bytes:
    it = os.open(path, os.O_RDONLY | os.O_NONBLOCK | os.O_CLOEXEC)
    try:
        _test_is_file(os.fstat(it))
        with open(it, "rb", closefd=False) as file:
            data = file.read(FILE_MAX + 1)
    finally:
        os.close(it)
    if len(data) > FILE_MAX:
        raise InvalidValue("saved", f"is no session: the file has more than {FILE_MAX} bytes")
    return data


def _one_of_each(pairs: list[tuple[str, Any]]) -> dict[str, Any]:
    found: dict[str, Any] = {}
    for name, value in pairs:
        if name in found:
            raise InvalidValue("saved", f"has two fields {name[:40]!r}")
        found[name] = value
    return found


# Writing


def write_whole(path: str, data: bytes) -> None:
    """Puts a file at this path, or at the target of a link there, with these bytes, and with the
    old one's permissions, or 0600. If that fails, the old file is left, and nothing next to it."""
    path = os.path.realpath(path)
    mode = 0o600
    with contextlib.suppress(FileNotFoundError):
        status = os.stat(path)
        _test_is_file(status)
        mode = stat.S_IMODE(status.st_mode)
    folder = os.open(os.path.dirname(os.path.abspath(path)), os.O_RDONLY | os.O_CLOEXEC)
    try:
        _replace(path, f"{path}.new", data, mode)
        os.fsync(folder)
    finally:
        os.close(folder)


def _replace(path: str, beside: str, data: bytes, mode: int) -> None:
    it = _begun(beside)
    try:
        with contextlib.suppress(OSError):  # a file system without permissions
            os.fchmod(it, mode)
        _fill(it, data)
        os.replace(beside, path)
    except BaseException:
        with contextlib.suppress(OSError):
            os.unlink(beside)
        raise
    finally:
        os.close(it)


def _begun(path: str) -> int:
    """A file at this path that nobody else writes to until it is closed."""
    while True:
        it = os.open(
            path, os.O_WRONLY | os.O_CREAT | os.O_NOFOLLOW | os.O_NONBLOCK | os.O_CLOEXEC, 0o600
        )
        try:
            _test_is_file(os.fstat(it))
            with contextlib.suppress(OSError):  # a file system without such locks
                fcntl.flock(it, fcntl.LOCK_EX)
            if _is_at(it, path):
                return it
        except BaseException:
            os.close(it)
            raise
        os.close(it)  # another one was written meanwhile, and has taken its place


def _is_at(it: int, path: str) -> bool:
    try:
        return os.path.samestat(os.fstat(it), os.lstat(path))
    except FileNotFoundError:
        return False


def _fill(it: int, data: bytes) -> None:
    os.ftruncate(it, 0)
    with open(it, "wb", closefd=False) as file:
        file.write(data)
    os.fsync(it)
