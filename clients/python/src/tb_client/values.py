"""The tests of what fields and arguments hold. Each fault names the field."""
from __future__ import annotations

import itertools
import operator
import os
from typing import Any, Iterable, Mapping, Optional

from .errors import InvalidType, InvalidValue
from .layout import TIME_MAX

U8, U16, U32, U64, U128 = (2**bits - 1 for bits in (8, 16, 32, 64, 128))
MOMENT_MAX = TIME_MAX


def kind_of(value: object) -> str:
    return type(value).__name__


def shown(number: int) -> str:
    """A number as an error shows it: the greatest of its bits as a power, and not one that fills
    the page."""
    bits = number.bit_length()
    if bits > 128:
        return f"a number of {bits} bits"
    return f"2^{bits} - 1" if bits > 15 and number == 2**bits - 1 else str(number)


def whole(field: str, value: object, greatest: int, least: int = 0) -> int:
    """An integer within its range, only by `__index__`: what would have to be rounded or read
    is refused, and truth values too."""
    if isinstance(value, bool):
        raise InvalidType(field, "must be an int, not bool")
    try:
        number = int.__index__(operator.index(value))  # type: ignore[arg-type]
    except TypeError:
        raise InvalidType(field, f"must be an int, not {kind_of(value)}") from None
    if not least <= number <= greatest:
        wanted = shown(least) if least == greatest else f"{shown(least)} to {shown(greatest)}"
        raise InvalidValue(field, f"must be {wanted}, not {shown(number)}")
    return number


def seconds(field: str, value: object, least: float) -> float:
    """A time in seconds, at least this many, whole or not."""
    if isinstance(value, bool) or not isinstance(value, (int, float)):
        raise InvalidType(field, f"must be a number of seconds, not {kind_of(value)}")
    if not least <= value <= U32:  # which no nan is
        raise InvalidValue(
            field,
            f"must be {least:g} to {shown(U32)} seconds, not "
            f"{shown(value) if isinstance(value, int) else value}",
        )
    return float(value)


def listed(name: str, items: Iterable[object], most: Optional[int] = None) -> list[object]:
    """What was given as a list, of at most this many items. Text, bytes and mappings are no lists,
    though Python goes over them."""
    if isinstance(items, (str, bytes, bytearray, memoryview, Mapping)):
        raise InvalidType(name, f"must be a list, not {kind_of(items)}")
    try:
        each = iter(items)
    except TypeError:
        raise InvalidType(name, f"must be a list, not {kind_of(items)}") from None
    # which may have no end
    given = list(each if most is None else itertools.islice(each, most + 1))
    if most is not None and len(given) > most:
        raise InvalidValue(name, f"must have at most {most} items")
    return given


def viewed(field: str, data: memoryview) -> bytes:
    """The bytes that a view shows, whatever it takes for an item, and in one piece."""
    try:
        return data.tobytes()
    except ValueError:
        raise InvalidValue(field, "is a view that was released") from None


def path_of(field: str, path: Any) -> str:
    """A path as text, if the system can take it."""
    try:
        name = None if isinstance(path, bytes) else os.fspath(path)
    except TypeError:
        name = None
    if name is None:
        raise InvalidType(field, f"must be a path, not {kind_of(path)}")
    if not isinstance(name, str) or not _is_name(name):
        raise InvalidValue(field, "is no path")
    return name


def _is_name(path: str) -> bool:
    try:
        name = os.fsencode(path)
    except UnicodeError:
        return False
    return bool(name) and b"\0" not in name


def truth(field: str, value: object) -> bool:
    if not isinstance(value, bool):
        raise InvalidType(field, f"must be True or False, not {kind_of(value)}")
    return value


def callable_of(field: str, value: Any) -> Any:
    if not callable(value):
        raise InvalidType(field, f"must be a function, not {kind_of(value)}")
    return value
