"""Records of a batch and their bytes, a field of all records at a time."""
from __future__ import annotations

import array
import functools
import operator
import sys
from typing import (
    Any,
    Callable,
    ClassVar,
    Dict,
    Generic,
    Iterable,
    Iterator,
    List,
    NamedTuple,
    Sequence,
    Tuple,
    Type,
    Union,
    cast,
)

from .errors import Invalid, InvalidType, InvalidValue
from .layout import ACCOUNT_PLACES, RECORD, TRANSFER_PLACES
from .names import AccountFlags, TransferFlags
from .records import Account, Record, Transfer
from .values import kind_of, whole

FEW = 16  # records, up to which each is packed by itself
HALF = 8  # bytes of a half of a number of 16
CODES = {2: "H", 4: "I", 8: "Q"}  # of array and memoryview, by the bytes of a field
IS_BIG = sys.byteorder == "big"


class _Field(NamedTuple):
    """A field of a kind of records: its place and bytes, the type of its values, what takes one
    from a record, and what makes one of its number."""

    at: int
    size: int
    plain: Type[Any]
    value_in: Callable[[Any], Any]
    value_of: Callable[[int], Any]


def _fields(places: Dict[str, Tuple[int, int]], flags: Any) -> Dict[str, _Field]:
    found = {}
    for name, (at, size) in places.items():
        plain = flags if name == "flags" else int
        made = functools.lru_cache(1024)(plain)  # an enum makes its members slowly
        found[name] = _Field(at, size, plain, operator.attrgetter(name), made)
    return found


FIELDS: Dict[Any, Dict[str, _Field]] = {
    Account: _fields(ACCOUNT_PLACES, AccountFlags),
    Transfer: _fields(TRANSFER_PLACES, TransferFlags),
}


# From records to bytes


def packed(kind: Type[Record], name: str, records: Sequence[Record]) -> bytes:
    """The bytes of records, each field tested: it may have changed since the record was made. A
    fault names the record, as `transfers[1].amount`."""
    if len(records) > FEW:
        try:
            return _in_columns(FIELDS[kind].values(), records)
        except (OverflowError, TypeError):
            pass  # a value that its field cannot have, or an integer of another type
    found = []
    for at, it in enumerate(records):
        try:
            found.append(kind.to_bytes(it))
        except Invalid as fault:
            field = fault.field.rpartition(".")[2]
            raise type(fault)(f"{name}[{at}].{field}", fault.problem) from None
    return b"".join(found)


def _in_columns(fields: Iterable[_Field], records: Sequence[object]) -> bytes:
    """An OverflowError or a TypeError if a value is not one that its field holds as it is."""
    body = bytearray(RECORD * len(records))
    for field in fields:
        column = [*map(field.value_in, records)]
        if {*map(type, column)} != {field.plain}:
            raise TypeError
        if field.size > HALF:
            _put_wide(body, field.at, column)
        else:
            _put(body, field.at, array.array(CODES[field.size], column))
    return bytes(body)


def _put(body: bytearray, at: int, values: array.array[int]) -> None:
    """Puts numbers into records, one in each."""
    if IS_BIG:
        values.byteswap()
    size = values.itemsize
    memoryview(body).cast(values.typecode)[at // size :: RECORD // size] = values


def _put_wide(body: bytearray, at: int, column: List[int]) -> None:
    try:
        _put(body, at, array.array("Q", column))  # the upper halves are 0
    except OverflowError:
        numbers = b"".join([it.to_bytes(2 * HALF, "little") for it in column])
        for half in range(2):
            halves = memoryview(numbers).cast("Q")[half::2]
            memoryview(body).cast("Q")[at // HALF + half :: RECORD // HALF] = halves


# From columns to bytes

Column = Union[int, "array.array[int]", memoryview, bytes, bytearray, Any]


class _Columns(Generic[Record]):
    """Records by their fields. A field is a number for all records, or a column with one for each:
    an array, a memoryview, an array of numpy. Their numbers are unsigned and as long as the field
    (array's types H, I and Q). A field of 128 bits takes its lower halves (Q), or 16 bytes for
    each, the low one first. A field that is omitted is 0. The numbers are taken as they are now."""

    _kind: ClassVar[Any]

    def __init__(self, **fields: Column) -> None:
        name, places = type(self).__name__, FIELDS[self._kind]
        columns = {field: column for field, column in fields.items() if not isinstance(column, int)}
        for field in fields:
            if field not in places:
                raise InvalidValue(f"{name}.{field}", "is no field")
        if "id" not in columns:
            raise InvalidType(f"{name}.id", "must be a column")
        views = {
            field: _viewed(f"{name}.{field}", column, places[field])
            for field, column in columns.items()
        }
        sizes = {field: len(halves[0]) for field, halves in views.items()}
        for field, size in sizes.items():
            if size != sizes["id"]:
                raise InvalidValue(f"{name}.{field}", f"has {size} numbers, and id {sizes['id']}")
        body = bytearray(RECORD * sizes["id"])
        for field, halves in views.items():
            _put_halves(body, places[field].at, halves)
        for field, number in fields.items():
            if field not in columns:
                most = 2 ** (8 * places[field].size) - 1
                _put_same(body, places[field], whole(f"{name}.{field}", number, most))
        self.body = bytes(body)

    def __len__(self) -> int:
        return len(self.body) // RECORD

    def __iter__(self) -> Iterator[Record]:
        return iter(unpacked(self._kind, self.body))

    def __repr__(self) -> str:
        return f"<{type(self).__name__} of {len(self)}>"


class AccountColumns(_Columns[Account]):
    _kind = Account
    __doc__ = (_Columns.__doc__ or "").replace("Records", "Accounts", 1)


class TransferColumns(_Columns[Transfer]):
    _kind = Transfer
    __doc__ = (_Columns.__doc__ or "").replace("Records", "Transfers", 1)


def _viewed(name: str, column: Column, field: _Field) -> List[memoryview]:
    """The numbers of a column, as bytes have them; two halves of wide ones, if both are given."""
    try:
        view = memoryview(cast(Any, column))
    except TypeError:
        problem = f"must be a number or a column of numbers, not {kind_of(column)}"
        raise InvalidType(name, problem) from None
    if view.ndim != 1 or not view.c_contiguous:
        raise InvalidType(name, "must be a column without gaps, of one dimension")
    form = view.format.lstrip("@=")
    if field.size > HALF and form in ("B", "c"):
        if view.nbytes % (2 * HALF):
            raise InvalidValue(name, f"has {view.nbytes} bytes, and takes 16 for each record")
        halves = view.cast("B").cast("Q")
        return [halves[::2], halves[1::2]]
    size = min(field.size, HALF)
    if form not in ("H", "I", "L", "Q") or view.itemsize != size:
        raise InvalidType(
            name, f"must have unsigned numbers of {size} bytes ({CODES[size]}), not {form}"
        )
    return [view.cast("B").cast(CODES[size])]


def _put_halves(body: bytearray, at: int, halves: Sequence[memoryview]) -> None:
    for place, half in enumerate(halves):
        if IS_BIG and len(halves) == 1:
            _put(body, at, array.array(half.format, half))
            continue
        size = half.itemsize
        there = memoryview(body).cast(half.format)
        there[at // size + place :: RECORD // size] = half


def _put_same(body: bytearray, field: _Field, number: int) -> None:
    """Puts one number into all records."""
    size = min(field.size, HALF)
    for at in range(0, field.size, size):
        part = number >> 8 * at & 2 ** (8 * size) - 1
        if part:
            _put(body, field.at + at, array.array(CODES[size], [part]) * (len(body) // RECORD))


# From bytes to records


def unpacked(kind: Type[Record], body: bytes) -> List[Record]:
    """The records that bytes are. All that they can be is in range."""
    fields = FIELDS[kind]
    columns = [_column(body, it) for it in fields.values()]
    return [_record(kind, dict(zip(fields, values))) for values in zip(*columns)]


def _record(kind: Type[Record], values: Dict[str, int]) -> Record:
    record = object.__new__(kind)
    record.__dict__.update(values)
    return record


def _column(body: bytes, field: _Field) -> List[int]:
    if field.size > HALF:
        upper = _numbers(body, field.at + HALF, HALF)
        lower = _numbers(body, field.at, HALF)
        return [high << 64 | low for high, low in zip(upper, lower)] if any(upper) else lower
    column = _numbers(body, field.at, field.size)
    return column if field.plain is int else [*map(field.value_of, column)]


def _numbers(body: bytes, at: int, size: int) -> List[int]:
    """The numbers of this many bytes at this place of each record."""
    values = array.array(CODES[size])
    values.frombytes(memoryview(body).cast(CODES[size])[at // size :: RECORD // size].tobytes())
    if IS_BIG:
        values.byteswap()
    return values.tolist()
