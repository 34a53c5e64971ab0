"""Frames of requests and replies (docs/use/FORMATS.md)."""
from __future__ import annotations

import dataclasses
from typing import (
    Any,
    Callable,
    Iterable,
    Iterator,
    List,
    Optional,
    Sequence,
    Tuple,
    TypeVar,
    Union,
    cast,
)

from .columns import AccountColumns, TransferColumns, packed, unpacked
from .errors import BadReply, InvalidType, InvalidValue
from .layout import (
    HEADER,
    ID,
    ITEM_NAMES,
    ITEM_SIZES,
    ITEMS_MAX,
    RECORD,
    REPLY,
    REPLY_SIZES,
    REQUEST,
    RESULT,
    RESULT_FORMAT,
)
from .names import CreateAccountResult, CreateTransferResult, Operation, Status
from .records import Account, EventResult, Transfer, u128, u128_at
from .values import U8, U32, U64, U128, kind_of, listed, shown, viewed, whole

STATUS_MAX = max(Status)
NO_CLIENT = bytes(16)  # what no client has as its id
REGISTER = int(Operation.register)

COLUMNS = {
    Operation.create_accounts: AccountColumns,
    Operation.create_transfers: TransferColumns,
}
Item = Union[Account, Transfer, int]
Said = Union[List[EventResult], List[Account], List[Transfer], None]
T = TypeVar("T")


def operation_of(value: object) -> Operation:
    try:
        return Operation(whole("operation", value, U128, -U128))
    except ValueError:
        raise InvalidValue(
            "operation", f"must be one of {', '.join(it.name for it in Operation)}"
        ) from None


# Requests


def request_frame(
    client: int, session: int, number: int, operation: int, body: bytes = b""
) -> bytes:
    """The frame of a request. One that the server would find malformed, and end at, is refused."""
    kind = operation_of(operation)
    client, session, number = _tested(kind, client, session, number)
    if not isinstance(body, (bytes, bytearray)):
        raise InvalidType("body", f"must be bytes, not {kind_of(body)}")
    _test_length(kind, len(body))
    return u128(client) + REQUEST.pack(session, number, kind, len(body)) + body


def _tested(kind: Operation, client: int, session: int, number: int) -> tuple[int, int, int]:
    client = whole("client", client, U128, 1)
    if kind == Operation.register:
        return client, whole("session", session, 0), whole("number", number, 0)
    return client, whole("session", session, U64), whole("number", number, U32, 1)


def _test_length(operation: Operation, length: int) -> None:
    """Refuses a body of this many bytes, if the operation has no such body."""
    if operation == Operation.register:
        if length:
            raise InvalidValue("body", "of a register must be empty")
        return
    count, rest = divmod(length, ITEM_SIZES[operation])
    if rest:
        raise InvalidValue(
            "body", f"of {length} bytes has no whole items of {ITEM_SIZES[operation]} bytes"
        )
    if count > ITEMS_MAX:
        raise InvalidValue("body", f"must have at most {ITEMS_MAX} items, not {count}")


def body_of(operation: Operation, items: Iterable[object]) -> bytes:
    """The body of a request: records of the kind that the operation takes, or ids."""
    if operation == Operation.register:
        if items != () and items != []:
            raise InvalidValue("items", "of a register must be empty")
        return b""
    name = ITEM_NAMES[operation]
    columns: Any = COLUMNS.get(operation)
    if columns and isinstance(items, columns):
        if len(items) > ITEMS_MAX:
            raise InvalidValue(name, f"must have at most {ITEMS_MAX} items, not {len(items)}")
        return cast(bytes, items.body)
    given = listed(name, items, ITEMS_MAX)
    if operation in (Operation.lookup_accounts, Operation.lookup_transfers):
        return b"".join(u128(whole(f"{name}[{at}]", it, U128)) for at, it in enumerate(given))
    kind: Any = Account if operation == Operation.create_accounts else Transfer
    for at, it in enumerate(given):
        if not isinstance(it, kind):
            raise InvalidType(
                f"{name}[{at}]",
                f"must be {'an' if kind is Account else 'a'} {kind.__name__}, not {kind_of(it)}",
            )
    return packed(kind, name, given)


@dataclasses.dataclass(frozen=True)
class Request:
    """A request, as its frame has it. Its items are Accounts, Transfers, or ids."""

    client: int
    session: int
    number: int
    operation: Operation
    items: Tuple[Any, ...]

    @classmethod
    def from_bytes(cls, frame: bytes) -> Request:
        asked = header_of(frame)
        operation, body = asked.operation, bytes(frame[HEADER:])
        items: list[Item] = []
        if operation == Operation.create_accounts:
            items = [*unpacked(Account, body)]
        elif operation == Operation.create_transfers:
            items = [*unpacked(Transfer, body)]
        elif operation != Operation.register:
            items = [*_items(body, ID, lambda data: u128_at(data, 0))]
        return dataclasses.replace(asked, items=tuple(items))

    def to_bytes(self) -> bytes:
        """The request's frame. Items of another kind than the operation takes are refused."""
        kind = operation_of(self.operation)
        return request_frame(
            self.client, self.session, self.number, kind, body_of(kind, self.items)
        )


def header_of(frame: bytes) -> Request:
    """A request without its items. Bytes that the server would find malformed, and end at, are
    refused."""
    if not isinstance(frame, (bytes, bytearray)):
        raise InvalidType("frame", f"must be bytes, not {kind_of(frame)}")
    if len(frame) < HEADER:
        raise InvalidValue("frame", f"must have {HEADER} bytes at least, not {len(frame)}")
    client, (session, number, operation, length) = u128_at(frame, 0), REQUEST.unpack_from(frame, 16)
    if length != len(frame) - HEADER:
        raise InvalidValue(
            "frame", f"has a body of {len(frame) - HEADER} bytes, and its header says {length}"
        )
    kind = operation_of(operation)
    _tested(kind, client, session, number)
    _test_length(kind, length)
    if u128(client) + REQUEST.pack(session, number, kind, length) != frame[:HEADER]:
        raise InvalidValue("frame", "has reserved bytes that are not 0")
    return Request(client, session, number, kind, ())


def _header_at(data: object, at: int) -> bytes:
    """The bytes of a header at this place: fewer than it has if they end before."""
    if type(data) is bytes and type(at) is int and 0 <= at <= U64:  # as they nearly always are
        return data[at : at + HEADER]
    if not isinstance(data, (bytes, bytearray, memoryview)):
        raise InvalidType("data", f"must be bytes, not {kind_of(data)}")
    at = whole("at", at, U64)
    held = viewed("data", data) if isinstance(data, memoryview) else data
    return bytes(held[at : at + HEADER])


def request_fault(data: bytes, at: int = 0) -> Optional[str]:
    """What is wrong with the header of a request at this place, by the tests of docs/use/FORMATS.md
    in their order. A server that reads pairs ends at such a frame, for all."""
    header = _header_at(data, at)
    if len(header) < HEADER:
        return "Short"
    session, number, operation, length = REQUEST.unpack_from(header, 16)
    size = ITEM_SIZES.get(operation)
    if (  # as nearly always: no test below holds
        size
        and number
        and not length % size
        and length <= ITEMS_MAX * size
        and header[:16] != NO_CLIENT
        and header[29:32] == NO_CLIENT[:3]
        and header[36:] == NO_CLIENT[:12]
    ):
        return None
    is_register, size = operation == REGISTER, size or 1
    tests = (
        ("ClientZero", not any(header[:16])),
        ("UnknownOperation", not is_register and operation not in ITEM_SIZES),
        ("Reserved", any(header[29:32]) or any(header[36:])),
        ("RegisterNumbers", is_register and (session or number)),
        ("RequestZero", not is_register and not number),
        ("BadLength", length if is_register else length % size),
        ("TooMany", length // size > ITEMS_MAX),
    )
    return next((name for name, holds in tests if holds), None)


# Replies


def reply_length(data: bytes, at: int = 0) -> int:
    """The length of the frame whose header of 48 bytes is at this place. `BadReply` if fewer bytes
    are there."""
    header = _header_at(data, at)
    if len(header) < HEADER:
        raise BadReply(f"{len(header)} bytes are no header of a frame (Short)")
    return _length_of(header)


def _length_of(header: bytes) -> int:
    return HEADER + int.from_bytes(header[32:36], "little")


def reply_fault(data: bytes, at: int = 0) -> Optional[str]:
    """What is wrong with the header of a reply at this place, by the tests of
    docs/use/FORMATS.md in their order."""
    header = _header_at(data, at)
    if len(header) < HEADER:
        return "Short"
    session, number, operation, status, length, commit = REPLY.unpack_from(header, 16)
    size = REPLY_SIZES.get(operation)
    if (  # as nearly always: no test below holds
        size
        and number
        and status == 0 < session < commit
        and not length % size
        and length <= ITEMS_MAX * size
        and header[:16] != NO_CLIENT
        and header[30:32] == NO_CLIENT[:2]
        and header[44:] == NO_CLIENT[:4]
    ):
        return None
    is_register, is_refusal, size = operation == REGISTER, status != 0, size or RESULT
    has_numbers = (
        commit == 0
        if is_refusal
        else 0 < session == commit
        if is_register
        else 0 < session < commit
    )
    tests = (
        ("ClientZero", not any(header[:16])),
        ("UnknownOperation", not is_register and operation not in REPLY_SIZES),
        ("Reserved", status > STATUS_MAX or any(header[30:32]) or any(header[44:])),
        ("RegisterNumbers", is_register and (number or is_refusal and session)),
        ("RequestZero", not is_register and not number),
        ("ReplyNumbers", not has_numbers),
        ("BadLength", length if is_register or is_refusal else length % size),
        ("TooMany", length // size > ITEMS_MAX),
    )
    return next((name for name, holds in tests if holds), None)


def test_reply(data: bytes, at: int = 0) -> None:
    """Raises BadReply if no header of a reply is at this place: before its body is waited
    for."""
    first = _header_at(data, at)
    fault = reply_fault(first)
    if fault in ("BadLength", "TooMany") and _length_of(first) > HEADER + ITEMS_MAX * RECORD:
        raise BadReply(f"a reply with a body of {_length_of(first) - HEADER} bytes")
    if fault is not None:
        text = (
            f": {first.decode('ascii').splitlines()[0]!r}"
            if first and first.isascii() and first[:8].decode("ascii").isprintable()
            else ""
        )
        raise BadReply(f"what came is no frame of a reply ({fault}){text}")


def asker(header: bytes) -> bytes:
    """What a reply repeats of its request: client, session, number and operation. The session of
    a register is new."""
    return header[:16] + header[24:29] if header[28] == REGISTER else header[:29]


def test_asked(frame: bytes, reply: bytes) -> None:
    """Raises BadReply if the header of a reply, which has no fault, is not of this request."""
    if asker(reply) == asker(frame):
        return
    session, number = REPLY.unpack_from(reply, 16)[:2]
    asked_session, asked_number = REQUEST.unpack_from(frame, 16)[:2]
    raise BadReply(
        f"a reply to request {number} of session {session}, of client {u128_at(reply, 0)}, "
        f"came for request {asked_number} of session {asked_session}"
    )


@dataclasses.dataclass(frozen=True)
class Reply:
    client: int
    session: int
    number: int
    operation: int
    status: int
    commit: int
    body: bytes

    def to_bytes(self) -> bytes:
        for field, greatest in (
            ("client", U128),
            ("session", U64),
            ("number", U32),
            ("operation", U8),
            ("status", U8),
            ("commit", U64),
        ):
            whole(f"Reply.{field}", getattr(self, field), greatest)
        body = self._body()
        header = REPLY.pack(
            self.session, self.number, self.operation, self.status, len(body), self.commit
        )
        return u128(self.client) + header + body

    def _body(self) -> bytes:
        if not isinstance(self.body, (bytes, bytearray)):
            raise InvalidType("Reply.body", f"must be bytes, not {kind_of(self.body)}")
        if len(self.body) > U32:
            raise InvalidValue("Reply.body", f"must have at most {shown(U32)} bytes")
        return bytes(self.body)

    @classmethod
    def from_bytes(cls, frame: bytes) -> Reply:
        if not isinstance(frame, (bytes, bytearray)):
            raise BadReply(f"{kind_of(frame)} is no frame of a reply")
        if len(frame) < HEADER or len(frame) != _length_of(frame):
            raise BadReply(f"{len(frame)} bytes are no frame of a reply")
        test_reply(frame)
        session, number, operation, status, _, commit = REPLY.unpack_from(frame, 16)
        return cls(
            u128_at(frame, 0), session, number, operation, status, commit, bytes(frame[HEADER:])
        )

    @property
    def items(self) -> Said:
        """What the body says, of a reply with status 0: the results of a create, the records of
        a lookup, None of a register."""
        try:
            operation = Operation(self.operation)
        except ValueError:
            raise BadReply(f"no operation is {self.operation}") from None
        return said_by(operation, self._body())


def said_by(operation: Operation, body: bytes) -> Said:
    """What the body of a reply says: results or records, and nothing of a register."""
    if operation == Operation.register:
        return None
    if operation in (Operation.lookup_accounts, Operation.lookup_transfers):
        _test_whole(body, RECORD)
        if operation == Operation.lookup_accounts:
            return unpacked(Account, body)
        return unpacked(Transfer, body)
    names: Any = (
        CreateAccountResult if operation == Operation.create_accounts else CreateTransferResult
    )
    try:
        return [
            EventResult(index, names(result))
            for index, result in _items(body, RESULT, RESULT_FORMAT.unpack)
        ]
    except ValueError as unknown:
        raise BadReply(str(unknown)) from None


def test_said(frame: bytes, operation: Operation, said: Said) -> None:
    """Raises BadReply if a reply says what no reply to the request of this frame says."""
    if operation in (Operation.create_accounts, Operation.create_transfers):
        _test_results((len(frame) - HEADER) // RECORD, cast(List[EventResult], said))
    elif operation != Operation.register:
        _test_found(
            (u128_at(frame, at) for at in range(HEADER, len(frame), ID)), cast(List[Account], said)
        )


def _test_results(count: int, results: Sequence[EventResult]) -> None:
    """Results are of events that failed, in the order of the events."""
    before = -1
    for it in results:
        if it.index >= count:
            raise BadReply(f"a result of event {it.index} came for {count} events")
        if it.index <= before:
            raise BadReply(f"a result of event {it.index} came behind that of event {before}")
        if not it.result:
            raise BadReply(f"event {it.index} came as ok among those that failed")
        before = it.index


def _test_found(ids: Iterator[int], records: Sequence[Union[Account, Transfer]]) -> None:
    """Records are those that were looked up, in the order of the ids."""
    for it in records:
        if it.id not in ids:  # it goes on after the id of the record before
            raise BadReply(f"a record with id {it.id} came, which was not looked up there")


def _test_whole(body: bytes, size: int) -> None:
    if len(body) % size:
        raise BadReply(f"a body of {len(body)} bytes has no whole items of {size}")


def _items(body: bytes, size: int, read: Callable[[bytes], T]) -> list[T]:
    _test_whole(body, size)
    return [read(body[at : at + size]) for at in range(0, len(body), size)]
