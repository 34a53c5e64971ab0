"""Scripts, dumps and replies as they are read, piece by piece in constant memory."""
from __future__ import annotations

import struct
from typing import IO, Iterator, NamedTuple, Optional, Union

from tb_client import Reply
from tb_client.frames import reply_fault, reply_length, request_fault
from tb_client.layout import RESULT_FORMAT

from .faults import Fault
from .reader import REQUEST, Pair
from .words import NAMES, TIME_MAX

FRAME = 48  # bytes of a header
MAGIC = b"TBSDUMP1"


class Head(NamedTuple):
    profile: int
    clients_max: int


class Mark(NamedTuple):
    profile: int = 2


class Entry(NamedTuple):
    commit: int
    time: int
    request: Pair


Item = Union[Head, Entry, Mark]


def exactly(source: IO[bytes], length: int, may_end: bool = False) -> bytes:
    """As many bytes of a buffered stream as are asked for; no bytes if it ends and may end here."""
    data = source.read(length)
    if len(data) < length and (data or not may_end):
        raise Fault("Short")
    return data


def read_request(source: IO[bytes], at: int) -> Pair:
    header = exactly(source, FRAME)
    fault = request_fault(header)
    if fault:
        raise Fault(fault)
    session, number, operation, length = REQUEST.unpack_from(header, 16)
    body = exactly(source, length)
    client = int.from_bytes(header[:16], "little")
    return Pair(at, client, session, number, NAMES[operation], body)


def read_script(source: IO[bytes]) -> Iterator[Pair]:
    while moment := exactly(source, 8, may_end=True):
        yield read_request(source, int.from_bytes(moment, "little"))


def read_dump(source: IO[bytes]) -> Iterator[Item]:
    head = source.read(16)
    profile, clients_max = struct.unpack("<II", head[8:].ljust(8, b"\0"))
    if head[:8] != MAGIC or profile not in (1, 2) or not 1 <= clients_max <= 64:
        raise Fault("Head")
    yield Head(profile, clients_max)
    may_be_marked = profile == 1
    while numbers := exactly(source, 16, may_end=True):
        commit, time = struct.unpack("<QQ", numbers)
        if commit:
            yield Entry(commit, time, read_request(source, min(time, TIME_MAX)))
            continue
        if time != 2 or not may_be_marked:
            raise Fault("Mark")
        may_be_marked = False
        yield Mark(time)


def read_reply(source: IO[bytes]) -> Optional[Reply]:
    header = exactly(source, FRAME, may_end=True)
    if not header:
        return None
    fault = reply_fault(header)
    if fault:
        raise Fault(fault)
    return Reply.from_bytes(header + exactly(source, reply_length(header) - FRAME))


def read_replies(source: IO[bytes]) -> Iterator[Reply]:
    while reply := read_reply(source):
        yield reply


def results_of(reply: Reply) -> dict[int, int]:
    """The results of the events that failed."""
    return {index: result for index, result in RESULT_FORMAT.iter_unpack(reply.body)}


def item_bytes(item: Item) -> bytes:
    """An item of a dump again."""
    if isinstance(item, Head):
        return MAGIC + struct.pack("<II", *item)
    if isinstance(item, Mark):
        return struct.pack("<QQ", 0, item.profile)
    return struct.pack("<Q", item.commit) + item.request._replace(at=item.time).to_bytes()
