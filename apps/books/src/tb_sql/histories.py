"""A history: the items of a dump, each entry with the reply of the proved program to it."""

from __future__ import annotations

import contextlib
import os
import queue
import threading
from typing import BinaryIO, Iterator, List, Optional, Tuple, Union, cast

from tb_client import Reply
from telovamish.faults import Device, Fault, devices
from telovamish.kinds import FIRST_BYTES, kind_of
from telovamish.live import Replay
from telovamish.streams import Entry, Item, item_bytes, read_dump

from .errors import Cut, NoDump, Refused

CHUNK = 1 << 18  # bytes that are read at once
WAITING = 4  # parts of the history that are read before their rows are made
IDLE = 0.2  # seconds without an item, after which what is whole is written
# what another input is, and the command that reads it
KINDS = {
    "ledger": "it is a ledger's file, which tb-sql load FILE --ledger LEDGER reads",
    "remnant": "it is the remnant of a ledger's file: tbd run begins a ledger in it",
    "script": "it is a script, which tbs run serves and tbs dump makes a dump of",
    "replies": "it is the replies of tbs, which telovamish replies shows",
    "JSON": "it is JSON, as telovamish audit and dump print it: give the dump itself",
    "text": "it is text; telovamish script makes a script of statements",
}

Step = Optional[Tuple[Item, Optional[Reply]]]  # None: nothing has come for a while


class Source:
    """A file's number as a stream of bytes. Before it waits for more it says so."""

    def __init__(self, number: int) -> None:
        self._number = number
        self._data = b""
        self._at = 0
        self.has_ended = False
        self.first = b""  # bytes, as many as show what a stream is

    def wait(self) -> None:
        """What is done before more is awaited: nothing here."""

    def read(self, length: int) -> bytes:
        """The next bytes, as many as are asked for; fewer if the stream ends."""
        end = self._at + length
        if end > len(self._data):
            self._fill(length)
            end = length
        data = self._data[self._at : end]
        self._at = min(end, len(self._data))
        return data

    def _fill(self, length: int) -> None:
        parts = [self._data[self._at :]]
        wanted = length - len(parts[0])
        while wanted > 0:
            self.wait()
            with devices("the history"):
                data = os.read(self._number, max(CHUNK, wanted))
            if not data:
                self.has_ended = True
                break
            parts.append(data)
            wanted -= len(data)
        self._data, self._at = b"".join(parts), 0
        self.first = self.first or self._data[:FIRST_BYTES]


class History(Source):
    """The items of a dump. A thread reads them and passes them to `tbs replay`, so that its replies
    are made while rows are. Whoever takes items always reads replies: neither side waits for the
    other."""

    def __init__(self, number: int, tbs: str) -> None:
        super().__init__(number)
        self._replay = Judge(tbs)
        self._parts: queue.Queue[Union[List[Item], BaseException, None]] = queue.Queue(WAITING)
        self._items: List[Item] = []
        self._is_closed = False
        self._thread = threading.Thread(target=self._read_items, daemon=True)

    def __enter__(self) -> History:
        self._thread.start()
        return self

    def __exit__(self, *error: object) -> None:
        self._is_closed = True
        self._replay.__exit__(*error)

    def join(self) -> None:
        """Waits for the thread, once the input has ended."""
        self._thread.join()

    def __iter__(self) -> Iterator[Step]:
        while True:
            try:
                part = self._parts.get(timeout=IDLE)
            except queue.Empty:
                yield None
                continue
            if part is None:
                return
            if isinstance(part, BaseException):
                raise _named(part, self.first)
            for item in part:
                yield item, self._replay.take() if isinstance(item, Entry) else None

    def wait(self) -> None:
        """Passes on what is read so far."""
        items, self._items = self._items, []
        if not items:
            return
        self._put(items)
        self._replay.put(b"".join(map(item_bytes, items)))

    def _put(self, part: Union[List[Item], BaseException, None]) -> None:
        while not self._is_closed:
            try:
                return self._parts.put(part, timeout=IDLE)
            except queue.Full:
                pass

    def _read_items(self) -> None:
        end: Optional[BaseException] = None
        try:
            for item in read_dump(cast(BinaryIO, self)):
                self._items.append(item)
        except Exception as error:  # which the other thread raises
            end = error
        try:
            self.wait()
        except Exception as error:
            end = end or error
        self._put(end)


class Judge(Replay):
    """`tbs replay`, whose replies are taken in another thread than its items are put."""

    def put(self, data: bytes) -> None:
        """Passes items on. If the program ended, the next reply is missing."""
        assert self.stdin
        with contextlib.suppress(BrokenPipeError):
            self.stdin.write(data)
            self.stdin.flush()

    def take(self) -> Reply:
        """The next reply."""
        try:
            return self.reply()
        except Device:
            raise
        except Fault as fault:
            raise Refused(f"the history is refused: {fault}") from None


def _named(error: BaseException, first: bytes) -> BaseException:
    """What a dump that is read wrongly is called. A stream without a head is named by its first
    bytes."""
    if isinstance(error, Device) or not isinstance(error, Fault):
        return error
    if str(error) == "Short":
        return Cut("the input ends within an entry")
    return NoDump(str(error), KINDS.get(kind_of(first), "") if first else "it is empty")
