"""Replies of a proved program, one by one, over a pipe that may still grow: each item goes to the
program, and its reply comes back before the next one is read."""
from __future__ import annotations

import contextlib
import subprocess
from typing import Any, Iterable, Iterator, Optional

from tb_client import Reply

from .faults import Device, Fault, devices
from .model import Fact, Ledger
from .streams import Entry, Head, Item, item_bytes, read_reply


WRONG_INPUT = 2  # the exit status of a program that says what is wrong with its input


def end_of(program: str, status: int, message: str) -> str:
    """How a program ended that says nothing of its input."""
    how = f"was killed by signal {-status}" if status < 0 else f"ended with status {status}"
    last = message.removeprefix("tbs: ").splitlines()[-1:]
    return ": ".join([f"{program} {how}", *last])


@contextlib.contextmanager
def replies_of(program: str) -> Iterator[None]:
    """What comes within is a program's own fault, not its input's, if it is no reply."""
    try:
        yield
    except Fault as why:
        raise Device(f"{program} wrote what is no reply ({why})") from None


class Replay(subprocess.Popen[bytes]):
    """`tbs replay`, which enters the items of a dump. It has at most one entry without a reply, so
    neither side waits for the other."""

    def __init__(self, tbs: str) -> None:
        pipe = subprocess.PIPE
        with devices(f"{tbs} does not start"):
            super().__init__([tbs, "replay"], stdin=pipe, stdout=pipe, stderr=pipe)

    def __exit__(self, *error: Any) -> None:
        self.kill()
        with contextlib.suppress(BrokenPipeError):  # it had ended before its input
            super().__exit__(*error)

    def reply_to(self, item: Item) -> Optional[Reply]:
        """The reply to an entry; None for a head and a mark. Raises Fault as `reply` does."""
        assert self.stdin
        with contextlib.suppress(BrokenPipeError):  # it ended: the next reply is missing
            self.stdin.write(item_bytes(item))
            self.stdin.flush()
        return self.reply() if isinstance(item, Entry) else None

    def reply(self) -> Reply:
        """The next reply. Raises Fault with the program's own message if it ends."""
        assert self.stdout and self.stderr
        with replies_of("tbs replay"):
            reply = read_reply(self.stdout)
        if reply:
            return reply
        message, status = self.stderr.read().decode(errors="replace").strip(), self.wait()
        if status != WRONG_INPUT or not message:
            raise Device(end_of("tbs replay", status, message))
        raise Fault(message.rpartition(": ")[2])


def facts(
    items: Iterable[Item], replay: Replay
) -> Iterator[tuple[Item, Optional[Reply], Ledger, list[Fact]]]:
    """Each item of a dump with the reply to it, the ledger after it, and what came of it."""
    ledger = Ledger(1)
    for item in items:
        reply = replay.reply_to(item)
        if isinstance(item, Head):
            ledger = Ledger(item.clients_max)
        found = list(ledger.enter(item, reply)) if isinstance(item, Entry) and reply else []
        yield item, reply, ledger, found
