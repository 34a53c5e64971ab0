"""Two things that no reply says: which are those of repeats, and the last entry's time."""
from __future__ import annotations

from tb_client import Reply

from .reader import Pair
from .words import TIME_MAX


class History:
    """What is known of a ledger's history: the last commit that was seen, and the least time that
    its last entry has."""

    def __init__(self, seen: int = 0, time: int = 0) -> None:
        self.seen, self.time = seen, time

    def entered_at(self, pair: Pair) -> int:
        """The time at which a request is entered if it is new."""
        count = pair.length if pair.operation.startswith("create_") else 0
        return max(pair.at, self.time + max(count, 1))

    def has_time_for(self, pair: Pair) -> bool:
        return self.entered_at(pair) <= TIME_MAX

    def is_repeat(self, pair: Pair, reply: Reply) -> bool:
        """Whether a reply is known to be that of a request that was executed before: its commit is
        not above one that was seen before the request was sent."""
        is_known = reply.status == 0 and reply.commit <= self.seen
        if reply.commit > self.seen:
            self.time = self.entered_at(pair)
        self.seen = max(self.seen, reply.commit)
        return is_known

    def forget(self) -> None:
        """Another ledger may reply from now on, or the same one as it was before."""
        self.seen = self.time = 0
