"""What a forked child does with its copies of what its parent had open."""
from __future__ import annotations

import os
from typing import Protocol
from weakref import WeakValueDictionary


class Copied(Protocol):
    """What a child has a copy of."""

    def leave_copy(self) -> None:
        """Is called in a child. Threads of the parent are not there, and may have held locks."""


_copied: WeakValueDictionary[int, Copied] = WeakValueDictionary()  # by `id`: equal ones are two


def left_by_children(it: Copied) -> None:
    """Has each forked child leave its copy of this."""
    _copied[id(it)] = it


def _leave_copies() -> None:
    for it in list(_copied.values()):
        it.leave_copy()


os.register_at_fork(after_in_child=_leave_copies)
