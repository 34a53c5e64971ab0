"""The command from its first moment on: a signal that comes while its modules are loaded ends it at
once, with the status that it has for that signal later."""

from __future__ import annotations

import os
import signal
import sys
from typing import Any, Callable

INTERRUPTED = 130


def end_by(is_endless: bool, handler: Callable[..., Any]) -> None:
    """Has SIGINT call this handler, if it is not ignored; and SIGTERM too for what is endless,
    which only a signal ends."""
    for number in (signal.SIGINT, signal.SIGTERM) if is_endless else (signal.SIGINT,):
        if signal.getsignal(number) != signal.SIG_IGN:
            signal.signal(number, handler)


def main() -> int:
    """The command tb-sql."""
    words = sys.argv[1:]
    is_endless = words[:1] == ["serve"] or words[:1] == ["load"] and "--follow" in words
    end_by(is_endless, lambda *_: os._exit(0 if is_endless else INTERRUPTED))
    from telovamish.faults import leave

    from .commands import main as begin

    try:
        return begin()
    finally:
        leave(sys.stderr)
