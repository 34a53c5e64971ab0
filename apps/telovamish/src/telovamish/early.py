"""The command from its first moment on: Ctrl-C while its modules are loaded ends it at once, with
the status that it has later."""
from __future__ import annotations

import os
import signal

INTERRUPTED = 130


def main() -> None:
    """The command telovamish."""
    hears = signal.getsignal(signal.SIGINT) == signal.default_int_handler
    if hears:
        signal.signal(signal.SIGINT, lambda *_: os._exit(INTERRUPTED))
    from .commands import main as begin

    if hears:
        signal.signal(signal.SIGINT, signal.default_int_handler)
    begin()
