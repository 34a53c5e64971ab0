"""The command at a terminal of its own."""
from __future__ import annotations

import contextlib
import os
import re
import signal
import termios
import time
from typing import Optional

import pexpect
from conftest import COMMAND

SECONDS = 120  # for what is shown, on a busy machine
CURSOR = re.compile(r"\x08?\x1b\[(\d*)C")
ESCAPES = re.compile(r"\x1b\[[?0-9;]*[A-Za-z]|\r")


def cleaned(text: str) -> str:
    """What is shown, without what moves the cursor."""
    text = CURSOR.sub(lambda it: " " * max(1, int(it[1] or 1) - 1), text)
    return ESCAPES.sub("", text)


def hear_signals() -> None:
    """Takes signals as a shell in the foreground gives them: nohup ignores SIGHUP, a shell ignores
    SIGINT and SIGQUIT in the background, and a child inherits that."""
    for it in (signal.SIGHUP, signal.SIGINT, signal.SIGQUIT, signal.SIGTERM):
        signal.signal(it, signal.SIG_DFL)


class Terminal:
    """Types, and reads what is shown."""

    def __init__(
        self,
        *words: str,
        state: str,
        env: Optional[dict[str, str]] = None,
        program: str = str(COMMAND),
    ) -> None:
        known = {"XDG_STATE_HOME": state, "TERM": "xterm", "NO_COLOR": "1", "PAGER": "cat"}
        self.began = time.monotonic()
        self.child = pexpect.spawn(
            program,
            [*words],
            env={**os.environ, **known, **(env or {})},
            dimensions=(50, 160),
            encoding="utf-8",
            timeout=SECONDS,
            preexec_fn=hear_signals,
        )
        self.child.delaybeforesend = None
        self.raw = ""
        self.seen = 0

    @property
    def shown(self) -> str:
        return cleaned(self.raw)

    def wait(self, text: str, seconds: float = SECONDS) -> str:
        """What is shown up to a text, after the last one that was waited for."""
        end = time.monotonic() + seconds
        while (at := self.shown.find(text, self.seen)) < 0:
            if time.monotonic() > end:
                raise AssertionError(f"{text!r} does not come: {self.shown[self.seen:]!r}")
            try:
                self.raw += self.child.read_nonblocking(65536, 0.2)
            except pexpect.TIMEOUT:
                continue
            except pexpect.EOF:
                end = 0
        found = self.shown[self.seen : at]
        self.seen = at + len(text)
        return found

    def type(self, text: str) -> None:
        self.child.send(text)

    def used(self) -> float:
        """The seconds of CPU time that the command has used itself."""
        fields = open(f"/proc/{self.child.pid}/stat").read().rpartition(")")[2].split()
        return (int(fields[11]) + int(fields[12])) / os.sysconf("SC_CLK_TCK")

    def press_ctrl_c(self) -> None:
        """Amid a statement: once no line is typed, when Ctrl-C is a signal."""
        end = time.monotonic() + SECONDS
        while not termios.tcgetattr(self.child.child_fd)[3] & termios.ISIG:
            assert time.monotonic() < end, "the line is still typed"
            time.sleep(0.02)
        self.type("\x03")

    def enter(self, line: str, until: str) -> str:
        """Types a line and Enter; what is shown up to a text after it."""
        self.type(line)
        self.wait(line[-10:])
        self.type("\r")
        return self.wait(until)

    def rest(self) -> str:
        """What is shown up to its end."""
        with contextlib.suppress(pexpect.EOF):
            while True:
                self.raw += self.child.read_nonblocking(65536, SECONDS)
        return self.shown[self.seen :]

    def ended(self) -> int:
        """The exit status."""
        self.child.expect(pexpect.EOF)
        self.child.close()
        status = self.child.exitstatus
        return status if status is not None else -self.child.signalstatus

    def close(self) -> None:
        """Ends it, also if the machine is too busy to end it soon."""
        with contextlib.suppress(pexpect.ExceptionPexpect):
            self.child.close(force=True)
