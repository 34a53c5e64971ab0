"""Runs commands of a build, and counts what passed."""

import os
import subprocess
import sys
import time
from collections.abc import Callable, Iterable
from pathlib import Path


class Failed(Exception):
    """A step of a build or a trial failed: why."""


def run(
    words: Iterable[str | Path],
    cwd: Path | None = None,
    env: dict[str, str] | None = None,
    check: bool = True,
) -> str:
    """What a command prints. Its status has to be 0: Failed has the end of its output."""
    listed = [str(it) for it in words]
    ran = subprocess.run(
        listed,
        cwd=cwd,
        env={**os.environ, "LC_ALL": "C.UTF-8", "TZ": "UTC", **(env or {})},
        stdin=subprocess.DEVNULL,
        stdout=subprocess.PIPE,
        stderr=subprocess.STDOUT,
        text=True,
        errors="replace",
        check=False,
    )
    if ran.returncode and check:
        raise Failed(f"{' '.join(listed)[:200]}: status {ran.returncode}\n{ran.stdout[-3000:]}")
    return ran.stdout


class Steps:
    """Named steps, each passed or failed, with their seconds."""

    def __init__(self) -> None:
        self.passed, self.failed = 0, 0

    def step(self, name: str, work: Callable[[], object]) -> bool:
        """Runs a step. A failure is printed with its cause, and the steps go on."""
        began = time.monotonic()
        try:
            said = work()
        except Exception as why:  # whatever it was, the step failed
            self.failed += 1
            print(f"FAILED {name}: {why}", flush=True)
            return False
        self.passed += 1
        more = f": {said}" if isinstance(said, str) and said else ""
        print(f"ok {name}{more} ({time.monotonic() - began:.1f} s)", flush=True)
        return True

    def end(self) -> int:
        """The closing line, and the exit status."""
        print(f"{self.passed} passed, {self.failed} failed")
        sys.stdout.flush()
        return 1 if self.failed or not self.passed else 0
