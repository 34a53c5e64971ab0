"""A read of standard input and a write to standard output that a signal interrupts are made again.

    python3 -m pytest tests/files/test_signals.py

strace has every other call fail with EINTR: each request is read and each reply goes out once.
"""

import subprocess
from pathlib import Path

import pytest


EXAMPLES = Path(__file__).resolve().parent.parent.parent / "examples"


def interrupted(call, *only):
    """strace with every other such call failing, of those over the file `only`, if there is one."""
    inject = ["-e", f"trace={call}", "-e", f"inject={call}:error=EINTR:when=1+2"]
    return ["strace", "-f", "-qq", *inject, *(word for it in only for word in ("-P", str(it)))]


# The loader's own reads are not interrupted.
CALLS = {"read": interrupted("read", EXAMPLES / "first.script"), "write": interrupted("write")}


@pytest.mark.parametrize("strace", CALLS.values(), ids=CALLS)
def test_interrupted_calls_are_made_again(program, tmp_path, strace):
    words = [program("tbd").resolve(), "run", "ledger", "4"]
    log = ["-o", str(tmp_path / "calls")]
    with open(EXAMPLES / "first.script", "rb") as script:
        done = subprocess.run(
            [*strace, *log, *words],
            cwd=tmp_path,
            stdin=script,
            capture_output=True,
            timeout=60,
            check=False,
        )
    assert "EINTR" in (tmp_path / "calls").read_text()
    assert (done.returncode, done.stdout) == (0, (EXAMPLES / "first.replies").read_bytes())
