"""Runs of programs of which calls or allocations are refused: refuse.c, which needs `cc`."""

import collections
import struct
import subprocess
from pathlib import Path

HERE = Path(__file__).parent
SECONDS = 60  # that one run may take
Ran = collections.namedtuple("Ran", "status output lines asked refused blocks")


def run(program, words, script, environment):
    report = environment.get("REFUSE_REPORT")
    asked = refused = blocks = 0
    try:
        ran = subprocess.run(
            [program, *map(str, words)],
            input=script,
            capture_output=True,
            env=environment,
            timeout=SECONDS,
        )
        status, output, lines = ran.returncode, ran.stdout, ran.stderr.decode().splitlines()
    except subprocess.TimeoutExpired:
        status, output, lines = None, b"", ["still running"]
    if report:
        with open(report, "rb") as it:
            asked, refused, blocks = struct.unpack("<3q", it.read())
    return Ran(status, output, lines, asked, refused, blocks)


def plain(program, words, script):
    return run(program, words, script, {})


class Refuser:
    """Runs programs over refuse.c, and refuses the first call and every `every`-th."""

    def __init__(self, folder, every):
        self.shared, self.report = f"{folder}/refuse.so", f"{folder}/report"
        self.every = every
        source = HERE / "refuse.c"
        subprocess.run(
            ["cc", "-Wall", "-Wextra", "-shared", "-fPIC", "-O2", source, "-o", self.shared],
            check=True,
        )

    def run(self, program, words, script, kind, at, **most):
        environment = {
            "LD_PRELOAD": self.shared,
            "REFUSE": kind,
            "REFUSE_AT": str(at),
            "REFUSE_REPORT": self.report,
        }
        environment |= {f"REFUSE_{side.upper()}": str(count) for side, count in most.items()}
        return run(program, words, script, environment)

    def in_turn(self, program, words, script, kind="growth", **most):
        """The run with the first call of this kind refused, with the second (or, if few are
        refused, with one further on), and so on, up to the first run that refuses no call."""
        at = 1
        while True:
            ran = self.run(program, words, script, kind, at, **most)
            yield at, ran
            if not ran.refused:
                return
            at += self.every

    def least(self, count):
        """How many refusals have to be met if each call is refused once, or if few are."""
        return count if self.every == 1 else 1
