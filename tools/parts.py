"""Parts of a check: commands, each in a folder, whose output says what passed and what failed.

tools/check.py has those of CI, tools/slow.py the others. Each runs with CI=true: a test that is
skipped, because something is not installed or not built, has failed (tools/testing/marks.py).
Right before the last line stands what failed, by part and by name, in at most 30 lines: who keeps
only the end of the output has the names.
"""

import os
import re
import subprocess
import time
from collections.abc import Callable
from dataclasses import dataclass, replace
from pathlib import Path
from typing import NamedTuple

ROOT = Path(__file__).resolve().parent.parent
PYTHON = "/usr/bin/python3"
MARKED = [PYTHON, "-m", "pytest", "-q", "-rfEs", "-p", "marks", "-m"]  # and which marks
PYTEST = ["env", f"PYTHONPATH={ROOT}/tools/testing", *MARKED]
KIT = [PYTHON, "-B", "../conformance/kit.py"]
NOTED = re.compile(r"^(?:left out as slow|SKIPPED).*$", re.M)
FAILED = (
    re.compile(  # what failed, as pytest, scripts of ours and rt, covered.py, Go, JUnit, Node say
        r"^(?:(?:FAILED|ERROR) (.+?)(?: - .*)?|(?:rt: )?FAILED: (.+)|(differs: .+)"
        r"|\s*--- (?:FAIL|SKIP): (\S+).*|FAIL\t(.+)|\d+\) (\w+\([\w.]+\))|\s*not ok \d+ - (.+))$",
        re.M,
    )
)
MOST = 30  # lines on what failed


class Counts(NamedTuple):
    passed: int
    failed: int


@dataclass(frozen=True)
class Part:
    """A command of a folder, and how its output says what passed and what failed."""

    name: str
    folder: str
    words: list[str]
    count: Callable[[str], Counts]


@dataclass(frozen=True)
class Result:
    """What a part did: its counts, its exit status, its output, its seconds; and what is said of a
    second run."""

    part: Part
    counts: Counts
    status: int
    output: str
    seconds: float
    again: str = ""

    @property
    def line(self) -> str:
        passed, failed = self.counts
        return f"{self.part.name}: {passed} passed, {failed} failed in {self.seconds:.0f} s"

    @property
    def noted(self) -> list[str]:
        """Its lines on tests that did not run, and on those that ran twice."""
        return [*NOTED.findall(self.output), *([self.again] if self.again else [])]

    @property
    def wrong(self) -> list[str]:
        """The lines on what failed, by name; without such a line the last three."""
        named = [it.group().strip() for it in FAILED.finditer(self.output)]
        lines = named or [it for it in self.output.splitlines() if it.strip()][-3:]
        return list(dict.fromkeys(lines))


def names_of(text: str) -> list[str]:
    """What an output says that failed, each once."""
    return list(dict.fromkeys("".join(it) for it in FAILED.findall(text)))


def number(pattern: str, text: str) -> int:
    """The number of the last match, 0 without one."""
    found = re.findall(pattern, text)
    return int(found[-1]) if found else 0


def closing_line(text: str) -> Counts:
    """The counts of 'N passed, M failed', on a line of its own or with more after it."""
    passed, failed = (
        number(it, text) for it in (r"(\d+) passed, \d+ failed", r"\d+ passed, (\d+) failed")
    )
    return Counts(passed, failed)


def pytest_counts(text: str) -> Counts:
    last = text.strip().rpartition("\n")[2]
    wrong = number(r"(\d+) failed", last) + number(r"(\d+) errors?", last)
    return Counts(number(r"(\d+) passed", last), wrong)


def go_counts(text: str) -> Counts:
    """A test that was skipped has failed."""
    passed, failed = (re.findall(rf"^\s*--- {it}", text, re.M) for it in ("PASS", "(?:FAIL|SKIP)"))
    return Counts(len(passed), len(failed))


def java_counts(text: str) -> Counts:
    run = number(r"OK \((\d+) tests?\)", text) or number(r"Tests run: (\d+)", text)
    failed = number(r"Failures: (\d+)", text)
    return Counts(run - failed, failed)


def node_counts(text: str) -> Counts:
    """A test that was skipped has failed."""
    failed = number(r"# fail (\d+)", text) + number(r"# skipped (\d+)", text)
    return Counts(number(r"# pass (\d+)", text), failed)


def by_status(_: str) -> Counts:
    """The result of a command; only its exit status says whether it passed."""
    return Counts(1, 0)


def started(part: Part) -> subprocess.Popen[str]:
    streams = {"stdout": subprocess.PIPE, "stderr": subprocess.STDOUT}
    how = {"env": {**os.environ, "CI": "true"}, "text": True, "errors": "replace", **streams}
    return subprocess.Popen(part.words, cwd=ROOT / part.folder, **how)


def run(part: Part, is_live: bool = False) -> Result:
    """Runs a part, whose output may go out as it comes. A status other than 0 is a failure, and so
    is a part in which nothing passed."""
    began, lines = time.monotonic(), []
    try:
        process = started(part)
    except OSError as why:
        return Result(part, Counts(0, 1), 127, f"{why}\n", 0)
    assert process.stdout
    for line in process.stdout:
        lines.append(line)
        if is_live:
            print(line, end="", flush=True)
    status, text = process.wait(), "".join(lines)
    passed, failed = part.count(text)
    if (status or not passed) and not failed:
        passed, failed = max(passed - 1, 0), 1
    return Result(part, Counts(passed, failed), status, text, time.monotonic() - began)


def settled(first: Result) -> Result:
    """A part whose tests failed while other parts ran is run once more, alone: a busy machine may
    have stopped a test for longer than it waits. Of pytest only the tests that failed are run. What
    fails again has failed; what then passes is named at the end, and is to be mended."""
    passed, failed = first.counts
    if not failed or first.part.count is by_status:
        return first
    more = ["--last-failed"] if first.part.count is pytest_counts else []
    second = run(replace(first.part, words=[*first.part.words, *more]))
    print(f"== {first.part.name}, once more\n{second.output}== {second.line}", flush=True)
    if second.counts.failed:
        return first
    names = ", ".join(names_of(first.output)) or str(failed)
    said = f"failed while other parts ran, and passed alone: {names}"
    return replace(first, counts=Counts(passed + failed, 0), again=said)


def summed(results: list[Result]) -> Counts:
    """The counts of all parts; without one, a failure."""
    sums = [sum(it) for it in zip(*(result.counts for result in results))]
    return Counts(*sums) if sums else Counts(0, 1)


def failures(results: list[Result]) -> list[str]:
    """A line for each part that failed, and after it what failed there. If these are too many, each
    part has as many as the others."""
    parts = [it for it in results if it.counts.failed]
    each = max(MOST // max(len(parts), 1) - 2, 0)
    lines = []
    for it in parts:
        wrong = [f"    {line[:200]}" for line in it.wrong]
        rest = [f"    and {len(wrong) - each} more"] if len(wrong) > each and each else []
        lines += [f"FAILED: {it.line}, status {it.status}", *wrong[:each], *rest]
    return lines[:MOST]


def ended(results: list[Result]) -> int:
    """Prints what was not run, what failed and the last line. The exit status."""
    for result in results:
        for line in result.noted:
            print(f"{result.part.name}: {line}")
    for line in failures(results):
        print(line)
    passed, failed = summed(results)
    print(f"{passed} passed, {failed} failed", flush=True)
    return 1 if failed else 0


def refused() -> int:
    print("packages are missing\n0 passed, 1 failed")
    return 1
