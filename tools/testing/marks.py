"""Hooks of pytest for each conftest.py: tests marked slow, and skips.

    from marks import *  # noqa: F403

CI runs each test that is not marked `slow(reason="..", seconds=N)`: the reason says why it takes
long or what it needs, the seconds what it takes on a quiet machine. A mark without them fails the
collection. A run that leaves slow tests out says how many, and what they take.

With CI=true a test that is skipped has failed: what it needs has to be installed or built. Only a
test that needs another user than the one who runs it, and says so first (`needs root`), may be.
"""

import os
from collections.abc import Iterator
from typing import Any

import pytest

__all__ = [
    "pytest_collection_modifyitems",
    "pytest_configure",
    "pytest_deselected",
    "pytest_make_collect_report",
    "pytest_runtest_makereport",
    "pytest_sessionfinish",
    "pytest_terminal_summary",
    "pytest_testnodedown",
]
MAY_BE_SKIPPED = "needs root"
left_out: dict[str, list[float]] = {}


def seconds_of(item: pytest.Item) -> float | None:
    """What a test takes by its mark, if it is marked slow."""
    mark = item.get_closest_marker("slow")
    if mark is None:
        return None
    reason, seconds = mark.kwargs.get("reason"), mark.kwargs.get("seconds")
    given = isinstance(reason, str) and reason.strip() and isinstance(seconds, (int, float))
    if mark.args or set(mark.kwargs) != {"reason", "seconds"} or not given or seconds <= 0:
        raise pytest.UsageError(f'{item.nodeid}: wants slow(reason="why", seconds=N)')
    return float(seconds)


def pytest_configure(config: pytest.Config) -> None:
    line = "slow(reason, seconds): CI leaves it out; why, and what it takes on a quiet machine"
    config.addinivalue_line("markers", line)


@pytest.hookimpl(tryfirst=True)
def pytest_collection_modifyitems(items: list[pytest.Item]) -> None:
    for item in items:
        seconds_of(item)


def pytest_deselected(items: list[pytest.Item]) -> None:
    for item in items:
        seconds = seconds_of(item)
        if seconds is not None:
            reason = item.get_closest_marker("slow").kwargs["reason"]
            left_out.setdefault(reason, []).append(seconds)


def pytest_sessionfinish(session: pytest.Session) -> None:
    """A worker of pytest-xdist hands what it left out to the process that reports."""
    if hasattr(session.config, "workeroutput"):
        session.config.workeroutput["left_out"] = left_out


@pytest.hookimpl(optionalhook=True)
def pytest_testnodedown(node: Any) -> None:
    """Each worker leaves out the same."""
    left_out.update(getattr(node, "workeroutput", {}).get("left_out", {}))


def pytest_terminal_summary(terminalreporter: Any) -> None:
    for reason, seconds in sorted(left_out.items()):
        line = f"left out as slow: {len(seconds)} ({sum(seconds):.0f} s): {reason}"
        terminalreporter.write_line(line)


def refused(report: Any) -> None:
    """Turns a skip into a failure within CI."""
    if not report.skipped or hasattr(report, "wasxfail") or os.environ.get("CI") != "true":
        return
    why = report.longrepr[2] if isinstance(report.longrepr, tuple) else str(report.longrepr)
    if not why.removeprefix("Skipped: ").startswith(MAY_BE_SKIPPED):
        report.outcome, report.longrepr = "failed", f"{why}: within CI nothing is skipped"


@pytest.hookimpl(hookwrapper=True)
def pytest_runtest_makereport() -> Iterator[None]:
    refused((yield).get_result())


@pytest.hookimpl(hookwrapper=True)
def pytest_make_collect_report() -> Iterator[None]:
    refused((yield).get_result())
