"""Moments by a clock that may jump."""
from __future__ import annotations

import logging
import time
from typing import Callable, Optional

from .errors import ClockJumped
from .layout import SECOND
from .values import MOMENT_MAX, whole

LAG = 60  # seconds by which the clock may run away from steady moments before that is reported
log = logging.getLogger("tb_client")


def running_ns() -> int:
    """A clock that nobody sets: it counts while the computer sleeps too, if the system has such a
    clock."""
    return time.clock_gettime_ns(getattr(time, "CLOCK_BOOTTIME", time.CLOCK_MONOTONIC))


class Moments:
    """Reads a clock, and refuses a moment that is too far ahead of where the clock should be by
    now: at first this computer's clock, then the furthest moment so far and the time that has gone
    by after it."""

    def __init__(self) -> None:
        self.ahead = time.time_ns() - running_ns()
        self.is_first = True

    def take(self, now: Callable[[], int], jump_max: Optional[float]) -> int:
        moment = whole("moment", now(), MOMENT_MAX)
        ahead = moment - running_ns()
        jump = ahead - self.ahead
        if jump_max is not None and jump > jump_max * SECOND:
            raise ClockJumped(
                f"the clock is {jump / SECOND:.3f} s ahead of where it should be, and jump_max is "
                f"{jump_max:g} s"
            )
        self.ahead = ahead if self.is_first else max(self.ahead, ahead)
        self.is_first = False
        return moment


class SteadyMoments:
    """Moments in nanoseconds since 1970, which begin with the clock, or with `last` if that is
    later. They never fall, and grow by no more than the time that goes by and a thousandth of it,
    measured by a clock that nobody sets: so a clock that is set far ahead does not take the ledger
    along."""

    def __init__(
        self,
        last: int = 0,
        clock: Callable[[], int] = time.time_ns,
        running: Callable[[], int] = running_ns,
    ) -> None:
        self.clock, self.running = clock, running
        self.last, self.at = max(last, clock()), running()
        self.is_said = False

    def lag(self) -> float:
        """How many seconds the last moment is behind the clock, if that was ahead."""
        return max(0.0, (self.clock() - self.last - (self.running() - self.at)) / SECOND)

    def next(self) -> int:
        clock, running = self.clock(), self.running()
        if clock > self.last:
            gone = max(running - self.at, 0)
            self.last, self.at = min(clock, self.last + gone + gone // 1000), running
        lag = (clock - self.last) // SECOND
        if lag >= LAG and not self.is_said:
            self.say_lag(lag)
        self.is_said = lag >= LAG
        return self.last

    def go_on(self, last: int) -> None:
        """Goes on at this moment, if that is later."""
        if last > self.last:
            self.last, self.at = last, self.running()

    def say_lag(self, lag: int) -> None:
        """Says that the clock was set ahead."""
        log.warning(
            "the clock is %d s ahead of where it should be, and requests get moments without that: "
            "if it is right now, open the ledger again",
            lag,
        )
