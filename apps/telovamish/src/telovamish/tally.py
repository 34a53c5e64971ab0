"""What was refused among the statements of a text."""
from __future__ import annotations

from .faults import Fault, report
from .sending import Served
from .streams import results_of
from .tables import refusal_text
from .words import RESULTS

EXISTS = "exists"  # the event was done before, exactly so: it is taken as done


class Refused(Fault):
    """A statement was refused, or an event of it failed, and the text ends with that."""

    status = 3


class Tally:
    """Counts the refused statements and the failed events of a text; a strict one ends it with the
    first."""

    def __init__(self, is_strict: bool = False) -> None:
        self.is_strict = is_strict
        self.statements = self.refused = self.events = self.failed = 0

    def note(self, served: Served, place: str) -> None:
        """Takes a reply to the statement at a place. Raises Refused if it is strict."""
        pair, reply, _ = served
        self.statements += pair.operation != "register" or bool(reply.status)
        if reply.status:
            self.refused += 1
            self._end(place, refusal_text(reply.status, pair.operation))
        if reply.status or pair.operation not in RESULTS:
            return
        names = RESULTS[pair.operation]
        found = {at: names.get(code, str(code)) for at, code in results_of(reply).items()}
        failed = {at: name for at, name in found.items() if name != EXISTS}
        self.events, self.failed = self.events + pair.length, self.failed + len(failed)
        for at, name in failed.items():
            self._end(place, f"event {at}, id {pair.id_at(at)}: {name}")

    def _end(self, place: str, what: str) -> None:
        if self.is_strict:
            raise Refused(f"{place}: {what}. What follows it is not sent")

    def report(self) -> None:
        """Says at the end of a text how much of it was refused."""
        found = []
        if self.refused:
            plural = "s" * (self.statements > 1)
            found.append(f"{self.refused} of {self.statements} statement{plural} refused")
        if self.failed:
            found.append(f"{self.failed} of {self.events} event{'s' * (self.events > 1)} failed")
        if found and not self.is_strict:
            report(", ".join(found))
