"""What ends a command, each with its exit status."""

from telovamish.faults import Fault

AGAIN = "Load it into a new database, or delete this one and load again: nothing is lost by that."


class Stop(Fault):
    """Ends a command with a line on standard error, and a status."""

    status = 1


class Failed(Stop):
    """A file, a program or a database failed."""

    status = 1


class Gone(Failed):
    """The name of a file that is followed leads to another file, or to none."""

    def __init__(self, path: str) -> None:
        super().__init__(
            f"Gone: {path} is not the file that was followed: its later entries are not in the "
            "tables. Load it again; another history is refused, and needs a new database"
        )


class Refused(Stop):
    """The input is wrong, or is not of this ledger."""

    status = 2


class NoDump(Refused):
    """The input is no dump of a history. It says what the input is, if that is known."""

    def __init__(self, fault: str, kind: str = "") -> None:
        super().__init__(f"the input is no dump of a history: {kind or fault}")
        self.fault = fault


class Cut(Refused):
    """The input ends within a line or an entry."""
