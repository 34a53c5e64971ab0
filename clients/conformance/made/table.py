"""The table of transitions, rules.toml; that of the variable CLIENT_RULES, if it is set."""

import dataclasses
import os
import pathlib
import tomllib

from .frames import TABLE, error

PATH = os.environ.get("CLIENT_RULES") or pathlib.Path(__file__).parents[1] / "rules.toml"
ROWS = tomllib.loads(pathlib.Path(PATH).read_text(encoding="utf-8"))
STATUS_OF = {row["name"]: row["number"] for row in TABLE["statuses"]}
PAUSES = ROWS["pauses"]
PACKS = ROWS["packs"]


@dataclasses.dataclass(frozen=True)
class Rule:
    """What follows one thing that comes of a sending."""

    comes: str
    session: str
    shared: str
    doubt: bool
    kept: bool
    error: str = ""  # a refusal's is its name

    @property
    def goes_on(self):
        """Whether a call of a session sends the request again."""
        return self.session in ("again", "later")

    @property
    def is_told(self):
        """Whether it is a name that the server tells."""
        return self.comes[0].isupper() and self.comes not in STATUS_OF

    @property
    def fails(self):
        """The error of a call after its last sending."""
        told = {"told": self.comes if self.is_told else ""}
        lost = self.error in ("ReplyLost", "Busy")
        return error(self.error or self.comes, sent=True, **(told if lost else {}))


RULES = {
    name: Rule(name, **{key: it for key, it in row.items() if key != "comes"})
    for row in ROWS["after"]
    for name in row["comes"]
}
