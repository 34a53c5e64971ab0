"""Names of accounts, ledgers and codes, and amounts with decimal places, as statements may write
them where `--names` knows them."""
from __future__ import annotations

import difflib
from typing import Iterable, Optional, Sequence

KIND_OF = {
    "debit_account_id": "account",
    "credit_account_id": "account",
    "ledger": "ledger",
    "code": "code",
}
OF_ACCOUNTS = ("create_accounts", "lookup_accounts")  # whose ids are those of accounts


class Written:
    """The numbers that names stand for, and the decimal places of ledgers."""

    def __init__(self, rows: Iterable[Sequence[object]] = ()) -> None:
        self.places: dict[int, int] = {}
        self._numbers: dict[str, dict[str, list[int]]] = {}
        for kind, number, name, places in rows:
            of_kind = self._numbers.setdefault(str(kind), {})
            of_kind.setdefault(str(name), []).append(int(str(number)))
            if kind == "ledger":
                self.places[int(str(number))] = int(str(places))

    def number(self, kind: str, name: str) -> Optional[int]:
        """The number of the only one that is called so."""
        found = self._numbers.get(kind, {}).get(name, [])
        return found[0] if len(found) == 1 else None

    def fault(self, kind: str, name: str) -> str:
        """Why a name stands for no number."""
        known = self._numbers.get(kind, {})
        if name in known:
            numbers = ", ".join(map(str, known[name]))
            return f"{len(known[name])} {kind}s are called '{name}': write one of {numbers}"
        near = difflib.get_close_matches(name, known, 1)
        return f"no {kind} is called '{name}'{f'; did you mean {near[0]}?' if near else ''}"

    def amount(self, text: str, ledger: int) -> Optional[int]:
        """The exact amount that is written with a point; nothing if its ledger has fewer places."""
        whole, _, part = text.partition(".")
        places = self.places.get(ledger)
        if places is None or not part or len(part) > places:
            return None
        return int(whole + part.ljust(places, "0"))

    def amount_fault(self, text: str, ledger: int) -> str:
        """Why an amount with a point is none of a ledger."""
        if not ledger:
            return f"{text} needs its ledger: write ledger=N in this event"
        if ledger not in self.places:
            return f"{text} needs decimal places: ledger {ledger} has no name"
        return f"{text} is no amount of ledger {ledger}, which has {self.places[ledger]} places"


def kind_of_field(operation: str, field: str) -> str:
    """What a field's number is of: an account, a ledger or a code; otherwise nothing."""
    if field == "id":
        return "account" if operation in OF_ACCOUNTS else ""
    return KIND_OF.get(field, "")


def unquoted(word: str) -> str:
    """A name as it is written, of bytes that were decoded as latin-1."""
    name = word[1:].removesuffix('"') if word.startswith('"') else word
    return name.encode("latin-1").decode("utf-8", "replace")
