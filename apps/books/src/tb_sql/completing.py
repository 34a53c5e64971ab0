"""Completion of questions at the prompt of telovamish."""

from __future__ import annotations

from typing import List

from telovamish.terminal import Words

from .filters import OPERATIONS


class Completer(Words):
    """Completes statements, and the names, fields and flags of questions."""

    def words_at(self, before: str) -> List[str]:
        typed = before.rpartition(";")[2].lstrip()
        if not typed:
            return [*super().words_at(before), *OPERATIONS]
        found = OPERATIONS.get(typed.split()[0])
        if found is None:
            return super().words_at(before)
        last = typed.split()[-1] if not typed[-1].isspace() else ""
        if last.startswith("flags="):
            return list(found.flags)
        return [f"{it}=" for it in found.fields if f" {it}=" not in typed]
