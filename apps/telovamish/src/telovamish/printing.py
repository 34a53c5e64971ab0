"""Requests as statements, one a line."""
from __future__ import annotations

from .objects import flags_shown
from .reader import Pair
from .words import FIELDS, FLAGS, HEADER, ITEM_SIZES


def event_text(operation: str, record: bytes) -> str:
    """An event or an id; a field that is 0 is omitted, except an id."""
    shown = []
    for name, (at, size) in FIELDS[operation].items():
        number = int.from_bytes(record[at : at + size], "little")
        if number or name == "id":
            flags = flags_shown(FLAGS[operation], number) if name == "flags" else []
            shown.append(f"{name}={'|'.join(flags) or number}")
    return " ".join(shown)


def statement_text(pair: Pair) -> str:
    numbers = {it: getattr(pair, it) for it in HEADER}
    header = " ".join(f"{it}={number}" for it, number in numbers.items() if number or it == "at")
    size = ITEM_SIZES[pair.operation]
    events = (pair.body[at : at + size] for at in range(0, len(pair.body), size))
    shown = ", ".join(event_text(pair.operation, it) for it in events)
    return f"{header} {pair.operation}{' ' if shown else ''}{shown};\n"
