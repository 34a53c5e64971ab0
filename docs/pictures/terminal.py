#!/usr/bin/python3
"""Prints the picture of the terminal as an SVG: statements of a client, one of which is sent twice.

What is typed and answered is that of a real run of `telovamish run`; the layout is rich's.
"""

import io
import pathlib
import re
import subprocess

from rich.console import Console
from rich.text import Text

ROOT = pathlib.Path(__file__).resolve().parents[2]
COMMAND = ROOT / "apps" / "telovamish" / "telovamish"
TYPED = (
    "create_accounts id=1 ledger=700 code=10, id=2 ledger=700 code=10;",
    "create_transfers id=11 debit_account_id=1 credit_account_id=2 amount=100 ledger=700 code=10;",
    "client=7 session=1 request=2 create_transfers id=11 debit_account_id=1 credit_account_id=2"
    " amount=100 ledger=700 code=10;",
    "lookup_accounts id=1, id=2;",
)
FIRST = "at=1000000000 client=7 register;"


def answers(statements: tuple[str, ...]) -> list[list[str]]:
    """What is printed after each statement, found by running one statement more each time."""
    found: list[list[str]] = []
    seen = 0
    for end in range(1, len(statements) + 1):
        text = "\n".join(statements[:end]) + "\n"
        ran = subprocess.run([COMMAND, "run", "-"], input=text, capture_output=True, text=True)
        lines = ran.stdout.splitlines()
        found.append(lines[seen:])
        seen = len(lines)
    return found


def main() -> None:
    statements = (FIRST, *TYPED)
    console = Console(record=True, width=100, file=io.StringIO())
    for statement, lines in zip(statements, answers(statements)):
        console.print(Text("> ", style="bold cyan") + Text(statement, style="bold"))
        for line in lines:
            console.print(Text(line))
    svg = console.export_svg(title="telovamish", unique_id="terminal")
    print(re.sub(r"@font-face \{.*?\}", "", svg, flags=re.S))


if __name__ == "__main__":
    main()
