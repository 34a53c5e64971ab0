"""Serves statements of files and of standard input, and shows the replies."""
from __future__ import annotations

import contextlib
import os
import shutil
import sys
from typing import Any, Iterable, Iterator

import click

from .faults import Device, devices, report
from .objects import line, reply_shown
from .sending import Ahead, Desk, Late, Served
from .tables import reply_lines
from .tally import Tally
from .texts import Text, pieces, statements


class Printer:
    """Shows replies as tables or as JSON, with the names of books."""

    def __init__(self, as_json: bool, is_quiet: bool = False, books: Any = None) -> None:
        self.as_json, self.is_quiet, self.books, self.has_pager = as_json, is_quiet, books, False
        self.names = books.names if books else None
        if shutil.which("less"):
            os.environ.setdefault("PAGER", "less -FRSX")

    def show(self, served: Served) -> None:
        if self.as_json:
            mark = {"repeat": True} if served.is_repeat else {}
            lines = [line({**reply_shown(served.reply), **mark}, self.books).rstrip("\n")]
            lines = [] if self.is_quiet and served.reply.status == 0 else lines
        else:
            width = shutil.get_terminal_size((100, 24)).columns
            lines = list(reply_lines(served, width, self.is_quiet, self.names))
        self.write(lines)

    def write(self, lines: list[str]) -> None:
        size, text = shutil.get_terminal_size((100, 24)), "".join(f"{it}\n" for it in lines)
        with devices("standard output"):
            if self.has_pager and len(lines) > size.lines - 2 and is_pager_there():
                with contextlib.suppress(BrokenPipeError):  # it was left before its end
                    click.echo_via_pager(text.removesuffix("\n"))
            else:
                sys.stdout.write(text)
                sys.stdout.flush()

    def asked(self, parts: Iterator[bytes], desk: Desk) -> Iterator[bytes]:
        """The parts of a text. Books answer the questions among its statements, in their places."""
        parts = self.books.answered(parts, self, desk) if self.books else parts
        return parts


def is_pager_there() -> bool:
    """Whether PAGER names a program: a reply that is written to no program is lost."""
    words = os.environ.get("PAGER", "").split()
    return not words or shutil.which(words[0]) is not None


def run_text(
    desk: Desk, printer: Printer, parts: Iterator[bytes], tally: Tally, name: str = ""
) -> None:
    """Serves the statements of a text, each as soon as it is whole."""
    text = Text(desk.live, name)
    for statement in statements(printer.asked(parts, desk), text):
        try:
            for served in desk.serve(statement):
                printer.show(served)
                tally.note(served, text.last_place)
        except Late as why:
            raise Late(f"{why}: {text.last_place}") from None
        except Ahead as why:
            raise Ahead(f"{text.last_place}: {why}") from None
        except KeyboardInterrupt:
            if not desk.ledger.is_memory:
                report(f"{text.last_place}: {desk.doubt()}")
            raise


def run_files(desk: Desk, printer: Printer, names: Iterable[str], tally: Tally) -> None:
    """Serves the statements of files, or of standard input if none is named or one is `-`."""
    for name in names or ["-"]:
        if name == "-":
            run_text(desk, printer, pieces(0), tally)
            continue
        try:
            with open(name, "rb", buffering=0) as file:
                run_text(desk, printer, pieces(file.fileno(), what=name), tally, name)
        except OSError as why:
            meant = f"; --clients-max {name} sets the number of clients" if name.isdigit() else ""
            raise Device(f"{name}: {why.strerror}{meant}") from None
