"""The conversation at a terminal: commands, statements, and leaving."""
from __future__ import annotations

import re
import sys
from typing import Optional

from .faults import Fault, folded, report, width_of
from .help import HELP, help_on
from .running import Printer
from .sending import Desk, Late
from .terminal import Terminal
from .texts import Text, Wrong, statements

COMMAND = re.compile(r"\s*(exit|quit|sessions|json|table|help(?:\s+([a-zA-Z0-9_]+))?)\s*;?\s*\Z")
NO_CLIENT = "no client is registered yet; the first statement registers one"


class Repl:
    """Reads what is typed, serves it, shows the replies."""

    def __init__(self, desk: Desk, printer: Printer) -> None:
        self.desk, self.printer = desk, printer
        desk.is_typed = True
        self.printer.has_pager = True
        self.terminal = Terminal(desk.live, COMMAND.match)
        if printer.books:
            self.terminal.session.completer = printer.books.completer(desk.live)
        self.was_asked = False

    def run(self) -> None:
        """Goes on until it ends. What is wrong is reported, and dropped."""
        kept: Optional[str] = ""
        while kept is not None:
            try:
                kept = self._taken(self.terminal.read(kept))
            except KeyboardInterrupt:
                kept = ""  # what was typed is dropped
            except EOFError:
                kept = None if self._may_leave() else ""

    def _taken(self, text: str) -> Optional[str]:
        """Takes what was typed. Gives what stays typed; None at the end."""
        before, _, last = text.rpartition("\n")
        command = COMMAND.match(last)
        if not command:
            self._serve(text)
            return ""
        if command[1] in ("exit", "quit"):
            if before.strip():
                report("the last statement has no `;`, and is not sent")
            return None if self._may_leave() else ""
        self._do(command[1], command[2])
        return before + "\n" if before.strip() else ""

    def _may_leave(self) -> bool:
        """A ledger in memory ends with this command: the first exit only says so."""
        count = self.desk.entries
        if self.was_asked or not (self.desk.ledger.is_memory and count):
            return True
        self.was_asked = True
        entries = f"its {count} entries end" if count > 1 else "its entry ends"
        report(f"the ledger is in memory, and {entries} with it: exit again to leave.")
        report("A ledger stays in a file by: telovamish --file LEDGER")
        return False

    def _do(self, word: str, about: Optional[str]) -> None:
        if word.startswith("help"):
            text = help_on(about) if about else HELP
            print(folded(text, width_of(sys.stdout, 100)), end="", flush=True)
        elif word in ("json", "table"):
            self.printer.as_json = word == "json"
        else:
            for client, it in self.desk.live.sessions.items():
                print(f"client {client}: session {it.number}, last request {it.next - 1}")
            print("" if self.desk.live.sessions else f"{NO_CLIENT}\n", end="", flush=True)

    def _serve(self, text: str) -> None:
        """Serves the statements that were typed, until one is not served."""
        read, is_shown, is_wrong = Text(self.desk.live), False, False
        parts = iter([text.encode("utf-8", "surrogateescape") + b"\n"])
        try:
            for statement in statements(self.printer.asked(parts, self.desk), read):
                for served in self.desk.serve(statement):
                    is_shown = True
                    self.printer.show(served)
                is_shown = False
            return
        except Late as why:
            report(f"{why}: no entry has a later time than 2262-04-11, and nothing was sent")
        except Fault as why:
            report(str(why))
            is_wrong = isinstance(why, Wrong)
        except KeyboardInterrupt:
            report("the rest of the reply is not shown" if is_shown else self.desk.doubt())
        if read.has_more(is_wrong):
            report("what follows it is not sent")
