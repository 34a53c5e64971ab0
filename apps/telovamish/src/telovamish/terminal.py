"""A terminal: statements of several lines, a history of them, completion, highlighting."""
from __future__ import annotations

import contextlib
import os
import re
import select
import signal
import sys
from typing import Any, Callable, Iterable

from prompt_toolkit import PromptSession
from prompt_toolkit.completion import CompleteEvent, Completer, Completion
from prompt_toolkit.document import Document
from prompt_toolkit.formatted_text import StyleAndTextTuples
from prompt_toolkit.history import FileHistory, History, InMemoryHistory
from prompt_toolkit.input.vt100 import Vt100Input
from prompt_toolkit.key_binding import KeyBindings, KeyPress, KeyPressEvent
from prompt_toolkit.keys import Keys
from prompt_toolkit.lexers import Lexer
from prompt_toolkit.output import create_output
from prompt_toolkit.shortcuts import CompleteStyle
from prompt_toolkit.styles import Style

from .filling import Known
from .stored import folder
from .texts import Wrong, typed
from .words import KINDS

COMMANDS = ("exit", "help", "json", "quit", "sessions", "table")
HISTORY_MAX = 1_000_000  # bytes; the first half of more is dropped
PASTE_MIN, PASTE_PAUSE = 64, 0.02  # bytes that nobody types at once; seconds without more
CONTROL = re.compile(r"[\x00-\x08\x0b\x0c\x0e-\x1f\x7f]")
WORD = re.compile(r"#.*|[a-z_][a-z0-9_]*|[^a-z_#]+")
STYLES = {"operation": "bold", "field": "ansicyan", "flag": "ansigreen", "amount": "ansigreen"}
STYLE = Style.from_dict({**STYLES, "comment": "ansibrightblack"})
SIGNALS = (signal.SIGHUP, signal.SIGQUIT, signal.SIGTERM)


def history() -> History:
    """The statements that were typed before, which nobody else can read, in the place that the
    system gives programs for their state."""
    top = folder()
    try:
        if top is None:
            return InMemoryHistory()
        path = top / "history"
        os.close(os.open(path, os.O_CREAT | os.O_APPEND | os.O_WRONLY, 0o600))
        data = path.read_bytes()
        if len(data) > HISTORY_MAX:
            path.write_bytes(data[data.find(b"\n\n", len(data) // 2) + 1 :])
        return FileHistory(str(path))
    except OSError:
        return InMemoryHistory()


class Words(Completer):
    """Completes the words that may be at the cursor, as the reader has them."""

    def __init__(self, known: Known) -> None:
        self.known = known

    def get_completions(self, document: Document, event: CompleteEvent) -> Iterable[Completion]:
        before = document.text_before_cursor
        word = re.search(r"[a-z0-9_]*\Z", before)[0]  # type: ignore[index]
        for name in self.words_at(before[: len(before) - len(word)]):
            if name.startswith(word):
                yield Completion(name, -len(word))

    def words_at(self, before: str) -> list[str]:
        """The words that may follow, with the mark after them."""
        with contextlib.suppress(Wrong):
            words = typed(before, self.known).scan.words()
            names = [f"{it}=" if KINDS[it] == "field" else it for it in words]
            return names + (list(COMMANDS) if not before.strip() else [])
        return []


class Colours(Lexer):
    """Shows what a word is."""

    def lex_document(self, document: Document) -> Callable[[int], StyleAndTextTuples]:
        def parts(number: int) -> StyleAndTextTuples:
            lines = document.lines[number : number + 1]
            return [(style_of(it), it) for line in lines for it in WORD.findall(line)]

        return parts


def style_of(word: str) -> str:
    kind = "comment" if word.startswith("#") else KINDS.get(word, "")
    return f"class:{kind}" if kind else ""


class Quick(Vt100Input):
    """A terminal's input. What comes faster than anyone types is taken as pasted, also if the
    terminal does not say so."""

    def read_keys(self) -> list[KeyPress]:
        data = self.stdin_reader.read()
        while len(data) >= PASTE_MIN and select.select([self.fileno()], [], [], PASTE_PAUSE)[0]:
            more = self.stdin_reader.read()
            if not more:
                break
            data += more
        if len(data) < PASTE_MIN or CONTROL.search(data):
            self.vt100_parser.feed(data)
            keys, self._buffer = self._buffer, []
            return keys
        body = data.rstrip("\r\n")
        keys = [KeyPress(Keys.BracketedPaste, body)]
        return keys + ([KeyPress(Keys.ControlM, "\r")] if body != data else [])


class Terminal:
    """Reads statements, of several lines each."""

    def __init__(self, known: Known, is_command: Callable[[str], Any]) -> None:
        self.known, self.is_command = known, is_command
        output = create_output()
        output.enable_cpr = False  # type: ignore[attr-defined]  # nor asks for the cursor
        has_colours = os.environ.get("TERM") != "dumb" and not os.environ.get("NO_COLOR")
        self.session: PromptSession[str] = PromptSession(
            "> ",
            multiline=True,
            prompt_continuation=". ",
            history=history(),
            completer=Words(known),
            complete_style=CompleteStyle.READLINE_LIKE,
            complete_while_typing=False,
            lexer=Colours() if has_colours else None,
            style=STYLE,
            key_bindings=self._bindings(),
            enable_suspend=True,
            input=Quick(sys.stdin),
            output=output,
        )
        for it in SIGNALS:
            if signal.getsignal(it) == signal.SIG_DFL:
                signal.signal(it, self._end)

    def _bindings(self) -> KeyBindings:
        bindings = KeyBindings()

        @bindings.add("enter")
        def _(event: KeyPressEvent) -> None:
            buffer = event.current_buffer
            if self.is_ended(buffer.text):
                buffer.validate_and_handle()
            else:
                buffer.insert_text("\n")

        return bindings

    def is_ended(self, text: str) -> bool:
        """Whether Enter ends what is typed: its statements are whole, or it is wrong, or its last
        line is a command."""
        try:
            is_command = bool(self.is_command(text.rpartition("\n")[2]))
            return is_command or typed(text, self.known).scan.is_at_rest
        except Wrong:
            return True

    def read(self, begun: str = "") -> str:
        """What is typed up to the Enter that ends it. Raises KeyboardInterrupt and EOFError."""
        return self.session.prompt(default=begun)

    def _end(self, number: int, _: object) -> None:
        """A signal that ends the command gives the terminal back as it was before."""
        end = SystemExit(128 + number)
        if not self.session.app.is_running:
            raise end
        self.session.app.exit(exception=end)
