"""The one table of programs, forms and options: manual pages and completion are made from it.

Rows of the proved programs are in forms.toml. A Python program's are those of its own parser, and
those of a program of server/ are read from its help, so that each option has its words in one
place."""

import argparse
import importlib
import re
import subprocess
import sys
import tomllib
from collections.abc import Iterator
from contextlib import contextmanager
from dataclasses import dataclass, field, replace
from pathlib import Path
from typing import Any

ROOT = Path(__file__).resolve().parents[2]
SOURCES = ("apps/telovamish/src", "apps/books/src", "clients/python/src")


@dataclass(frozen=True)
class Option:
    """Flags of one option, what its value is called, and what it does."""

    flags: list[str]
    text: str
    value: str = ""

    def shown(self) -> str:
        return ", ".join(self.flags) + (f" {self.value}" if self.value else "")


@dataclass(frozen=True)
class Form:
    """A form: its words as usage shows them, and its own options."""

    words: str
    text: str
    options: list[Option] = field(default_factory=list)

    def name(self) -> str:
        """The form's first word, or nothing if the words are only values."""
        first = self.words.split()[0] if self.words else ""
        return first if re.fullmatch(r"[a-z][a-z-]*", first) else ""


@dataclass(frozen=True)
class Program:
    name: str
    summary: str
    page: str = ""
    sections: list[str] = field(default_factory=list)
    see: list[str] = field(default_factory=list)
    same_as: str = ""
    forms: list[Form] = field(default_factory=list)
    options: list[Option] = field(default_factory=list)


@contextmanager
def importable() -> Iterator[None]:
    """The packages of the clone, while this lasts."""
    before = list(sys.path)
    sys.path[:0] = [str(ROOT / it) for it in SOURCES]
    try:
        yield
    finally:
        sys.path[:] = before


def of_argparse(parser: argparse.ArgumentParser) -> list[Option]:
    found = []
    for it in parser._actions:  # pylint: disable=protected-access
        if it.option_strings:
            takes = it.nargs != 0
            value = str(it.metavar or it.dest.upper()) if takes else ""
            text = (it.help or "").replace("%(default)s", str(it.default))
            text = text.replace("%(default)g", f"{it.default:g}" if takes and it.default else "")
            found.append(Option(list(it.option_strings), text, value))
    return found


def words_of(parser: argparse.ArgumentParser) -> str:
    """The usage without the program's name."""
    usage = parser.format_usage().split(":", 1)[1].split()
    return " ".join(usage).replace("[-h] ", "").removeprefix(parser.prog.split()[0]).strip()


def of_books() -> tuple[list[Form], list[Option]]:
    top = importlib.import_module("tb_sql.commands").words()
    chosen = next(it for it in top._actions if isinstance(it, argparse._SubParsersAction))
    said = {it.dest: it.help or "" for it in chosen._choices_actions}
    forms = [
        Form(words_of(it), sentence(said[name]), of_argparse(it))
        for name, it in chosen.choices.items()
    ]
    return forms, of_argparse(top)


HEAD = re.compile(r"  ((?:-\w, )?--[\w-]+)(?: ([A-Z][A-Z:]*))?(?: {2,}(.*))?")


def of_help(page: str) -> list[Option]:
    """The options of a help page: a line of two spaces, its flags and value, and lines of its text
    that have more spaces."""
    found: list[Option] = []
    for line in page.partition("\noptions:\n")[2].splitlines():
        if head := HEAD.fullmatch(line):
            found.append(Option(head[1].split(", "), head[3] or "", head[2] or ""))
        elif line.startswith(" " * 4) and found:
            last = found.pop()
            found.append(replace(last, text=f"{last.text} {line.strip()}".strip()))
        elif line.strip():
            raise ValueError(f"no option: {line}")
    if not found:
        raise ValueError("the help has no options")
    return found


def help_of(name: str, *form: str) -> str:
    """The help of a program of server/, or of a form of it. It is built for that if it is not
    there."""
    program = ROOT / "server" / "out" / name
    if not program.exists():
        subprocess.run([ROOT / "server" / "build"], check=True)
    words = [str(program), *form, "--help"]
    return subprocess.run(words, capture_output=True, text=True, check=True).stdout


def of_parts(name: str, parts: list[str]) -> list[Form]:
    """Forms of a program of server/, each with the words and the options of its own help."""
    pages = [help_of(name, it) for it in parts]
    return [Form(it.splitlines()[0].partition(f" {name} ")[2], "", of_help(it)) for it in pages]


def of_rows(rows: list[dict[str, Any]]) -> list[Form]:
    return [
        Form(it["words"], it["text"], [Option(**o) for o in it.get("options", [])]) for it in rows
    ]


def of_click() -> tuple[list[Form], list[Option]]:
    import click

    top = importlib.import_module("telovamish.commands").telovamish
    context = click.Context(top, info_name="telovamish")

    def options(command: Any, inner: Any) -> list[Option]:
        rows = [it for it in command.get_params(inner) if isinstance(it, click.Option)]
        return [
            Option([*it.opts, *it.secondary_opts], it.help or "", "" if it.is_flag else value(it))
            for it in rows
        ]

    def value(option: click.Option) -> str:
        return option.make_metavar()

    forms = []
    for name in top.list_commands(context):
        command = top.get_command(context, name)
        inner = click.Context(command, parent=context, info_name=name)
        words = " ".join([name, *command.collect_usage_pieces(inner)[1:]])
        text = sentence(re.split(r"\n\s*\n", command.help or "")[0])
        forms.append(Form(words, text, options(command, inner)))
    return forms, options(top, context)


def sentence(text: str) -> str:
    plain = " ".join(text.split())
    return plain[:1].upper() + plain[1:] + ("" if plain.endswith(".") or not plain else ".")


def of_row(name: str, row: dict[str, Any]) -> Program:
    own = {it: row[it] for it in ("summary", "page", "sections", "see", "same_as") if it in row}
    parser = row.get("parser")
    if parser == "click":
        forms, options = of_click()
    elif parser == "tb_sql.commands":
        forms, options = of_books()
    elif parser == "server":
        forms = of_rows(row["forms"]) + of_parts(name, row.get("parts", []))
        options = of_help(help_of(name))
    else:
        forms = of_rows(row["forms"])
        options = [Option(**it) for it in row.get("options", [])]
    return Program(name, forms=forms, options=options, **own)


def whole() -> dict[str, Program]:
    """All programs, by name."""
    rows = tomllib.loads((ROOT / "packaging/forms.toml").read_text())
    with importable():
        return {name: of_row(name, row) for name, row in rows.items()}
