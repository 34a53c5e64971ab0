"""The command `telovamish`: its forms and its exit statuses."""
from __future__ import annotations

import difflib
import importlib
import io
import os
import sys
from typing import Optional, cast

import click

from . import __version__
from .early import INTERRUPTED
from .faults import Fault, Left, leave, report

# the forms, of which only the one that is named is loaded: a module and a command in it
FORMS = {it: f"forms:{it}" for it in ("script", "requests", "replies", "dump", "pairs")}
FORMS = {"repl": "asking:repl", "run": "asking:run", **FORMS}
FORMS |= {"audit": "audit:command", "explain": "explain:command"}
OWN_OPTIONS = {"--help", "-h", "--version"}
EPILOG = """Exit statuses: 0 all is done; 1 reading, writing, a program or memory failed, or a
statement got no reply; 2 the input or the arguments are wrong; 3 with --strict, a statement or an
event was refused."""


class Forms(click.Group):
    """The forms. Without the name of one it is `repl`."""

    def parse_args(self, context: click.Context, args: list[str]) -> list[str]:
        if not args or args[0].startswith("-") and args[0] not in OWN_OPTIONS:
            args = ["repl", *args]
        return super().parse_args(context, args)

    def list_commands(self, context: click.Context) -> list[str]:
        return [*FORMS]

    def get_command(self, context: click.Context, name: str) -> Optional[click.Command]:
        if name not in FORMS:
            return None
        module, attribute = FORMS[name].split(":")
        loaded = importlib.import_module(f"telovamish.{module}")
        return cast(click.Command, getattr(loaded, attribute))

    def resolve_command(
        self, context: click.Context, args: list[str]
    ) -> tuple[Optional[str], Optional[click.Command], list[str]]:
        if args[0] not in FORMS:
            near = difflib.get_close_matches(args[0], FORMS, 1)
            meant = f"; did you mean {near[0]}?" if near else ";"
            raise click.UsageError(f"{args[0]}: unknown{meant} telovamish --help shows the forms")
        return super().resolve_command(context, args)


@click.group(cls=Forms, epilog=EPILOG, context_settings={"help_option_names": ["--help", "-h"]})
@click.version_option(__version__, message="telovamish %(version)s")
def telovamish() -> None:
    """A proved ledger in words that people read and type. Without a form it is `repl`."""


def words_too_many(why: click.ClickException) -> str:
    """What to write in place of a word that a form does not take; otherwise nothing."""
    form = why.ctx.info_name if isinstance(why, click.UsageError) and why.ctx else None
    if not form or "extra argument" not in why.message:
        return ""
    if form == "repl":
        return "; a form comes before its options, and only run takes files"
    return f"; {form} reads standard input: telovamish {form} < FILE"


def ran() -> int:
    """Runs the command, and gives its exit status."""
    try:
        telovamish(prog_name="telovamish", standalone_mode=False)
        return 0
    except click.ClickException as why:
        report(why.format_message() + words_too_many(why))
        return 2
    except Left:
        leave(sys.stdout)
        return Left.status
    except Fault as why:
        report(str(why))
        return why.status
    except BrokenPipeError:  # of a page of usage
        return Left.status
    except MemoryError:
        report("NoMemory")
        return 1
    except OSError as why:  # of a page of usage, or of the version
        report(f"Device: {why.filename or 'standard output'}: {why.strerror or why}")
        return 1
    except (KeyboardInterrupt, click.Abort):  # click has ended the line
        return INTERRUPTED


def main() -> None:
    if sys.stderr is None:  # or faults would go to standard output, amid the replies
        sys.stderr = open(os.devnull, "w", encoding="utf-8")
    if sys.stdin is None or sys.stdout is None:
        report("Device: standard input or output is closed")
        sys.exit(1)
    if isinstance(sys.stdout, io.TextIOWrapper):  # a name that its encoding has not is no fault
        sys.stdout.reconfigure(errors="backslashreplace")
    status = ran()
    try:
        sys.stdout.flush()
    except BrokenPipeError:
        status = status or Left.status
    except OSError as why:
        if not status:
            report(f"Device: standard output: {why.strerror or why}")
            status = 1
    leave(sys.stdout)
    leave(sys.stderr)
    sys.exit(status)
