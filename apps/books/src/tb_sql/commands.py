"""The command tb-sql: its words, and what each does."""

from __future__ import annotations

import argparse
import gc
import io
import os
import re
import signal
import sqlite3
import sys
import time
from typing import IO, Any, List, NoReturn, Optional

from telovamish.faults import Fault

from . import __version__
from .early import INTERRUPTED, end_by
from .errors import Failed, Stop
from .filters import OPERATIONS
from .loading import Loading, store_of
from .names import read_names
from .numbers import time_text
from .output import Unread, report, say, writing
from .sources import Ledger, Programs, read_dump

LOAD = """Reads a history into tables: a dump from standard input, or a ledger's file. The
program `tbs` gives the reply to each entry. What the tables have already is skipped, so the same
command goes on where the last one stopped. FILE is a file of SQLite, made if there is none, or a
URL of PostgreSQL."""
SERVE = """Shows the tables as pages, only on the loopback interface, without writing."""
CHECK = """Computes each column again that other rows determine, and compares the digests of all
others. --ledger compares every row with the history itself. --server also asks a server for its
accounts, which takes a session and an entry for each 8190 accounts."""
ASK = """Prints the answer to a question of TigerBeetle's clients: get_account_transfers,
get_account_balances, query_accounts or query_transfers. A FIELD is one of its filter, as
account_id=2, account_id="Anna Schmidt", flags=debits,reversed or limit=10."""
STATUSES = """Exit status: 0 done; 1 a file, a program or a database failed, or a check found a
difference; 2 the input or the arguments are wrong."""


# Rows are freed without a search for cycles, because they have no cycles: it would take a quarter
# of a load's time.
GARBAGE = 500_000


class Progress:
    """Says on a terminal how far a load is, at most each half second."""

    def __init__(self, loading: Loading, is_shown: bool) -> None:
        self.loading = loading
        self.is_shown = is_shown
        self.began = self.last = time.monotonic()

    def tell(self) -> None:
        now = time.monotonic()
        if self.is_shown and now - self.last >= 0.5:
            self.last = now
            speed = self.loading.events / (now - self.began)
            report(
                f"\r\x1b[Kcommit {self.loading.commit_number:,}: {self.loading.events:,} events, "
                f"{speed:,.0f} a second",
                end="",
            )

    def end(self) -> None:
        if self.is_shown:
            report("\r\x1b[K", end="")


def load(given: argparse.Namespace) -> int:
    """Loads, and prints how far the tables are."""
    if given.follow and given.ledger is None:
        raise_usage("--follow needs --ledger; a dump on standard input is followed anyway")
    is_file = given.ledger is not None
    ledger = Ledger(given.ledger, programs_of(given)) if is_file else None
    if is_file and os.path.exists(given.file) and os.path.samefile(given.file, given.ledger):
        raise_usage(f"{given.file} is the ledger's own file: name another one for the tables")
    names = read_names(given.names).rows if given.names else None
    gc.set_threshold(GARBAGE)
    store = store_of(given.file)
    try:
        loading = Loading(store)
        if names is not None and not store.is_new:
            store.write_names(names)
        is_terminal = sys.stderr is not None and sys.stderr.isatty()
        progress = Progress(loading, is_terminal and not given.quiet)
        try:
            read(loading, ledger, given, progress)
            if names is not None and not store.is_new:
                store.write_names(names)
        finally:
            progress.end()
    finally:
        store.close()
    if not given.quiet:
        say(
            f"entries {loading.entries:,}, events {loading.events:,}: they came to {store.path}; "
            f"its last entry is {loading.commit_number:,}, at {time_text(loading.time)}"
        )
    return 0


def programs_of(given: argparse.Namespace) -> Programs:
    return Programs(given.tbd, given.tbs)


def read(
    loading: Loading, ledger: Optional[Ledger], given: argparse.Namespace, progress: Progress
) -> None:
    """Reads the input to its end, or until a signal if it is followed."""
    if ledger is None:
        read_dump(loading, programs_of(given), progress.tell)
    elif not given.follow:
        ledger.read(loading, progress.tell)
    else:
        try:
            ledger.read(loading, progress.tell, follow=True)
        except KeyboardInterrupt:
            pass


def raise_usage(words: str) -> None:
    raise Usage(words)


class Usage(Stop):
    """The arguments of the command are wrong."""

    status = 2


def serve(given: argparse.Namespace) -> int:
    """Serves the pages until a signal."""
    try:
        from .pages.server import serve_pages
        from .pages.site import Site
    except ImportError as error:
        raise Failed(f"Flask is not installed (Debian: python3-flask): {error}") from None
    names = read_names(given.names) if given.names else None
    return serve_pages(given.file, given.port, Site(given.file, names, given.ledger, given.tbd))


def check(given: argparse.Namespace) -> int:
    """Prints the first difference, or what was compared."""
    from .checking import check_tables

    return check_tables(given)


def ask(given: argparse.Namespace) -> int:
    """Prints the answer to a question."""
    from .asking import ask as answered

    return answered(given)


class Once(argparse.Action):
    """Keeps a value: none is dropped without a word, for another one or because it is empty."""

    def __call__(self, _: Any, given: Any, value: Any, option: Optional[str] = None) -> None:
        found = vars(given).setdefault("options", set())
        if option and self.dest in found:
            raise argparse.ArgumentError(self, "give it once")
        if value == "":
            raise argparse.ArgumentError(self, "it is empty")
        found.add(self.dest)
        setattr(given, self.dest, value)


class Parser(argparse.ArgumentParser):
    """Takes each option once, by its whole name."""

    def __init__(self, **more: Any) -> None:
        super().__init__(allow_abbrev=False, **more)
        self.register("action", None, Once)

    def _print_message(self, message: str, file: Optional[IO[str]] = None) -> None:
        """Prints a page of usage, or the version."""
        if sys.stdout is None:  # or it goes to standard error
            raise Failed("standard output is closed")
        with writing():
            super()._print_message(message, file)

    def error(self, message: str) -> NoReturn:
        """Ends with status 2, also if nobody can read why."""
        report(f"{self.format_usage()}{self.prog}: error: {message}")
        sys.exit(Usage.status)


def commit(text: str) -> int:
    if not text.isascii() or not text.isdigit() or len(text) > 19:
        raise argparse.ArgumentTypeError(f"{text[:60]!r} is no number of at most 19 digits")
    return int(text)


def port(text: str) -> int:
    if not re.fullmatch("[0-9]{1,9}", text) or int(text) > 65535:
        raise argparse.ArgumentTypeError(f"{text[:60]!r} is no number from 0 to 65535")
    return int(text)


def seconds(text: str) -> float:
    if not re.fullmatch(r"[0-9]{1,9}(\.[0-9]{1,9})?", text):
        raise argparse.ArgumentTypeError(f"{text[:60]!r} is no number of seconds, as 10 or 0.5")
    return float(text)


def add_ledger(parser: argparse.ArgumentParser, what: str) -> None:
    parser.add_argument("--ledger", metavar="FILE", help=what)
    parser.add_argument("--tbd", metavar="PROGRAM", help="the program tbd (or the variable TBD)")
    parser.add_argument("--tbs", metavar="PROGRAM", help="the program tbs (or the variable TBS)")


def add_ask(commands: Any) -> None:
    it = commands.add_parser(
        "ask", help="print a filter's accounts, transfers or balances", description=ASK
    )
    it.add_argument("file", metavar="FILE", help="a file of SQLite, or postgresql://..")
    it.add_argument("question", metavar="QUESTION", choices=OPERATIONS, help="the question's name")
    it.add_argument("fields", metavar="FIELD=VALUE", nargs="*", help="a field of its filter")
    it.add_argument("--json", action="store_true", help="print JSON, as the pages do")
    it.add_argument("--names", metavar="TOML", help="other names than those of the tables")
    it.add_argument("--commit", type=commit, default=0, metavar="N", help="wait for this commit")
    it.add_argument(
        "--wait", type=seconds, default=10.0, metavar="SECONDS", help="at most (%(default)g)"
    )
    it.set_defaults(run=ask)


def words() -> argparse.ArgumentParser:
    parser = Parser(
        prog="tb-sql",
        description="A ledger's history as tables: exact, and safe to delete and make again.",
        epilog=STATUSES,
    )
    parser.add_argument("--version", action="version", version=f"tb-sql {__version__}")
    commands = parser.add_subparsers(dest="command", required=True, metavar="COMMAND")
    it = commands.add_parser(
        "load", help="read a history into tables", description=LOAD, epilog=STATUSES
    )
    it.add_argument("file", metavar="FILE", help="a file of SQLite, or postgresql://..")
    add_ledger(it, "a ledger's file, in place of standard input")
    it.add_argument(
        "--follow",
        action="store_true",
        help="go on with what comes, until a signal, or until the ledger's file is another one",
    )
    it.add_argument("--names", metavar="TOML", help="names and decimal places, kept in the tables")
    it.add_argument("--quiet", action="store_true", help="print nothing but faults")
    it.set_defaults(run=load)
    it = commands.add_parser("serve", help="show the tables as pages", description=SERVE)
    it.add_argument("file", metavar="FILE", help="a file of SQLite, or postgresql://..")
    it.add_argument("--port", type=port, default=8642, help="the port on 127.0.0.1 (%(default)s)")
    it.add_argument(
        "--ledger", metavar="FILE", help="the ledger's file, to show how far behind it this is"
    )
    it.add_argument("--tbd", metavar="PROGRAM", help="the program tbd (or the variable TBD)")
    it.add_argument("--names", metavar="TOML", help="other names than those of the tables")
    it.set_defaults(run=serve)
    add_ask(commands)
    it = commands.add_parser(
        "check", help="compute balances again", description=CHECK, epilog=STATUSES
    )
    it.add_argument("file", metavar="FILE", help="a file of SQLite")
    it.add_argument("--server", metavar="ADDRESS", help="a Unix socket's path, or HOST:PORT")
    it.add_argument(
        "--wait",
        type=seconds,
        default=10.0,
        metavar="SECONDS",
        help="how long to wait for a load to reach the server's answer (%(default)g)",
    )
    add_ledger(it, "the ledger's file, with which every row is compared")
    it.set_defaults(run=check)
    return parser


def main(arguments: Optional[List[str]] = None) -> int:
    """Runs the command; its exit status."""
    is_endless = False
    if sys.stderr is None:  # or argparse prints its faults on standard output
        sys.stderr = open(os.devnull, "w", encoding="utf-8")
    try:
        given: Any = words().parse_args(arguments)
        if isinstance(sys.stdout, io.TextIOWrapper):
            sys.stdout.reconfigure(errors="backslashreplace")  # names of files may be of any bytes
        if sys.stdout is None and given.command in ("ask", "check"):
            raise Failed("standard output is closed")
        is_endless = given.command == "serve" or given.command == "load" and given.follow
        end_by(is_endless, signal.default_int_handler)
        return int(given.run(given))
    except Unread as stop:
        return stop.status
    except Fault as stop:
        report(f"tb-sql: {stop}")
        return stop.status
    except OSError as error:
        file = f"{error.filename}: " if error.filename else ""
        report(f"tb-sql: {file}{error.strerror or error}")
        return 1
    except sqlite3.Error as error:
        report(f"tb-sql: {error}")
        return 1
    except KeyboardInterrupt:
        return 0 if is_endless else INTERRUPTED
