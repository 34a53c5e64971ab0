"""The forms `repl` and `run`, and their options."""
from __future__ import annotations

import contextlib
import sys
from typing import Any, Callable, Iterator, TypeVar

import click
from tb_client.ids import new_client

from . import ledgers
from .faults import Fault
from .forms import ONCE
from .programs import books as books_of
from .running import Printer, run_files, run_text
from .sending import Desk
from .stored import key_of, taken
from .tally import Tally
from .written import Written
from .words import CLIENTS_MAX, SECOND, TIME_MAX, U64, U128

F = TypeVar("F", bound=Callable[..., Any])
CLIENTS, PROFILES = click.IntRange(1, CLIENTS_MAX), click.IntRange(1, 2)
SECONDS = click.IntRange(0, TIME_MAX // SECOND)
IDS, RANGES = click.IntRange(1, U128), click.IntRange(0, U64)
# each option with what it takes, which is nothing or a text or a number
OPTIONS: tuple[tuple[str, str, Any, str], ...] = (
    ("--file", "LEDGER", str, "A ledger in a file: starts tbd."),
    ("--connect", "ADDRESS", str, "A listener's ledger: a port, HOST:PORT or a Unix socket."),
    ("--ca", "FILE", str, "Over TLS: who signs the server's certificate."),
    ("--certificate", "FILE", str, "Over TLS: this client's certificate."),
    ("--key", "FILE", str, "Over TLS: its key."),
    ("--existing", "", None, "Makes no file: LEDGER has to be there."),
    ("--ahead", "SECONDS", SECONDS, "How far ahead of the clock at= may be in a file (60)."),
    ("--program", "FILE", str, "The server to run (tbs; tbd of a file)."),
    ("--clients-max", "N", CLIENTS, f"Clients with a session, 1 to {CLIENTS_MAX} ({CLIENTS_MAX})."),
    ("--profile", "N", PROFILES, "The profile of rules, 1 or 2 (1)."),
    ("--client", "ID", IDS, "The client's id (1 in memory, else drawn)."),
    ("--client-range", "N", RANGES, "The upper 64 bits of a drawn client's id."),
    ("--new-client", "", None, "A new client, in place of the one that is stored."),
    ("--json", "", None, "Replies as JSON, a line each."),
    ("--quiet", "", None, "Shows only refusals and events that failed."),
    ("--strict", "", None, "Ends with the first refusal or failed event, by status 3."),
    ("--command", "TEXT", str, "Serves these statements, and ends."),
    ("--books", "TABLES", str, "Tables of tb-sql, which answer questions about the history."),
    ("--names", "TOML", str, "Names and decimal places of ledgers, codes and accounts."),
)
Given = dict[str, Any]


def with_options(form: F) -> F:
    for flag, metavar, kind, text in reversed(OPTIONS):
        takes: Any = {"type": kind, "metavar": metavar, **ONCE} if metavar else {"is_flag": True}
        form = click.option(flag, help=text, **takes)(form)
    return form


def check_options(given: Given) -> None:
    """Refuses options that do not go together."""
    for name, value in given.items():
        if name in ("ca", "certificate", "key") and value and not given["connect"]:
            raise click.UsageError(f"--{name} needs --connect")
    if given["key"] and not given["certificate"]:
        raise click.UsageError("--key needs --certificate")
    if given["new_client"] and (given["client"] or not (given["file"] or given["connect"])):
        raise click.UsageError("--new-client needs --file or --connect, and no --client")
    for name in ("existing", "ahead"):
        is_given = given[name] is not None and given[name] is not False
        if is_given and not given["file"]:
            raise click.UsageError(f"--{name} needs --file")
    if given["file"] and given["connect"]:
        raise click.UsageError("--file and --connect are two ledgers: give one of them")
    if given["connect"] or given["books"] and not given["file"]:
        for name in filter(given.get, ("program", "clients_max", "profile")):
            flag = f"--{name.replace('_', '-')}"
            raise click.UsageError(f"{flag} needs a server that telovamish starts")


def client_of(given: Given) -> int:
    """The client's id: the one that is given, 1 in memory, or a drawn one: a ledger that stays may
    know a client 1, whose session is not known here."""
    is_drawn = given["connect"] or given["file"] or given["client_range"] is not None
    return given["client"] or (new_client(given["client_range"]) if is_drawn else 1)


@contextlib.contextmanager
def desk_over(ledger: ledgers.Ledger, given: Given) -> Iterator[Desk]:
    """A desk over a ledger. If it stays, and no client is given, by the session that is stored for
    it: each new client takes a place, and in the end another one's."""
    stays = (given["connect"] or given["file"]) and not given["client"]
    key = key_of(given["file"], given["connect"], given["client_range"], given["certificate"])
    stored = taken(key) if stays and not given["new_client"] else None
    desk = Desk(ledger, client_of(given))
    desk.renew = lambda: client_of(given)
    if stored and stored.session:
        desk.resume(stored.client, stored.session)
    try:
        yield desk
    finally:
        if stored:
            stored.end(desk.client, desk.settled())


def start_of(given: Given, numbers: ledgers.Numbers) -> ledgers.Start:
    ahead = ledgers.AHEAD_MAX if given["ahead"] is None else given["ahead"]
    return ledgers.Start(numbers, given["existing"], ahead)


def confirm_new(given: Given) -> None:
    """Asks at a terminal before a ledger is made: a mistyped name would be a new one, in which
    every transfer could be made again."""
    file = given["file"]
    if file and not given["existing"] and ledgers.is_missing(file):
        if not click.confirm(f"{file} has no ledger. Make a new and empty one?", err=True):
            raise Fault(f"{file} was not made")


@contextlib.contextmanager
def desk_of(given: Given) -> Iterator[tuple[Desk, Printer]]:
    """A desk and a printer over the ledger that the options name."""
    program, numbers = given["program"], (given["clients_max"], given["profile"])
    books = books_of(given["names"], given["books"])
    if given["connect"]:
        context = ledgers.context_of(given["ca"], given["certificate"], given["key"])
        ledger = ledgers.over(given["connect"], context)
        ledgers.reach(ledger.addresses)
    elif given["file"]:
        with progress(given["file"]) as show:
            ledger = ledgers.of_file(given["file"], program, start_of(given, numbers), show)
    else:
        ledger = books.ledger() if given["books"] else ledgers.in_memory(program, numbers)
    try:
        with desk_over(ledger, given) as desk:
            desk.live.written = Written(books.names.rows) if books else None
            yield desk, Printer(given["json"], given["quiet"], books)
    except KeyboardInterrupt:
        ledger.interrupt()
        raise
    finally:
        ledger.close()


@contextlib.contextmanager
def progress(file: str) -> Iterator[Callable[[str], None]]:
    """Shows on a terminal how far a ledger's file is read."""
    if not sys.stderr.isatty():
        yield lambda text: None
        return
    from rich.console import Console
    from rich.text import Text

    console = Console(stderr=True, highlight=False)
    with console.status(Text(f"reading {file}"), spinner="line") as status:
        yield lambda text: status.update(Text(text))


def run_given(given: Given, files: tuple[str, ...]) -> None:
    """Serves the statements of files, of standard input or of --command."""
    check_options(given)
    tally = Tally(given["strict"])
    with desk_of(given) as (desk, printer):
        try:
            if given["command"]:
                text = given["command"].encode("utf-8", "surrogateescape")
                run_text(desk, printer, iter([text + b"\n"]), tally)
            else:
                run_files(desk, printer, files, tally)
        finally:
            tally.report()


@click.command(short_help="Serves statements of files or of standard input.")
@click.argument("files", nargs=-1, metavar="[FILE]...")
@with_options
def run(files: tuple[str, ...], **given: Any) -> None:
    """Statements of files or of standard input in, each reply as soon as it is there.

    The ledger is in memory and ends with the command, or in a file, or over a connection."""
    if given["command"] and files:
        raise click.UsageError("--command and FILE are two texts: give one of them")
    run_given(given, files)


@click.command(short_help="A terminal: statements with history and completion.")
@with_options
def repl(**given: Any) -> None:
    """A terminal: statements with history and completion, replies as tables.

    If input and output are not both a terminal it is `run`."""
    if given["command"] or not (sys.stdin.isatty() and sys.stdout.isatty()):
        run_given(given, ())
        return
    if given["strict"]:
        raise click.UsageError("--strict needs --command, or statements that are not typed")
    check_options(given)
    confirm_new(given)
    with desk_of(given) as (desk, printer):
        from .repl import Repl

        print("A statement ends with `;`; `help` shows some, `exit` ends.")
        Repl(desk, printer).run()
