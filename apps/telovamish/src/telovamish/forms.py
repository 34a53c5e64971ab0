"""The forms that turn text to frames and frames to text, each item as soon as it is read."""
from __future__ import annotations

import re
import sys
from typing import IO, Any, Callable, Iterable, Iterator, Optional, TypeVar

import click

from .dates import moment_of
from .faults import Fault, devices, report
from .filling import Known
from .kinds import FIRST_BYTES, WORDS, kind_of
from .programs import books as books_of
from .texts import pairs as pairs_of, pieces
from .words import TIME_MAX

T = TypeVar("T")


def only(context: click.Context, option: click.Parameter, values: tuple[Any, ...]) -> Any:
    """The value of an option: none is dropped without a word, for another one or because it is
    empty."""
    if len(values) > 1:
        raise click.UsageError(f"{option.opts[0]} is given {len(values)} times: give it once")
    if "" in values:
        raise click.UsageError(f"{option.opts[0]} is empty")
    return values[0] if values else None


def time_of(word: str, is_last: bool = False) -> int:
    """The moment that an option's value names."""
    moment = moment_of(word, is_last)
    if moment is None and not re.fullmatch("[0-9]{1,19}", word):
        forms = "2026-11-26T10:00:00Z, 2026-11-26, or nanoseconds since 1970"
        raise click.BadParameter(f"{word[:60]!r} is no time: write {forms}")
    return int(word) if moment is None else moment


ONCE: dict[str, Any] = {"multiple": True, "callback": only}  # of an option that takes a value


def written(lines: Iterable[bytes]) -> None:
    """Writes each of these to standard output at once."""
    for line in lines:
        with devices("standard output"):
            sys.stdout.buffer.write(line)
            sys.stdout.buffer.flush()


def read(kind: str, blame: str, reader: Callable[[IO[bytes]], Iterator[T]]) -> Iterator[T]:
    """The items of standard input. Of another kind the fault says what it is."""
    source = sys.stdin.buffer
    name_terminal()
    with devices("standard input"):
        found = kind_of(source.peek(FIRST_BYTES)[:FIRST_BYTES])  # type: ignore[attr-defined]
    if found not in ("", kind):
        raise Fault(f"{blame}: {WORDS[found]}")
    with devices("standard input"):
        yield from reader(source)


def name_terminal() -> None:
    """Says that a form waits for its input, if that is a terminal."""
    if sys.stdin.isatty():
        report(f"{click.get_current_context().info_name} reads standard input; Ctrl-D ends it")


def refuse_terminal() -> None:
    """Refuses to write bytes to a terminal."""
    if sys.stdout.isatty():
        name = click.get_current_context().info_name
        raise Fault(f"{name} writes bytes, and not to a terminal: {name} .. > FILE, or into a pipe")


@click.command(short_help="Statements in, a script for tbs out.")
def script() -> None:
    """Statements in, a script for `tbs run` and `tbs dump` out."""
    refuse_terminal()
    name_terminal()
    written(it.to_bytes() for it in pairs_of(pieces(0), Known()))


@click.command(short_help="A script in, its statements out.")
def requests() -> None:
    """A script in, its statements out."""
    from .printing import statement_text
    from .streams import read_script

    written(statement_text(it).encode() for it in read("script", "no frames", read_script))


@click.command(short_help="Replies of tbs in, JSON out.")
@click.option("--names", metavar="TOML", help="Adds names, and amounts with decimals.", **ONCE)
@click.option("--script", metavar="FILE", help="Of this script: shown as by `run`.", **ONCE)
def replies(names: Optional[str], script: Optional[str]) -> None:
    """The replies of `tbs run` or `tbs replay` in, an object for each out; or the lines of
    `telovamish run`, given the script that they are the replies to."""
    from .objects import line, reply_shown
    from .streams import read_replies

    books, found = books_of(names), read("replies", "no frames", read_replies)
    if script is not None:
        show_replies(script, found, books)
        return
    written(line(reply_shown(it), books).encode() for it in found)


def show_replies(script: str, found: Iterator[Any], books: Any) -> None:
    """Shows the replies to a script, each after its request. A request without a reply is a
    fault, and so is a reply to no request of the script."""
    from .repeats import History
    from .running import Printer
    from .sending import Served
    from .streams import read_script

    printer, history = Printer(as_json=False, books=books), History()
    with devices(script), open(script, "rb") as file:
        for number, pair in enumerate(read_script(file), 1):
            reply = next(found, None)
            if reply is None:
                raise Fault(f"{script}: request {number} has no reply")
            if (reply.client, reply.number) != (pair.client, pair.request):
                raise Fault(f"reply {number} is not that to request {number} of {script}")
            printer.show(Served(pair, reply, history.is_repeat(pair, reply)))
        if next(found, None) is not None:
            raise Fault(f"{script} has {number} requests, and there are more replies")


@click.command(short_help="A dump in, JSON out.")
def dump() -> None:
    """A dump in, an object for its head, for each entry and for the mark out."""
    from .objects import item_shown, line
    from .streams import read_dump

    written(line(item_shown(it)).encode() for it in read("dump", "Head", read_dump))


@click.command(short_help="A dump in, a script that makes its history out.")
@click.option(
    "--latest", metavar="TIME", type=time_of, help="A later moment becomes this one.", **ONCE
)
def pairs(latest: Optional[int]) -> None:
    """A dump in, a script that makes its history out. A mark is omitted: a script has no marks.

    With --latest the script makes the history that would be, had no moment been later."""
    from .streams import Entry, read_dump

    refuse_terminal()
    last = TIME_MAX if latest is None else latest
    entries = (it for it in read("dump", "Head", read_dump) if isinstance(it, Entry))
    requests = (it.request._replace(at=min(it.time, last)) for it in entries)
    written(it.to_bytes() for it in requests)
