"""The place at which `tbs` stops in a script or a dump, and why: by the number of its replies and
its fault."""
from __future__ import annotations

import contextlib
import io
import struct
import subprocess
import sys
from typing import Optional

import click

from .faults import Device, Fault, devices
from .forms import ONCE, name_terminal, written
from .kinds import DUMP, LEDGER, WORDS, is_text
from .live import WRONG_INPUT, end_of, replies_of
from .programs import program
from .streams import Entry, read_dump, read_replies, read_request, read_script
from .words import CLIENTS_MAX, STATUSES, TIME_MAX

SAMPLE = 32  # bytes of which it is said whether they look like text
SAYS = {
    "Short": "the bytes end within it",
    "ClientZero": "its client is 0",
    "UnknownOperation": "no operation has its number",
    "Reserved": "a byte that must be 0 is not",
    "BadLength": "its body has a length that its operation does not allow",
    "TooMany": "it has more than 8190 events or ids",
    "RegisterNumbers": "it is a register, and its session or request is not 0",
    "RequestZero": "its request is 0, and it is no register",
    "Mark": "a mark is not 2, or is there under profile 2",
    "Head": "the first 16 bytes are no head: TBSDUMP1, profile 1 or 2, "
    f"1 to {CLIENTS_MAX} clients",
    "TimeExhausted": "no time is left after the entries before it",
}
LATE = "its moment is above 2^63 - 1; if its request is new, no time is left"
LOOKS_LIKE_TEXT = "It looks like text: telovamish script makes a script of statements.\n"


def stop_of(data: bytes, *words: str) -> tuple[int, str]:
    """How many replies a program gives, and the name of the fault at which it ends, if it does."""
    name = f"tbs {words[1]}"
    with devices(f"{words[0]} does not start"):
        ran = subprocess.run(words, input=data, capture_output=True)
    message = ran.stderr.decode(errors="replace").strip().removeprefix("tbs: ")
    if ran.returncode not in (0, WRONG_INPUT):
        raise Device(end_of(name, ran.returncode, message))
    with replies_of(name):
        count = sum(1 for _ in read_replies(io.BytesIO(ran.stdout)))
    return count, message if ran.returncode else ""


def explained(data: bytes, tbs: str) -> str:
    if data.startswith(LEDGER):
        return WORDS["ledger"] + "\n"
    return of_dump(data, tbs) if data.startswith(DUMP) else of_script(data, tbs)


def of_script(data: bytes, tbs: str) -> str:
    """A moment that is too late is a stop too: which requests are new depends on the number of
    clients."""
    replies, fault = stop_of(data, tbs, "run", str(CLIENTS_MAX))
    source, number, at = io.BytesIO(data), 1, 0
    pairs = read_script(source)
    while number <= replies and next(pairs).at <= TIME_MAX:
        number, at = number + 1, source.tell()
    is_late = int.from_bytes(data[at : at + 8], "little") > TIME_MAX
    if number <= replies or fault == "TimeExhausted" and is_late:
        return stop_line("pair", number, at, LATE, "TimeExhausted")
    if not fault:
        return f"a script, {replies} pairs in {len(data)} bytes: tbs reads it to its end\n"
    line = stop_line("pair", number, at, SAYS.get(fault, "tbs stops"), fault)
    sample = data[at : at + SAMPLE]
    return line + LOOKS_LIKE_TEXT if sample.isascii() and is_text(sample) else line


def entered(data: bytes, count: int) -> tuple[list[Entry], int]:
    """The entries of a dump that have replies, and the place of the item after them."""
    source, entries, at = io.BytesIO(data), list[Entry](), 0
    with contextlib.suppress(Fault):  # the one of the item at which `tbs` stops
        for item in read_dump(source):
            if isinstance(item, Entry):
                if len(entries) == count:
                    break
                entries.append(item)
            at = source.tell()
    return entries, at


def of_dump(data: bytes, tbs: str) -> str:
    replies, fault = stop_of(data, tbs, "replay")
    if fault == "Head":
        return f"the head, at byte 0: {SAYS['Head']} (Head)\n"
    if not fault:
        return f"a dump, {replies} entries in {len(data)} bytes: tbs replays it to its end\n"
    entries, at = entered(data, replies)
    why = SAYS.get(fault) or why_not_legal(data, entries, at, tbs)
    return stop_line("entry", replies + 1, at, why, fault)


def why_not_legal(data: bytes, entries: list[Entry], at: int, tbs: str) -> str:
    """Why an entry does not follow: `tbs run` reports it of its request, after those before it."""
    commit, time = struct.unpack_from("<QQ", data, at)
    if commit != len(entries) + 1:
        return f"its commit number is {commit}, and {len(entries) + 1} comes next"
    request = read_request(io.BytesIO(data[at + 16 :]), 0)  # at no moment of its own
    pairs = b"".join(it.request._replace(at=it.time).to_bytes() for it in entries)
    clients_max = str(int.from_bytes(data[12:16], "little"))
    words, given = [tbs, "run", clients_max], pairs + request.to_bytes()
    ran = subprocess.run(words, input=given, capture_output=True)
    last = [*read_replies(io.BytesIO(ran.stdout))][-1:]
    if ran.returncode == 0 and last and last[0].commit != commit:
        return f"its request is not new: {STATUSES[last[0].status].title().replace('_', '')}"
    count = request.length if request.operation.startswith("create_") else 0
    least = (entries[-1].time if entries else 0) + max(count, 1)
    return f"its time is {time}, and {min(least, TIME_MAX)} to 2^63 - 1 is allowed"


def stop_line(unit: str, number: int, at: int, why: str, fault: str) -> str:
    return f"{unit} {number}, at byte {at}: {why} ({fault})\n"


@click.command(short_help="Where and why tbs stops in a script or a dump.")
@click.option("--tbs", metavar="FILE", help="The program tbs.", **ONCE)
def command(tbs: Optional[str]) -> None:
    """A script or a dump in; the place at which `tbs` stops in it, and why, out."""
    path = program("tbs", tbs, "--tbs")
    name_terminal()
    with devices("standard input"):
        data = sys.stdin.buffer.read()
    written([explained(data, path).encode()])
