"""The three kinds of ledger: in memory, in a file, and over a connection."""
from __future__ import annotations

import contextlib
import os
import re
import signal
import socket
import ssl
import stat
import time
from typing import Any, Callable, Iterable, Iterator, NamedTuple, Optional, Union

from tb_client import ClientError, Direct, Locked, Program, ProgramEnded, Socket
from tb_client.clients import addresses_of
from tb_client.locks import owner_of
from tb_client.program import NEWS

from .dates import date_of, spoken
from .faults import Device, Fault, report
from .kinds import FIRST_BYTES, kind_of
from .programs import found, program
from .repeats import History
from .words import CLIENTS_MAX, SECOND

READY = re.compile(r"tbd: ready: commit (\d+), time (\d+)")
# of a ledger's file: its first record, after which its profile and its clients are
HEAD, HEAD_END = b"TBK1", 32
SOON = 0.5  # seconds for a first connection
PATIENCE = 0.2  # seconds between two looks at a program that reads its ledger
DROP_TORN = ", or start with --drop-torn"  # an option of tbd, which this command has not
QUIET = 300.0  # seconds without news of it after which it is not waited for
AHEAD_MAX = 60.0  # seconds that a moment over a file may be ahead of the clock
Numbers = tuple[Optional[int], Optional[int]]  # CLIENTS_MAX and PROFILE, as far as they are given


class Ledger(NamedTuple):
    """A ledger that takes requests."""

    transport: Union[Program, Socket, Direct]
    history: History
    is_memory: bool = False
    places: tuple[Any, ...] = ()  # to which plain connections go
    addresses: tuple[Any, ...] = ()
    ahead_max: Optional[float] = None  # seconds that a moment may be ahead of the clock, if bounded

    @property
    def has_moments(self) -> bool:
        """A request enters at the moment that it is sent with; otherwise at the server's."""
        return not isinstance(self.transport, Socket)

    @property
    def connections(self) -> int:
        return self.transport.connections if isinstance(self.transport, Socket) else 1

    def tls_fault(self, why: str) -> str:
        """That one side of a new connection speaks TLS and the other does not; otherwise
        nothing."""
        if not isinstance(self.transport, Socket):
            return ""
        if "WRONG_VERSION_NUMBER" in why:
            return "the server does not speak TLS: leave out --ca"
        if self.places and any(map(speaks_tls, self.places)):
            return "the server speaks TLS: give --ca FILE"
        return ""

    def close(self) -> None:
        self.transport.close()

    def interrupt(self) -> None:
        """Ends a program at once whose ledger ends with it: it may not look at its input."""
        if self.is_memory and isinstance(self.transport, Program):
            kill(self.transport)


def kill(it: Program) -> None:
    """Kills a program, with what it started."""
    if it.process is not None and it.process.returncode is None:
        with contextlib.suppress(ProcessLookupError, PermissionError):
            os.killpg(it.process.pid, signal.SIGKILL)


def in_memory(option: Optional[str], numbers: Numbers) -> Ledger:
    """A ledger of a program of its own, which ends with it."""
    is_named = option or os.environ.get("TBS")
    path = found("tbs", option) or (None if is_named else found("tb_script"))
    path = path or program("tbs", option)
    if os.path.basename(path) == "tbd":
        raise Fault("--program: tbd keeps its ledger in a file: name that by --file")
    with started(path):
        return Ledger(Program(path, numbers[0] or CLIENTS_MAX, numbers[1] or 1), History(), True)


@contextlib.contextmanager
def started(what: str) -> Iterator[None]:
    """A program that cannot be started is a fault of a device."""
    try:
        yield
    except ProgramEnded as why:
        fault = (why.fault or str(why)).replace(DROP_TORN, "")
        file = "" if what in fault else f"{what}: "
        raise Device(f"{file}{fault}{held_by(why, what)}") from None
    except (ClientError, OSError) as why:
        raise Device(str(why)) from None


class Start(NamedTuple):
    """How a ledger's file is served: its rules, whether it has to exist, and how far ahead of the
    clock a moment may be."""

    numbers: Numbers = (None, None)
    existing: bool = False
    ahead_max: float = AHEAD_MAX


def of_file(file: str, option: Optional[str], start: Start, show: Callable[[str], None]) -> Ledger:
    """A ledger in a file, which a `tbd` of its own serves. While it is read, how far is shown."""
    path, head = program("tbd", option), head_of(file)
    clients_max, profile = start.numbers[0] or head[0], start.numbers[1] or head[1]
    with started(file):
        it = Program(
            path, clients_max, profile, file=file, restarts=True,
            existing=start.existing, ahead_max=None, report=report_start,
        )  # fmt: skip
        with killed_at_a_fault(it):
            await_ready(it, file, show)
    ready = next(filter(None, map(READY.match, it.told)), None)
    history = History(*map(int, ready.groups())) if ready else History()
    report_lead(file, history.time)
    return Ledger(it, history, ahead_max=start.ahead_max)


def report_start(line: str) -> None:
    """What a start did to the file: that it is a new ledger, or had torn bytes."""
    said = line.removeprefix("tbd: ")
    report(f"{said}, a new and empty ledger" if said.startswith("made ") else said)


def report_lead(file: str, last: int) -> None:
    """Says that a ledger's time is ahead of the clock: its entries get no earlier one."""
    ahead = last - time.time_ns()
    if ahead > AHEAD_MAX * SECOND:
        report(
            f"the last entry of {file} is at {date_of(last)}, {spoken(ahead)} ahead of this "
            "computer's clock: each new one is later than that (docs/use/OPERATING.md)"
        )


def is_missing(file: str) -> bool:
    """Whether a start would make a ledger in this file: it is not there, it is empty, or a crash
    left less than its first 8 bytes."""
    try:
        with open(file, "rb") as it:
            first = it.read(FIRST_BYTES)
    except FileNotFoundError:
        return True
    except OSError:
        return False
    return not first or kind_of(first) == "remnant"


@contextlib.contextmanager
def killed_at_a_fault(it: Program) -> Iterator[None]:
    """A program that was asked nothing yet is killed if it is not waited for."""
    try:
        yield
    except BaseException:
        kill(it)
        it.close()
        raise


def await_ready(it: Program, file: str, show: Callable[[str], None]) -> None:
    """Waits until a program has read its ledger, as long as it has news."""
    last, since = "", time.monotonic()
    while not it.wait(PATIENCE):
        news = next(filter(NEWS.match, reversed(it.told)), "")
        if news != last:
            last, since = news, time.monotonic()
        if time.monotonic() - since > QUIET:
            raise Device(
                f"NotReady: {it.command[0]} reported nothing for {QUIET:g} seconds before it had "
                f"read {file}, and was killed"
            )
        show(last.removeprefix("tbd: ") or f"starting {it.command[0]}")


def head_of(file: str) -> tuple[int, int]:
    """The number of clients and the profile of a ledger's file, or what a new one gets."""
    with contextlib.suppress(OSError), open(file, "rb") as it:
        _, _, numbers = it.read(HEAD_END).partition(HEAD)
        if len(numbers) >= 2:
            return numbers[1], numbers[0]
    return CLIENTS_MAX, 1


def held_by(why: ProgramEnded, file: str) -> str:
    """Who has a file that is locked, as far as the system knows."""
    owner = owner_of(file) if isinstance(why, Locked) else None
    return f": process {owner.process} ({owner.command}) has it" if owner else ""


# Connections


def context_of(
    ca: Optional[str], certificate: Optional[str], key: Optional[str]
) -> Optional[ssl.SSLContext]:
    if not (ca or certificate):
        return None
    files = ca
    try:
        context = ssl.create_default_context(cafile=ca)
        if certificate:
            files = " and ".join(filter(None, (certificate, key)))
            context.load_cert_chain(certificate, key)
    except ssl.SSLError as why:
        if certificate and not key and files == certificate:
            raise Device(f"{certificate} has no private key: name its file by --key FILE") from None
        raise Device(f"{files}: {why.reason or 'no certificate'}") from None
    except OSError as why:
        raise Device(f"{files}: {why.strerror or 'no certificate'}") from None
    return context


def over(addresses: str, tls: Optional[ssl.SSLContext]) -> Ledger:
    """A ledger over a connection, to one of several addresses: a port of this machine, a host
    with or without a port, or a Unix socket's path, which has a slash or is that of a socket."""
    try:
        places: Any = addresses_of(f"./{addresses}" if is_socket(addresses) else addresses)
        plain = () if tls else (*places,)
        return Ledger(Socket(places, tls=tls), History(), places=plain, addresses=(*places,))
    except ClientError as why:
        # the client library names its own argument
        raise Fault(f"--connect: {str(why).removeprefix('replica_addresses has ')}") from None


def is_socket(path: str) -> bool:
    """Whether a name without a slash is that of a Unix socket in this folder."""
    try:
        return "/" not in path and stat.S_ISSOCK(os.stat(path).st_mode)
    except (OSError, ValueError):
        return False


def reach(places: Iterable[Any]) -> None:
    """Raises Device at once if no server listens at any of these places: it would be waited for
    longer than anyone expects. What takes longer than a moment is left to the first request."""
    fault = ""
    for place in places:
        is_path = isinstance(place, str)
        try:
            if is_path:
                with socket.socket(socket.AF_UNIX) as it:
                    it.settimeout(SOON)
                    it.connect(place)
            else:
                socket.create_connection(place, SOON).close()
            return
        except (ConnectionRefusedError, FileNotFoundError) as why:
            fault = f"{place if is_path else '{}:{}'.format(*place)}: {why.strerror}"
        except OSError:
            return
    if fault:
        raise Device(fault)


def speaks_tls(place: Any) -> bool:
    """Whether a server that closed a plain connection requires TLS."""
    try:
        return not isinstance(place, str) and bool(ssl.get_server_certificate(place, timeout=2))
    except OSError as why:  # an alert, if it refuses a client without a certificate
        return "ALERT" in (getattr(why, "reason", None) or "")
