#!/usr/bin/python3
"""Measures the listener next to what it may be compared with, all in turns.

    bench/listener/run.py [--turns N] [--seconds S] [--loads 60,8x8190] [--disk FOLDER] [--out FILE]

The listener (LISTENER, or server/out/tb-listen) runs over tbd and over tbs (TBD, TBS). The same
loads go straight into the pipes of tbd and tbs, to an echo server in Go, to redis with
appendfsync always (SET of 128 bytes), and single transfers also to PostgreSQL (pgbench with one
INSERT and two UPDATEs), if these are installed. A load is a number of connections, and may have a
number of transfers in a request. More than 60 connections share 60 sessions. Each row is the
median of all turns; CPU times are microseconds a request. A turn that others slowed down shows in
the quartiles. Needs Go, and openssl for TLS.
"""

from __future__ import annotations

import argparse
import contextlib
import json
import os
import re
import resource
import shutil
import signal
import statistics
import subprocess
import sys
import tempfile
import time
from collections.abc import Callable, Iterator
from dataclasses import dataclass
from pathlib import Path
from typing import Any, Optional

HERE = Path(__file__).resolve().parent
ROOT = HERE.parent.parent
LOAD = HERE / "out" / "load"
LOADS = "1,24,60,1000,1x8190,8x8190"
SESSIONS = 60  # of CLIENTS_MAX 64
SECONDS = 60  # that a start or an end may take
POSTGRES = sorted(Path("/usr/lib/postgresql").glob("*/bin"))
SALE = r"""
\set debit random(1, 100000)
\set credit random(1, 100000)
BEGIN;
INSERT INTO transfers (debit, credit, amount) VALUES (:debit, :credit, 1);
UPDATE accounts SET debits = debits + 1 WHERE id = :debit;
UPDATE accounts SET credits = credits + 1 WHERE id = :credit;
END;
"""
TABLES = """
CREATE TABLE accounts (id int PRIMARY KEY, debits bigint, credits bigint);
INSERT INTO accounts SELECT it, 0, 0 FROM generate_series(1, 100000) AS it;
CREATE TABLE transfers (id bigserial PRIMARY KEY, debit int, credit int, amount bigint);
"""


@dataclass(frozen=True)
class Load:
    connections: int
    items: int

    @classmethod
    def of(cls, text: str) -> Load:
        connections, _, items = text.partition("x")
        return cls(int(connections), int(items or 1))

    def __str__(self) -> str:
        return f"{self.connections}x{self.items}" if self.items > 1 else str(self.connections)

    def words(self) -> list[str]:
        workers = min(self.connections, SESSIONS)
        some = {"workers": workers, "connections": self.connections, "items": self.items}
        return [word for name, value in some.items() for word in (f"-{name}", str(value))]


@dataclass(frozen=True)
class Given:
    """The programs, how long each run is, and the folder of files."""

    listener: str
    servers: dict[str, str]
    seconds: float
    disk: Path


Found = dict[str, Any]
Run = Callable[[Given, Load, Path], Optional[Found]]


# Processes


@contextlib.contextmanager
def started(words: list[str], ready: str, **how: Any) -> Iterator[tuple[int, str]]:
    """A process that prints a line when it is ready: its id and that line. It is ended by
    SIGTERM."""
    with tempfile.TemporaryFile("w+") as lines:
        it = subprocess.Popen(words, stdout=lines, stderr=lines, **how)
        try:
            yield it.pid, line_with(it, lines.fileno(), ready)
        finally:
            it.send_signal(signal.SIGTERM)
            it.wait(SECONDS)


def line_with(process: subprocess.Popen[bytes], lines: int, ready: str) -> str:
    end = time.monotonic() + SECONDS
    while True:
        text = os.pread(lines, 1 << 16, 0).decode()
        if found := re.search(ready, text):
            return found[0]
        if process.poll() is not None or time.monotonic() > end:
            sys.exit(f"{process.args!r} does not serve: {text}")
        time.sleep(0.01)


def children(process: int) -> list[str]:
    some: list[str] = []
    for thread in Path(f"/proc/{process}/task").glob("*"):
        some += (thread / "children").read_text().split()
    return some


def loaded(given: Given, load: Load, pids: list[str], target: list[str]) -> Found:
    """What a load found."""
    words = [str(LOAD), *load.words(), "-seconds", str(given.seconds), "-pids", ",".join(pids)]
    ran = subprocess.run([*words, *target], capture_output=True, text=True, timeout=600)
    if ran.returncode:
        sys.exit(f"{' '.join(words)}: {ran.stderr}")
    found: Found = json.loads(ran.stdout)
    return found


# What is measured


def command(given: Given, server: str, folder: Path) -> list[str]:
    kept = [str(folder / "ledger.tbk")] if server == "tbd" else []
    return [given.servers[server], "run", *kept, "64"]


def by_listener(server: str, via: str) -> Run:
    """The listener over a server: its CPU time, and the server's."""

    def run(given: Given, load: Load, folder: Path) -> Found:
        place = ["--unix", str(folder / "it")] if via == "unix" else ["--tcp", "127.0.0.1:0"]
        if via == "tls":
            place += certificate(folder)
        some = ["--connections", str(load.connections + 8), "--ahead", "60"]
        words = [given.listener, *place, *some, "--", *command(given, server, folder)]
        with started(words, r"listens on .*\n") as (pid, line):
            at = line.removeprefix("listens on ").strip()
            found = loaded(given, load, [str(pid), *children(pid)[:1]], [f"{via}:{at}"])
        found["listener"], found["server"] = (*found["cpu"][1:], None)[:2]
        return found

    return run


def certificate(folder: Path) -> list[str]:
    """The options of a listener with a certificate of its own."""
    files = str(folder / "it.pem"), str(folder / "it.key")
    words = "req -x509 -newkey ec -pkeyopt ec_paramgen_curve:prime256v1 -nodes -days 2 -subj /CN=it"
    written = ["-out", files[0], "-keyout", files[1]]
    subprocess.run(["openssl", *words.split(), *written], check=True, capture_output=True)
    return ["--certificate", files[0], "--key", files[1]]


def by_pipe(server: str) -> Run:
    def run(given: Given, load: Load, folder: Path) -> Found:
        found = loaded(given, load, [], ["--", *command(given, server, folder)])
        found["server"] = found["cpu"][1]
        return found

    return run


def by_echo(given: Given, load: Load, folder: Path) -> Found:
    place = folder / "it"
    words = [str(LOAD), "-echo", f"unix:{place}"]
    with started(words, "listens") as (pid, _):
        found = loaded(given, load, [str(pid)], [f"unix:{place}"])
    found["listener"] = found["cpu"][1]
    return found


def by_redis(given: Given, load: Load, folder: Path) -> Optional[Found]:
    if load.items > 1 or not shutil.which("redis-server"):
        return None
    place = folder / "it"
    options = {"unixsocket": place, "port": 0, "appendonly": "yes", "appendfsync": "always"}
    options |= {"save": "", "dir": folder, "maxclients": load.connections + 32}
    words = [word for name, value in options.items() for word in (f"--{name}", str(value))]
    with started(["redis-server", *words], "eady to accept connections") as (pid, _):
        found = loaded(given, load, [str(pid)], [f"redis:{place}"])
    found["server"] = found["cpu"][1]
    return found


def as_postgres(*words: str, given: str = "") -> str:
    """The output of a command of PostgreSQL, which does not run as root."""
    user = ["runuser", "-u", "postgres", "--"] if os.geteuid() == 0 else []
    ran = subprocess.run([*user, *words], capture_output=True, text=True, input=given)
    if ran.returncode:
        sys.exit(f"{' '.join(words)}: {ran.stderr}")
    return ran.stdout


def number(pattern: str, text: str) -> float:
    found = re.search(pattern, text)
    assert found, text
    return float(found[1])


def by_postgres(given: Given, load: Load, folder: Path) -> Optional[Found]:
    if load.items > 1 or load.connections > SESSIONS or not POSTGRES:
        return None
    programs, data, script = POSTGRES[-1], str(folder / "data"), folder / "sale.sql"
    folder.chmod(0o777)
    as_postgres(str(programs / "initdb"), "-D", data, "-A", "trust", "-U", "bench")
    script.write_text(SALE)
    server = [str(programs / "postgres"), "-D", data, "-k", str(folder), "-c", "listen_addresses="]
    user = {"user": "postgres"} if os.geteuid() == 0 else {}
    with started(server, "ready to accept connections", **user):
        at = ["-h", str(folder), "-U", "bench"]
        as_postgres("psql", *at, "-q", "-d", "postgres", given=TABLES)
        threads = ["-c", str(load.connections), "-j", str(min(load.connections, 2))]
        lasts = ["-T", str(max(1, round(given.seconds))), "-f", str(script)]
        text = as_postgres(str(programs / "pgbench"), *at, "-n", *threads, *lasts, "postgres")
    return {"rate": number(r"tps = (\S+)", text), "p50": 1000 * number(r"average = (\S+)", text)}


WAYS: dict[str, Run] = {
    "listener over tbd": by_listener("tbd", "unix"),
    "listener over tbd, TLS": by_listener("tbd", "tls"),
    "tbd's pipe": by_pipe("tbd"),
    "redis": by_redis,
    "PostgreSQL": by_postgres,
    "listener over tbs": by_listener("tbs", "unix"),
    "listener over tbs, TCP": by_listener("tbs", "tcp"),
    "listener over tbs, TLS": by_listener("tbs", "tls"),
    "tbs' pipe": by_pipe("tbs"),
    "echo server": by_echo,
}
RATIOS = (
    ("listener over tbd", "redis"),
    ("listener over tbd", "PostgreSQL"),
    ("listener over tbd", "tbd's pipe"),
    ("listener over tbd, TLS", "listener over tbd"),
    ("listener over tbs", "tbs' pipe"),
    ("listener over tbs", "echo server"),
    ("listener over tbs, TLS", "listener over tbs, TCP"),
)


# Turns


def turn(given: Given, load: Load, number: int) -> dict[str, Found]:
    """A run of each way, from another one on in each turn."""
    names, found = list(WAYS), {}
    first = number % len(names)
    for name in names[first:] + names[:first]:
        with tempfile.TemporaryDirectory(dir=given.disk) as folder:
            it = WAYS[name](given, load, Path(folder))
        if it:
            found[name] = {**it, "load": str(load), "way": name, "turn": number}
    return found


def median(turns: list[dict[str, Found]], way: str, field: str) -> Optional[float]:
    some = [it[way][field] for it in turns if way in it and it[way].get(field) is not None]
    return statistics.median(some) if some else None


def shown(value: Optional[float], places: int = 0) -> str:
    return "" if value is None else f"{value:,.{places}f}"


def print_load(load: Load, turns: list[dict[str, Found]]) -> None:
    print(f"\n{load} connections, single transfers" if load.items == 1 else f"\n{load}, batches")
    row = "{:24} {:>10} {:>21} {:>9} {:>9} {:>9} {:>9}"
    print(row.format("", "a second", "quartiles", "p50 us", "p99 us", "listener", "server"))
    for way in WAYS:
        rates = sorted(it[way]["rate"] for it in turns if way in it)
        if not rates:
            continue
        low, high = rates[len(rates) // 4], rates[(3 * len(rates) - 1) // 4]
        some = [median(turns, way, it) for it in ("p50", "p99", "listener", "server")]
        cells = [shown(it, 2 * (at > 1)) for at, it in enumerate(some)]
        rate = shown(statistics.median(rates))
        print(row.format(way, rate, f"{low:,.0f}..{high:,.0f}", *cells))
    for way, other in RATIOS:
        pairs = [(it[way]["rate"], it[other]["rate"]) for it in turns if {way, other} <= set(it)]
        if pairs:
            print(f"{way} / {other}: {statistics.median(a / b for a, b in pairs):.2f}")


def words() -> argparse.Namespace:
    how = argparse.RawDescriptionHelpFormatter
    parser = argparse.ArgumentParser(description=__doc__, formatter_class=how)
    parser.add_argument("--turns", type=int, default=5)
    parser.add_argument("--seconds", type=float, default=2, help="of each run")
    parser.add_argument("--loads", type=lambda it: list(map(Load.of, it.split(","))), default=LOADS)
    parser.add_argument("--disk", type=Path, default=Path.cwd(), help="the folder of all files")
    parser.add_argument("--out", type=Path, help="each run as a line of JSON")
    return parser.parse_args()


def program(name: str, built: str) -> str:
    path = os.environ.get(name.upper()) or shutil.which(name) or str(ROOT / built)
    if not os.access(path, os.X_OK):
        sys.exit(f"no program {path}: build it, or set {name.upper()}")
    return path


def main() -> int:
    asked = words()
    servers = {it: program(it, f"crates/{it}/out/{it}") for it in ("tbd", "tbs")}
    listener = os.environ.get("LISTENER") or program("tb-listen", "server/out/tb-listen")
    given = Given(listener, servers, asked.seconds, asked.disk.resolve())
    subprocess.run(["go", "build", "-o", str(LOAD), "."], cwd=HERE, check=True)
    hard = resource.getrlimit(resource.RLIMIT_NOFILE)[1]
    resource.setrlimit(resource.RLIMIT_NOFILE, (hard, hard))
    for load in asked.loads:
        turns = []
        for number in range(asked.turns):
            turns.append(turn(given, load, number))
            if asked.out:
                with asked.out.open("a") as out:
                    out.writelines(json.dumps(it) + "\n" for it in turns[-1].values())
        print_load(load, turns)
    return 0


if __name__ == "__main__":
    sys.exit(main())
