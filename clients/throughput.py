#!/usr/bin/env python3
"""Measures transfers a second of the clients in all languages, by turns.

    throughput.py [--server COMMAND] [--before FOLDER] [--languages NAME,..]
                  [--turns N] [--seconds N]

The server accepts all and keeps nothing, so the figures are those of the clients alone; with
--server the listener serves that tbd, over a new file for each figure. --before has another clone,
whose clients take turns with these. The clients and the listener have to be built: each README in
clients/ says how, server/build the last. Prints the median of the turns, and the client's CPU time
for a transfer.
"""
import argparse
import contextlib
import os
import shlex
import statistics
import subprocess
import sys
import tempfile
from typing import Dict, Iterator, List, NamedTuple, Tuple

TOP = os.path.dirname(os.path.dirname(os.path.abspath(__file__)))
CLASSES = "{clients}/java/out/classes:{clients}/java/out/test-classes"

# What measures itself as `WORDS KIND PATH CALLERS ITEMS SECONDS`.
LANGUAGES = {
    "python": [sys.executable, "-B", "{clients}/python/throughput.py"],
    "go": ["{clients}/go/out/throughput", "measure"],
    "java": ["java", "-cp", CLASSES, "org.telovamish.tbclient.Throughput"],
    "node": ["node", "{clients}/node/helpers/throughput.js"],
    "c": ["{clients}/c/out/throughput"],
}


class Load(NamedTuple):
    """What clients send: in sessions of their own, from columns, or by one shared client."""

    kind: str
    callers: int
    items: int

    def __str__(self) -> str:
        sessions = f"{self.callers} session{'s' * (self.callers > 1)}"
        who = {
            "sessions": sessions,
            "columns": f"{sessions} from columns",
            "shared": f"{self.callers} callers of a shared client",
            "calls": f"{self.callers} calls at once by one thread",
        }
        return f"{who[self.kind]}, {self.items} a call"


LOADS = (
    Load("sessions", 1, 1),
    Load("sessions", 24, 1),
    Load("shared", 1000, 1),
    Load("calls", 1000, 1),
    Load("sessions", 1, 8190),
    Load("columns", 1, 8190),
)
ONLY = {"columns": ("python", "java"), "calls": ("c",)}  # languages that have such a load


@contextlib.contextmanager
def serving(server: str) -> Iterator[str]:
    """The path of a server's socket, until the end of the block."""
    with tempfile.TemporaryDirectory() as folder:
        path = f"{folder}/ledger.sock"
        words = [f"{TOP}/clients/go/out/throughput", "serve", path]
        if server:
            words = [f"{TOP}/server/out/tb-listen", "--unix", path, "--"]
            words += [*shlex.split(server), "run", f"{folder}/ledger.tbk", "64"]
        with subprocess.Popen(
            words, stdout=subprocess.PIPE, stderr=subprocess.STDOUT, text=True
        ) as process:
            assert process.stdout
            try:
                lines: List[str] = []
                while not lines or "listens on" not in lines[-1]:
                    lines.append(process.stdout.readline())
                    if not lines[-1]:
                        raise SystemExit(f"the server does not start: {''.join(lines).strip()}")
                yield path
            finally:
                process.terminate()


def measured(top: str, language: str, load: Load, given: argparse.Namespace) -> Tuple[float, float]:
    """Transfers a second, and CPU microseconds for each."""
    with serving(given.server) as path:
        words = [it.format(clients=f"{top}/clients") for it in LANGUAGES[language]]
        words += [load.kind, path, str(load.callers), str(load.items), str(given.seconds)]
        ran = subprocess.run(words, stdout=subprocess.PIPE, text=True, check=True)
    rate, used = map(float, ran.stdout.split())
    return rate, used


def row(load: Load, given: argparse.Namespace) -> str:
    clones = [TOP, *given.before]
    figures: Dict[Tuple[str, str], List[Tuple[float, float]]] = {}
    for _ in range(given.turns):
        for language in given.languages:
            if language not in ONLY.get(load.kind, LANGUAGES):
                continue
            for top in clones:
                figure = measured(top, language, load, given)
                figures.setdefault((language, top), []).append(figure)
    cells = [str(load)]
    for language in given.languages:
        for top in clones:
            of = figures.get((language, top))
            rate, used = (statistics.median(it) for it in zip(*of)) if of else (0, 0)
            cells.append(f"{rate:,.0f} ({used:,.2f} us)" if of else "")
    return f"| {' | '.join(cells)} |"


def languages(words: str) -> List[str]:
    names = words.split(",")
    unknown = [it for it in names if it not in LANGUAGES]
    if unknown:
        raise argparse.ArgumentTypeError(f"{unknown[0]}: one of {', '.join(LANGUAGES)}")
    return names


def positive(word: str) -> int:
    if not word.isdecimal() or not int(word):
        raise argparse.ArgumentTypeError(f"{word}: a whole number from 1 on")
    return int(word)


def main() -> int:
    parser = argparse.ArgumentParser(
        description=__doc__, formatter_class=argparse.RawDescriptionHelpFormatter
    )
    parser.add_argument("--server", metavar="COMMAND", default="", help="tbd, or one of its words")
    parser.add_argument("--before", metavar="FOLDER", action="append", default=[])
    parser.add_argument("--languages", metavar="NAME,..", type=languages, default=list(LANGUAGES))
    parser.add_argument("--turns", metavar="N", type=positive, default=3)
    parser.add_argument("--seconds", metavar="N", type=positive, default=5)
    given = parser.parse_args()
    given.before = [os.path.abspath(it) for it in given.before]
    heads = [it + of for it in given.languages for of in ("", *[" before"] * len(given.before))]
    print(f"| transfers a second | {' | '.join(heads)} |\n|---|{'---|' * len(heads)}", flush=True)
    for load in LOADS:
        print(row(load, given), flush=True)
    print(f"load {os.getloadavg()[0]:.1f} on {os.cpu_count()} CPUs")
    return 0


if __name__ == "__main__":
    sys.exit(main())
