#!/usr/bin/env python3
"""Counts what an event takes, by callgrind: tbs and the servers in plain Rust.

    instructions.py [--size N] [--jobs N] [--work FOLDER] [LOAD ..]

Instructions, misses of an L2 cache of 1 MiB, and mispredicted branches, from the first transfer (or
lookup) on: the counts of a script of --size events (20,000), less those of its beginning, a run
each. They are the same on a busy machine. It needs valgrind and what compare.py needs. A count of
instructions over its bound (single requests 2,800) is marked with '>'. The loads are those that are
named, or four of them.
"""
import concurrent.futures
import os
import re
import subprocess

import measure
import tried

LOADS = ["rising", "chains", "single", "lookups", "expiring", "pending", "resolving", "random"]
BY_DEFAULT = ["rising", "single", "expiring", "random"]
PEERS = ["hash", "plain"]
BOUNDS = {"single": 2800}
ACCOUNTS = 10_000


COUNTS = {
    "instructions an event": ("Ir",),
    "L2 misses an event": ("DLmr", "DLmw"),
    "mispredicted branches an event": ("Bcm", "Bim"),
}
CALLGRIND = [
    "valgrind",
    "--tool=callgrind",
    f"--callgrind-out-file={os.devnull}",
    "--cache-sim=yes",
    "--branch-sim=yes",
    "--D1=32768,8,64",
    "--LL=1048576,16,64",
]


def counted(words, script):
    """The counts of a run, by unit."""
    with open(script, "rb") as source:
        ran = subprocess.run(
            [*CALLGRIND, *words],
            stdin=source,
            stdout=subprocess.DEVNULL,
            stderr=subprocess.PIPE,
            text=True,
            check=True,
        )
    names, numbers = (
        re.search(rf"{line} *: (.*)", ran.stderr)[1].split() for line in ("Events", "Collected")
    )
    found = dict(zip(names, map(int, numbers)))
    return {unit: sum(found[name] for name in of) for unit, of in COUNTS.items()}


def beginning(script, at):
    """The path of a script's first bytes, as a script of their own."""
    path = script.with_suffix(".beginning")
    with open(script, "rb") as whole, open(path, "wb") as part:
        part.write(whole.read(at))
    return path


def jobs_of(load, size, folder):
    """A load's script and its beginning, and how many events are between."""
    script = measure.make_script(folder, load, size, ACCOUNTS)
    if load == "resolving":
        return script, beginning(script, measure.place(script, measure.resolves)), size - size // 2
    wanted = measure.is_lookup if load == "lookups" else measure.is_transfers
    return script, beginning(script, measure.place(script, wanted)), size


def count(loads, size, jobs, folder):
    """Prints the table; the counts of an event, by load, server and unit."""
    programs = measure.servers(folder, *PEERS)
    with concurrent.futures.ThreadPoolExecutor(jobs) as pool:
        for load in loads:
            script, start, events = jobs_of(load, size, folder)
            runs = [(words, of) for words in programs.values() for of in (script, start)]
            counts = [*pool.map(lambda run: counted(*run), runs)]
            for name, whole, part in zip(programs, counts[::2], counts[1::2]):
                each = {unit: round((whole[unit] - part[unit]) / events) for unit in COUNTS}
                instructions, *others = each.values()
                over = name == "tbs" and instructions > BOUNDS.get(load, instructions)
                mark = ">" if over else ""
                print(f"{load:10} {name:6} {mark + str(instructions):>8}", *others, flush=True)


def main():
    parser = tried.arguments(__doc__)
    parser.add_argument("--size", metavar="N", type=tried.count, default=20_000)
    parser.add_argument("--jobs", metavar="N", type=tried.count, default=2, help="at once (2)")
    parser.add_argument("--work", metavar="FOLDER", help="keeps scripts and programs there")
    parser.add_argument("loads", metavar="LOAD", nargs="*", help=", ".join(LOADS))
    given = parser.parse_args()
    for name in given.loads:
        if name not in LOADS:
            parser.error(f"there is no load {name}: {', '.join(LOADS)}")
    with measure.work_folder(given.work) as folder:
        count(given.loads or BY_DEFAULT, given.size, given.jobs, folder)
    return 0


if __name__ == "__main__":
    tried.main(main)
