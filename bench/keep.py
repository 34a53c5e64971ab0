#!/usr/bin/env python3
"""Runs a server without a file and one that keeps its ledger in a file on the same scripts by
turns, and prints what they cost.

    keep.py [--turns N] [--size N] [--work FOLDER]
    keep.py --before PROGRAM [--commits N] [--turns N] [--size N] [--work FOLDER]

The best of --turns runs (5) over --size events a load (100,000). It needs crates/tbs/out/tbs
(PROGRAM names another) and crates/tbd/out/tbd (TBD names another), as `rt run` leaves them. Scripts
are made from a seed; --work FOLDER keeps them.

For each load: CPU seconds of `run` without a file, of `tbd run` over a new file, and of a start
over that file; the two ratios to the first, marked with '>' over their bounds (serving batches 1.3,
a start 1.1); syncs a reply (by strace, where it is there); and whether the replies were the same.

--before PROGRAM compares tbd with an earlier one, each over files of its own. They run by turns:
for each load medians of the CPU seconds of serving and of a start, then the median ratio of two
runs next to each other, with its quartiles. Last come milliseconds of a commit of one transfer:
--commits N requests (2,000), each sent to one program and then to the other. Ratios over their
bounds (1.02, of a commit 1.05) are marked.
"""
import itertools
import os
import re
import shutil
import statistics
import struct
import subprocess
import sys
import tempfile
import time

import measure
import tried
from measure import TBS, whole

sys.path.append(str(measure.HERE.parent / "clients" / "python" / "src"))

from tb_client import (  # noqa: E402
    HEADER,
    Account,
    Operation,
    Transfer,
    reply_length,
    request_frame,
)

TBD = os.environ.get("TBD", str(measure.HERE.parent / "crates" / "tbd" / "out" / "tbd"))
SIZE, ACCOUNTS = 100_000, 10_000
LOADS = ["rising", "chains", "expiring", "single", "lookups", "mixed"]
BATCHES = {"rising", "chains", "expiring", "lookups"}
BATCHES_MOST, START_MOST = 1.3, 1.1
# Of a tbd over an earlier one.
CPU_MOST, COMMIT_MOST = 1.02, 1.05


def replies_in(path):
    """How many frames of replies a file has."""
    with open(path, "rb") as file:
        data = file.read()
    at, count = 0, 0
    while at < len(data):
        at, count = at + reply_length(data, at), count + 1
    return count


def syncs(words, script, folder):
    """The syncs of a run, or None without strace."""
    if shutil.which("strace") is None:
        return None
    log = os.path.join(folder, "syncs")
    with open(script, "rb") as source:
        subprocess.run(
            ["strace", "-f", "-qq", "-e", "trace=fsync,fdatasync", "-o", log, *words],
            stdin=source,
            stdout=subprocess.DEVNULL,
            stderr=subprocess.DEVNULL,
            check=True,
        )
    with open(log, encoding="utf-8") as told:
        return len(re.findall(r"sync\(", told.read()))


def marked(found, most):
    return f"{'>' if most is not None and found > most else ''}{found:.2f}"


def compare(load, size, turns, folder, scripts):
    """Prints a load's line. Whether replies agree."""
    script = measure.make_script(scripts, load, size, ACCOUNTS)
    file = os.path.join(folder, "ledger.tbk")
    replies = {name: os.path.join(folder, f"replies.{name}") for name in ("tbs", "tbd")}
    plain, kept, starts = [], [], []
    for _ in range(turns):
        if os.path.exists(file):
            os.remove(file)
        plain.append(whole([TBS, "run", "64"], script, replies["tbs"]))
        kept.append(whole([TBD, "run", file, "64"], script, replies["tbd"]))
        starts.append(whole([TBD, "run", file, "64"], os.devnull, os.devnull))
    agree = measure.same(replies["tbs"], replies["tbd"])
    os.remove(file)
    made = syncs([TBD, "run", file, "64"], script, folder)
    rate = "?" if made is None else f"{made / replies_in(replies['tbd']):.2f}"
    a, b, c = min(plain), min(kept), min(starts)
    print(
        f"{load:10} {size:8} {a:8.3f} {b:8.3f} {c:8.3f} "
        f"{marked(b / a, BATCHES_MOST if load in BATCHES else None):>6} "
        f"{marked(c / a, START_MOST):>6} {rate:>6}  {'the same' if agree else 'DIFFERENT'}",
        flush=True,
    )
    os.remove(file)
    return agree


def compare_all(size, turns, scripts):
    """Prints the table. Whether all replies were the same."""
    tried.built(TBS, TBD)
    print(
        f"{'load':10} {'events':>8} {'run s':>8} {'tbd s':>8} {'start s':>8} {'tbd':>6} "
        f"{'start':>6} {'syncs':>6}  replies"
    )
    with tempfile.TemporaryDirectory() as folder:
        found = [compare(load, size, turns, folder, scripts) for load in LOADS]
    return all(found)


# With an earlier tbd


def by_turns(programs, turn):
    """The programs in the order in which they run: each one is the first by turns."""
    return programs if turn % 2 else dict(reversed(programs.items()))


def ratio_of(before, now, most):
    """The median of the ratios of pairs, marked if it is over its bound, and their quartiles."""
    low, middle, high = statistics.quantiles((b / a for a, b in zip(before, now)), n=4)
    return f"{'>' if middle > most else ''}{middle:.3f} ({low:.3f} to {high:.3f})"


def print_pair(name, what, costs, unit, most):
    before, now = costs["before"], costs["now"]
    medians = f"{statistics.median(before) * unit:8.3f} {statistics.median(now) * unit:8.3f}"
    print(f"{name:10} {what:8} {medians}  {ratio_of(before, now, most)}", flush=True)


def compare_load(load, size, turns, folder, scripts, programs):
    """Prints what a load and a start cost both programs. Whether replies agree."""
    script = measure.make_script(scripts, load, size, ACCOUNTS)
    served, started = ({name: [] for name in programs} for _ in range(2))
    replies = {name: os.path.join(folder, f"replies.{name}") for name in programs}
    file = os.path.join(folder, "ledger.tbk")
    for turn in range(turns):
        for name, program in by_turns(programs, turn).items():
            words = [program, "run", file, "64"]
            served[name].append(whole(words, script, replies[name]))
            started[name].append(whole(words, os.devnull, os.devnull))
            os.remove(file)
    print_pair(load, "serving", served, 1, CPU_MOST)
    print_pair(load, "a start", started, 1, CPU_MOST)
    return measure.same(*replies.values())


def requests():
    """Frames: a session, two accounts, then transfers between them, one a request."""
    accounts = b"".join(Account(id=it, ledger=700, code=10).to_bytes() for it in (1, 2))
    yield request_frame(7, 0, 0, Operation.register, b"")
    yield request_frame(7, 1, 1, Operation.create_accounts, accounts)
    for number in itertools.count(2):
        moved = Transfer(number, 1, 2, 1, ledger=700, code=10).to_bytes()
        yield request_frame(7, 1, number, Operation.create_transfers, moved)


def asked(child, frame):
    """The seconds until a server has answered a request."""
    began = time.perf_counter()
    child.stdin.write(struct.pack("<Q", 1) + frame)
    head = child.stdout.read(HEADER)
    child.stdout.read(reply_length(head) - HEADER)
    return time.perf_counter() - began


def compare_commits(count, folder, programs):
    """Prints what a commit of one transfer takes both programs."""
    pipes, children = {"stdin": subprocess.PIPE, "stdout": subprocess.PIPE, "bufsize": 0}, {}
    for name, program in programs.items():
        words = [program, "run", os.path.join(folder, f"{name}.tbk"), "64"]
        children[name] = subprocess.Popen(words, stderr=subprocess.DEVNULL, **pipes)
    taken = {name: [] for name in programs}
    for turn, frame in enumerate(itertools.islice(requests(), count + 2)):
        for name, child in by_turns(children, turn).items():
            taken[name].append(asked(child, frame))
    for child in children.values():
        child.stdin.close()
        child.wait()
    each = {name: costs[2:] for name, costs in taken.items()}
    print_pair("commits", "of one", each, 1000, COMMIT_MOST)


def compare_with(before, size, turns, count, scripts):
    """Prints the table of two programs. Whether all replies were the same."""
    programs = {"before": before, "now": TBD}
    tried.built(*programs.values())
    print(f"{'load':10} {'':8} {'before':>8} {'now':>8}  now over before")
    with tempfile.TemporaryDirectory() as folder:
        found = [compare_load(load, size, turns, folder, scripts, programs) for load in LOADS]
        compare_commits(count, folder, programs)
    print(f"replies {'the same' if all(found) else 'DIFFERENT'}")
    return all(found)


def main():
    parser = tried.arguments(__doc__)
    parser.add_argument("--turns", metavar="N", type=tried.count, default=5, help="runs (5)")
    parser.add_argument("--size", metavar="N", type=tried.count, default=SIZE)
    parser.add_argument("--work", metavar="FOLDER", help="keeps scripts there")
    parser.add_argument("--before", metavar="PROGRAM", help="an earlier tbd to compare with")
    parser.add_argument("--commits", metavar="N", type=tried.count, default=2000, help="(2,000)")
    given = parser.parse_args()
    with measure.work_folder(given.work) as scripts:
        if given.before:
            turns = max(given.turns, 2)
            agree = compare_with(given.before, given.size, turns, given.commits, scripts)
        else:
            agree = compare_all(given.size, given.turns, scripts)
    return 0 if agree else 1


if __name__ == "__main__":
    tried.main(main)
