#!/usr/bin/env python3
"""What a bulk transfer costs as a ledger grows: CPU time and memory of tbs and three other servers,
over as many accounts as transfers, from 10,000 to --most of each (10,000,000).

    grow.py [--most N] [--work FOLDER]

It needs what compare.py needs. A step makes N accounts, then N transfers between them in batches of
8190 with rising ids, and measures both parts in one run of each server; up to 100,000 the best of
five runs. A step that the machine's free memory is too small for is left out with a word; so is
SQLite above --sqlite-most (1,000,000), where a run takes minutes. Replies are compared.

Prints nanoseconds of CPU time and bytes of resident memory, of an account and of a transfer.
"""
import os

import measure
import tried
from measure import Cost

STEPS = [10_000, 100_000, 1_000_000, 10_000_000]
PEERS = ["hash", "plain", "sqlite"]
# More than any of the servers takes for an account and a transfer, with a hash map that doubles.
BYTES_EACH = 900
REPEATED_TO, TIMES = 100_000, 5


def free_memory():
    """The bytes that programs can still take."""
    with open("/proc/meminfo", encoding="ascii") as file:
        line = next(it for it in file if it.startswith("MemAvailable"))
    return int(line.split()[1]) * 1024


def step(words, script, cut, size, replies, times):
    """What an account and a transfer cost."""
    runs = [measure.serve(words, script, [0, cut], replies) for _ in range(times)]
    accounts = measure.best([made.since(start) for start, made, _ in runs])
    transfers = measure.best([end.since(made) for _, made, end in runs])
    return [Cost(round(it.cpu / size), round(it.resident / size)) for it in (accounts, transfers)]


def print_step(size, name, costs, agree):
    account, transfer = costs
    print(
        f"{size:10} {name:8} {account.cpu:8} {transfer.cpu:8} {account.resident:8} "
        f"{transfer.resident:8}  {'the same' if agree else 'DIFFERENT'}",
        flush=True,
    )


def grow(most, sqlite_most, folder):
    """Prints what each step found; the costs, by size and server, and whether replies were the
    same."""
    programs = measure.servers(folder, *PEERS)
    replies = {name: os.path.join(folder, f"replies.{name}") for name in programs}
    print(
        f"{'':19} {'nanoseconds':>17} {'bytes':>17}\n{'of each':>10} {'server':8} "
        f"{'account':>8} {'transfer':>8} {'account':>8} {'transfer':>8}  replies"
    )
    all_agree = True
    for size in [it for it in STEPS if it <= most]:
        if size * BYTES_EACH > free_memory():
            print(f"stopped before {size:,} of each: too little free memory")
            break
        script = measure.make_script(folder, "rising", size, size)
        cut, times = measure.place(script), TIMES if size <= REPEATED_TO else 1
        for name, words in programs.items():
            if name == "sqlite" and size > sqlite_most:
                print(f"{size:10} {name:8} left out: it stops at {sqlite_most:,}")
                continue
            costs = step(words, script, cut, size, replies[name], times)
            agree = measure.same(replies["tbs"], replies[name])
            print_step(size, name, costs, agree)
            all_agree = all_agree and agree
    return all_agree


def main():
    parser = tried.arguments(__doc__)
    parser.add_argument("--most", metavar="N", type=tried.count, default=STEPS[-1])
    parser.add_argument("--sqlite-most", metavar="N", type=tried.count, default=1_000_000)
    parser.add_argument("--work", metavar="FOLDER", help="keeps scripts and programs there")
    given = parser.parse_args()
    if given.most < STEPS[0]:
        parser.error(f"the first step is of {STEPS[0]:,}")
    with measure.work_folder(given.work) as folder:
        agree = grow(given.most, given.sqlite_most, folder)
    return 0 if agree else 1


if __name__ == "__main__":
    tried.main(main)
