#!/usr/bin/env python3
"""Runs CI and prints what it took: CPU minutes of each crate by its passes, as a table
in Markdown.

    python3 tools/ci.py [--log FILE] [WORD ..]

The words are given to `rt ci`; some kits take none, and prove everything each time. What it prints
goes to FILE, its last lines and the table to standard output. "Proof" is the proof of a library or
program and its building, "tests" the second proof of a crate with its tests, "base" the proof over
which its edits are tried, "edits" all tries of its edits. Twice a second the script looks at the
provers that run and at what they have used, so what a prover uses in its last half second is not
counted.
"""
import os
import subprocess
import time

import tried

ROOT = os.path.dirname(os.path.dirname(os.path.abspath(__file__)))
TICK = os.sysconf("SC_CLK_TCK")
PASSES = ("proof", "tests", "base", "edits")
PAUSE = 0.5


def stat_of(pid):
    """The parent of a process, and the seconds that it and the children that it waited for have
    used."""
    with open(f"/proc/{pid}/stat", encoding="utf-8", errors="replace") as file:
        fields = file.read().rpartition(")")[2].split()
    own, waited = sum(map(int, fields[11:13])), sum(map(int, fields[13:15]))
    return int(fields[1]), own / TICK, waited / TICK


def words_of(pid):
    with open(f"/proc/{pid}/cmdline", encoding="utf-8", errors="replace") as file:
        return file.read().split("\0")


def pass_of(pid, words):
    """The crate that a prover checks and the pass that it is, or None of any other process."""
    if not words[0].endswith("/rattle") or "--crate-name" not in words:
        return None
    crate = words[words.index("--crate-name") + 1]
    if "/rt-edit-" in os.readlink(f"/proc/{pid}/cwd"):
        over = words[words.index("--incremental") + 1] if "--incremental" in words else ""
        return crate, "base" if over.endswith("/seed") else "edits"
    return crate, "tests" if "--test" in words else "proof"


def processes():
    """All processes that can be looked at: by number, its parent, its seconds, those of its
    children that ended, its words."""
    found = {}
    for name in filter(str.isdigit, os.listdir("/proc")):
        try:
            found[int(name)] = (*stat_of(name), words_of(name))
        except OSError:
            continue
    return found


def below(found, top):
    """The processes below one, itself among them."""
    tree = {top}
    while True:
        more = {pid for pid, it in found.items() if it[0] in tree} - tree
        if not more:
            return tree
        tree |= more


def look(ci, used):
    """Notes what each prover below CI has used so far. Those below a prover are its own
    forks."""
    found = processes()
    for pid in below(found, ci):
        try:
            kind = pass_of(pid, found[pid][3]) if pid in found else None
        except OSError:
            continue
        if kind and not found.get(found[pid][0], (0, 0, 0, [""]))[3][0].endswith("/rattle"):
            seconds = sum(found[it][1] + found[it][2] for it in below(found, pid) if it in found)
            used[pid, kind] = max(seconds, used.get((pid, kind), 0.0))


def table(used):
    sums = {}
    for (_, (crate, kind)), seconds in used.items():
        sums.setdefault(crate, dict.fromkeys(PASSES, 0.0))[kind] += seconds / 60
    yield "| Crate | " + " | ".join(PASSES) + " | all passes |"
    yield "|---" * (len(PASSES) + 2) + "|"
    for crate, row in sorted(sums.items(), key=lambda it: -sum(it[1].values())):
        cells = [f"{row[it]:.1f}" if row[it] >= 0.05 else "" for it in PASSES]
        yield f"| {crate} | " + " | ".join(cells) + f" | {sum(row.values()):.1f} |"
    whole = [sum(row[it] for row in sums.values()) for it in PASSES]
    yield "| all | " + " | ".join(f"{it:.1f}" for it in whole) + f" | {sum(whole):.1f} |"


def main():
    parser = tried.arguments(__doc__)
    parser.add_argument(
        "--log", default="/tmp/ci.log", help="where what CI prints goes (/tmp/ci.log)"
    )
    options, words = parser.parse_known_args()
    begun, used = time.monotonic(), {}
    with open(options.log, "w", encoding="utf-8") as log:
        ci = subprocess.Popen(
            ["rt", "ci", *words],
            cwd=ROOT,
            stdin=subprocess.DEVNULL,
            stdout=log,
            stderr=subprocess.STDOUT,
        )
        while ci.poll() is None:
            look(ci.pid, used)
            time.sleep(PAUSE)
    minutes = (time.monotonic() - begun) / 60
    with open(options.log, encoding="utf-8", errors="replace") as log:
        print("".join(log.readlines()[-3:]), end="")
    print(f"{minutes:.0f} minutes on {len(os.sched_getaffinity(0))} cores\n")
    print("\n".join(table(used)))
    return ci.returncode


if __name__ == "__main__":
    tried.main(main)
