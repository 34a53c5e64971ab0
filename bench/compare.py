#!/usr/bin/env python3
"""Runs tbs and three other servers on the same scripts by turns, compares their replies byte for
byte, and prints what an event costs.

    compare.py [LOAD ..]              the loads that are named, or all but lookups-1m
    compare.py --replies [SEED ..]    compares replies alone, over scripts of all operations

The others are hash.rs (hash maps), plain.rs (BTreeMap) and sqlite.c (SQLite in memory).
It needs rustc, gcc with libsqlite3-dev, and crates/tbs/out/tbs as `rt run` in crates/tbs leaves it;
PROGRAM names another. Scripts are made from a seed; --work FOLDER keeps them and the programs.

For each load: nanoseconds of CPU time an event and bytes of memory an event, from the first
transfer on (what the accounts took is subtracted), the best of --turns runs (5; SQLite
runs once, over a tenth of the events), and the ratios of tbs to the others. A ratio over its
bound, in brackets, is marked with '>'. With --before PROGRAM an earlier tbs takes part in old-1m,
which has a bound over it, or in the one load that is named; with --now PROGRAM its ratio is that of
a tbs of today that was built as the earlier one was. In bulk-1m tbs also runs in huge pages.
"""
import dataclasses
import os

import measure
import tried
from measure import Cost

EVENTS = 1_000_000


@dataclasses.dataclass(frozen=True)
class Load:
    """A load, the accounts and events of its script, and bounds of tbs over other servers."""

    subject: str
    workload: str
    accounts: int = 10_000
    events: int = EVENTS
    bounds: dict = dataclasses.field(default_factory=dict)
    # The kind of the first request that is measured.
    wanted: object = measure.is_transfers
    # The share of the events that comes before that request.
    before: float = 0

    def part(self, scale):
        """The same load with fewer accounts and events, for a trial of this script."""
        accounts, events = self.accounts // scale, self.events // scale
        return dataclasses.replace(self, accounts=accounts, events=events)

    def script(self, folder, events):
        """Its script of `events` events, where the measured part begins, and how many events it
        has."""
        path = measure.make_script(folder, self.workload, events, self.accounts)
        return path, measure.place(path, self.wanted), events - int(events * self.before)


def over(of_hash, of_plain):
    return {"hash": of_hash, "plain": of_plain}


HALF = EVENTS // 2
LOADS = {
    "bulk-10k": Load("bulk, 10,000 accounts", "rising", bounds=over(1.5, 0.82)),
    "bulk-100k": Load("bulk, 100,000 accounts", "rising", 10**5, bounds=over(1.6, 0.75)),
    "bulk-1m": Load("bulk, 1,000,000 accounts", "rising", 10**6, HALF, over(1.75, 0.75)),
    "zipf-1m": Load("zipf, 1,000,000 accounts", "zipf", 10**6, HALF, over(2.1, 0.90)),
    "pending-1m": Load(
        "pending, then post or void, 1,000,000 accounts", "pending", 10**6, HALF, over(2.0, 0.80)
    ),
    "old-1m": Load(
        "old posts and voids, 1,000,000 accounts",
        "resolving",
        10**6,
        HALF,
        {"before": 0.55},
        measure.resolves,
        0.5,
    ),
    "random": Load("random transfer ids, 1,000,000 rows", "random", bounds=over(2.6, 0.75)),
    "expiring": Load("expiring, 1,000,000 rows", "expiring", bounds=over(1.9, 0.85)),
    "single": Load("single requests of 60 clients", "single", 1000, HALF, over(1.3, 0.85)),
    "chains": Load("chains of 5, each tenth broken", "chains", events=HALF),
    "lookups": Load("lookups, 10,000 of each", "lookups", wanted=measure.is_lookup),
    "lookups-1m": Load(
        "lookups, 1,000,000 of each", "lookups", 10**6, HALF, wanted=measure.is_lookup
    ),
}
# tbs in huge pages, as docs/work/PERFORMANCE.md says, takes part in this load.
HUGE, HUGE_PAGES = "bulk-1m", ["env", "GLIBC_TUNABLES=glibc.malloc.hugetlb=1"]
# Servers that have no bound run less often.
SELDOM = {"huge": 2}
BY_DEFAULT = [it for it in LOADS if it != "lookups-1m"]
# What a bulk transfer at the second load may cost, compared with the first.
GROWTH = ("bulk-10k", "bulk-1m", 2.3)


def measured(words, script, cut, replies):
    """What a server used from a place in the script on."""
    start, end = measure.serve(words, script, [cut], replies)
    return end.since(start)


def cost_of_event(cost, events):
    return Cost(round(cost.cpu / events), round(cost.resident / events))


def run_load(load, programs, turns, folder):
    """What an event costs each server, and whether all replies were the same."""
    path, cut, events = load.script(folder, load.events)
    costs = {name: [] for name in programs if name != "sqlite"}
    replies = {name: os.path.join(folder, f"replies.{name}") for name in programs}
    for turn in range(turns):
        for name in [it for it in costs if turn < SELDOM.get(it, turns)]:
            costs[name].append(measured(programs[name], path, cut, replies[name]))
    agree = all(measure.same(replies["tbs"], replies[name]) for name in costs)
    found = {name: cost_of_event(measure.best(of), events) for name, of in costs.items()}
    if "sqlite" in programs:
        path, cut, events = load.script(folder, load.events // 10)
        cost = measured(programs["sqlite"], path, cut, replies["sqlite"])
        found["sqlite"] = cost_of_event(cost, events)
        measured(programs["tbs"], path, cut, replies["tbs"])
        agree = agree and measure.same(replies["tbs"], replies["sqlite"])
    return found, agree


def ratio(costs, name):
    ours = costs.get("now", costs["tbs"]) if name == "before" else costs["tbs"]
    return ours.cpu / costs[name].cpu


def shown(costs, name, bounds):
    """A ratio as it is printed: with its bound, if it has one."""
    said = f"{ratio(costs, name):.2f}"
    if name not in bounds:
        return said
    return f"{'>' if ratio(costs, name) > bounds[name] else ''}{said} ({bounds[name]:.2f})"


def print_load(load, costs, agree):
    cells = [f"{name} {it.cpu}" for name, it in costs.items()]
    ratios = [f"{name} {shown(costs, name, load.bounds)}" for name in costs if name != "tbs"]
    print(f"{load.subject}: replies {'the same' if agree else 'DIFFERENT'}")
    print(f"    nanoseconds an event: {', '.join(cells)}")
    print(f"    tbs over {', '.join(ratios)}")
    memory = [f"{name} {it.resident}" for name, it in costs.items()]
    print(f"    bytes an event: {', '.join(memory)}", flush=True)


def print_growth(costs):
    first, second, bound = GROWTH
    if first in costs and second in costs:
        found = costs[second]["tbs"].cpu / costs[first]["tbs"].cpu
        said = "holds" if found <= bound else "missed"
        print(f"a bulk transfer, 1,000,000 accounts over 10,000: {found:.2f} ({bound}: {said})")


def taking_part(name, is_only, programs, earlier):
    """The servers of a load: the peers; an earlier tbs, and one of today that was built as it was,
    if there is a bound over it, or no other load; and tbs in huge pages in one load."""
    taking = dict(programs)
    if is_only or "before" in LOADS[name].bounds:
        taking.update({it: [program, "run", "64"] for it, program in earlier.items()})
    if name == HUGE:
        taking["huge"] = [*HUGE_PAGES, *programs["tbs"]]
    return taking


def run_loads(names, turns, folder, earlier, scale=1):
    """Prints the table of these loads; what each found, and whether all replies were the same.
    Sizes are a part of the loads' own, one of `scale`."""
    programs = measure.servers(folder, *measure.PEERS)
    all_costs, all_agree = {}, True
    for name in names:
        taking = taking_part(name, len(names) == 1, programs, earlier)
        costs, agree = run_load(LOADS[name].part(scale), taking, turns, folder)
        print_load(LOADS[name], costs, agree)
        all_costs[name], all_agree = costs, all_agree and agree
    print_growth(all_costs)
    return all_costs, all_agree


# Only replies


def replies_agree(programs, profile, script, folder):
    """Whether all servers write the same replies to a script."""
    paths = []
    for name, words in programs.items():
        paths.append(os.path.join(folder, f"replies.{name}"))
        measure.serve([*words, str(profile)], script, [], paths[-1])
    return all(measure.same(paths[0], other) for other in paths[1:])


def compare_replies(seeds, folder):
    """Compares the replies of all servers over scripts of all operations, by both profiles."""
    programs = measure.servers(folder, *measure.PEERS)
    for seed in seeds:
        for workload, events, accounts in (
            ("mixed", 3000, 12),
            ("various", 30_000, 1_000),
            ("various", 100_000, 100_000),
            ("various", 200_000, 1_000_000),
        ):
            script = measure.make_script(folder, workload, events, accounts, seed)
            for profile in (1, 2):
                agree = replies_agree(programs, profile, script, folder)
                name = f"{workload}, {accounts} accounts, seed {seed}, profile {profile}"
                tried.case(name, agree)
            script.unlink()
    return tried.status()


def earlier_from(parser):
    """The options that name an earlier tbs."""
    parser.add_argument("--before", metavar="PROGRAM", help="an earlier tbs to compare with")
    parser.add_argument("--now", metavar="PROGRAM", help="tbs of today, built as --before was")


def earlier_in(given):
    """The programs that these options name, which have to be there."""
    named = {"before": given.before, "now": given.now}
    found = {name: program for name, program in named.items() if program}
    tried.built(*found.values(), how="--before and --now name programs")
    return found


def main():
    parser = tried.arguments(__doc__)
    parser.add_argument("loads", metavar="LOAD", nargs="*", help=", ".join(LOADS))
    parser.add_argument("--turns", metavar="N", type=tried.count, default=5, help="runs (5)")
    parser.add_argument("--work", metavar="FOLDER", help="keeps scripts and programs there")
    earlier_from(parser)
    parser.add_argument("--replies", metavar="SEED", type=int, nargs="*", help="replies alone (1)")
    given = parser.parse_args()
    for name in given.loads:
        if name not in LOADS:
            parser.error(f"there is no load {name}: {', '.join(LOADS)}")
    with measure.work_folder(given.work) as folder:
        if given.replies is not None:
            return compare_replies(given.replies or [1], folder)
        _, agree = run_loads(given.loads or BY_DEFAULT, given.turns, folder, earlier_in(given))
    return 0 if agree else 1


if __name__ == "__main__":
    tried.main(main)
