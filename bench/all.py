#!/usr/bin/env python3
"""Measures all figures of docs/work/PERFORMANCE.md on a quiet machine, and prints them.

    all.py --prepare [--work FOLDER]                      builds the peers and makes all scripts
    all.py [--before PROGRAM [--now PROGRAM]] [--work FOLDER] [PART ..]
                                                          measures: some twelve minutes

A PART is loads (compare.py), storms (tbs storm), keep (keep.py), reading (reading.py),
instructions (instructions.py) or growth (grow.py); with none, all. Each needs what its file says:
the programs of crates/tbs and tbd, as `rt run` leaves them, the command of apps/telovamish, and
valgrind.

--before PROGRAM has an earlier tbs take part, and --now PROGRAM one of today that was built in the
same way. --tiny is a hundredth of each size: a trial of these files, whose figures mean nothing.
"""
import subprocess
import time

import compare
import grow
import instructions
import keep
import measure
import reading
import tried

WORK = "/tmp/telovamish_bench"
# Client threads of a storm, and the transfers of each, one a request.
STORMS, EACH, STORM_UNIT = (1, 4, 16), 1000, "thousand transfers a second"


class Plan:
    """The parts, each a method that measures, prints, and returns whether replies agreed."""

    def __init__(self, folder, earlier, is_tiny):
        self.folder, self.earlier = folder, earlier
        self.scale, self.turns, self.few = (100, 1, 1) if is_tiny else (1, 5, 3)
        self.most = grow.STEPS[0] if is_tiny else grow.STEPS[-1]
        self.counted = 200 if is_tiny else 20_000

    def loads(self):
        names = compare.BY_DEFAULT
        return compare.run_loads(names, self.turns, self.folder, self.earlier, self.scale)[1]

    def storms(self):
        each = EACH // self.scale
        for clients in STORMS:
            words, runs = [measure.TBS, "storm", clients, each], 4 * self.turns
            rate = clients * each / min(storm_seconds(words) for _ in range(runs)) / 1000
            print(f"storm of {clients} client threads: {rate:.0f} {STORM_UNIT}", flush=True)
        return True

    def keep(self):
        return keep.compare_all(keep.SIZE // self.scale, self.few, self.folder)

    def reading(self):
        reading.measure_all(reading.SIZE // self.scale, 2, self.folder)
        return True

    def instructions(self):
        instructions.count(instructions.BY_DEFAULT, self.counted, 4, self.folder)
        return True

    def growth(self):
        return grow.grow(self.most, 10**6, self.folder)

    def prepare(self):
        """Builds the peers, and makes the scripts."""
        for name in measure.PEERS:
            measure.build(name, self.folder)
        for name in compare.BY_DEFAULT:
            load = compare.LOADS[name].part(self.scale)
            for events in (load.events, load.events // 10):
                load.script(self.folder, events)
        for size in [it for it in grow.STEPS if it <= self.most]:
            measure.make_script(self.folder, "rising", size, size)
        for load in keep.LOADS:
            measure.make_script(self.folder, load, keep.SIZE // self.scale, keep.ACCOUNTS)
        for load in reading.LOADS:
            measure.make_script(self.folder, load, reading.SIZE // self.scale, reading.ACCOUNTS)


def storm_seconds(words):
    """The seconds of a storm, with the process that it is in."""
    began = time.monotonic()
    subprocess.run([str(it) for it in words], check=True, stdout=subprocess.DEVNULL)
    return time.monotonic() - began


PARTS = ["loads", "storms", "keep", "reading", "instructions", "growth"]
# The programs that a part needs besides tbs.
NEEDS = {"keep": keep.TBD, "reading": reading.TELOVAMISH}


def main():
    parser = tried.arguments(__doc__)
    parser.add_argument("parts", metavar="PART", nargs="*", help=", ".join(PARTS))
    parser.add_argument("--prepare", action="store_true", help="build and make scripts alone")
    parser.add_argument("--tiny", action="store_true", help="a trial")
    compare.earlier_from(parser)
    parser.add_argument("--work", metavar="FOLDER", default=WORK, help=f"({WORK})")
    given = parser.parse_args()
    for name in given.parts:
        if name not in PARTS:
            parser.error(f"there is no part {name}: {', '.join(PARTS)}")
    with measure.work_folder(given.work) as folder:
        plan = Plan(folder, compare.earlier_in(given), given.tiny)
        parts = given.parts or PARTS
        if not given.prepare:
            tried.built(measure.TBS, *(NEEDS[it] for it in parts if it in NEEDS))
        plan.prepare()
        return 0 if given.prepare else run(plan, parts)


def run(plan, parts):
    """Measures the parts. 1 if replies differed."""
    all_agree, began = True, time.monotonic()
    for name in parts:
        print(f"\n{name}, from second {time.monotonic() - began:.0f} on", flush=True)
        all_agree = getattr(plan, name)() and all_agree
    print(f"\nall in {time.monotonic() - began:.0f} seconds")
    return 0 if all_agree else 1


if __name__ == "__main__":
    tried.main(main)
