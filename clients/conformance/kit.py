#!/usr/bin/env python3
"""Runs the scenarios of the conformance kit over a client, through its runner (PROTOCOL.md).

    clients/conformance/kit.py -- python3 -B clients/python/conformance_runner.py
    clients/conformance/kit.py --only 'after-*' -- COMMAND [WORD ..]
    clients/conformance/kit.py --list
    clients/conformance/kit.py --show --only reply-body-late
    clients/conformance/kit.py --more 200 -- COMMAND [WORD ..]
    clients/conformance/kit.py --drawn 200 --seed 1 -- COMMAND [WORD ..]
    clients/conformance/kit.py --drawn 1 --seed 7 --steps 2,5 -- COMMAND [WORD ..]

With --drawn it runs so many scenarios that are drawn (made/sequences.py), each by a seed of its
own, in place of those of made/scenarios.py, with --more behind them: what callers do, and what a
server does at each sending. What the client has to send and to report is what the proved session
does, by the program tb_oracle (made/oracle.py): that of the variable TB_ORACLE, then on PATH, then
in crates/tb_oracle/out. A seed draws the same scenario again. The first one that fails is made
shorter, without --first: as long as it fails without one of its steps this is left out, for a
minute at most.

Prints a line for each scenario that fails, what was passed over, and 'N passed, M failed, K passed
over'. Status 0 where none failed, 1 where one did, 2 where the runner does not start or the words
are wrong.

Time in which the client waits for a processor is not counted. If a scenario whose client has to
keep a short limit fails, it is tried again with times 10 times as long, then 40 times: on a busy
computer a right client may miss a short limit, and a wrong one misses all. While the client waits
for a processor there are up to 9 tries. Scenarios that were tried again are named at the end.
"""
import argparse
import fnmatch
import functools
import json
import os
import queue
import re
import sys
import tempfile
import threading
import time

sys.dont_write_bytecode = True
HERE = os.path.dirname(os.path.abspath(__file__))
SHORTENING = 60.0  # seconds
STEPS = r"none|\d+(,\d+)*"
FACTORS = (1, 10, 40)  # how many times as long the times of a timed scenario are at each try
STARVED = 0.1  # seconds without a CPU, times the factor, after which a try says nothing
TRIES = 9
sys.path.insert(0, HERE)

import certificates  # noqa: E402
from driver import CALL, Run, Skipped  # noqa: E402
from listening import LISTENER, TBD, Listening, Wrong  # noqa: E402
from made import lying, oracle, sequences  # noqa: E402
from made.scenarios import scenarios  # noqa: E402
from relay import Lying  # noqa: E402
from runner import Ended, Runner  # noqa: E402
from server import Failed  # noqa: E402


class Kit:
    """The scenarios over some runners at once, and what came of them."""

    def __init__(self, given, begins, paths):
        self.given, self.begins, self.paths = given, begins, paths
        self.lock, self.work = threading.Lock(), queue.Queue()
        self.passed = self.unrepresentable = 0
        self.failed, self.skipped, self.repeated = [], {}, []
        self.runners, self.is_over = [], False

    def worker(self):
        try:
            self.work_off()
        except Exception as why:  # no scenario is passed over for a fault of the kit
            self.fail("kit", f"{type(why).__name__}: {why}")

    def work_off(self):
        with tempfile.TemporaryDirectory(prefix="kit") as folder:
            runner = Runner(self.given.command, folder)
            self.runners.append(runner)
            hello = self.begun(runner)
            while not self.is_over:
                try:
                    scenario = self.work.get_nowait()
                except queue.Empty:
                    break
                if self.given.first and self.failed:
                    break
                if not self.one(scenario, runner, hello) and not self.is_over:
                    hello = self.begun(runner)
            if runner.process is not None and runner.end() != 0:
                self.fail("end", "the runner does not end with status 0 at the end of its input")

    def begun(self, runner):
        return runner.start()["ok"]

    def run_of(self, scenario, runner, hello):
        features = set(hello["features"]) - ({"tls"} if not self.paths else set())
        over = self.given.over or ("unix" if "unix" in features else "tcp")
        listening = self.given.listening
        return Run(scenario, self.begins, runner, features, over, self.paths, listening)

    def one(self, row, runner, hello):
        """Runs a scenario. Whether the runner may go on."""
        scenario = row["make"]() if "make" in row else row
        run = self.run_of(scenario, runner, hello)
        try:
            count = self.tried(run, runner)
            if self.given.lying:
                raise Failed("a real server does that too")
        except Skipped as feature:
            with self.lock:
                self.skipped.setdefault(str(feature), []).append(scenario["name"])
            return True
        except Lying as why:
            if not self.given.lying:
                self.fail(scenario["name"], f"no real server does that: {why}")
            with self.lock:
                self.passed += self.given.lying
            return False
        except (Failed, Ended, Wrong) as why:
            self.fail(
                scenario["name"],
                f"{why}\n    {scenario['says']}",
                "" if isinstance(why, Ended) else runner.said(),
            )
            if "make" in row and self.failed == [scenario["name"]] and not self.given.first:
                self.shorten(scenario, runner, hello)
            return False
        with self.lock:
            self.passed, self.unrepresentable = self.passed + 1, self.unrepresentable + count
            if self.given.verbose:
                print(f"ok: {scenario['name']}", flush=True)
        return True

    def shorten(self, scenario, runner, hello):
        """Prints the least part of a drawn scenario's steps that was found to fail too."""
        deadline, least, why = time.monotonic() + SHORTENING, scenario["places"], ""
        for place in reversed(scenario["places"]):
            steps = [it for it in least if it != place]
            fewer = sequences.drawn(scenario["seed"], steps)
            if time.monotonic() > deadline or self.is_over:
                break
            try:
                runner.start()
                self.run_of(fewer, runner, hello).run()
            except (Failed, Ended) as fault:
                least, why = fewer["places"], f"{fault}\n    {fewer['says']}"
        if why:
            print(f"    with fewer steps: {why}", flush=True)

    def tried(self, run, runner):
        """Runs a scenario until it passes, a timed one by one factor after another. The last one's
        failure counts."""
        factors = FACTORS if run.is_timed else FACTORS[:1]
        for at in range(TRIES):
            factor, before = factors[min(at, len(factors) - 1)], runner.waited()
            try:
                runner.call({"do": "reset"}, CALL)
                return run.run(factor)
            except (Failed, Ended):
                is_starved = run.is_timed and runner.waited() - before > STARVED * factor
                if self.is_over or at + 1 >= (TRIES if is_starved else len(factors)):
                    raise
                with self.lock:
                    self.repeated.append(run.scenario["name"])
                runner.start()

    def fail(self, name, why, said=""):
        with self.lock:
            if self.is_over:
                return
            self.failed.append(name)
            print(
                f"FAILED: {name}: {why}"
                + (f"\n    its standard error: {said[-600:]}" if said else ""),
                flush=True,
            )

    def run(self, chosen):
        for scenario in chosen:
            self.work.put(scenario)
        workers = [
            threading.Thread(target=self.worker, daemon=True)
            for _ in range(min(self.given.jobs, max(len(chosen), 1)))
        ]
        for it in workers:
            it.start()
        try:
            wait_for(workers)
        except KeyboardInterrupt:
            self.stop()
            wait_for(workers)  # Python may crash at its end if one of them is in OpenSSL then
            raise

    def stop(self):
        """Kills the runners. What becomes of their scenarios then is no failure."""
        with self.lock:
            self.is_over = True
        for it in self.runners:
            if it.process is not None:
                it.strike()


def wait_for(threads):
    while any(it.is_alive() for it in threads):
        time.sleep(0.05)  # a join might not see an interrupt


def words():
    parser = argparse.ArgumentParser(
        description=__doc__, formatter_class=argparse.RawDescriptionHelpFormatter
    )
    parser.add_argument(
        "--only", metavar="PATTERN", action="append", help="scenarios with such a name or group"
    )
    parser.add_argument(
        "--list", action="store_true", help="print the scenarios, and what each says"
    )
    parser.add_argument("--show", action="store_true", help="print the scenarios whole, as JSON")
    parser.add_argument("--drawn", metavar="N", type=int, help="run so many that are drawn")
    parser.add_argument("--more", metavar="N", type=int, help="and so many that are drawn")
    parser.add_argument("--seed", metavar="N", type=int, default=1, help="of the first of them (1)")
    parser.add_argument("--steps", metavar="LIST", help="only these steps of one that is drawn")
    parser.add_argument("--jobs", metavar="N", type=int, default=4, help="runners at once (4)")
    parser.add_argument(
        "--over",
        choices=("unix", "tcp"),
        help="the kind of sockets; else unix where the client has them",
    )
    parser.add_argument(
        "--listener",
        metavar="PATH",
        nargs="?",
        const=LISTENER,
        help="in front of this tb-listen (LISTENER, or server/out/tb-listen)",
    )
    parser.add_argument(
        "--program", metavar="TBD", default=TBD, help="the listener's tbd (TBD, or crates/tbd/out)"
    )
    parser.add_argument(
        "--lying",
        action="store_true",
        help="in front of a listener: see that no real server plays the others",
    )
    parser.add_argument("--first", action="store_true", help="stop where one has failed")
    parser.add_argument("--verbose", action="store_true", help="print scenarios that pass too")
    parser.add_argument(
        "command", metavar="COMMAND", nargs="*", help="the runner and its words, behind --"
    )
    given = parser.parse_args()
    if not given.list and not given.show and not given.command:
        parser.error("no COMMAND of a runner is given")
    if given.jobs < 1:
        parser.error("--jobs must be 1 or more: with none no scenario would run")
    if given.seed < 0 or any(it is not None and it < 1 for it in (given.drawn, given.more)):
        parser.error("--drawn and --more must be 1 or more, and --seed must be 0 or more")
    if given.steps is not None and (given.drawn != 1 or not re.fullmatch(STEPS, given.steps)):
        parser.error("--steps is none, or places like 2,5, with --drawn 1")
    if given.lying and not given.listener:
        parser.error("--lying is for a listener: with --listener")
    if given.listener and (given.drawn or given.more):
        parser.error("drawn scenarios have a server that may lie: not with --listener")
    given.listening = None
    if given.listener:
        given.listening = functools.partial(Listening, [given.program], listener=given.listener)
    return parser, given


def drawn(given):
    """A row for each scenario that is to be drawn. Each is made when its turn comes."""
    steps = None if given.steps is None else [int(it) for it in re.findall(r"\d+", given.steps)]
    for seed in range(given.seed, given.seed + (given.drawn or given.more)):
        make = functools.partial(sequences.drawn, seed, steps)
        yield {"name": f"drawn-{seed}", "group": "drawn", "says": f"--seed {seed}", "make": make}


def main():
    parser, given = words()
    found, begins = scenarios()
    if given.drawn or given.more:
        try:
            oracle.program()
        except OSError as why:
            parser.error(f"no program tb_oracle to compare with: {why}")
        found = [*(() if given.drawn else found), *drawn(given)]
    chosen = [
        it
        for it in found
        if not given.only
        or any(
            fnmatch.fnmatch(it[key], pattern) for key in ("name", "group") for pattern in given.only
        )
    ]
    left_out = []
    if given.listening:
        chosen, left_out = for_listeners(chosen, given.lying)
    if not chosen:
        parser.error("no scenario has such a name")
    if given.show:
        for it in chosen:
            print(json.dumps(it["make"]() if "make" in it else it, indent=1))
        return 0
    if given.list:
        for it in chosen:
            print(f"{it['group']}/{it['name']}: {it['says']}")
        print(f"{len(chosen)} scenarios")
        return 0
    with tempfile.TemporaryDirectory(prefix="kit") as folder:
        try:
            hello = Runner(given.command, folder)
            said = hello.start()["ok"]
            hello.end()
            tried(given.listening, folder)
        except (OSError, Ended, KeyError, TypeError) as why:
            parser.error(f"the runner does not start: {why}")
        except Wrong as why:
            parser.error(str(why))
        if said.get("protocol") != 1:
            parser.error(f"the runner speaks protocol {said.get('protocol')}, not 1")
        began, kit = time.monotonic(), Kit(given, begins, certificates.made(folder))
        kit.run(chosen)
    print(*left_out, sep="\n", end="\n" if left_out else "")
    return report(kit, said, len(chosen), time.monotonic() - began)


def for_listeners(rows, are_lying):
    """The scenarios that a real server plays; or those that it does not. And lines on the rest."""
    reasons = {it["name"]: lying.reason(it["name"]) for it in rows}
    lines = []
    for reason in sorted({it for it in reasons.values() if it and not are_lying}):
        names = sorted(name for name, it in reasons.items() if it == reason)
        lines.append(f"not over a listener, {reason}: {len(names)} ({', '.join(names)})")
    return [it for it in rows if bool(reasons[it["name"]]) == are_lying], lines


def tried(listening, folder):
    """Starts and ends a listener, if the kit is to be in front of one."""
    if listening:
        it = listening(folder)
        try:
            it.start()
            it.end()
        finally:
            it.kill()


def report(kit, said, chosen, seconds):
    for feature, names in sorted(kit.skipped.items()):
        print(
            f"passed over, since the client has no {feature}: {len(names)}"
            f" ({', '.join(sorted(names)[:4])}, ..)"
        )
    if kit.unrepresentable:
        print(f"{kit.unrepresentable} values are refused by the types of {said.get('language')}")
    if kit.repeated:
        print(f"tried again with longer times: {', '.join(sorted(set(kit.repeated)))}")
    skipped = sum(map(len, kit.skipped.values()))
    if kit.passed + len(kit.failed) + skipped != chosen and not kit.given.first:
        print(f"FAILED: {chosen} scenarios were to run")
        kit.failed.append("kit")
    print(
        f"{said.get('client')}: {kit.passed} passed, {len(kit.failed)} failed,"
        f" {skipped} passed over, {seconds:.0f} s"
    )
    return 1 if kit.failed else 0


if __name__ == "__main__":
    try:
        sys.exit(main())
    except KeyboardInterrupt:
        print("interrupted", file=sys.stderr)
        sys.exit(130)
    except BrokenPipeError:  # nobody reads the output any more
        os.dup2(os.open(os.devnull, os.O_WRONLY), sys.stdout.fileno())
        sys.exit(141)
