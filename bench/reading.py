#!/usr/bin/env python3
"""What reading the books costs: `telovamish audit` of a dump, and `tb-sql` over it.

    reading.py [--size N] [--turns N] [--work FOLDER]

It needs crates/tbs/out/tbs (PROGRAM names another), as `rt run` leaves it, and
apps/telovamish/telovamish (TELOVAMISH names another); for the pages, Flask. Scripts of --size
transfers (1,000,000) between 10,000 accounts are made from a seed; --work FOLDER keeps them.

CPU seconds, the best of --turns runs (2): of an audit, whose events a CPU second are marked with
'<' below their bound (25,000). Seconds of one `tb-sql load` (30,000 events a second at least)
and of one `tb-sql check` (120), with the CPU seconds and the memory (200 MiB) of tb-sql itself,
without the replay; the milliseconds of pages (200), the best of five.
"""
import contextlib
import json
import os
import pathlib
import subprocess

import measure
import tried
from measure import TBS, whole

TOP = pathlib.Path(__file__).resolve().parent.parent
PYTHON = "/usr/bin/python3"
TELOVAMISH = os.environ.get("TELOVAMISH", str(TOP / "apps/telovamish/telovamish"))
FOLDERS = ("apps/books/src", "apps/telovamish/src", "clients/python/src")
LOAD_LEAST, CHECK_MOST, PAGE_MOST, MEMORY_MOST = 30_000, 120, 200, 200
# runs tb-sql, and prints its seconds, its CPU seconds and its MiB, without those of other programs
COMMAND = """
import json, resource, sys, time
from tb_sql.commands import main
began = time.monotonic()
status = main(sys.argv[1:])
used = resource.getrusage(resource.RUSAGE_SELF)
taken = [time.monotonic() - began, used.ru_utime + used.ru_stime, used.ru_maxrss / 1024]
print(json.dumps(taken))
sys.exit(status)
"""
PAGES = """
import json, sys, time
from tb_sql.pages.server import make_app
from tb_sql.pages.site import Site
client = make_app(Site(sys.argv[1])).test_client()
taken = {}
for page in sys.argv[2:]:
    times = []
    for _ in range(5):
        began = time.monotonic()
        assert client.get(page, base_url="http://localhost").status_code == 200, page
        times.append((time.monotonic() - began) * 1000)
    taken[page] = min(times)
print(json.dumps(taken))
"""
SIZE, ACCOUNTS = 1_000_000, 10_000
LOADS = ["rising", "expiring"]
AUDIT_LEAST = 25_000


def marked(found, most, unit=""):
    return f"{'>' if found > most else ''}{found:.2f}{unit} ({most})"


def audit(load, size, turns, folder):
    """Prints what an audit of a load costs. The audit is left in the folder."""
    script = measure.make_script(folder, load, size, ACCOUNTS)
    dump, said = os.path.join(folder, "dump"), os.path.join(folder, f"{load}.audit")
    whole([TBS, "dump", "64"], script, dump)
    best = min(whole([TELOVAMISH, "audit"], dump, said) for _ in range(turns))
    os.remove(dump)
    speed = round(size / best)
    below = "" if speed >= AUDIT_LEAST else "<"
    print(f"{load}: audit {best:.2f} s, {below}{speed:,} events a second", flush=True)


def told(program, *words, **more):
    """The last line that a program in Python prints, as JSON."""
    packages = ":".join(str(TOP / it) for it in FOLDERS)
    ran = subprocess.run(
        [PYTHON, "-B", "-c", program, *words],
        env={**os.environ, "PYTHONPATH": packages},
        stdout=subprocess.PIPE,
        check=True,
        **more,
    )
    return json.loads(ran.stdout.splitlines()[-1])


def tables(load, size, folder):
    """Loads a dump into SQLite, and prints what that, its check and its readers cost."""
    script = measure.make_script(folder, load, size, ACCOUNTS)
    dump, path = os.path.join(folder, "dump"), os.path.join(folder, "ledger.sqlite")
    whole([TBS, "dump", "64"], script, dump)
    with contextlib.suppress(FileNotFoundError):
        os.remove(path)
    with open(dump, "rb") as input:
        took, *used = told(COMMAND, "load", path, "--quiet", "--tbs", TBS, stdin=input)
    speed = round((size + ACCOUNTS) / took)
    below = "" if speed >= LOAD_LEAST else "<"
    print(f"tb-sql load: {took:.1f} s, {below}{speed:,} events a second, {costs(*used)}")
    took, *used = told(COMMAND, "check", path)
    print(f"tb-sql check: {marked(took, CHECK_MOST, ' s')}, {costs(*used)}", flush=True)
    pages = told(PAGES, path, "/", "/accounts?sort=balance", "/account/1", "/transfers")
    for name, took in pages.items():
        print(f"the page {name}: {marked(took, PAGE_MOST, ' ms')}")


def costs(seconds, memory):
    """What tb-sql itself took, without the replay."""
    return f"CPU {seconds:.1f} s, {marked(memory, MEMORY_MOST, ' MiB')}"


def measure_all(size, turns, folder):
    """Prints all that this file measures."""
    tried.built(TBS, TELOVAMISH)
    for load in LOADS:
        audit(load, size, turns, folder)
    tables(LOADS[0], size, folder)


def main():
    parser = tried.arguments(__doc__)
    parser.add_argument("--turns", metavar="N", type=tried.count, default=2, help="runs (2)")
    parser.add_argument("--size", metavar="N", type=tried.count, default=SIZE)
    parser.add_argument("--work", metavar="FOLDER", help="keeps scripts there")
    given = parser.parse_args()
    with measure.work_folder(given.work) as folder:
        measure_all(given.size, given.turns, folder)
    return 0


if __name__ == "__main__":
    tried.main(main)
