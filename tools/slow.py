#!/usr/bin/python3
"""Runs the tests that are marked slow, which CI leaves out: `make slow`.

    tools/slow.py [--log FOLDER] [WORD ..]      only parts whose names have one of the words

They kill, cut the power, damage files, fill disks, start clusters and browsers, and draw thousands
of schedules. Each is `slow(reason="..", seconds=N)` in its file; together they take hours. The
packages of tools/packages.txt are installed (as root). There is a part
for each folder of tests/ and for each package, a line for each, and its output is in FOLDER
(/tmp/slow). The last line is 'N passed, M failed'.
"""

import argparse
import sys
from pathlib import Path

import needed
from parts import PYTEST, ROOT, Part, ended, pytest_counts, refused, run

NO_TESTS = 5  # the exit status of pytest over a folder without such a test


def parts() -> list[Part]:
    """A part for each folder with tests: of tests/, where they share the root's configuration, and
    of each package."""
    words = [*PYTEST, "slow"]
    subjects = sorted({it.parent.name for it in ROOT.glob("tests/*/test_*.py")})
    packages = sorted(
        it.parent for top in ("apps", "clients") for it in ROOT.glob(f"{top}/*/tests")
    )
    own = [Part(f"tests/{it}", ".", [*words, f"tests/{it}"], pytest_counts) for it in subjects]
    folders = [it.relative_to(ROOT).as_posix() for it in packages]
    return own + [Part(it, it, [*words, "tests"], pytest_counts) for it in folders]


def main() -> int:
    parser = argparse.ArgumentParser(
        description=__doc__, formatter_class=argparse.RawDescriptionHelpFormatter
    )
    parser.add_argument("--log", type=Path, default=Path("/tmp/slow"), metavar="FOLDER")
    parser.add_argument("words", nargs="*", metavar="WORD")
    given = parser.parse_args()
    if not needed.install("slow"):
        return refused()
    given.log.mkdir(parents=True, exist_ok=True)
    results = []
    for part in parts():
        if given.words and not any(it in part.name for it in given.words):
            continue
        result = run(part)
        if result.status != NO_TESTS:
            (given.log / part.name.replace("/", "-")).write_text(result.output)
            print(result.line, flush=True)
            results.append(result)
    return ended(results)


if __name__ == "__main__":
    sys.exit(main())
