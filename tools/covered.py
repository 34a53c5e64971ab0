#!/usr/bin/python3
"""Runs the quick tests of a Python package or a Go module, and compares what they do not reach with
a list.

    tools/covered.py FOLDER [ARGUMENT OF PYTEST OR OF GO TEST ..]

Quick tests are those that CI runs. The list is tests/unreached.txt (testdata/unreached.txt in Go):
a reason in brackets, then a line for each place, as `src/x.py, function: text of the line`; `*` in
place of a text is whatever of this function, class or file is not reached. A place whose reason
begins with "Sometimes: " is reached by the order of threads, by time or by a signal: it may be
reached or not. covered_python.py and covered_go.py say what a place is in each language.

Fails for what is not in the list, for what is in it and is reached, and for a place that the file
does not have: a line for each that begins with 'differs: '. --write prints a list as it would be.
The last line is 'N passed, M failed', over tests and places.
"""

import argparse
import sys
from pathlib import Path

import covered_go
import covered_python
from parts import ROOT
from unreached import compared


def main() -> int:
    parser = argparse.ArgumentParser(
        description=__doc__, formatter_class=argparse.RawDescriptionHelpFormatter
    )
    parser.add_argument("folder", type=Path)
    parser.add_argument("--write", action="store_true", help="print what is not reached")
    given, words = parser.parse_known_args()
    folder = (ROOT / given.folder).resolve()
    is_go = (folder / "go.mod").exists()
    (passed, failed), found = (covered_go if is_go else covered_python).measured(folder, words)
    if given.write:
        print("\n".join(map(str, found)))
    wrong = compared(folder, folder / ("testdata" if is_go else "tests") / "unreached.txt", found)
    print("\n".join(f"differs: {it}" for it in wrong))
    print(f"{len(found)} places are not reached; {len(wrong)} differ from the list")
    print(f"{passed} passed, {failed + len(wrong)} failed")
    return 1 if wrong or failed or not passed else 0


if __name__ == "__main__":
    sys.exit(main())
