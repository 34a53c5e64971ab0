"""Cases of a test that goes on after one that fails: the fixture `counted` fails it, with the names
of those that failed."""

import glob
import os

import tried

failed = []  # the names of the cases of a test that failed


def case(name, holds, said=""):
    """Counts a case, and prints one that failed."""
    if not holds:
        failed.append(name)
    return tried.case(name, holds, said, quietly=True)


def drop_copies(path):
    """Removes what starts have copied of a file: with 16 copies there, a start ends."""
    for copy in glob.glob(f"{glob.escape(path)}.cut-*"):
        os.unlink(copy)
