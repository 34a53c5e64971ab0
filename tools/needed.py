#!/usr/bin/python3
"""Installs the Debian packages that a target of the Makefile needs and that are missing.

    tools/needed.py TARGET

They are those of tools/packages.txt. As root they are installed by apt-get. Another user gets the
line to run as root, and exit status 1 before any work.
"""

import argparse
import os
import shutil
import subprocess
import sys
from pathlib import Path
from typing import NamedTuple

ROOT = Path(__file__).resolve().parent.parent
PYTHON = "/usr/bin/python3"
TARGETS = ("try", "run", "check", "slow")
PATIENT = ["-o", "DPkg::Lock::Timeout=600"]  # another apt-get may be at work
# The targets that need a package, by what its row ends in.
NEEDED_BY = {"": ("check", "slow"), "all": TARGETS, "slow": ("slow",)}


class Package(NamedTuple):
    """A package of Debian, and what shows that it is there: a command, a file, or a module of
    Debian's Python."""

    name: str
    kind: str
    shown_by: str
    needed_by: str = ""

    def is_there(self) -> bool:
        if self.kind == "command":
            return shutil.which(self.shown_by) is not None
        if self.kind == "file":
            return Path(self.shown_by).exists()
        look = [PYTHON, "-c", f"import {self.shown_by}"]
        return subprocess.run(look, capture_output=True, check=False).returncode == 0


def packages() -> list[Package]:
    """The rows of the list."""
    lines = (ROOT / "tools/packages.txt").read_text().splitlines()
    return [Package(*it.split()) for it in lines if it and not it.startswith("#")]


def missing(target: str) -> list[str]:
    """The packages that a target needs and that are not there, by name."""
    needed = [it for it in packages() if target in NEEDED_BY[it.needed_by]]
    return [it.name for it in needed if not it.is_there()]


def install(target: str) -> bool:
    """Installs what a target needs. Whether all is there afterwards."""
    names = missing(target)
    if not names:
        return True
    words = ["apt-get", "install", "-y", "--no-install-recommends", *names]
    if os.geteuid() != 0:
        print(f"make {target} needs Debian packages. Run: sudo {' '.join(words)}", file=sys.stderr)
        return False
    quietly = {**os.environ, "DEBIAN_FRONTEND": "noninteractive"}
    for each in (["apt-get", "update"], words):
        subprocess.run([*each, "-q", *PATIENT], env=quietly, check=False, stdout=sys.stderr)
    left = missing(target)
    if left:
        print(f"not installed: {' '.join(left)}", file=sys.stderr)
    return not left


def main() -> int:
    parser = argparse.ArgumentParser(description=str(__doc__).split("\n", maxsplit=1)[0])
    parser.add_argument("target", choices=TARGETS)
    return 0 if install(parser.parse_args().target) else 1


if __name__ == "__main__":
    sys.exit(main())
