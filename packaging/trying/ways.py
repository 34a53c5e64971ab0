"""Trials of README's ways without a package: `make try` and `make run` in a fresh root that has the
kit, a clone and the Debian packages that README names, and nothing else."""

import os
import re
import time
from pathlib import Path

from shipping.programs import heap
from shipping.running import run
from shipping.table import ROOT

from .installed import check
from .root import Root

CLONE = "/root/telovamish"
KIT = "/opt/rattle"


def needed(readme: str) -> list[str]:
    """Debian's packages that README asks for."""
    found = re.search(r"^You need [^\n]*?Debian's (.*?), and the Rattle kit", readme, re.M)
    check(found is not None, "README names no packages")
    assert found
    return re.findall(r"`([\w.-]+)`", found[1])


def prepared(root: Root, readme: str) -> str:
    """The kit, read-only, where README says that it is; the packages; a clone of this commit."""
    names = needed(readme)
    root.apt("update")
    root.apt("install", "--no-install-recommends", *names)
    root.inside(KIT).mkdir(parents=True)
    run(["mount", "-o", "bind,ro", heap().parent.parent, root.inside(KIT)])
    # what removes the root could reach it otherwise
    check(not os.access(root.inside(KIT) / "KIT-ID", os.W_OK), "the kit can be written")
    run(["mount", "-t", "sysfs", "-o", "ro", "sysfs", root.inside("/sys")])
    root.inside("/usr/local/bin/rt").symlink_to(f"{KIT}/bin/rt")
    run(["git", "clone", "-q", "--no-hardlinks", ROOT, root.inside(CLONE)])
    return " ".join(names)


def processor_minutes() -> float:
    """CPU minutes of all that ended so far below this process."""
    it = os.times()
    return (it.children_user + it.children_system) / 60


def load() -> str:
    return Path("/proc/loadavg").read_text().split()[0]


def made(root: Root, target: str) -> str:
    """The example's replies, of which the one that was sent again is the first one again; with
    what it took."""
    before, used, began = load(), processor_minutes(), time.monotonic()
    printed = root.shell(f"cd {CLONE} && make {target}")
    took, used = (time.monotonic() - began) / 60, processor_minutes() - used
    replies = [it for it in printed.splitlines() if it.startswith("{")]
    check(len(replies) == 5 and replies[2] == replies[3], f"printed:\n{printed}")
    return f"{took:.1f} minutes, {used:.1f} CPU minutes, load {before} to {load()}"
