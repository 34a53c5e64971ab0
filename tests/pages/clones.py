"""A folder that looks like a clone whose programs are built, in which lines of pages are run, and
the pages and their blocks."""

import os
import re
import shutil
import signal
import subprocess
import time
from collections.abc import Callable, Iterator
from contextlib import contextmanager
from pathlib import Path

from ..conftest import ROOT

# `rt run -- WORDS` in a crate's folder: the built program. `rt lib` has made its library.
RT = """#!/bin/sh
case $1 in
run) shift 2; exec ./out/"$(basename "$PWD")" "$@" ;;
lib) test -e out/lib"$(basename "$PWD")".a ;;
doc) exec {rt} doc ;;
*) exit 9 ;;
esac
"""
SECONDS = 300  # that a line may take on a busy computer


def pages() -> list[Path]:
    """The pages that are tracked or new, except those that other people made."""
    words = ["git", "ls-files", "--cached", "--others", "--exclude-standard", "*.md"]
    listed = subprocess.run(words, cwd=ROOT, capture_output=True, text=True, check=True)
    return [ROOT / it for it in listed.stdout.split() if (ROOT / it).exists()]


def blocks(page: str, kind: str) -> list[str]:
    """The blocks of a kind in a page, in their order."""
    text = (ROOT / page).read_text()
    return re.findall(rf"^```{kind}\n(.*?)^```$", text, re.M | re.S)


def lines(block: str) -> list[str]:
    """The commands of a block. One that ends in a backslash goes on in the next line."""
    return [it for it in block.replace("\\\n", "").splitlines() if it.split("#")[0].strip()]


class Clone:
    """The folder: crates/NAME/out has the built programs, everything else is this clone's."""

    def __init__(self, folder: Path, program: Callable[[str], Path]) -> None:
        self.folder, self.program = folder, program
        for name in ("apps", "bench", "clients", "examples", "server", "tests", "tools"):
            (folder / name).symlink_to(ROOT / name)
        commands = folder / "bin"
        commands.mkdir()
        (commands / "rt").write_text(RT.format(rt=shutil.which("rt")))
        (commands / "rt").chmod(0o755)
        self.env = {**os.environ, "PATH": f"{commands}:{os.environ['PATH']}"}
        self.env["PYTHONPATH"] = str(ROOT / "clients/python/src")
        for name in ("apps/telovamish/telovamish", "apps/books/tb-sql", "server/out/tb-listen"):
            (commands / Path(name).name).symlink_to(ROOT / name)

    def build(self, *names: str) -> None:
        """Puts built programs into their places in a clone, and on PATH."""
        for name in names:
            out = self.folder / "crates" / name / "out"
            out.mkdir(parents=True)
            (out / name).symlink_to(self.program(name))
            (self.folder / "bin" / name).symlink_to(self.program(name))
            self.env[name.upper()] = str(self.program(name))

    def run(self, line: str, said: str = "") -> str:
        """What a line prints. It has to end well, with these lines on standard error."""
        words = ["bash", "-c", f"set -o pipefail; {line}"]
        how = {"cwd": self.folder, "env": self.env, "timeout": SECONDS}
        ran = subprocess.run(words, capture_output=True, text=True, **how)
        assert (ran.returncode, ran.stderr) == (0, said), f"{line}\n{ran.stdout}{ran.stderr}"
        return ran.stdout

    @contextmanager
    def started(self, line: str) -> Iterator[subprocess.Popen]:
        """Runs a line that does not end by itself, and ends it."""
        with subprocess.Popen(
            ["bash", "-c", line],
            cwd=self.folder,
            env=self.env,
            stdout=subprocess.PIPE,
            stderr=subprocess.DEVNULL,
            start_new_session=True,
        ) as it:
            try:
                yield it
            finally:
                os.killpg(it.pid, signal.SIGKILL)


def until(holds: Callable[[], object]) -> None:
    """Waits until something holds."""
    end = time.monotonic() + SECONDS
    while not holds():
        assert time.monotonic() < end, "it did not come"
        time.sleep(0.05)
