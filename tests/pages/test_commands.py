"""The commands of the pages' shell blocks: each program is there, and has the options that the page
gives it.

test_blocks.py, test_long_blocks.py, packaging/try and the tests of the clients run the lines. What
only this test sees: lines that prove, that need another machine, or that run for minutes.
"""

import functools
import re
import shlex
import subprocess
from collections.abc import Iterator
from pathlib import Path

import pytest

from ..conftest import ROOT
from .clones import blocks, lines, pages

APPS = {"telovamish": "apps/telovamish", "tb-sql": "apps/books"}
APPS |= {"tb-listen": "server/out", "tb-replica": "server/out"}
# Commands of the shell, the system, other languages and the kit; and what a block has made.
OTHERS = """for done export sleep cmp mv install man editor curl rsync sh grep tail apt systemctl
    journalctl runuser cc
    rustc cargo javac java go npm node tsc pip mypy sqlite3 etcdctl cd rt make tbs tbd
    $OUT/first $OUT/first_rs $OUT/script"""


def commands(line: str) -> Iterator[list[str]]:
    """The words of each command of a line."""
    while line != (line := re.sub(r"\$\([^()]*\)", "made", line)):
        pass
    parts = shlex.shlex(line, posix=True, punctuation_chars=True)
    parts.whitespace_split = True
    words: list[str] = []
    for it in [*parts, ";"]:
        if set(it) <= set("();|&"):
            yield [word for word in words if word != "do" and not re.match(r"\w+=", word)]
            words = []
        else:
            words.append(it)


def script(page: Path, words: list[str]) -> list[str]:
    """A command as it is called here, with its form if it has forms; not those of the system."""
    if words[0].endswith("python3"):
        words = [it for it in words[1:] if it != "-B"]
    name = words[0]
    if name == "-m":
        at = [it for it in words[2:] if "/" in it]
        assert all((page.parent / it).exists() or (ROOT / it).exists() for it in at), words
        return []
    if name in APPS or Path(name).name in APPS:
        form = words[1] if len(words) > 1 and words[1][0] not in "-<" else ""
        name = Path(name).name
        form = form or ("repl" if name == "telovamish" else "")
        return [str(ROOT / APPS[name] / name), *([form] if form else [])]
    if name in OTHERS.split() or name.startswith(("crates/", "../../crates/")):
        return []
    found = [it for it in (page.parent / name, ROOT / name) if it.is_file()]
    assert found, f"no program {name}"
    return [str(found[0])]


@functools.cache
def help_of(*words: str) -> str:
    return subprocess.run([*words, "--help"], capture_output=True, text=True, check=True).stdout


def wrong(page: Path) -> list[str]:
    """The options that a program of the page does not have."""
    found = []
    for block in blocks(str(page.relative_to(ROOT)), "sh"):
        for words in (it for line in lines(block) for it in commands(line) if it):
            called = script(page, words)
            own = words[: words.index("--")] if "--" in words else words
            options = [it for it in own if it.startswith("--")]
            if called and options:
                has = help_of(*called)
                found += [it for it in options if not re.search(rf"{it}(?![\w-])", has)]
    return found


@pytest.mark.parametrize("page", pages(), ids=lambda it: str(it.relative_to(ROOT)))
def test_commands_of(page: Path) -> None:
    assert wrong(page) == []


def test_an_option_that_is_gone_is_found(monkeypatch: pytest.MonkeyPatch) -> None:
    monkeypatch.setattr(f"{__name__}.blocks", lambda *_: ["tools/tables.py --gone --write\n"])
    assert wrong(ROOT / "README.md") == ["--gone"]
