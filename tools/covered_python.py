"""Runs the quick tests of a Python package, and says what they do not reach: tools/covered.py.

Lines and branches of the package (the names of [tool.setuptools] in its pyproject.toml) are counted
by Debian's python3-coverage, also in the processes that tests start. A branch is `text -> text of
the next line`.
"""

import json
import os
import subprocess
import tempfile
import tomllib
from pathlib import Path
from typing import Any

from parts import MARKED, PYTHON, ROOT, Counts, Part, pytest_counts, run
from unreached import MODULE, Place, scopes_of

Reached = dict[str, Any]  # of a file, as coverage writes it
STARTS = "import coverage\n\ncoverage.process_startup()\n"
SETTINGS = """[run]
branch = True
parallel = True
data_file = {data}
source =
    {sources}
"""


def sources_of(folder: Path) -> list[Path]:
    """The folders of the package's own modules."""
    about = tomllib.loads((folder / "pyproject.toml").read_text())["tool"]["setuptools"]
    names = {it.partition(".")[0] for it in about["packages"]}
    return [folder / about["package-dir"][""] / it for it in sorted(names)]


def tested(folder: Path, room: Path, words: list[str]) -> tuple[Counts, dict[str, Reached]]:
    """Runs the tests: how many passed and failed, and what was reached of each file."""
    settings, data = room / "settings", room / "data"
    sources = "\n    ".join(map(str, sources_of(folder)))
    settings.write_text(SETTINGS.format(data=data, sources=sources))
    (room / "sitecustomize.py").write_text(STARTS)
    folders = [str(room), str(ROOT / "tools/testing"), os.environ.get("PYTHONPATH")]
    path = os.pathsep.join(filter(None, folders))
    env = ["env", f"COVERAGE_PROCESS_START={settings}", f"PYTHONPATH={path}"]
    part = Part("tests", str(folder), [*env, *MARKED, "not slow", *words], pytest_counts)
    result = run(part, is_live=True)
    found = room / "found.json"
    for more in (["combine", "-q"], ["json", "-q", "-o", str(found)]):
        words = [PYTHON, "-m", "coverage", *more, f"--rcfile={settings}"]
        subprocess.run(words, cwd=folder, check=True)
    return result.counts, json.loads(found.read_text())["files"]


def unreached(folder: Path, files: dict[str, Reached]) -> list[Place]:
    """The lines that no test reached, and the branches of reached lines that none took."""
    found = []
    for name, of in sorted(files.items()):
        text = (folder / name).read_text()
        lines, scopes = [it.strip() for it in text.splitlines()], scopes_of(folder / name)

        def place(line: int, shown: str) -> Place:
            return Place(name, scopes.get(line, MODULE), shown)

        missing = set(of["missing_lines"])
        found += [place(it, lines[it - 1]) for it in sorted(missing)]
        for first, second in of["missing_branches"]:
            if first not in missing and second not in missing:
                to = lines[second - 1] if second > 0 else "end"
                found.append(place(first, f"{lines[first - 1]} -> {to}"))
    return found


def measured(folder: Path, words: list[str]) -> tuple[Counts, list[Place]]:
    with tempfile.TemporaryDirectory() as room:
        counts, files = tested(folder, Path(room), words)
    return counts, unreached(folder, files)
