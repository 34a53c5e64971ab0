"""Runs the tests of a Go module, and says what they do not reach: tools/covered.py.

Statements are counted by `go test`, in the same run, of each package over the tests of all. A place
is a line at which a block begins, as a condition or a case, of which not all is reached. If its
function has this line more than once, it is `the line before -> the line`. A file that is in no
program of the tests is one place, with `*`.
"""

import collections
import re
import tempfile
from collections.abc import Iterator
from pathlib import Path

from parts import KIT, Counts, Part, by_status, closing_line, go_counts, run
from unreached import MODULE, WHOLE, Place, scopes_of

BLOCK = re.compile(r"(\S+\.go):(\d+)\.(\d+),\S+ ([1-9]\d*) (\d+)")  # one with statements
Blocks = dict[
    tuple[int, int], int
]  # how often each was reached, by the line and column it begins at


def tested(folder: Path, profiles: Path, words: list[str]) -> Iterator[Counts]:
    """Runs the tests: those of the packages, or of a `build` that knows where they are. Of a client
    the kit's scenarios are tests too: over its runner, whose processes count for themselves."""
    go = ["./build", "test"] if (folder / "build").exists() else ["go", "test"]
    counting = ["-covermode=atomic", f"-coverpkg={module_of(folder)}/..."]
    every = [] if (folder / "build").exists() else ["./..."]
    own = [*go, "-v", *counting, f"-coverprofile={profiles}/tests", *words, *every]
    yield run(Part("tests", str(folder), own, go_counts), is_live=True).counts
    if (folder / "conformance.json").exists():
        runner = profiles.parent / "runner"
        build = [*go, "-c", "-tags", "kit", *counting, "-o", str(runner), "./internal/conformance"]
        yield run(Part("its runner", str(folder), build, by_status), is_live=True).counts
        words = ["env", f"PROFILES={profiles}", *KIT, "--", str(runner), "-test.run=Runner"]
        yield run(Part("kit", str(folder), words, closing_line), is_live=True).counts


def module_of(folder: Path) -> str:
    return (folder / "go.mod").read_text().split()[1]


def blocks_of(profile: str, module: str) -> dict[str, Blocks]:
    """The blocks of each file, over all tests."""
    files: dict[str, Blocks] = collections.defaultdict(collections.Counter)
    for name, line, column, _, count in BLOCK.findall(profile):
        files[name.removeprefix(f"{module}/")][int(line), int(column)] += int(count)
    return files


def of_file(path: Path, name: str, blocks: Blocks) -> list[Place]:
    """The lines of a file at which a block begins that no test reached."""
    lines, scopes = [it.strip() for it in path.read_text().splitlines()], scopes_of(path)
    begin = {line: Place(name, scopes.get(line, MODULE), lines[line - 1]) for line, _ in blocks}
    often = collections.Counter(begin.values())

    def place(line: int) -> Place:
        it = begin[line]
        if often[it] == 1:
            return it
        before = next(text for text in reversed(lines[: line - 1]) if re.search(r"\w", text))
        return Place(name, it.scope, f"{before} -> {it.text}")

    return [place(line) for line in sorted({at for (at, _), count in blocks.items() if not count})]


def unreached(folder: Path, profile: str) -> list[Place]:
    """The blocks that no test reached, and the files with functions of which none was there."""
    files, found = blocks_of(profile, module_of(folder)), []
    for path in sorted(folder.rglob("*.go")):
        name = path.relative_to(folder).as_posix()
        if name in files:
            found += of_file(path, name, files[name])
        elif not name.endswith("_test.go") and "out" not in path.parts and scopes_of(path):
            found.append(Place(name, MODULE, WHOLE))
    return found


def measured(folder: Path, words: list[str]) -> tuple[Counts, list[Place]]:
    with tempfile.TemporaryDirectory() as room:
        profiles = Path(room) / "profiles"
        profiles.mkdir()
        passed, failed = map(sum, zip(*tested(folder, profiles, words)))
        text = "".join(it.read_text() for it in profiles.iterdir())
    return Counts(passed, failed), unreached(folder, text)
