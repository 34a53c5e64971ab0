"""The list of what no quick test of a package reaches, and how it is compared: tools/covered.py."""

import ast
import collections
import re
from collections.abc import Iterator
from dataclasses import dataclass, field
from pathlib import Path

SOMETIMES = "Sometimes: "  # begins the reason of places that are reached or not, by chance
WHOLE = "*"  # in place of a text: whatever of a function, class or file is not reached
MODULE = "module"  # what stands in no function and no class


@dataclass(frozen=True)
class Place:
    """A line or a branch: the file, the function or class, and the text."""

    file: str
    scope: str
    text: str

    def __str__(self) -> str:
        return f"{self.file}, {self.scope}: {self.text}"


@dataclass(frozen=True)
class Measured:
    """How many quick tests passed and failed, and the places that they did not reach."""

    passed: int
    failed: int
    places: list[Place]


def scopes_of(path: Path) -> dict[int, str]:
    """The function or class of each line of a file, by its language."""
    text = path.read_text()
    return dict(_of_go(text) if path.suffix == ".go" else _of_python(ast.parse(text), ""))


def _of_python(node: ast.AST, name: str) -> Iterator[tuple[int, str]]:
    for it in ast.iter_child_nodes(node):
        inner = name
        if isinstance(it, (ast.FunctionDef, ast.ClassDef, ast.AsyncFunctionDef)):
            inner = f"{name}.{it.name}" if name else it.name
            yield from ((at, inner) for at in range(it.lineno, (it.end_lineno or it.lineno) + 1))
        yield from _of_python(it, inner)


def _of_go(text: str) -> Iterator[tuple[int, str]]:
    """Of a file as gofmt leaves it: a function begins and ends at the first column."""
    scope = ""
    for at, line in enumerate(text.splitlines(), 1):
        found = re.match(r"func (?:\((?:\w+ )?\*?(\w+)[^)]*\) )?(\w+)", line)
        if found:
            scope = ".".join(filter(None, found.groups()))
        if scope:
            yield at, scope
        if line.startswith("}") or found and line.endswith("}"):
            scope = ""


@dataclass
class Kept:
    """The places of the list: those that no test reaches, those that are reached sometimes, and
    its lines that are no place or have no reason."""

    never: list[Place] = field(default_factory=list)
    sometimes: list[Place] = field(default_factory=list)
    wrong: list[str] = field(default_factory=list)


def listed(path: Path) -> Kept:
    """The places of the list."""
    kept, reason = Kept(), ""
    for line in path.read_text().splitlines() if path.exists() else []:
        found = re.fullmatch(r"(\S+), ([\w.]+): (.+)", line)
        if line.startswith("["):
            reason = line.strip("[]")
        elif found and reason:
            places = kept.sometimes if reason.startswith(SOMETIMES) else kept.never
            places.append(Place(*found.groups()))
        elif line and not line.startswith("#"):
            kept.wrong.append(f"no place with a reason: {line}")
    return kept


def is_in(folder: Path, place: Place) -> bool:
    """Whether the file has such a line in this function or class."""
    path = folder / place.file
    if not path.is_file():
        return False
    scopes, wanted = scopes_of(path), place.text.partition(" -> ")[0]
    if place.text == WHOLE:
        return place.scope == MODULE or place.scope in scopes.values()
    lines = enumerate(map(str.strip, path.read_text().splitlines()), 1)
    of_scope = [it for line, it in lines if scopes.get(line, MODULE) == place.scope]
    return place.text in of_scope or wanted in of_scope


def has(place: Place, it: Place) -> bool:
    """Whether a place of the list is this one."""
    if place.text != WHOLE:
        return place == it
    within = place.scope in (MODULE, it.scope) or it.scope.startswith(f"{place.scope}.")
    return place.file == it.file and within


def differences(found: list[Place], kept: Kept) -> list[str]:
    """What is not in the list, how often, and what is in it and is reached."""
    counts = collections.Counter(it for it in kept.never if it.text != WHOLE)
    wide = [it for it in kept.never if it.text == WHOLE]
    rest = collections.Counter(
        it for it in found if not any(has(of, it) for of in wide + kept.sometimes)
    )
    said = []
    for it, count in (rest - counts).items():
        more = f" ({count})" if count > 1 else ""
        said.append(f"is not reached, and not in the list: {it}{more}")
    reached = [of for of in wide if not any(has(of, it) for it in found)]
    said += [f"is in the list, and is reached: {it}" for it in [*reached, *(counts - rest)]]
    return said


def compared(folder: Path, path: Path, found: list[Place]) -> list[str]:
    """What differs between a package's list and what was not reached."""
    kept = listed(path)
    gone = [f"is not in the file: {it}" for it in kept.sometimes if not is_in(folder, it)]
    return [*kept.wrong, *differences(found, kept), *gone]
