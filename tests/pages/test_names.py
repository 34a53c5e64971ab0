"""What pages say of the code is there, as far as a search can say.

- Each Rust example of a page CALLING.md is there word for word, except its imports, in a crate that
  the gate proves.
- The head of each crate's lib.rt or main.rt lists exactly the modules of that crate; if it lists
  those of a module, these too. So does the head of a module that lists any.
- Each name that a walk of docs/work/ARCHITECTURE.md gives as `module::function` or `Type::call` is
  in the crate that comes before it; so is each file that the page names, with the names in brackets
  after it, or before it as `name of` it.
- Each definition that docs/trust/BELIEVE.md lists is in the file that it names.
- Each file that a page names by its path from the top is there, except what is built.
- Each file that begins with #! may be run.
- Each option of a program that users start is on a page of docs/use/.
- Each name that docs/work/GLOSSARY.md gives a word is in the sources, the definitions or the
  Python client.
"""

import functools
import os
import pathlib
import re

import pytest
import repository

from ..conftest import ROOT

CRATES = ROOT / "crates"
BLOCK = re.compile(r"```rust\n(.*?)```", re.S)
NAME = re.compile(r"`([A-Za-z_]+(?:::[A-Za-z_]+)+)`|\b(tb_\w+|avl_tree|tbs|tbd)\b")
PATH = re.compile(
    r"(?<![\w/.*-])((?:docs|apps|bench|clients|crates|packaging|server|tables|tests|tools)/"
    r"[\w./-]*\w)(?![\w*/])"
)
# What is in a folder out/, and what a page says may be missing.
ABSENT = re.compile(r"/out(?:/|$)|^crates/NAME")
FILE = re.compile(r"`([\w./-]+\.(?:antt|rt|py|rs|h|md|txt))`")
OPTION = re.compile(r"(?<![\w-])--[a-z][a-z-]*")
STRING = re.compile(r'"(--[a-z][a-z-]*)"')
NAMED = re.compile(r'\b[nN]ame: "([a-z][a-z-]*)"')
# The files that have the options of the programs that users start.
OPTIONS = (
    "crates/*/src/help.rt",
    "server/internal/config/config.go",
    "server/internal/manage/arguments.go",
    "server/internal/replicated/options.go",
    "apps/telovamish/src/telovamish/*.py",
    "apps/books/src/tb_sql/commands.py",
)


def without_imports(block: str) -> str:
    """The example after its last import."""
    lines = block.splitlines(keepends=True)
    imports = [at for at, line in enumerate(lines) if line.startswith(("use ", "ghost use "))]
    return "".join(lines[imports[-1] + 1 if imports else 0 :]).lstrip("\n")


@functools.cache
def code() -> str:
    """The source files of all crates."""
    return "\n".join(path.read_text() for path in sorted(ROOT.glob("crates/*/src/**/*.rt")))


def stands(block: str) -> bool:
    """Says that an example is in a crate."""
    return without_imports(block) in code()


def examples():
    """Each example: where it is, and what is wrong with it."""
    for page in sorted(ROOT.glob("crates/*/CALLING.md")):
        for block in BLOCK.findall(page.read_text()):
            yield page.relative_to(ROOT), None if stands(
                block
            ) else f"is in no caller: {block.splitlines()[0]}"


def modules(text: str) -> set[str]:
    """The modules that a file declares."""
    return set(re.findall(r"^(?:pub(?:\(crate\))? )?mod (\w+);", text, re.M))


def listed(text: str) -> set[str]:
    """The modules that the head of a file lists."""
    return set(re.findall(r"^//! - `(\w+)`:", text, re.M))


def heads():
    """The head of each crate, and the modules that it does not list, or that are not there; and
    that of each module that lists its own."""
    for crate in sorted(CRATES.iterdir()):
        for root in ("lib.rt", "main.rt"):
            path = crate / "src" / root
            if path.exists():
                text = path.read_text()
                wrong = modules(text) ^ listed(text)
                for module, nested in re.findall(
                    r"^//! - `(\w+)`:.*\n((?://!   .*\n)+)", text, re.M
                ):
                    inner = set(re.findall(r"^//!   - `(\w+)`:", nested, re.M))
                    if inner:
                        wrong |= modules((crate / "src" / f"{module}.rt").read_text()) ^ inner
                yield path.relative_to(
                    ROOT
                ), f"not listed, or not there: {' '.join(sorted(wrong))}" if wrong else None
    for path in sorted(CRATES.glob("*/src/**/*.rt")):
        text = path.read_text()
        if path.name not in ("lib.rt", "main.rt") and modules(text) and listed(text):
            wrong = modules(text) ^ listed(text)
            said = f"not listed, or not there: {' '.join(sorted(wrong))}"
            yield path.relative_to(ROOT), said if wrong else None


@functools.cache
def sources(crate: str) -> str:
    """The source files of a crate."""
    return "\n".join(path.read_text() for path in sorted((CRATES / crate / "src").rglob("*.rt")))


def is_there(crate: str, name: str) -> bool:
    """Says that a crate has a call of a type, or an item in a module."""
    *place, item = name.split("::")
    if place[0][0].isupper():
        text = (
            sources(crate)
            if re.search(rf"\b(?:struct|enum|trait|type|for) {place[0]}\b", sources(crate))
            else ""
        )
    else:
        path = CRATES.joinpath(crate, "src", *place).with_suffix(".rt")
        text = path.read_text() if path.exists() else ""
    return re.search(rf"\b(?:fn|struct|enum|trait|const|type) {item}\b", text) is not None


def walks():
    """Each name of a walk, and whether it is in the crate that comes before it."""
    page = ROOT / "docs/work/ARCHITECTURE.md"
    text = page.read_text()
    walked = text[text.index("\n## Walks\n") :]
    walked = walked[: walked.index("\n## ", 1)]
    for step in re.split(r"\n(?=\d+\. |#)", walked):
        crate = None
        for name, named in NAME.findall(step):
            if named:
                crate = named
            elif "module::" not in name and "Type::" not in name:
                yield page.relative_to(ROOT), None if crate and is_there(
                    crate, name
                ) else f"{name} is not in {crate}"


def file_named(name: str) -> pathlib.Path | None:
    """The file that a page names, from the top or from crates/ on."""
    return next((place / name for place in (ROOT, CRATES) if (place / name).exists()), None)


def named_files():
    """Each file that the page of the architecture names."""
    page = ROOT / "docs/work/ARCHITECTURE.md"
    text = " ".join(page.read_text().split())
    for name in FILE.findall(text):
        yield page.relative_to(ROOT), None if file_named(name) else f"{name} is not there"
    said = [
        (file, name)
        for file, names in re.findall(r"`([\w./-]+)` \(([^)]*)\)", text)
        for name in re.findall(r"`(\w+)`", names)
    ]
    said += [(file, name) for name, file in re.findall(r"`(\w+)` of `([\w./-]+)`", text)]
    for file, name in said:
        path = file_named(file)
        if path and path.is_file():
            found = re.search(rf"\b{name}\b", path.read_text())
            yield page.relative_to(ROOT), None if found else f"{name} is not in {file}"


def paths():
    """Each path that a page names from the top."""
    pages = ("*.md", "docs/**/*.md", "clients/**/*.md", "crates/*/CALLING.md")
    for page in sorted(it for pattern in pages for it in ROOT.glob(pattern)):
        for path in sorted(set(PATH.findall(page.read_text()))):
            if not ABSENT.search(path) and not (page.parent / path).exists():
                there = (ROOT / path).exists()
                yield page.relative_to(ROOT), None if there else f"{path} is not there"


def scripts():
    """Each file that begins with #!, and whether it may be run."""
    for name in repository.files(ROOT):
        with open(ROOT / name, "rb") as file:
            is_script = file.read(2) == b"#!"
        if is_script:
            runs = os.access(ROOT / name, os.X_OK)
            yield name, None if runs else "begins with #!, and may not be run"


def options():
    """Each option of a program, and whether a page of docs/use/ names it."""
    pages = [page.read_text() for page in ROOT.glob("docs/use/*.md")]
    named = {it for page in pages for it in OPTION.findall(page)}
    for path in sorted(it for pattern in OPTIONS for it in ROOT.glob(pattern)):
        words = {".rt": OPTION, ".go": NAMED}.get(path.suffix, STRING)
        found = {f"--{it.removeprefix('--')}" for it in words.findall(path.read_text())}
        for option in sorted(found - named):
            yield path.relative_to(ROOT), f"{option} is on no page of docs/use/"
        yield path.relative_to(ROOT), None


def believed():
    """Each definition that the reading list names, in its file."""
    page = ROOT / "docs/trust/BELIEVE.md"
    found = re.findall(r"(\w+/specs/\w+\.antt)\s\(([^)]*)\)", page.read_text())
    named = [(file, name) for file, names in found for name in re.findall(r"`(\w+)`", names)]
    for file, name in named:
        path = CRATES / file
        known = path.exists() and re.search(rf"^ *(?:\w+ )*{name}\b", path.read_text(), re.M)
        yield page.relative_to(ROOT), None if known else f"{name} is not in {file}"


def glossed():
    """Each name in the code that the glossary gives a word."""
    files = [
        *CRATES.glob("*/src/**/*.rt"),
        *CRATES.glob("*/specs/**/*.antt"),
        *ROOT.glob("clients/python/src/tb_client/*.py"),
    ]
    text = "\n".join(path.read_text() for path in files)
    there = set(re.findall(r"\w+", text))
    page = ROOT / "docs/work/GLOSSARY.md"
    for row in re.findall(r"^- \*\*.*$", page.read_text(), re.M):
        for name in re.findall(r"`([\w:]+)`", row):
            missing = set(name.split("::")) - there
            yield page.relative_to(ROOT), f"{name} is no name in the code" if missing else None


CHECKS = (
    examples,
    heads,
    walks,
    named_files,
    paths,
    scripts,
    options,
    believed,
    glossed,
)


@pytest.mark.parametrize("check", CHECKS, ids=lambda it: it.__name__)
def test_what_pages_say(check):
    cases = list(check())
    assert cases
    assert [f"{place}: {wrong}" for place, wrong in cases if wrong] == []
