"""The version is that of packaging/VERSION; here is each place that repeats it."""

import re
from pathlib import Path

# A pattern has the version as its group.
PLACES = {
    "apps/books/pyproject.toml": r'^version = "(.*)"$',
    "apps/books/src/tb_sql/__init__.py": r'^__version__ = "(.*)"$',
    "apps/telovamish/pyproject.toml": r'^version = "(.*)"$',
    "apps/telovamish/src/telovamish/__init__.py": r'^__version__ = "(.*)"$',
    "clients/java/pom.xml": r"^  <version>(.*)</version>$",
    "clients/node/package.json": r'^  "version": "(.*)",$',
    "clients/python/pyproject.toml": r'^version = "(.*)"$',
    "clients/python/src/tb_client/__init__.py": r'^__version__ = "(.*)"$',
    "crates/tb_edge_file/src/help.rt": r'"tbd (\d[\d.]*)\\n"',
    "CHANGELOG.md": r"^## (\d[\d.]*)",
}


def the_version(root: Path) -> str:
    return (root / "packaging/VERSION").read_text().strip()


def others(root: Path) -> dict[str, str]:
    """Each place whose version is another one, with it."""
    version, wrong = the_version(root), {}
    for name, pattern in PLACES.items():
        found = re.search(pattern, (root / name).read_text(), re.M)
        if not found or found[1] != version:
            wrong[name] = found[1] if found else "none"
    return wrong


def rewrite(root: Path, version: str) -> None:
    """Gives a copy of the repository another version: a trial of an upgrade."""
    (root / "packaging/VERSION").write_text(f"{version}\n")
    for name, pattern in PLACES.items():
        path = root / name
        text = path.read_text()
        found = re.search(pattern, text, re.M)
        if found:
            path.write_text(text[: found.start(1)] + version + text[found.end(1) :])
