"""Every link of every page leads somewhere: a file of the repository, and a heading in it; and each
page is at most two links from README."""

import re
from pathlib import Path

import pytest

from ..conftest import ROOT
from .clones import pages

LINK = re.compile(r"!?\[[^\]\n]*\]\(([^)\s]+)\)")
CODE = re.compile(r"^(```.*?^```|    .*?$)|`[^`\n]*`", re.M | re.S)
HEADING = re.compile(r"^#+ (.+?)\s*$", re.M)


def anchors(page: Path) -> set[str]:
    """The anchors of a page's headings, as the usual renderers make them."""
    found: dict[str, int] = {}
    names = set()
    for heading in HEADING.findall(page.read_text()):
        plain = re.sub(r"[`*]|\[([^\]]*)\]\([^)]*\)", r"\1", heading).lower()
        name = re.sub(r"[^\w\- ]", "", plain).strip().replace(" ", "-")
        names.add(name if name not in found else f"{name}-{found[name]}")
        found[name] = found.get(name, 0) + 1
    return names


def broken(page: Path) -> list[str]:
    """The links of a page that lead nowhere."""
    wrong = []
    for link in LINK.findall(CODE.sub("", page.read_text())):
        path, _, anchor = link.partition("#")
        if re.match(r"[a-z]+:", link):
            continue
        target = page.parent / path if path else page
        if not target.exists():
            wrong.append(link)
        elif anchor and target.suffix == ".md" and anchor not in anchors(target):
            wrong.append(link)
    return wrong


def linked(page: Path) -> set[Path]:
    """The pages that a page links."""
    paths = (link.partition("#")[0] for link in LINK.findall(CODE.sub("", page.read_text())))
    return {(page.parent / it).resolve() for it in paths if it.endswith(".md") and ":" not in it}


def far(readme: Path, found: list[Path]) -> list[Path]:
    """The pages that are more than two links from README."""
    near = linked(readme)
    near |= {it for page in near for it in linked(page)} | {readme}
    return [it for it in found if it.resolve() not in near]


@pytest.mark.parametrize("page", pages(), ids=lambda it: str(it.relative_to(ROOT)))
def test_links_of(page: Path) -> None:
    assert broken(page) == []


def test_a_broken_link_is_found(tmp_path: Path) -> None:
    page = tmp_path / "page.md"
    page.write_text("# One\n[a](page.md#one) [b](page.md#two) [c](gone.md) `[d](gone.md)`\n")
    assert broken(page) == ["page.md#two", "gone.md"]


def test_each_page_is_two_links_from_readme() -> None:
    assert far(ROOT / "README.md", pages()) == []


def test_a_page_that_is_far_is_found(tmp_path: Path) -> None:
    made = [tmp_path / f"{it}.md" for it in ("readme", "one", "two", "three")]
    for page, next_one in zip(made, [*made[1:], made[0]]):
        page.write_text(f"[it]({next_one.name})\n")
    assert far(made[0], made) == [made[3]]
