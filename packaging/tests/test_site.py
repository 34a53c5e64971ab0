"""The pages as HTML: what is staged for mkdocs, and links that lead nowhere."""

import re
from pathlib import Path

import pytest
from shipping import site, table

ROOT = table.ROOT


def test_each_page_is_in_the_navigation_once() -> None:
    text = (ROOT / "packaging/site/mkdocs.yml").read_text().split("\nnav:\n")[1]
    listed = re.findall(r"(\S+\.md)$", text, re.M)
    pages = [it.relative_to(ROOT).as_posix() for it in site.pages(ROOT)]
    assert sorted(listed) == sorted([*pages, "api.md"])


@pytest.fixture
def tree(tmp_path: Path) -> Path:
    """Two pages, and what they name."""
    top = tmp_path / "tree"
    (top / "docs").mkdir(parents=True)
    (top / "server").mkdir()
    (top / ".ci").mkdir()
    (top / "server/README.md").write_text("# Server\n")
    (top / "docs/limits.rt").write_text("pub const N: u8 = 1;\n")
    (top / "docs/a.svg").write_text("<svg/>")
    (top / ".ci/run").write_text("true\n")
    return top


@pytest.mark.parametrize(
    "text, staged",
    [
        ("[b](../README.md#one)", "[b](../README.md#one)"),
        ("[`n`](limits.rt)", "[`n`](limits.rt.txt)"),
        ("![a](a.svg)", "![a](a.svg)"),
        ("[its page](../server)", "[its page](../server/README.md)"),
        ("[a folder](.)", "a folder"),
        ("[its run](../.ci/run)", "its run"),
        ("[gone](gone.rt)", "gone"),
        ("[far](https://example.org/x)", "[far](https://example.org/x)"),
        ("`[b](gone.md)`", "`[b](gone.md)`"),
        ("```\n[b](gone.md)\n```", "```\n[b](gone.md)\n```"),
    ],
)
def test_a_link(text: str, staged: str, tree: Path, tmp_path: Path) -> None:
    (tree / "README.md").write_text("# One\n")
    (tree / "docs/page.md").write_text(text)
    site.Staged(tree, tmp_path / "staged")
    assert (tmp_path / "staged/docs/page.md").read_text() == staged


def test_what_a_page_links_is_copied(tree: Path, tmp_path: Path) -> None:
    (tree / "README.md").write_text("[n](docs/limits.rt) ![a](docs/a.svg)\n")
    site.Staged(tree, tmp_path / "staged")
    found = sorted(it.name for it in (tmp_path / "staged").rglob("*") if it.is_file())
    assert found == ["README.md", "README.md", "a.svg", "limits.rt.txt"]


@pytest.mark.parametrize(
    "link, wrong",
    [
        ("b.html", []),
        ("b.html#there", []),
        ("b.html#gone", ["a.html: b.html#gone"]),
        ("#here", []),
        ("#nowhere", ["a.html: #nowhere"]),
        ("gone.html", ["a.html: gone.html"]),
        ("gone.svg", ["a.html: gone.svg"]),
        ("https://example.org/", []),
    ],
)
def test_a_link_that_leads_nowhere_is_found(link: str, wrong: list[str], tmp_path: Path) -> None:
    (tmp_path / "a.html").write_text(f'<h1 id="here">A</h1><a href="{link}">b</a>')
    (tmp_path / "b.html").write_text('<h2 id="there">B</h2>')
    assert site.dead(tmp_path) == wrong
