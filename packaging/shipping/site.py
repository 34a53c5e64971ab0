"""The pages as HTML with search, by mkdocs, and the API of each client by its language's tool."""

import os
import re
import shutil
import tempfile
from html.parser import HTMLParser
from pathlib import Path
from urllib.parse import unquote, urlsplit

from .running import Failed, run

PAGES = (
    "*.md",
    "docs/**/*.md",
    "apps/*/README.md",
    "clients/**/*.md",
    "crates/*/CALLING.md",
    "server/README.md",
)
LINK = re.compile(r"(?<!`)(!?)\[([^\]\n]*)\]\(([^)\s#]+)(#[^)\s]*)?\)")
BLOCK = re.compile(r"^(?:```.*?^```|    .*?$)", re.M | re.S)
# What a browser shows as it is; another file is shown as text.
SHOWN = (".md", ".html", ".png", ".svg", ".txt", ".json")
API = """# API of each client

| | |
|---|---|
| [Python](api/python/index.html) | `tb_client` |
| [Java](api/java/index.html) | `org.telovamish.tbclient` |
| [C](api/c/index.html) | `tb_client.h`, `tb_embed.h` |
| [Go](api/go.txt) | `telovamish.org/tbclient` |
| [TypeScript, Node](api/index.d.ts.txt) | `tb-client` |
"""
DOXYGEN = """PROJECT_NAME = "C: tb_client, tb_embed"
INPUT = {tree}/clients/c/include/tb_client.h {tree}/clients/embed/tb_embed.h
OUTPUT_DIRECTORY = {into}
HTML_OUTPUT = c
GENERATE_LATEX = NO
EXTRACT_ALL = YES
OPTIMIZE_OUTPUT_FOR_C = YES
HTML_TIMESTAMP = NO
QUIET = YES
"""
SPHINX = """project = "tb_client"
extensions = ["sphinx.ext.autodoc"]
autodoc_member_order = "bysource"
html_show_copyright = False
"""
MODULES = "tb_client\n=========\n\n.. automodule:: tb_client\n   :members:\n   :imported-members:\n"


def pages(tree: Path) -> list[Path]:
    """The pages of a tree, without those that a tool leaves in a folder of its own."""
    found = {it for pattern in PAGES for it in tree.glob(pattern)}
    return sorted(it for it in found if not any(p[0] == "." for p in it.relative_to(tree).parts))


class Staged:
    """A copy of the pages, and of each file that one of them links."""

    def __init__(self, tree: Path, into: Path) -> None:
        self.tree, self.into = tree.resolve(), into
        self.pages = pages(self.tree)
        for page in self.pages:
            self.put(page, self.linked(page))

    def put(self, path: Path, text: str) -> None:
        place = self.into / path.relative_to(self.tree)
        place.parent.mkdir(parents=True, exist_ok=True)
        place.write_text(text)

    def linked(self, page: Path) -> str:
        """The text of a page. Its links lead to pages, and to files that are copied."""

        def link(found: re.Match[str]) -> str:
            picture, words, target, anchor = found.groups()
            if re.match(r"[a-z]+:", target):
                return found[0]
            path = (page.parent / target).resolve()
            if path.is_dir():
                path, target = path / "README.md", f"{target.rstrip('/')}/README.md"
            if path not in self.pages:
                if not path.is_file() or self.is_left_out(path):
                    return words
                target += self.copy(path)
            return f"{picture}[{words}]({target}{anchor or ''})"

        text, parts, at = page.read_text(), [], 0
        for code in BLOCK.finditer(text):
            parts += [LINK.sub(link, text[at : code.start()]), code[0]]
            at = code.end()
        return "".join([*parts, LINK.sub(link, text[at:])])

    def is_left_out(self, path: Path) -> bool:
        """Whether a file is not of the tree, or one that mkdocs does not copy."""
        is_inside = self.tree in path.parents
        return not is_inside or any(it[0] == "." for it in path.relative_to(self.tree).parts)

    def copy(self, path: Path) -> str:
        """Copies a file. What its name has more there."""
        more = "" if path.suffix in SHOWN else ".txt"
        place = self.into / path.relative_to(self.tree)
        place.parent.mkdir(parents=True, exist_ok=True)
        shutil.copyfile(path, f"{place}{more}")
        return more


def api(tree: Path, into: Path, room: Path) -> None:
    """The API of each client, and the page that leads to it."""
    (into / "api").mkdir()
    (into / "api.md").write_text(API)
    (room / "Doxyfile").write_text(DOXYGEN.format(tree=tree, into=into / "api"))
    run(["doxygen", room / "Doxyfile"])
    java = sorted((tree / "clients/java/src/main/java").rglob("*.java"))
    run(["javadoc", "-quiet", "-notimestamp", "-Xdoclint:none", "-d", into / "api/java", *java])
    python = room / "python"
    python.mkdir()
    (python / "conf.py").write_text(SPHINX)
    (python / "index.rst").write_text(MODULES)
    paths = {"PYTHONPATH": str(tree / "clients/python/src"), "PYTHONDONTWRITEBYTECODE": "1"}
    sphinx = ["/usr/bin/python3", "-m", "sphinx", "-q", "-d", f"{room}/doctrees"]
    run([*sphinx, python, into / "api/python"], env=paths)
    (into / "api/python/.buildinfo").unlink()
    go = run(["go", "doc", "-all", "."], cwd=tree / "clients/go", env={"GOFLAGS": "-mod=mod"})
    (into / "api/go.txt").write_text(go)
    shutil.copyfile(tree / "clients/node/index.d.ts", into / "api/index.d.ts.txt")


class Links(HTMLParser):
    """What a page of HTML names, and its own anchors."""

    def __init__(self, page: Path) -> None:
        super().__init__()
        self.links: list[str] = []
        self.anchors: set[str] = set()
        self.feed(page.read_text(errors="replace"))

    def handle_starttag(self, tag: str, attrs: list[tuple[str, str | None]]) -> None:
        given = dict(attrs)
        self.links += [it for it in (given.get("href"), given.get("src")) if it]
        self.anchors |= {it for it in (given.get("id"), given.get("name")) if it}


def dead(site: Path, made_by_others: tuple[str, ...] = ("api/",)) -> list[str]:
    """The links within a site that lead nowhere."""
    found: dict[Path, Links] = {}

    def of(page: Path) -> Links:
        return found.setdefault(page, Links(page)) if page not in found else found[page]

    wrong = []
    for page in sorted(site.rglob("*.html")):
        name = page.relative_to(site).as_posix()
        if name.startswith(made_by_others):
            continue
        for link in of(page).links:
            parts = urlsplit(link)
            if parts.scheme or parts.netloc or link.startswith("/"):
                continue
            target = (page.parent / unquote(parts.path)).resolve() if parts.path else page
            is_page = target.suffix == ".html" and target.is_file()
            anchor = unquote(parts.fragment)
            if not target.exists() or (is_page and anchor and anchor not in of(target).anchors):
                wrong.append(f"{name}: {link}")
    return wrong


def write(tree: Path, epoch: int, site: Path) -> str:
    """Builds the site of a tree. Failed if a link leads nowhere."""
    with tempfile.TemporaryDirectory() as folder:
        room = Path(folder)
        staged = room / "docs"
        count = len(Staged(tree, staged).pages)
        api(tree, staged, room)
        shutil.copyfile(tree / "packaging/site/mkdocs.yml", room / "mkdocs.yml")
        shutil.copyfile(tree / "packaging/site/site.css", staged / "site.css")
        words = ["mkdocs", "build", "--strict", "--config-file", f"{room}/mkdocs.yml"]
        run([*words, "--site-dir", site], env={"SOURCE_DATE_EPOCH": str(epoch)})
    if wrong := dead(site):
        raise Failed(f"{len(wrong)} links lead nowhere:\n" + "\n".join(wrong[:20]))
    for path in site.rglob("*"):
        path.chmod(0o755 if path.is_dir() else 0o644)
        os.utime(path, (epoch, epoch))
    return f"{count} pages"
