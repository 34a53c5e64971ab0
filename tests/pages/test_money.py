"""Every block of every page that moves money is run twice over one ledger, and moves it once: what
people copy from a page is started again by a supervisor, or by hand."""

import re
import shutil
import subprocess
import sys
from collections.abc import Callable, Iterator
from pathlib import Path
from typing import NamedTuple

import pytest

from ..conftest import ROOT
from .clones import Clone, until
from .clones import pages

MOVES = re.compile(r"create_?transfers", re.I)
BLOCK = re.compile(r"^```(\w+)\n(.*?)^```$", re.M | re.S)
PORT, SOCKET = '"3001"', '"./ledger.sock"'
FILE = 'open("books.tbk")'


class Block(NamedTuple):
    """A block of a page that names the operation."""

    page: str
    kind: str
    text: str

    @property
    def name(self) -> str:
        return f"{self.page}: {self.text.splitlines()[0].strip()}"


def moving() -> Iterator[Block]:
    for page in pages():
        for kind, text in BLOCK.findall(page.read_text()):
            if MOVES.search(text):
                yield Block(str(page.relative_to(ROOT)), kind, text)


def python(clone: Clone, text: str) -> None:
    there = text.replace(PORT, SOCKET).replace(FILE, f"connect({SOCKET})")
    (clone.folder / "block.py").write_text(there)
    clone.run(f"{sys.executable} -B block.py")


def node(clone: Clone, text: str) -> None:
    modules = clone.folder / "node_modules"
    modules.mkdir(exist_ok=True)
    if not (modules / "tb-client").exists():
        (modules / "tb-client").symlink_to(ROOT / "clients/node")
    there = text.replace(PORT, SOCKET).replace(FILE, f"connect({SOCKET})")
    (clone.folder / "block.mjs").write_text(there)
    clone.run("node block.mjs")


def go(clone: Clone, text: str) -> None:
    folder = clone.folder / "sale"
    if not folder.exists():
        folder.mkdir()
        (folder / "main.go").write_text(text)
        there = f"telovamish.org/tbclient={ROOT}/clients/go"
        edits = f"-require telovamish.org/tbclient@v0.0.0 -replace {there}"
        made = f"go mod init sale && go mod edit {edits} && go build -o ../sale.out ."
        subprocess.run(["sh", "-c", made], cwd=folder, check=True, capture_output=True)
    clone.run("./sale.out")


def java(clone: Clone, text: str) -> None:
    """The lines on a shared client are the body of a program."""
    classes = clone.folder / "classes"
    if not classes.exists():
        name = "Sale" if text.startswith("import") else "Shared"
        main = "public static void main(String[] words) throws Exception"
        if name == "Shared":
            body = text.replace(PORT, SOCKET)
            text = f"import org.telovamish.tbclient.*;\nclass Shared {{ {main} {{\n{body}}} }}\n"
        (clone.folder / f"{name}.java").write_text(text)
        sources = (ROOT / "clients/java/src/main").rglob("*.java")
        words = ["javac", "-d", classes, *sources, clone.folder / f"{name}.java"]
        subprocess.run(list(map(str, words)), check=True)
        (clone.folder / "java.name").write_text(name)
    clone.run(f"java -XX:+UseSerialGC -cp classes {(clone.folder / 'java.name').read_text()}")


def statements(clone: Clone, text: str) -> None:
    """Statements, over the file that the listener would serve."""
    typed = "".join(f"{it[2:]}\n" for it in text.splitlines() if it.startswith(("> ", ". ")))
    (clone.folder / "block.text").write_text(typed or text)
    clone.run("telovamish run --connect ./ledger.sock --client 7 block.text 2>&1")


def example(clone: Clone, _text: str) -> None:
    """The page shows the lines of an example that move money."""
    clone.run("telovamish run --connect ./ledger.sock examples/retry.text 2>&1")


RUNS: dict[str, Callable[[Clone, str], None]] = {
    "README.md: client=7 session=1 request=2 create_transfers id=11": example,
    "clients/go/README.md: package main": go,
    "clients/java/README.md: import java.math.BigInteger;": java,
    "clients/java/README.md: try (Client client": java,
    "clients/node/README.md: import { connect, open }": node,
    "clients/node/README.md: import { createClient }": node,
    "clients/node/README.md: import { existsSync }": node,
    "clients/python/README.md: import array": python,
    "clients/python/README.md: import tb_client as tb": python,
    "docs/use/CLIENTS.md: import tb_client as tb": python,
    "docs/use/TELOVAMISH.md: at=10 client=7 register;": statements,
    "docs/use/TELOVAMISH.md: $ telovamish": statements,
}
# what moves no money in a ledger that stays, and why
OTHERS = {
    "clients/go/README.md: client, err := tb.Connect": "its transfers are the caller's",
    "clients/python/README.md: from tb_client import Account": "a ledger in memory",
    "clients/python/README.md: from tb_client import CreateTransferResult": "sends again",
    "clients/conformance/README.md: ": "a scenario of the kit",
    "docs/use/EMBEDDING.md: ": "what the example prints",
    "docs/use/TELOVAMISH.md: telovamish: line 1": "a wrong statement",
    "docs/use/TELOVAMISH.md: {": "a reply",
    "crates/tb_ledger/CALLING.md: ": "a ledger in memory",
    "docs/use/LISTENER.md: ": "a status",
    "docs/use/TUTORIAL.md: ": "test_tutorial.py runs it twice, and kills it",
}


def run_of(block: Block) -> Callable[[Clone, str], None] | None:
    return next((run for name, run in RUNS.items() if block.name.startswith(name)), None)


FOUND = list(moving())
NEEDS = {"go": "go", "java": "javac", "node": "node"}
SLOW = pytest.mark.slow(reason="compiles a client", seconds=20)


def cases() -> Iterator[object]:
    for it in FOUND:
        if run := run_of(it):
            marks = [SLOW] if it.kind in ("go", "java") else []
            yield pytest.param(run, it, id=it.name[:60], marks=marks)


@pytest.mark.parametrize("block", FOUND, ids=lambda it: it.name[:60])
def test_a_block_that_moves_money_is_run_or_has_a_reason(block: Block) -> None:
    assert run_of(block) or any(map(block.name.startswith, OTHERS)), block.name


@pytest.mark.parametrize("name", [*RUNS, *OTHERS])
def test_a_row_of_the_lists_has_a_block(name: str) -> None:
    assert any(it.name.startswith(name) for it in FOUND)


def credited(clone: Clone) -> str:
    """The sum that account 2 was credited with."""
    told = clone.run(
        "telovamish run --json --connect ./ledger.sock --command 'lookup_accounts id=2;' 2>&1"
    )
    return re.findall(r'"credits_posted":"(\d+)"', told)[-1]


@pytest.mark.parametrize("run, block", cases())
def test_money_moves_once(clone: Clone, run: Callable[[Clone, str], None], block: Block) -> None:
    needs = NEEDS.get(block.kind)
    assert not needs or shutil.which(needs), f"{needs} is not installed"
    clone.build("tbd", "tbs")
    with clone.started("exec tb-listen --unix ledger.sock -- tbd run ledger.tbk 64"):
        until(Path(clone.folder / "ledger.sock").exists)
        if block.kind == "java" and block.text.startswith("try"):
            accounts = "create_accounts id=1 ledger=700 code=10, id=2 ledger=700 code=10;"
            clone.run(f"telovamish run --connect ./ledger.sock --command '{accounts}' 2>&1")
        run(clone, block.text)
        first = credited(clone)
        assert int(first) > 0
        run(clone, block.text)
        assert credited(clone) == first
