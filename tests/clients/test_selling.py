"""A ledger in a file, opened by the clients in C and Rust: their programs `selling` and their
children are killed amid transfers. Those of the others are in their own tests (test_clients.py)."""

import random
import signal
import subprocess
import sys
import threading
import time
from pathlib import Path

import pytest

from ..conftest import ROOT
from .conftest import built

sys.path.append(str(ROOT / "clients/python/src"))

import tb_client as tb  # noqa: E402

SELLING = {"c": "out/selling", "rust": "out/release/examples/selling"}
KILLS = 200  # of the program, and of its child
TRANSFERS = 50  # for each of them
PAUSE_MAX = 0.02  # seconds before a kill
SECONDS = 600  # that something may take on a busy computer
of_each = pytest.mark.parametrize("client", SELLING)
builds = pytest.mark.slow(reason="builds tb_embed's library", seconds=300)


def serving(file: Path) -> list[int]:
    """The processes that serve a file."""
    words, found = f"\0run\0{file}\0".encode(), []
    for it in Path("/proc").glob("[0-9]*"):
        try:
            found += [int(it.name)] if words in (it / "cmdline").read_bytes() else []
        except OSError:
            pass  # it ended
    return found


def until(holds) -> None:
    deadline = time.monotonic() + SECONDS
    while not holds():
        assert time.monotonic() < deadline
        time.sleep(0.002)


class Selling:
    """The program over a file, and what it has made; started again after a kill."""

    def __init__(self, client: str, file: Path, tbd: Path, count: int) -> None:
        folder = ROOT / "clients" / client
        built(folder)
        self.words = [str(folder / SELLING[client]), str(file)]
        self.count, self.tbd, self.made = count, str(tbd), [0]
        self.start()

    def start(self) -> None:
        words = [*self.words, str(self.made[-1] + 1), str(self.count)]
        pipes = {"stdin": subprocess.PIPE, "stdout": subprocess.PIPE, "text": True}
        self.process = subprocess.Popen(words, env={"TBD": self.tbd}, **pipes)
        self.reader = threading.Thread(target=self.read)
        self.reader.start()

    def read(self) -> None:
        for line in self.process.stdout:
            if line.endswith("\n"):  # or it was killed amid it
                self.made.append(int(line))

    def is_beyond(self, least: float) -> bool:
        assert self.process.poll() is None
        return self.made[-1] > least

    def kill(self) -> None:
        self.process.kill()
        assert self.end() == -signal.SIGKILL

    def end(self) -> int:
        self.process.stdin.close()
        status = self.process.wait(SECONDS)
        self.reader.join()
        return status


def kill_child(file: Path) -> None:
    for it in serving(file):
        try:
            subprocess.run(["kill", "-9", str(it)], stderr=subprocess.DEVNULL)
        except ProcessLookupError:
            pass


@builds
@of_each
@pytest.mark.parametrize(
    "kills",
    [5, pytest.param(KILLS, marks=pytest.mark.slow(reason="200 kills of each", seconds=600))],
)
def test_each_transfer_that_returned_is_there_once(client, kills, tbd, tmp_path) -> None:
    file, count = tmp_path / "books.tbk", TRANSFERS * kills
    it = Selling(client, file, tbd, count)
    for at in range(2 * kills):
        until(lambda: it.is_beyond(at * count / (2 * kills + 1)))
        time.sleep(random.random() * PAUSE_MAX)
        if at % 2:
            it.kill()
            it.start()
        else:
            kill_child(file)
    until(lambda: it.is_beyond(count - 1))
    assert it.end() == 0
    until(lambda: not serving(file))
    ids = list(range(1, count + 1))
    assert set(it.made) == {0, *ids}
    with tb.open(file, program=str(tbd), existing=True) as ledger:
        found = [
            row
            for at in range(0, count, 8190)
            for row in ledger.lookup_transfers(ids[at : at + 8190])
        ]
        assert [row.id for row in found] == ids
        assert ledger.lookup_accounts([2])[0].credits_posted == count


def fails(client: str, tbd: str, file: Path) -> str:
    folder = ROOT / "clients" / client
    words = [*built(folder)[:0], str(folder / SELLING[client]), str(file), "1", "1"]
    ran = subprocess.run(
        words, env={"TBD": tbd}, stdin=subprocess.DEVNULL, capture_output=True, text=True
    )
    assert ran.returncode == 1
    return ran.stderr


@builds
@of_each
def test_a_program_that_is_not_there_says_what_to_install(client, tmp_path) -> None:
    assert "install the package telovamish" in fails(client, "/nowhere/tbd", tmp_path / "a.tbk")


@builds
@of_each
def test_a_file_that_is_open_elsewhere(client, tbd, tmp_path) -> None:
    file = tmp_path / "books.tbk"
    with tb.open(file, program=str(tbd)):
        assert f"open elsewhere by process {serving(file)[0]}" in fails(client, str(tbd), file)


@builds
@of_each
def test_a_file_that_is_no_ledger(client, tbd, tmp_path) -> None:
    file = tmp_path / "books.tbk"
    file.write_bytes(b"no ledger" * 100)
    assert "tbd ended with status" in fails(client, str(tbd), file)
