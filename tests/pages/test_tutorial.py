"""The wallet of docs/use/TUTORIAL.md: the page has the program as it is, its lines print what the
page shows, and the program may be killed, and its server too. The sums are worked out by hand:
Anna has 100.00 - 45.00 + 5.00, Ben 45.00 - 5.00."""

import os
import random
import re
import shutil
import signal
import subprocess
import time
from pathlib import Path

import pytest

from ..conftest import ROOT
from .clones import Clone, blocks

PAGE = "docs/use/TUTORIAL.md"
PROGRAMS = ROOT / "examples/wallet"
FIRST = ["done"] * 4 + ["exceeds_credits"]
AGAIN = ["exists"] * 4 + ["exceeds_credits"]
SUMS = ["Anna has 60.00", "Ben has 40.00"]
WALLET = "python3 examples/wallet/wallet.py"


def results(printed: str) -> list[str]:
    return re.findall(r": (\w+)$", printed, re.M)


@pytest.fixture(name="wallet")
def _wallet(clone: Clone) -> Clone:
    clone.build("tbd", "tbs")
    return clone


def test_the_page_has_the_program_as_it_is():
    assert blocks(PAGE, "python") == [(PROGRAMS / "wallet.py").read_text()]


def test_the_lines_print_what_the_page_shows(wallet):
    first, again, killed, statement = blocks(PAGE, "console")
    made = f"tbd: made {wallet.folder}/wallet.tbk\n"
    assert f"$ {WALLET}\n{wallet.run(WALLET, made)}" == first
    assert f"$ {WALLET}\n{wallet.run(WALLET)}" == again
    kill, *_ = re.findall(r"^\$ (.*)$", killed, re.M)
    subprocess.run(["bash", "-c", kill], cwd=wallet.folder, env=wallet.env, check=False)
    ended = subprocess.run(
        [*WALLET.split(), "killed.tbk"],
        cwd=wallet.folder,
        env=wallet.env,
        check=True,
        capture_output=True,
        text=True,
    )
    assert ended.stdout.splitlines()[-2:] == killed.splitlines()[-2:] == SUMS
    load = next(it for it in blocks(PAGE, "sh") if it.startswith("tb-sql"))
    assert "entries" in wallet.run(load)
    (query,) = re.findall(r"^\$ (.*)$", statement, re.M)
    shown = [it.rstrip() for it in wallet.run(query).splitlines()]
    assert shown == statement.splitlines()[1:]


def go(wallet: Clone) -> str:
    path = wallet.folder / "go"
    (path / "src/telovamish.org").mkdir(parents=True)
    (path / "src/telovamish.org/tbclient").symlink_to(ROOT / "clients/go")
    build = ["go", "build", "-o", wallet.folder / "wallet", PROGRAMS / "wallet.go"]
    env = {**wallet.env, "GO111MODULE": "off", "GOPATH": str(path), "GOFLAGS": ""}
    subprocess.run(build, env=env, check=True)
    return "./wallet"


def java(wallet: Clone) -> str:
    sources = [*(ROOT / "clients/java/src/main").rglob("*.java"), PROGRAMS / "Wallet.java"]
    strictly = ["-Xlint:all", "-Werror", "--release", "17", "-encoding", "UTF-8"]
    subprocess.run(["javac", *strictly, "-d", wallet.folder / "classes", *sources], check=True)
    return "java -cp classes Wallet"


def node(wallet: Clone) -> str:
    (wallet.folder / "node_modules").mkdir()
    (wallet.folder / "node_modules/tb-client").symlink_to(ROOT / "clients/node")
    shutil.copy(PROGRAMS / "wallet.mjs", wallet.folder)
    return "node wallet.mjs"


@pytest.mark.parametrize("built", [go, java, node], ids=lambda it: it.__name__)
def test_the_same_file_in_another_language(wallet, built):
    line = built(wallet)
    made = f"tbd: made {wallet.folder}/wallet.tbk\n"
    printed = wallet.run(f"{line} && {WALLET}", made)
    assert results(printed) == FIRST + AGAIN
    assert [it for it in printed.splitlines() if "has" in it] == SUMS * 2


def children(of: int) -> list[int]:
    """The processes that a process started."""
    listed = Path(f"/proc/{of}/task/{of}/children")
    return [int(it) for it in listed.read_text().split()] if listed.exists() else []


@pytest.mark.parametrize("victim", ["program", "server"])
def test_a_kill_at_any_moment(wallet, victim):
    for delay in (random.Random(victim).random() * 0.6 for _ in range(8)):
        with subprocess.Popen(
            WALLET.split(),
            cwd=wallet.folder,
            env=wallet.env,
            stdout=subprocess.DEVNULL,
            stderr=subprocess.DEVNULL,
        ) as it:
            time.sleep(delay)
            for pid in [it.pid] if victim == "program" else children(it.pid):
                os.kill(pid, signal.SIGKILL)
    last = subprocess.run(
        WALLET.split(),
        cwd=wallet.folder,
        env=wallet.env,
        check=True,
        capture_output=True,
        text=True,
    )
    assert last.stdout.splitlines()[-2:] == SUMS
