"""Each client over tb-listen and tbd: the scenarios of the conformance kit that a real server
plays, with the kit's losses, cuts and refusals between the two. A few run in CI, over a client that
is built apart."""

import functools
import json
import shlex
import subprocess
import sys

import pytest

from ..conftest import ROOT
from ..server.running import LISTENER
from .conftest import CLIENTS, SECONDS, built

KIT = [sys.executable, "-B", str(ROOT / "clients/conformance/kit.py"), "--listener", LISTENER]
FEW = (
    "create-*-some",
    "account-flags-together",
    "results-of-transfers-required",
    "after-nothing-twice",
    "lost-then-nobody-listens",
    "after-Busy-twice",
    "killed-then-nobody-listens",
    "load-in-doubt",
    "retry-at-once",
    "shared-joins",
    "shared-after-SessionTooLow",
    "shared-evicted-chain-*",
    "shared-after-Collision",
    "tls-client-certificate",
)
APART = {  # builds that leave the client's own folder as it is
    "go": "go build -o {0}/runner ./internal/conformance",
    "java": "javac -encoding UTF-8 -d {0} $(find src/main -name '*.java')"
    " $(find src/test -name '*.java' ! -name '*Test.java')",
}
of_each = pytest.mark.parametrize("folder", CLIENTS, ids=lambda it: it.name)
OVER_LIBRARY = ("c", "rust")  # clients that are built over tb_embed's library
slow_build = pytest.mark.slow(reason="builds tb_embed's library", seconds=300)
of_some = pytest.mark.parametrize(
    "folder",
    [pytest.param(it, marks=[slow_build] * (it.name in OVER_LIBRARY)) for it in CLIENTS],
    ids=lambda it: it.name,
)


@functools.cache
def runner(folder, place):
    """The words of a client's runner, built in this place, or in its folder over the library."""
    if folder.name in OVER_LIBRARY:
        return built(folder)
    words = json.loads((folder / "conformance.json").read_text())["runner"]
    if folder.name in APART:
        build = APART[folder.name].format(shlex.quote(str(place)))
        subprocess.run(["sh", "-c", build], cwd=folder, check=True, timeout=SECONDS)
    paths = {"out/conformance": f"{place}/runner", "out/classes:out/test-classes": str(place)}
    return tuple(paths.get(it, it) for it in words)


def passes(tbd, folder, words, *options):
    words = [*KIT, "--program", str(tbd), *options, "--", *words]
    ran = subprocess.run(words, cwd=folder, stdout=subprocess.PIPE, text=True, timeout=SECONDS)
    print(ran.stdout)
    return ran.returncode == 0


@of_some
def test_some_scenarios(tbd, folder, tmp_path):
    few = [word for it in FEW for word in ("--only", it)]
    assert passes(tbd, folder, runner(folder, tmp_path), *few)


@pytest.mark.slow(reason="a listener and a server for each scenario", seconds=120)
@of_each
def test_all_scenarios(tbd, folder):
    assert passes(tbd, folder, built(folder))


@pytest.mark.slow(reason="scenarios that stop amid a call", seconds=60)
def test_those_that_no_real_server_plays(tbd):
    folder = ROOT / "clients/python"
    assert passes(tbd, folder, built(folder), "--lying")


@pytest.mark.parametrize("place", ["listener", "program"])
def test_a_program_that_is_not_there(tbd, place, tmp_path):
    """It is a fault of the words, and no scenario fails for it."""
    given = {"listener": LISTENER, "program": str(tbd), place: str(tmp_path / "none")}
    words = [it for name, path in given.items() for it in (f"--{name}", path)]
    words = [*KIT[:3], *words, "--", *built(ROOT / "clients/python")]
    ran = subprocess.run(words, cwd=ROOT / "clients/python", capture_output=True, timeout=SECONDS)
    assert (ran.returncode, ran.stdout) == (2, b"")
    assert b"the listener does not start: " in ran.stderr


@pytest.mark.parametrize(
    "options",
    [
        ("--lying",),
        ("--listener", LISTENER, "--drawn", "1"),
        ("--listener", LISTENER, "--more", "1"),
    ],
    ids=["lying", "drawn", "more"],
)
def test_options_that_do_not_go_together(options):
    words = [*KIT[:3], *options, "--", "true"]
    ran = subprocess.run(words, capture_output=True, timeout=SECONDS)
    assert (ran.returncode, ran.stdout) == (2, b"")
    assert b"--listener\n" in ran.stderr
