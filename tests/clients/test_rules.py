"""The table of transitions (clients/conformance/rules.toml) decides: with one rule changed, the kit
fails for each client, which keeps the rules as they are."""

import os
import subprocess
import sys
from pathlib import Path

import pytest

from ..conftest import ROOT
from .conftest import CLIENTS, SECONDS, built

CONFORMANCE = ROOT / "clients/conformance"
RULES = CONFORMANCE / "rules.toml"
GROUPS = [word for it in ("rules", "rules-shared", "packs") for word in ("--only", it)]
# what a rule is about: the text that is there once, and the one in its place
CHANGES = {
    "what is sent again at once": (
        'comes = ["nothing", "a part of the reply"]\nsession = "again"',
        'comes = ["nothing", "a part of the reply"]\nsession = "ends"',
    ),
    "what is sent again later": (
        'comes = ["NotYet"]\nsession = "later"',
        'comes = ["NotYet"]\nsession = "ends"',
    ),
    "what ends a call": (
        '"Collision", "NewerRequest"]\nsession = "ends"',
        '"Collision", "NewerRequest"]\nsession = "again"',
    ),
    "what is stored": ('error = "BadReply"\ndoubt = true', 'error = "BadReply"\ndoubt = false'),
    "what a shared client does after an eviction": (
        'session = "ends"\nshared = "registers"',
        'session = "ends"\nshared = "reports"',
    ),
    "what is packed": (
        '"create_transfers 2 closed", "create_transfers 1"]\nrequests = [[0, 1]]',
        '"create_transfers 2 closed", "create_transfers 1"]\nrequests = [[0], [1]]',
    ),
}
of_each = pytest.mark.parametrize("folder", CLIENTS, ids=lambda it: it.name)


def kit(folder: Path, rules: Path) -> subprocess.CompletedProcess[str]:
    words = [sys.executable, "-B", str(CONFORMANCE / "kit.py"), "--first", *GROUPS, "--"]
    there = {**os.environ, "CLIENT_RULES": str(rules)}
    ran = subprocess.run(
        [*words, *built(folder)],
        cwd=folder,
        env=there,
        capture_output=True,
        text=True,
        timeout=SECONDS,
    )
    print(ran.stdout, ran.stderr)
    return ran


@pytest.mark.slow(reason="the kit over each client", seconds=30)
@of_each
def test_the_table_as_it_is(folder: Path) -> None:
    assert kit(folder, RULES).returncode == 0


@pytest.mark.slow(reason="the kit over each client, for each change of a rule", seconds=120)
@of_each
@pytest.mark.parametrize("change", CHANGES)
def test_a_changed_rule_is_seen(folder: Path, change: str, tmp_path: Path) -> None:
    old, new = CHANGES[change]
    text = RULES.read_text(encoding="utf-8")
    assert text.count(old) == 1
    changed = tmp_path / "rules.toml"
    changed.write_text(text.replace(old, new), encoding="utf-8")
    ran = kit(folder, changed)
    assert ran.returncode == 1 and "FAILED: " in ran.stdout
