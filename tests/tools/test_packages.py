"""Tests that CI leaves out are collected there too: without the packages that only they need."""

import os
import subprocess
import sys

import needed
import pytest

from ..conftest import ROOT

BLOCKS = """
import sys
for name in {names}:
    sys.modules[name] = None
"""
FOLDERS = [
    "tests",
    *sorted(f"{it.parent.parent.name}/{it.parent.name}" for it in ROOT.glob("*/*/tests")),
]


@pytest.mark.parametrize("folder", FOLDERS)
def test_collection_without_packages_of_slow_tests(folder, tmp_path):
    names = [it.shown_by for it in needed.packages() if it.kind == "module"]
    only_slow = [it.shown_by for it in needed.packages() if it.needed_by == "slow"]
    blocked = [it for it in names if it in only_slow]
    assert "selenium" in blocked
    (tmp_path / "sitecustomize.py").write_text(BLOCKS.format(names=blocked))
    env = {**os.environ, "CI": "true", "PATH": "/usr/bin:/bin"}
    env["PYTHONPATH"] = os.pathsep.join([str(tmp_path), str(ROOT / "tools/testing")])
    words = [sys.executable, "-m", "pytest", "-q", "--collect-only", "-p", "marks"]
    words += ["-p", "no:cacheprovider", "-m", "not slow", "tests" if folder == "tests" else "."]
    ran = subprocess.run(
        words, cwd=ROOT if folder == "tests" else ROOT / folder, env=env, capture_output=True
    )
    assert ran.returncode == 0, ran.stdout.decode()[-2000:]
