"""What the Makefile's targets install: tools/needed.py."""

import subprocess

import needed
import pytest


@pytest.fixture
def lacks_click(monkeypatch):
    """A machine on which only python3-click is missing, until it is installed."""
    calls = []

    def install(words, **_):
        calls.append(words)
        return subprocess.CompletedProcess(words, 0)

    lacks = {"python3-click"}
    monkeypatch.setattr(needed.Package, "is_there", lambda it: it.name not in lacks)
    monkeypatch.setattr(needed.subprocess, "run", install)
    return calls


@pytest.mark.parametrize("target", needed.TARGETS)
def test_another_user_gets_the_line_to_run(target, lacks_click, monkeypatch, capsys):
    monkeypatch.setattr(needed.os, "geteuid", lambda: 1000)
    assert not needed.install(target)
    line = "Run: sudo apt-get install -y --no-install-recommends python3-click\n"
    assert capsys.readouterr().err == f"make {target} needs Debian packages. {line}"
    assert not lacks_click, "nothing is begun"


def test_root_installs_what_is_missing_and_says_what_was_not(lacks_click, monkeypatch, capsys):
    monkeypatch.setattr(needed.os, "geteuid", lambda: 0)
    assert not needed.install("try")
    assert [it[:2] for it in lacks_click] == [["apt-get", "update"], ["apt-get", "install"]]
    assert "python3-click" in lacks_click[1]
    assert capsys.readouterr().err == "not installed: python3-click\n"


def test_nothing_is_begun_if_all_is_there(monkeypatch):
    monkeypatch.setattr(needed.Package, "is_there", lambda it: True)
    monkeypatch.setattr(needed.subprocess, "run", None)
    assert needed.install("check")


def test_each_row_has_its_form():
    for it in needed.packages():
        assert it.kind in ("command", "file", "module") and it.needed_by in needed.NEEDED_BY
    assert [it.name for it in needed.packages()] == sorted(it.name for it in needed.packages())
