"""The options of `repl` and `run`."""
from __future__ import annotations

import pytest
from conftest import ran
from terminals import Terminal


@pytest.mark.parametrize(
    "words, fault",
    [
        (["--existing"], "--existing needs --file"),
        (["--ahead", "5"], "--ahead needs --file"),
        (["--ahead", "0"], "--ahead needs --file"),
        (["--connect", "1", "--existing"], "--existing needs --file"),
    ],
    ids=lambda it: "" if isinstance(it, str) else " ".join(it),
)
def test_options_that_need_another(words, fault):
    assert ran(*words) == (2, b"", f"telovamish: {fault}\n")


@pytest.mark.parametrize("value", ["-1", "nan", "x", "1e9", "9223372037"])
def test_seconds_ahead_that_are_none(value, tmp_path):
    status, _, errors = ran("--file", str(tmp_path / "a"), "--ahead", value)
    assert (status, errors.startswith("telovamish: Invalid value for '--ahead': ")) == (2, True)


@pytest.fixture
def asked(state, env, tmp_path):
    """A terminal over a file that is not there, which asks."""
    it = Terminal("--file", str(tmp_path / "pays.tbk"), state=state, env=env)
    it.wait("pays.tbk has no ledger. Make a new and empty one? [y/N]: ")
    yield it
    it.close()


@pytest.mark.parametrize("typed, status", [("n\r", 2), ("\r", 2), ("\x04", 130)])
def test_a_terminal_asks_before_it_makes_a_file(asked, tmp_path, typed, status):
    asked.type(typed)
    assert asked.ended() == status
    assert not (tmp_path / "pays.tbk").exists()


def test_a_file_is_made_by_yes(asked, tmp_path):
    asked.type("y\r")
    asked.wait("pays.tbk, a new and empty ledger")
    asked.wait("> ")
    asked.enter("lookup_accounts id=1;", "1 of 1 not found")
    assert (tmp_path / "pays.tbk").exists()


@pytest.mark.parametrize("is_there, options", [(True, []), (False, ["--existing"])])
def test_a_terminal_does_not_ask(state, env, tmp_path, is_there, options):
    file = tmp_path / "a.tbk"
    if is_there:
        ran("run", "--file", str(file), "--command", "register;", env=env)
    it = Terminal("--file", str(file), *options, state=state, env=env)
    it.wait("> " if is_there else "cannot find ")
    assert "Make a new" not in it.shown
    it.close()
