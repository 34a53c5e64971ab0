"""Inputs of another kind are named, with what reads them."""
from __future__ import annotations

import subprocess

import pytest
from conftest import APP, ran

EXAMPLES = APP.parent.parent / "examples"
SCRIPT = (EXAMPLES / "first.script").read_bytes()
READ_BY = {
    "script": "a script: tbs run serves it, tbs dump makes a dump of it, telovamish requests",
    "replies": "the replies of tbs: telovamish replies shows them",
    "dump": "a dump: telovamish audit shows what is in it, telovamish pairs makes a script of it",
    "ledger": "a ledger's file of tbd: tbd check FILE finds where it ends, tbd dump FILE",
}


@pytest.fixture(scope="module")
def inputs(tbs, tbd, tmp_path_factory):
    """An input of each kind, by the proved programs."""
    file = tmp_path_factory.mktemp("kinds") / "a.tbk"
    subprocess.run([tbd, "run", str(file), "2"], input=SCRIPT, capture_output=True, check=True)
    dump = subprocess.run([tbs, "dump", "2"], input=SCRIPT, capture_output=True).stdout
    replies = (EXAMPLES / "first.replies").read_bytes()
    return {"script": SCRIPT, "replies": replies, "dump": dump, "ledger": file.read_bytes()}


@pytest.mark.parametrize("form", ["run", "script", "requests", "replies", "dump", "pairs", "audit"])
@pytest.mark.parametrize("kind", [*READ_BY])
def test_each_form_tells_the_kinds_apart(env, inputs, form, kind):
    takes = {"requests": "script", "replies": "replies"}.get(form, "dump")
    status, out, errors = ran(form, given=inputs[kind], env=env)
    if form not in ("run", "script") and kind == takes:
        assert (status, errors) == (0, "")
        return
    assert (status, out) == (2, b"")
    assert READ_BY[kind] in errors and errors.count("\n") == 1


def test_a_file_is_named(env, inputs, tmp_path):
    (tmp_path / "a.dump").write_bytes(inputs["dump"])
    status, _, errors = ran("run", str(tmp_path / "a.dump"), env=env)
    assert status == 2
    assert errors.startswith(f"telovamish: {tmp_path}/a.dump holds no statements: it is a dump: ")
